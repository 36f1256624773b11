//! The program `settle` against the second implementation. Words: the program's path, a seed, the number of inputs. The first difference is
//! printed, its input is written beside the program, and the run fails.

use reference::generate::inputs::input;
use reference::generate::Rng;
use reference::settle::settle;
use std::io::{Read, Write};
use std::process::{Command, ExitCode, Stdio};
use std::thread;

const SEED: u64 = 395;
const INPUTS: usize = 2_000;
const WHOLE: usize = 1 << 20;
const TRICKLE: usize = 7;

/// A generated input: as it is, cut, or with some bytes changed.
fn case(rng: &mut Rng) -> Vec<u8> {
    let (mut bytes, _) = input(rng);
    match rng.below(4) {
        0 => bytes.truncate(rng.below(bytes.len() + 1)),
        1 if !bytes.is_empty() => {
            for _ in 0..=rng.below(3) {
                let at = rng.below(bytes.len());
                bytes[at] = rng.below(256) as u8;
            }
        }
        _ => {}
    }
    bytes
}

/// What the program prints, the input handed to it in writes of `chunk` bytes.
fn printed(program: &str, input: &[u8], chunk: usize) -> std::io::Result<Vec<u8>> {
    let mut child = Command::new(program)
        .stdin(Stdio::piped())
        .stdout(Stdio::piped())
        .spawn()?;
    let (Some(mut to), Some(mut from)) = (child.stdin.take(), child.stdout.take()) else {
        return Err(std::io::ErrorKind::BrokenPipe.into());
    };
    let input = input.to_vec();
    // The program may end before it has read all: a write that fails is no difference.
    let writer = thread::spawn(move || input.chunks(chunk).try_for_each(|part| to.write_all(part)));
    let mut output = Vec::new();
    from.read_to_end(&mut output)?;
    let _ = writer.join();
    child.wait()?;
    Ok(output)
}

fn main() -> ExitCode {
    let mut words = std::env::args().skip(1);
    let program = words.next().unwrap_or("target/bin/settle".to_string());
    let mut numbers = words.map(|word| word.parse());
    let (Ok(seed), Ok(inputs)) = (
        numbers.next().unwrap_or(Ok(SEED)),
        numbers.next().unwrap_or(Ok(INPUTS as u64)),
    ) else {
        eprintln!("the program, a seed, and the number of inputs");
        return ExitCode::from(2);
    };
    let mut rng = Rng::new(seed);
    let (mut lines, mut closes, mut bad) = (0, 0, 0);
    for number in 0..inputs {
        let input = case(&mut rng);
        let chunk = if number % 8 == 0 { TRICKLE } else { WHOLE };
        let wanted = settle(&input);
        match printed(&program, &input, chunk) {
            Ok(output) if output == wanted => {
                let text = String::from_utf8_lossy(&output);
                lines += text.lines().count();
                closes += text.matches("close 0 ").count();
                bad += text.matches("bad ").count();
            }
            other => {
                let _ = std::fs::write(format!("{program}.differs"), &input);
                println!("seed {seed}, input {number} differs: {other:?}");
                println!(
                    "second implementation: {:?}",
                    String::from_utf8_lossy(&wanted)
                );
                return ExitCode::FAILURE;
            }
        }
    }
    println!("seed {seed}: {inputs} inputs alike, {lines} lines, {closes} accepted closes, {bad} bad items");
    ExitCode::SUCCESS
}
