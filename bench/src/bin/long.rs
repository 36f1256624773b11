//! The long run: random calls through the C interface on both implementations, every answer and every lent word or byte compared after each call.
//! Words: a seed, how many calls, and after how many seconds to end in any case. The first difference is printed, and the run fails.

use bench::compare::tally::Tally;
use bench::compare::CALLS;
use reference::generate::Rng;
use std::io::Write;
use std::process::ExitCode;
use std::time::Instant;

const SEED: u64 = 395;
const CALLS_MADE: u64 = 250_000;
const SECONDS: u64 = 900;

/// Cases at a turn, of one kind.
const TURN: usize = 100;

fn main() -> ExitCode {
    let mut words = std::env::args().skip(1).map(|word| word.parse());
    let mut word = |otherwise| words.next().unwrap_or(Ok(otherwise));
    let (Ok(seed), Ok(wanted), Ok(seconds)) = (word(SEED), word(CALLS_MADE), word(SECONDS)) else {
        eprintln!("a seed, how many calls, and how many seconds at most");
        return ExitCode::from(2);
    };
    println!("seed {seed}, {wanted} calls, {seconds} seconds at most");
    let begin = Instant::now();
    let mut rng = Rng::new(seed);
    let mut tallies: Vec<Tally> = CALLS.iter().map(|(name, _)| Tally::quiet(name)).collect();
    let mut ended = false;
    while !ended {
        // Lists of calls are half of the turns.
        let lists = CALLS.iter().position(|(name, _)| *name == "lists of calls");
        let which = match (rng.percent(50), lists) {
            (true, Some(lists)) => lists,
            _ => rng.below(CALLS.len()),
        };
        let (name, run) = CALLS[which];
        let tally = &mut tallies[which];
        if let Err(difference) = run(&mut rng, TURN, tally) {
            println!("\n{name} differs, seed {seed}, {difference}");
            return ExitCode::FAILURE;
        }
        let made: usize = tallies.iter().map(Tally::calls).sum();
        let taken = begin.elapsed().as_secs();
        ended = made as u64 >= wanted || taken >= seconds;
        eprint!("\r{made} calls, {taken} s");
        std::io::stderr().flush().ok();
    }
    eprintln!();
    for tally in &tallies {
        tally.print();
    }
    let made: usize = tallies.iter().map(Tally::calls).sum();
    println!(
        "{made} calls, no difference, {} s",
        begin.elapsed().as_secs()
    );
    ExitCode::SUCCESS
}
