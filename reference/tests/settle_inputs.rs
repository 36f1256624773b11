//! The inputs of the test program `replay_settle` show what they are for.

use reference::generate::settle_inputs::{
    changes, commands, cuts, lengths, openings, settle_inputs, told_lives, LONGEST_INPUT,
};
use reference::settle::settle;
use reference::stored::Cases;
use std::collections::BTreeMap;

fn text(input: &[u8]) -> String {
    String::from_utf8(settle(input)).unwrap()
}

#[test]
fn frames_fit_the_program() {
    let inputs = settle_inputs();
    assert!(inputs.len() >= 3_000, "{}", inputs.len());
    assert!(inputs.iter().all(|input| input.len() <= LONGEST_INPUT));

    // The frames end with the last one and give back the inputs.
    let stored = Cases::generate().inputs();
    let stored = stored
        .iter()
        .find(|file| file.path == "replay_settle/stdin")
        .unwrap();
    assert!(stored.contents.len() < 3_000_000);
    let mut rest = &stored.contents[..];
    for input in &inputs {
        let (&length, frames) = rest.split_first_chunk().unwrap();
        let (framed, frames) = frames.split_at(u16::from_le_bytes(length).into());
        assert!(framed == input);
        rest = frames;
    }
    assert!(rest.is_empty());
}

#[test]
fn every_command_byte() {
    let inputs = commands();
    assert_eq!(inputs.len(), 512);
    for (index, input) in inputs.iter().enumerate() {
        let first = 5 + index / 256;
        let before = ["open 0 0\n", "open 0 0\nclose 11 76\n"][index / 256];
        assert_eq!(usize::from(input[first]), index % 256);
        let after = match index % 256 {
            // The length's first byte, 8, is then a command.
            0x43 => format!("close 11 76\nbad {}\n", first + 1),
            0x53 => "submit 0 0\nclose 11 76\n".to_owned(),
            _ => format!("bad {first}\n"),
        };
        assert_eq!(text(input), before.to_owned() + &after);
    }
}

#[test]
fn short_and_limiting_lengths() {
    let outputs: BTreeMap<Vec<u8>, String> = lengths()
        .into_iter()
        .map(|input| (input.clone(), text(&input)))
        .collect();
    let zeros = |length: usize| {
        let [low, high] = (length as u16).to_le_bytes();
        let mut input = vec![1, 1, 1, 0x19, 0x25, 0x53, low, high];
        input.extend(vec![0; length]);
        input.push(0x43);
        input
    };
    let whole = |length: usize| {
        let answer = match length {
            // The four counts, of two bytes each.
            0..8 => format!("4 {}", length / 2 * 2),
            8 => "0 0".to_owned(),
            _ => "8 8".to_owned(),
        };
        format!("open 0 0\nsubmit {answer}\nclose 11 76\n")
    };
    for length in (0..=20).chain([255, 256, 258, 513, 1_000, 1_001, 16_383, 16_384]) {
        let input = zeros(length);
        assert_eq!(outputs[&input], whole(length), "{length}");
        if length <= 20 {
            // Cut anywhere after the hex 53, the submission is bad.
            for end in 6..8 + length {
                assert_eq!(
                    outputs[&input[..end]],
                    "open 0 0\nbad 6\n",
                    "{length} {end}"
                );
            }
        }
    }
    for length in [16_385, 16_386, 16_640, 32_768] {
        assert_eq!(outputs[&zeros(length)], "open 0 0\nbad 6\n");
    }
}

#[test]
fn openings_at_their_limits() {
    let inputs = openings();
    let mut numbers = [0; 3];
    for input in &inputs {
        let [accounts, lag, horizon, low, high] = *input.first_chunk().unwrap();
        let [n, l, h] = [accounts, lag, horizon].map(u64::from);
        let first_day = u64::from(low) + 256 * u64::from(high);
        let in_range = (1..=32).contains(&n)
            && (1..=75).contains(&l)
            && (1..=92).contains(&h)
            && (9_497..=36_524).contains(&first_day);
        // The paper's size and first flag, not the layout's.
        let number = match in_range {
            false => 1,
            true if 64 + 8 * n + 48 * (l + h) * (4 + 24 * n) > 5_072 => 2,
            true => 0,
        };
        numbers[number] += 1;
        let expected = if number == 0 {
            let flag = 64 + 8 * n + 4;
            format!("open 0 0\nclose 11 {flag}\nsubmit 0 0\nsubmit 4 2\nclose 11 {flag}\n")
        } else {
            format!("open {number} 0\n")
        };
        assert_eq!(text(input), expected);
    }
    assert!(numbers.iter().all(|&count| count >= 20), "{numbers:?}");
}

#[test]
fn a_short_input_cut_at_every_byte() {
    // A close at 5, eight zeros after the length at 7, two bytes after the
    // length at 18, a close at 22.
    for (end, input) in cuts()[..=23].iter().enumerate() {
        assert_eq!(input.len(), end);
        let lines: &[&str] = match end {
            0..5 => &["bad 0"],
            5 => &["open 0 0"],
            6 => &["open 0 0", "close 11 76"],
            7..17 => &["open 0 0", "close 11 76", "bad 7"],
            17 => &["open 0 0", "close 11 76", "submit 0 0"],
            18..22 => &["open 0 0", "close 11 76", "submit 0 0", "bad 18"],
            22 => &["open 0 0", "close 11 76", "submit 0 0", "submit 4 2"],
            _ => &[
                "open 0 0",
                "close 11 76",
                "submit 0 0",
                "submit 4 2",
                "close 11 76",
            ],
        };
        assert_eq!(text(input), lines.join("\n") + "\n", "{end}");
    }
}

#[test]
fn a_days_input_cut_at_every_byte() {
    // A close at 5, a file of 784 bytes after the length at 7, a close at 793.
    for (end, input) in cuts()[24..=24 + 794].iter().enumerate() {
        assert_eq!(input.len(), end);
        let last = match end {
            0..5 => "bad 0",
            5 => "open 0 0",
            6 => "close 11 76",
            7..793 => "bad 7",
            793 => "submit 0 0",
            _ => "close 0 9497 0 240000 -240000",
        };
        assert_eq!(text(input).lines().last(), Some(last), "{end}");
    }
}

#[test]
fn lives_print_what_their_history_tells() {
    let mut lines: BTreeMap<String, usize> = BTreeMap::new();
    for told in told_lives() {
        assert_eq!(text(&told.input), told.output);
        for line in told.output.lines() {
            let parts: Vec<&str> = line.split(' ').collect();
            let kind = match parts[..] {
                ["close", "0", _, count, ..] => format!("close 0 with {count}"),
                [word, number, ..] => format!("{word} {number}"),
                _ => unreachable!(),
            };
            *lines.entry(kind).or_default() += 1;
        }
    }
    for (kind, least) in [
        ("open 0", 100),
        ("submit 0", 300),
        ("submit 4", 5),
        ("submit 5", 20),
        ("submit 6", 5),
        ("submit 7", 3),
        ("submit 8", 3),
        ("close 0 with 0", 100),
        ("close 0 with 48", 50),
        ("close 0 with 96", 20),
        ("close 9", 40),
        ("close 11", 80),
    ] {
        let found = lines.get(kind).copied().unwrap_or(0);
        assert!(found >= least, "{kind}: {found}");
    }
}

#[test]
fn changed_inputs_show_every_refusal() {
    let outputs: String = changes().iter().map(|input| text(input)).collect();
    for line in [
        "open 1 0",
        "open 2 0",
        "submit 4 ",
        "submit 5 ",
        "submit 6 ",
        "submit 8 ",
        "bad ",
        "close 0 ",
        "close 11 ",
        "close 9 ",
    ] {
        assert!(outputs.contains(line), "{line}");
    }
}
