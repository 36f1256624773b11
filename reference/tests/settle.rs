//! The program `settle`.

use reference::book::Opening;
use reference::generate::inputs::{input, opening_bytes, submit_bytes};
use reference::generate::Rng;
use reference::settle::settle;

fn text(input: &[u8]) -> String {
    String::from_utf8(settle(input)).unwrap()
}

const OPENING: Opening = Opening::smallest(9_497);

#[test]
fn generated_inputs() {
    let mut rng = Rng::new(0x5E);
    let (mut accepted, mut bad) = (0, 0);
    for case in 0..400 {
        let (input, output) = input(&mut rng);
        assert_eq!(text(&input), output, "case {case}");
        accepted += output.matches("close 0 ").count();
        bad += output.matches("bad ").count();
    }
    assert!(accepted > 300 && bad > 100, "{accepted} {bad}");
}

#[test]
fn openings() {
    for length in 0..5 {
        assert_eq!(text(&opening_bytes(OPENING)[..length]), "bad 0\n");
    }
    assert_eq!(text(&opening_bytes(OPENING)), "open 0 0\n");
    // After a refused opening nothing more is read.
    let refused = [
        (
            Opening {
                accounts: 0,
                ..OPENING
            },
            "open 1 0\n",
        ),
        (
            Opening {
                first_day: 9_496,
                ..OPENING
            },
            "open 1 0\n",
        ),
        (
            Opening {
                first_day: 65_535,
                ..OPENING
            },
            "open 1 0\n",
        ),
        (
            Opening {
                accounts: 3,
                ..OPENING
            },
            "open 2 0\n",
        ),
        (Opening { lag: 3, ..OPENING }, "open 2 0\n"),
    ];
    for (opening, output) in refused {
        let mut input = opening_bytes(opening);
        input.extend([0x43, 0x00]);
        assert_eq!(text(&input), output);
    }
}

#[test]
fn bad_items() {
    let with = |bytes: &[u8]| text(&[&opening_bytes(OPENING)[..], bytes].concat());
    assert_eq!(with(&[0x00]), "open 0 0\nbad 5\n");
    assert_eq!(with(&[0x43, 0x44]), "open 0 0\nclose 11 76\nbad 6\n");
    assert_eq!(with(&[0x53]), "open 0 0\nbad 6\n");
    assert_eq!(with(&[0x53, 0]), "open 0 0\nbad 6\n");
    assert_eq!(with(&[0x53, 1, 0]), "open 0 0\nbad 6\n");
    assert_eq!(with(&[0x53, 0, 0]), "open 0 0\nsubmit 4 0\n");
    assert_eq!(with(&submit_bytes(&[0; 8])), "open 0 0\nsubmit 0 0\n");
    assert_eq!(with(&submit_bytes(&[0; 16_384])), "open 0 0\nsubmit 8 8\n");
    assert_eq!(with(&submit_bytes(&[0; 16_385])), "open 0 0\nbad 6\n");
}

#[test]
fn any_bytes_are_answered() {
    let mut rng = Rng::new(0xAB);
    for _ in 0..1_000 {
        let (mut input, _) = input(&mut rng);
        for _ in 0..rng.between(1, 4) {
            // Often a byte of the opening or of the first commands.
            let reach = if rng.percent(30) {
                input.len().min(12)
            } else {
                input.len()
            };
            input[rng.below(reach)] = rng.draw() as u8;
        }
        let output = text(&input);
        assert!(output.ends_with('\n'));
        let lines: Vec<&str> = output.lines().collect();
        let (last, earlier) = lines.split_last().unwrap();
        assert!(lines[0].starts_with("open ") && lines.len() < input.len());
        assert!(earlier.iter().all(|line| !line.starts_with("bad ")));
        if let Some(position) = last.strip_prefix("bad ") {
            let position: usize = position.parse().unwrap();
            assert!((5..=input.len()).contains(&position));
        }
    }
}
