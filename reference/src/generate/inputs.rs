//! Inputs of `settle`, some with the output that each must give.

use super::files::{Draft, DraftRow};
use super::lists::{list_on, Call};
use super::Rng;
use crate::book::Opening;
use crate::history::History;
use crate::numbers::{Answer, ACCEPTED};
use crate::settle::{CLOSE, SUBMIT};

const ONE: Opening = Opening::smallest(9_497);

/// The openings whose books fit 5,072 words, but for the first day.
pub const SHAPES: [Opening; 4] = [
    ONE,
    Opening { horizon: 2, ..ONE },
    Opening { lag: 2, ..ONE },
    Opening { accounts: 2, ..ONE },
];

/// The opening bytes of `settle`; of each parameter those that have a place.
pub fn opening_bytes(opening: Opening) -> Vec<u8> {
    let Opening {
        accounts,
        lag,
        horizon,
        first_day,
        change_day: _,
    } = opening;
    let [low, high] = (first_day as u16).to_le_bytes();
    vec![accounts as u8, lag as u8, horizon as u8, low, high]
}

pub fn submit_bytes(file: &[u8]) -> Vec<u8> {
    let mut bytes = vec![SUBMIT];
    bytes.extend((file.len() as u16).to_le_bytes());
    bytes.extend(file);
    bytes
}

/// An input in the making, of any bytes.
#[derive(Clone)]
pub struct Input(Vec<u8>);

impl Input {
    pub fn open(opening: Opening) -> Input {
        Input(opening_bytes(opening))
    }

    pub fn close(self) -> Input {
        self.closes(1)
    }

    pub fn closes(self, count: usize) -> Input {
        self.bytes(&vec![CLOSE; count])
    }

    pub fn submit(self, file: &[u8]) -> Input {
        self.bytes(&submit_bytes(file))
    }

    pub fn submit_rows(self, rows: &[DraftRow]) -> Input {
        let rows = rows.to_vec();
        self.submit(&Draft { rows }.bytes())
    }

    pub fn bytes(mut self, bytes: &[u8]) -> Input {
        self.0.extend(bytes);
        self
    }

    pub fn finish(self) -> Vec<u8> {
        self.0
    }
}

/// An input with the output that its history tells.
pub struct Told {
    pub input: Vec<u8>,
    pub output: String,
    pub history: History,
}

impl Told {
    /// Starts with an opening that is accepted.
    pub fn open(opening: Opening) -> Told {
        Told {
            input: opening_bytes(opening),
            output: String::from("open 0 0\n"),
            history: History::new(opening),
        }
    }

    pub fn submit(&mut self, file: &[u8], expected: Answer) {
        self.input.extend(submit_bytes(file));
        self.history.submitted(file, expected.number);
        self.output += &format!("submit {} {}\n", expected.number, expected.position);
    }

    pub fn close(&mut self) {
        self.input.push(CLOSE);
        let words = self.history.accounts() + 1;
        let (answer, cents) = self.history.expected_close(words);
        self.history.closed(words, &answer);
        if answer.number == ACCEPTED {
            self.output += &format!("close 0 {} {}", answer.day, answer.residual_count);
            let cents = cents.iter().map(|cents| format!(" {cents}"));
            self.output.extend(cents);
            self.output += "\n";
        } else {
            self.output += &format!("close {} {}\n", answer.number, answer.position);
        }
    }

    /// Ends with an item that is bad, what follows not being read.
    fn bad(&mut self, bytes: &[u8], position: usize) {
        self.input.extend(bytes);
        self.output += &format!("bad {position}\n");
    }
}

/// An input of some commands, perhaps with a bad ending, and its output.
pub fn input(rng: &mut Rng) -> (Vec<u8>, String) {
    let shape = rng.pick(&SHAPES);
    let first_day = rng.pick(&[9_497, 20_000, 36_521, 36_524]);
    let opening = Opening { first_day, ..shape };
    let mut told = Told::open(opening);
    let steps = rng.below(30);
    for call in list_on(rng, opening, steps).calls {
        match call {
            Call::Submit { file, expected } => told.submit(&file, expected),
            // The program has room for every statement.
            Call::Close { statement_words } if statement_words <= opening.accounts as usize => {}
            Call::Close { .. } => told.close(),
        }
    }
    end(rng, &mut told);
    (told.input, told.output)
}

/// Ends the input well, or with an item that is bad.
fn end(rng: &mut Rng, told: &mut Told) {
    let at = told.input.len();
    match rng.below(6) {
        0 => {
            let unknown = rng.pick(&[0, 0x42, 0x44, 0x52, 0x54, 0x63, 0x73, 255]);
            told.bad(&[unknown, CLOSE, CLOSE], at);
        }
        // A length cut short.
        1 => {
            let there = 1 + rng.below(2);
            told.bad(&[SUBMIT, 8][..there], at + 1);
        }
        // A file cut short.
        2 => {
            let length = rng.between(1, 16_384) as usize;
            let there = rng.below(length);
            told.bad(&submit_bytes(&vec![0; length])[..3 + there], at + 1);
        }
        // A length above the longest, its file there.
        3 => told.bad(&submit_bytes(&[0; 16_385]), at + 1),
        _ => {}
    }
}
