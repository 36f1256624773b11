//! The frames of the test program `replay`: how a call is written to its
//! standard input.
//!
//! A frame is a byte, then fields in little-endian order: counts and lengths
//! of 4 bytes, an opening's parameters and all words of 8. A list comes after
//! its count, a file after its length.

use crate::book::Opening;
use crate::edition::{Edition, NEVER};

/// The words of the program's book: as many as N = 4, L = 75 and H = 92 take,
/// and some beyond.
pub const BOOK_WORDS: usize = 802_000;
/// The most words of a statement, and of each list of a call on no book but a
/// profile.
pub const LIST_WORDS: usize = 40;
/// The most words of a profile.
pub const PROFILE_WORDS: usize = 64;
/// The most bytes of packed fields, written or read.
pub const PACKED_BYTES: usize = 512;
pub const MOST_HOLIDAYS: usize = 1_200;
pub const LONGEST_FILE: usize = 131_072;

#[derive(Clone, Debug)]
pub enum Frame {
    /// No call: writes one word of the book.
    Poke {
        index: usize,
        word: i64,
    },
    /// The book's first words are lent.
    Open {
        lent: usize,
        opening: Opening,
    },
    Submit {
        lent: usize,
        file: Vec<u8>,
    },
    /// The statement's words are all `fill` before the call.
    Close {
        lent: usize,
        fill: i64,
        statement: usize,
    },
    Price {
        meps: Vec<i64>,
        ieqs: Vec<i64>,
    },
    /// The output's words are all `fill` before the call.
    Share {
        edition: Edition,
        remaining: i64,
        fill: i64,
        uegqs: Vec<i64>,
        output: usize,
    },
    Tranche {
        rvq: i64,
        bvq: i64,
        mq: i64,
    },
    Profile {
        total: i64,
        contracted: i64,
        quantities: Vec<i64>,
    },
    /// The output's bytes are those before the call.
    Pack {
        amounts: Vec<i64>,
        output: Vec<u8>,
    },
    /// The output's words are all `fill` before the call.
    Unpack {
        fields: Vec<u8>,
        fill: i64,
        output: usize,
    },
    DayToDate(i64),
    DateToDay([i64; 3]),
    Weekday(i64),
    StatementDay(i64),
    BusinessDay(i64, Vec<i64>),
    FinalStatement(i64, Vec<i64>),
    ResidualDue([i64; 2], Vec<i64>),
}

impl Frame {
    /// Whether it has a change day or is of the second edition.
    pub fn has_edition(&self) -> bool {
        match self {
            Frame::Open { opening, .. } => opening.change_day != NEVER,
            Frame::Share { edition, .. } => *edition == Edition::Second,
            _ => false,
        }
    }

    /// Whether it writes or reads packed decimal.
    pub fn is_packed(&self) -> bool {
        matches!(self, Frame::Pack { .. } | Frame::Unpack { .. })
    }

    pub fn write(&self, input: &mut Vec<u8>) {
        match self {
            Frame::Poke { index, word } => {
                input.push(b'P');
                write_count(input, *index);
                write_words(input, &[*word]);
            }
            Frame::Open { lent, opening } => {
                input.push(b'O');
                write_count(input, *lent);
                let Opening {
                    accounts,
                    lag,
                    horizon,
                    first_day,
                    change_day,
                } = opening;
                for parameter in [accounts, lag, horizon, first_day, change_day] {
                    input.extend(parameter.to_le_bytes());
                }
            }
            Frame::Submit { lent, file } => {
                input.push(b'S');
                write_count(input, *lent);
                write_file(input, file);
            }
            Frame::Close {
                lent,
                fill,
                statement,
            } => {
                input.push(b'C');
                write_count(input, *lent);
                write_words(input, &[*fill]);
                write_count(input, *statement);
            }
            Frame::Price { meps, ieqs } => {
                input.push(b'V');
                write_list(input, meps);
                write_list(input, ieqs);
            }
            Frame::Share {
                edition,
                remaining,
                fill,
                uegqs,
                output,
            } => {
                input.push(match edition {
                    Edition::First => b'R',
                    Edition::Second => b'E',
                });
                write_words(input, &[*remaining, *fill]);
                write_list(input, uegqs);
                write_count(input, *output);
            }
            Frame::Tranche { rvq, bvq, mq } => {
                input.push(b'T');
                write_words(input, &[*rvq, *bvq, *mq]);
            }
            Frame::Profile {
                total,
                contracted,
                quantities,
            } => {
                input.push(b'Q');
                write_words(input, &[*total, *contracted]);
                write_list(input, quantities);
            }
            Frame::Pack { amounts, output } => {
                input.push(b'K');
                write_list(input, amounts);
                write_file(input, output);
            }
            Frame::Unpack {
                fields,
                fill,
                output,
            } => {
                input.push(b'U');
                write_file(input, fields);
                write_words(input, &[*fill]);
                write_count(input, *output);
            }
            Frame::DayToDate(day) => {
                input.push(b'd');
                write_words(input, &[*day]);
            }
            Frame::DateToDay(date) => {
                input.push(b'y');
                write_words(input, date);
            }
            Frame::Weekday(day) => {
                input.push(b'w');
                write_words(input, &[*day]);
            }
            Frame::StatementDay(day) => {
                input.push(b's');
                write_words(input, &[*day]);
            }
            Frame::BusinessDay(day, holidays) => {
                input.push(b'b');
                write_words(input, &[*day]);
                write_list(input, holidays);
            }
            Frame::FinalStatement(day, holidays) => {
                input.push(b'f');
                write_words(input, &[*day]);
                write_list(input, holidays);
            }
            Frame::ResidualDue(month, holidays) => {
                input.push(b'm');
                write_words(input, month);
                write_list(input, holidays);
            }
        }
    }
}

fn write_count(input: &mut Vec<u8>, count: usize) {
    input.extend((count as u32).to_le_bytes());
}

fn write_words(input: &mut Vec<u8>, words: &[i64]) {
    input.extend(words.iter().flat_map(|word| word.to_le_bytes()));
}

fn write_list(input: &mut Vec<u8>, list: &[i64]) {
    write_count(input, list.len());
    write_words(input, list);
}

fn write_file(input: &mut Vec<u8>, file: &[u8]) {
    write_count(input, file.len());
    input.extend(file);
}
