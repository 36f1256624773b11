//! The test program `replay` played in Rust: the line that it must print for
//! each frame.
//!
//! A line has the call's name, its number and figures, and then all that was
//! lent: the words of a statement or an output, the digest of anything else.

use crate::book::open_in;
use crate::calendar::{
    date_to_day_in, day_to_date, final_statement, is_business_day, residual_due_day_in,
    statement_day, weekday,
};
use crate::close::close_in;
use crate::edition::Edition;
use crate::frames::{Frame, BOOK_WORDS};
use crate::packed::{pack_in, unpack_in};
use crate::profile::profile_in;
use crate::reference_price::reference_price_in;
use crate::share::{second_share_in, share_in};
use crate::submission::submit_in;
use crate::tranche::tranche_in;
use crate::variant::Context;
use std::fmt::{Display, Write};

/// What the program keeps from frame to frame: its book.
pub struct Player {
    context: Context,
    book: Vec<i64>,
}

impl Player {
    pub fn new(context: Context) -> Player {
        Player::with_book(context, vec![0; BOOK_WORDS])
    }

    /// A player that goes on with the book of another.
    pub fn with_book(context: Context, book: Vec<i64>) -> Player {
        Player { context, book }
    }

    pub fn book(&self) -> &[i64] {
        &self.book
    }

    /// The line that the program prints for a frame; none for a poke.
    pub fn play(&mut self, frame: &Frame) -> Option<String> {
        let context = self.context;
        let line = match frame {
            Frame::Poke { index, word } => {
                self.book[*index] = *word;
                return None;
            }
            Frame::Open { lent, opening } => {
                let book = &mut self.book[..*lent];
                let answer = open_in(context, book, *opening);
                Line::of("open")
                    .figures([answer.number as usize, answer.position])
                    .digest(book)
            }
            Frame::Submit { lent, file } => {
                let book = &mut self.book[..*lent];
                let answer = submit_in(context, book, file);
                Line::of("submit")
                    .figures([answer.number as usize, answer.position])
                    .digest(book)
                    .figures([file_digest(file)])
            }
            Frame::Close {
                lent,
                fill,
                statement,
            } => {
                let book = &mut self.book[..*lent];
                let mut statement = vec![*fill; *statement];
                let answer = close_in(context, book, &mut statement);
                Line::of("close")
                    .figures([answer.number as usize, answer.position])
                    .figures([answer.day, answer.residual_count, answer.difference])
                    .digest(book)
                    .figures(statement)
            }
            Frame::Price { meps, ieqs } => {
                let answer = reference_price_in(context, meps, ieqs);
                Line::of("price")
                    .figures([i64::from(answer.number), answer.price])
                    .digest(meps)
                    .digest(ieqs)
            }
            Frame::Share {
                edition,
                remaining,
                fill,
                uegqs,
                output,
            } => {
                let mut output = vec![*fill; *output];
                let (name, number) = match edition {
                    Edition::First => {
                        let number = share_in(context, *remaining, uegqs, &mut output);
                        ("share", number)
                    }
                    Edition::Second => {
                        let number = second_share_in(context, *remaining, uegqs, &mut output);
                        ("second-share", number)
                    }
                };
                Line::of(name)
                    .figures([number])
                    .digest(uegqs)
                    .figures(output)
            }
            Frame::Tranche { rvq, bvq, mq } => {
                let answer = tranche_in(context, *rvq, *bvq, *mq);
                Line::of("tranche").figures([i64::from(answer.number), answer.first, answer.second])
            }
            Frame::Profile {
                total,
                contracted,
                quantities,
            } => {
                let answer = profile_in(context, quantities, *total, *contracted);
                Line::of("profile")
                    .figures([answer.number, u8::from(answer.keeps)])
                    .digest(quantities)
            }
            packed if packed.is_packed() => packed_line(context, packed),
            calendar => calendar_line(context, calendar),
        };
        Some(line.0)
    }
}

fn packed_line(context: Context, frame: &Frame) -> Line {
    match frame {
        Frame::Pack { amounts, output } => {
            let mut output = output.clone();
            let number = pack_in(context, amounts, &mut output);
            Line::of("pack")
                .figures([number])
                .digest(amounts)
                .figures([file_digest(&output)])
        }
        Frame::Unpack {
            fields,
            fill,
            output,
        } => {
            let mut output = vec![*fill; *output];
            let answer = unpack_in(context, fields, &mut output);
            Line::of("unpack")
                .figures([answer.number as usize, answer.position, answer.count])
                .figures([file_digest(fields)])
                .figures(output)
        }
        _ => Line::of(""),
    }
}

fn calendar_line(context: Context, frame: &Frame) -> Line {
    match frame {
        Frame::DayToDate(day) => {
            let date = day_to_date(*day);
            Line::of("date").figures([i64::from(date.number), date.year, date.month, date.day])
        }
        Frame::DateToDay([year, month, day]) => {
            let answer = date_to_day_in(context, *year, *month, *day);
            Line::of("day").figures([i64::from(answer.number), answer.day])
        }
        Frame::Weekday(day) => {
            let answer = weekday(*day);
            Line::of("weekday").figures([i64::from(answer.number), answer.weekday])
        }
        Frame::StatementDay(day) => {
            let answer = statement_day(*day);
            Line::of("statement").figures([i64::from(answer.number), answer.day])
        }
        Frame::BusinessDay(day, holidays) => {
            let answer = is_business_day(*day, holidays);
            Line::of("business")
                .figures([answer.number, u8::from(answer.business)])
                .digest(holidays)
        }
        Frame::FinalStatement(day, holidays) => {
            let answer = final_statement(*day, holidays);
            Line::of("final")
                .figures([i64::from(answer.number), answer.day])
                .digest(holidays)
        }
        Frame::ResidualDue([year, month], holidays) => {
            let answer = residual_due_day_in(context, *year, *month, holidays);
            Line::of("due")
                .figures([i64::from(answer.number), answer.day])
                .digest(holidays)
        }
        _ => Line::of(""),
    }
}

/// A line: the call's name and its figures, a space before each.
struct Line(String);

impl Line {
    fn of(name: &str) -> Line {
        Line(name.to_owned())
    }

    fn figures(mut self, figures: impl IntoIterator<Item = impl Display>) -> Line {
        for figure in figures {
            // Writing to a string does not fail.
            let _ = write!(self.0, " {figure}");
        }
        self
    }

    fn digest(self, words: &[i64]) -> Line {
        self.figures([digest(words)])
    }
}

const MODULUS: u64 = 2_147_483_647;
const FACTOR: u64 = 1_000_003;

fn fold(digest: u64, number: u64) -> u64 {
    (digest * FACTOR + number) % MODULUS
}

/// The digest of words: of each the upper half of its magnitude with its sign,
/// then the lower half.
fn digest(words: &[i64]) -> u64 {
    words.iter().fold(1, |digest, word| {
        let magnitude = word.unsigned_abs();
        let upper = 2 * (magnitude >> 32) + u64::from(*word < 0);
        fold(fold(digest, upper), magnitude & 0xFFFF_FFFF)
    })
}

fn file_digest(file: &[u8]) -> u64 {
    file.iter()
        .fold(1, |digest, &byte| fold(digest, byte.into()))
}
