//! The program `settle`, from its input to its output.
//!
//! Where a wrong variant goes another way, `context` tells.

use crate::book::{open_in, Opening};
use crate::close::close_in;
use crate::edition::NEVER;
use crate::layout::{Layout, MSSL_BALANCE};
use crate::numbers::{Answer, ACCEPTED};
use crate::submission::submit_in;
use crate::units::{LAST_DAY, MOST_ACCOUNTS};
use crate::variant::{Context, Variant};
use std::fmt::{Display, Write};
use std::mem::swap;

pub const BOOK_WORDS: usize = 5_072;
pub const LONGEST_FILE: usize = 16_384;
pub const CLOSE: u8 = 0x43;
pub const SUBMIT: u8 = 0x53;

/// N, L, H and two of F.
const OPENING_BYTES: usize = 5;
const LENGTH_BYTES: usize = 2;

pub fn settle(input: &[u8]) -> Vec<u8> {
    settle_in(Context::RIGHT, input)
}

pub fn settle_in(context: Context, input: &[u8]) -> Vec<u8> {
    let mut run = Run::new(context, input);
    let mut goes_on = run.open();
    while let (true, Some(&command)) = (goes_on, run.input.get(run.position)) {
        goes_on = run.item(command);
    }
    run.finish()
}

struct Run<'a> {
    context: Context,
    input: &'a [u8],
    /// Where the next command byte is.
    position: usize,
    /// The items before it, the opening too.
    items: usize,
    /// None before an opening in range.
    layout: Option<Layout>,
    book: Vec<i64>,
    statement: [i64; MOST_ACCOUNTS + 1],
    output: String,
}

impl<'a> Run<'a> {
    fn new(context: Context, input: &'a [u8]) -> Run<'a> {
        let read = match context.variant {
            Variant::ReadsOnly65536Bytes => input.len().min(65_536),
            _ => input.len(),
        };
        Run {
            context,
            input: &input[..read],
            position: 0,
            items: 0,
            layout: None,
            book: vec![0; book_words(context)],
            statement: [0; MOST_ACCOUNTS + 1],
            output: String::new(),
        }
    }

    /// Opens the book; true if the program goes on.
    fn open(&mut self) -> bool {
        let Some(bytes) = self.opening_bytes() else {
            self.bad_opening();
            return false;
        };
        let opening = opening(self.context, bytes);
        let opened = open_in(self.context, &mut self.book, opening);
        let accepted = opened.number == ACCEPTED;
        let number = usize::from(opened.number);
        match self.context.variant {
            Variant::OpensWithoutPosition => self.line("open", [number]),
            Variant::SaysBadAtRefusedOpening if !accepted => self.line("bad", [0]),
            _ => self.line("open", [number, opened.position]),
        }
        self.layout = Layout::of(opening);
        self.position = OPENING_BYTES;
        self.items = 1;
        accepted || self.is(Variant::ReadsOnAfterRefusedOpening)
    }

    fn opening_bytes(&self) -> Option<[u8; OPENING_BYTES]> {
        if self.is(Variant::FillsCutOpening) && self.input.len() < OPENING_BYTES {
            let mut bytes = [0; OPENING_BYTES];
            bytes[..self.input.len()].copy_from_slice(self.input);
            return Some(bytes);
        }
        self.input.first_chunk().copied()
    }

    fn bad_opening(&mut self) {
        let silent = match self.context.variant {
            Variant::IgnoresCutItem => true,
            Variant::SilentOnEmptyInput => self.input.is_empty(),
            _ => false,
        };
        if !silent {
            self.bad(0);
        }
    }

    /// Performs an item; true if the program goes on.
    fn item(&mut self, command: u8) -> bool {
        let command = match self.context.variant {
            Variant::TakesLowerCaseCommands => command.to_ascii_uppercase(),
            _ => command,
        };
        let goes_on = match command {
            CLOSE => self.close(),
            SUBMIT => self.submit(),
            _ => self.unknown(command),
        };
        self.items += 1;
        goes_on && !self.is(Variant::EndsAfterFirstItem)
    }

    fn unknown(&mut self, command: u8) -> bool {
        let skipped = match self.context.variant {
            Variant::IgnoresUnknownCommands => true,
            Variant::SkipsLineFeeds => command == b'\n',
            _ => false,
        };
        if skipped {
            self.position += 1;
            return true;
        }
        self.bad(self.position)
    }

    fn close(&mut self) -> bool {
        let room = match self.context.variant {
            Variant::StatementOfTwoWords => 2,
            _ => self.statement.len(),
        };
        let statement = &mut self.statement[..room];
        let closed = close_in(self.context, &mut self.book, statement);
        let accepted = closed.number == ACCEPTED;
        let number = usize::from(closed.number);
        if accepted {
            let figures = self.close_figures(&closed);
            self.line("close", figures.into_iter().chain(self.amounts()));
        } else if self.is(Variant::RefusesCloseWithoutPosition) {
            self.line("close", [number]);
        } else {
            self.line("close", [number, closed.position]);
        }
        self.position += 1;
        match self.context.variant {
            Variant::EndsAtRefusedClose => accepted,
            Variant::EndsWithFinishedBook => closed.day != LAST_DAY,
            _ => true,
        }
    }

    /// An accepted close's number, day and count.
    fn close_figures(&self, closed: &Answer) -> Vec<i128> {
        let (day, count) = (closed.day.into(), closed.residual_count.into());
        match self.context.variant {
            Variant::ClosesWithPosition => vec![0, closed.position as i128, day, count],
            Variant::ClosesWithDifference => vec![0, day, count, closed.difference.into()],
            Variant::PrintsCountBeforeDay => vec![0, count, day],
            Variant::OmitsCountOfZero if count == 0 => vec![0, day],
            Variant::PrintsNextDay => vec![0, day + 1, count],
            _ => vec![0, day, count],
        }
    }

    /// The accounts' amounts, then the MSSL's.
    fn amounts(&self) -> Vec<i128> {
        let accounts = self.layout.map_or(0, |layout| layout.accounts());
        let mut amounts = self.statement[..=accounts].to_vec();
        match self.context.variant {
            Variant::OmitsMsslAmount => amounts.truncate(accounts),
            Variant::PrintsMsslAmountFirst => amounts.rotate_right(1),
            Variant::PrintsMsslAmountUnnegated => amounts[accounts] *= -1,
            Variant::PrintsWholeStatement => amounts = self.statement.to_vec(),
            Variant::PrintsBalances => amounts = self.balances(),
            _ => {}
        }
        let printed = |amount: i64| match self.context.variant {
            Variant::PrintsAmountsUnsigned => i128::from(amount as u64),
            Variant::PrintsAmountsOf32Bits => i128::from(amount as i32),
            _ => i128::from(amount),
        };
        amounts.into_iter().map(printed).collect()
    }

    /// The accounts' balances, then the MSSL's.
    fn balances(&self) -> Vec<i64> {
        let accounts = self.layout.into_iter().flat_map(|layout| {
            (0..layout.accounts()).map(move |account| self.book[layout.balance_at(account)])
        });
        accounts.chain([self.book[MSSL_BALANCE]]).collect()
    }

    fn submit(&mut self) -> bool {
        let item = self.position + 1;
        let Some(file) = self.submitted(item) else {
            return self.bad_submission(item);
        };
        let file_at = item + LENGTH_BYTES;
        let mut answer = submit_in(self.context, &mut self.book, file);
        if self.is(Variant::AcceptsEmptyFile) && file.is_empty() {
            answer.number = ACCEPTED;
        }
        let accepted = answer.number == ACCEPTED;
        let number = usize::from(answer.number);
        match self.context.variant {
            Variant::MisspellsSubmit => self.line("sumbit", [number, answer.position]),
            Variant::SubmitsWithoutPosition => self.line("submit", [number]),
            Variant::PrintsPositionBeforeNumber => self.line("submit", [answer.position, number]),
            Variant::PrintsPositionInInput if !accepted => {
                self.line("submit", [number, file_at + answer.position]);
            }
            _ => self.line("submit", [number, answer.position]),
        }
        self.position = match self.context.variant {
            Variant::GoesOnInRefusedFile if !accepted => file_at + answer.position,
            _ => file_at + file.len(),
        };
        accepted || !self.is(Variant::EndsAtRefusedSubmission)
    }

    /// The file after its length, if both are whole and the length allowed.
    fn submitted(&self, item: usize) -> Option<&'a [u8]> {
        let (&length, rest) = self.input[item..].split_first_chunk()?;
        let length = file_length(self.context, length);
        if length > longest_file(self.context)
            || length == 0 && self.is(Variant::SaysBadAtEmptyFile)
        {
            return None;
        }
        match self.context.variant {
            Variant::CutsLongFile => rest.get(..length.min(LONGEST_FILE)),
            Variant::SubmitsCutFile => rest.get(..length.min(rest.len())),
            _ => rest.get(..length),
        }
    }

    fn bad_submission(&mut self, item: usize) -> bool {
        match self.context.variant {
            Variant::IgnoresCutItem if self.is_cut(item) => false,
            Variant::BadAtSubmitByte => self.bad(item - 1),
            Variant::BadAtFile => self.bad(item + LENGTH_BYTES),
            _ => self.bad(item),
        }
    }

    /// Whether a bad submission is one cut short, its length being allowed.
    fn is_cut(&self, item: usize) -> bool {
        let length = self.input[item..].first_chunk();
        length.is_none_or(|&length| file_length(self.context, length) <= LONGEST_FILE)
    }

    /// Ends the program at a bad item.
    fn bad(&mut self, item: usize) -> bool {
        if self.is(Variant::DropsLinesBeforeBad) {
            self.output.clear();
        }
        match self.context.variant {
            Variant::BadWithoutPosition => self.line("bad", [""; 0]),
            _ => self.line("bad", [self.named(item)]),
        }
        let goes_on = self.is(Variant::GoesOnAfterBad) && self.items > 0;
        if goes_on {
            self.position = item + 1;
        }
        goes_on
    }

    /// The position that `bad` names for an item.
    fn named(&self, item: usize) -> usize {
        match self.context.variant {
            // One more than the command's where it is a submission.
            Variant::BadAtFirstItem if self.items > 0 => OPENING_BYTES + item - self.position,
            Variant::BadAtInputEnd => self.input.len(),
            Variant::CountsFromAfterOpening => item.saturating_sub(OPENING_BYTES),
            Variant::CountsFromOne => item + 1,
            Variant::CountsItems => self.items,
            Variant::PositionsOf16Bits => item % 65_536,
            _ => item,
        }
    }

    fn line(&mut self, word: &str, parts: impl IntoIterator<Item = impl Display>) {
        self.output.push_str(word);
        for part in parts {
            // Writing to a string does not fail.
            let _ = write!(self.output, " {part}");
        }
        if self.is(Variant::EndsLinesWithSpace) {
            self.output.push(' ');
        }
        self.output.push('\n');
    }

    fn finish(mut self) -> Vec<u8> {
        if self.is(Variant::OmitsLastLineFeed) {
            self.output.pop();
        }
        self.output.into_bytes()
    }

    fn is(&self, variant: Variant) -> bool {
        self.context.is(variant)
    }
}

fn book_words(context: Context) -> usize {
    match context.variant {
        Variant::BookOf3000Words => 3_000,
        Variant::BookOf5071Words => 5_071,
        Variant::BookOf5448Words => 5_448,
        // What N = 32, L = 75 and H = 92 take.
        Variant::BookOfAnySize => 6_188_672,
        _ => BOOK_WORDS,
    }
}

fn longest_file(context: Context) -> usize {
    match context.variant {
        Variant::LongestFileOf1000 => 1_000,
        Variant::LongestFileOf16383 => 16_383,
        Variant::LongestFileOf16385 => 16_385,
        Variant::FilesOfAnyLength | Variant::CutsLongFile => usize::from(u16::MAX),
        _ => LONGEST_FILE,
    }
}

fn opening(context: Context, bytes: [u8; OPENING_BYTES]) -> Opening {
    let [accounts, lag, horizon, low, high] = bytes;
    let first_day = match context.variant {
        Variant::ReadsFirstDayBigEndian => u64::from(u16::from_be_bytes([low, high])),
        Variant::ReadsFirstDaySigned => i16::from_le_bytes([low, high]) as u64,
        _ => u64::from(u16::from_le_bytes([low, high])),
    };
    let mut opening = Opening {
        accounts: accounts.into(),
        lag: lag.into(),
        horizon: horizon.into(),
        first_day,
        change_day: NEVER,
    };
    match context.variant {
        Variant::ChangesOnFirstDay => opening.change_day = first_day,
        Variant::ExchangesLagAndHorizon => swap(&mut opening.lag, &mut opening.horizon),
        Variant::ExchangesAccountsAndLag => swap(&mut opening.accounts, &mut opening.lag),
        _ => {}
    }
    opening
}

fn file_length(context: Context, bytes: [u8; LENGTH_BYTES]) -> usize {
    let length = usize::from(u16::from_le_bytes(bytes));
    match context.variant {
        Variant::ReadsLengthBigEndian => usize::from(u16::from_be_bytes(bytes)),
        Variant::ReadsLengthSigned if length > 32_767 => 0,
        Variant::LengthCountsItself => length.saturating_sub(LENGTH_BYTES),
        _ => length,
    }
}
