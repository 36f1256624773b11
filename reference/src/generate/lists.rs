//! Lists of calls on one newly opened book.

use super::files::{damaged, Draft, Style, STYLES};
use super::Rng;
use crate::book::Opening;
use crate::edition::NEVER;
use crate::history::{History, Key};
use crate::numbers::{Answer, ACCEPTED, NOT_WHOLE, OUT_OF_RANGE};
use crate::units::LAST_DAY;

pub enum Call {
    Submit { file: Vec<u8>, expected: Answer },
    Close { statement_words: usize },
}

pub struct List {
    pub opening: Opening,
    /// Words lent beyond the book's size.
    pub spare_words: usize,
    pub calls: Vec<Call>,
}

/// A list of some dozens of calls on a small book.
pub fn list(rng: &mut Rng) -> List {
    let opening = small_opening(rng);
    let steps = rng.between(4, 40) as usize;
    list_on(rng, opening, steps)
}

/// Feeds and closes day after day, so that even a long lag is passed.
pub fn long_list(rng: &mut Rng, opening: Opening, days: usize) -> List {
    let mut writer = Writer::new(rng, opening);
    for _ in 0..days {
        writer.feed(100);
        writer.close();
    }
    writer.finish()
}

pub fn list_on(rng: &mut Rng, opening: Opening, steps: usize) -> List {
    let mut writer = Writer::new(rng, opening);
    for _ in 0..steps {
        match writer.rng.below(100) {
            0..=34 => {
                let kept = writer.rng.pick(&[100, 100, 100, 75]);
                writer.feed(kept);
            }
            35..=69 => writer.close(),
            70..=74 => writer.short_close(),
            75..=86 => writer.random_rows(),
            87..=95 => writer.damage(),
            96..=97 => writer.garbage(),
            _ => writer.submit(vec![0; 8], Answer::ACCEPTED),
        }
    }
    writer.finish()
}

fn small_opening(rng: &mut Rng) -> Opening {
    let first_day = match rng.below(10) {
        0 => 9_497,
        1..=3 => 36_524 - rng.between(0, 6),
        _ => rng.between(9_497, 36_524),
    };
    Opening {
        accounts: rng.pick(&[1, 1, 2, 2, 3, 3]),
        lag: rng.pick(&[1, 1, 1, 2, 2, 3]),
        horizon: rng.pick(&[1, 1, 2, 2, 3]),
        change_day: change_day(rng, first_day),
        ..Opening::smallest(first_day as u64)
    }
}

/// X of a book with this first day: never, before it, among the first residual
/// days, on any later day.
pub fn change_day(rng: &mut Rng, first_day: i64) -> u64 {
    let day = match rng.below(10) {
        0..=1 => return NEVER,
        2 => rng.between(9_497, first_day),
        3 => (first_day - 1).max(9_497),
        4..=8 => (first_day + rng.between(0, 4)).min(LAST_DAY),
        _ => rng.between(first_day, LAST_DAY),
    };
    day as u64
}

/// Writes a list, knowing what each call does to the history.
struct Writer<'a> {
    rng: &'a mut Rng,
    style: Style,
    history: History,
    list: List,
}

impl<'a> Writer<'a> {
    fn new(rng: &'a mut Rng, opening: Opening) -> Writer<'a> {
        Writer {
            style: rng.pick(&STYLES),
            history: History::new(opening),
            list: List {
                opening,
                spare_words: rng.below(4),
                calls: Vec::new(),
            },
            rng,
        }
    }

    fn finish(self) -> List {
        self.list
    }

    fn submit(&mut self, file: Vec<u8>, expected: Answer) {
        self.history.submitted(&file, expected.number);
        self.list.calls.push(Call::Submit { file, expected });
    }

    /// Submits the rows that the next close still needs, each kept so many
    /// times in a hundred.
    fn feed(&mut self, kept: u64) {
        if self.history.finished() {
            return self.random_rows();
        }
        let missing = self.history.needed().into_iter();
        let mut keys: Vec<Key> = missing
            .filter(|key| !self.history.is_in_force(key))
            .collect();
        keys.retain(|_| self.rng.percent(kept));
        self.rng.shuffle(&mut keys);
        let draft = Draft::of(self.rng, self.style, self.history.accounts(), &keys);
        self.submit(draft.bytes(), Answer::ACCEPTED);
    }

    /// Rows of any open day: early ones, late ones, revisions.
    fn random_rows(&mut self) {
        let draft = Draft::random(self.rng, self.style, &self.history, 2);
        self.submit(draft.bytes(), Answer::ACCEPTED);
    }

    fn damage(&mut self) {
        let draft = Draft::random(self.rng, self.style, &self.history, 2);
        let (file, expected) = damaged(self.rng, &draft, &self.history);
        self.submit(file, expected);
    }

    /// Bytes that are no file: a first account that no book has, or a cut.
    fn garbage(&mut self) {
        let length = self.rng.below(300);
        let mut file = self.rng.bytes(length);
        let expected = match file.get_mut(..3) {
            Some(start) => {
                start[0] |= 1;
                start[2] |= 0x80;
                Answer::at(OUT_OF_RANGE, 2)
            }
            None => {
                file.truncate(1);
                Answer::at(NOT_WHOLE, 0)
            }
        };
        self.submit(file, expected);
    }

    fn close(&mut self) {
        let words = self.history.accounts() + 1 + self.rng.below(3);
        self.close_with(words);
    }

    fn short_close(&mut self) {
        let words = self.rng.below(self.history.accounts() + 1);
        self.close_with(words);
    }

    fn close_with(&mut self, statement_words: usize) {
        let (answer, _) = self.history.expected_close(statement_words);
        if answer.number == ACCEPTED {
            self.history.closed(statement_words, &answer);
        }
        self.list.calls.push(Call::Close { statement_words });
    }
}
