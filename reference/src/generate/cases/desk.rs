//! A book kept through frames, with its history.

use super::Script;
use crate::book::Opening;
use crate::frames::Frame;
use crate::generate::files::{slim, Draft, DraftRow, Style};
use crate::history::{History, Key};
use crate::layout::Layout;
use crate::numbers::ACCEPTED;

pub(super) struct Desk<'a> {
    pub script: &'a mut Script,
    pub history: History,
    pub style: Style,
    pub layout: Layout,
    /// Words lent, the book's size and some beyond.
    pub lent: usize,
}

impl<'a> Desk<'a> {
    /// The opening is one that is accepted.
    pub fn open(script: &'a mut Script, style: Style, opening: Opening) -> Desk<'a> {
        let layout = Layout::of(opening).expect("an accepted opening has a layout");
        let lent = layout.size() + script.rng.below(4);
        script.push(Frame::Open { lent, opening });
        Desk {
            script,
            history: History::new(opening),
            style,
            layout,
            lent,
        }
    }

    pub fn book(&self) -> &[i64] {
        &self.script.player.book()[..self.layout.size()]
    }

    pub fn submit(&mut self, file: &[u8]) {
        let figures = self.script.push(Frame::Submit {
            lent: self.lent,
            file: file.to_vec(),
        });
        self.history.submitted(file, figures[0] as u8);
    }

    pub fn submit_rows(&mut self, rows: Vec<DraftRow>) {
        self.submit(&Draft { rows }.bytes());
    }

    /// A random row for each key; so many in a hundred have all their pairs.
    pub fn rows(&mut self, keys: &[Key], full: u64) -> Vec<DraftRow> {
        let accounts = self.history.accounts();
        let draft = Draft::of(&mut self.script.rng, self.style, accounts, keys);
        let rows = draft.rows.into_iter();
        rows.map(|row| {
            if self.script.rng.percent(full) {
                row
            } else {
                slim(row)
            }
        })
        .collect()
    }

    /// The keys that the next close needs and the book lacks.
    pub fn missing(&self) -> Vec<Key> {
        if self.history.finished() {
            return Vec::new();
        }
        let needed = self.history.needed().into_iter();
        needed
            .filter(|key| !self.history.is_in_force(key))
            .collect()
    }

    /// Submits what the next close still needs.
    pub fn feed(&mut self, full: u64) {
        let keys = self.missing();
        let rows = self.rows(&keys, full);
        self.submit_rows(rows);
    }

    pub fn close(&mut self) {
        let words = self.history.accounts() + 1 + self.script.rng.below(3);
        self.close_with(words);
    }

    /// Closes a book whose words the history does not know, of which it is told
    /// that all went as it would have.
    pub fn close_poked(&mut self) {
        let words = self.history.accounts() + 1;
        let (answer, _) = self.history.expected_close(words);
        self.script.close(self.lent, words);
        self.history.closed(words, &answer);
    }

    /// Closes, the answer being what the history tells.
    pub fn close_with(&mut self, words: usize) {
        let (answer, cents) = self.history.expected_close(words);
        let fill = self.script.rng.word();
        let figures = self.script.push(Frame::Close {
            lent: self.lent,
            fill,
            statement: words,
        });
        let told = [
            i64::from(answer.number),
            answer.position as i64,
            answer.day,
            answer.residual_count,
            answer.difference,
        ];
        assert_eq!(figures[..5], told);
        if answer.number == ACCEPTED {
            assert_eq!(figures[6..][..cents.len()], cents);
            self.history.closed(words, &answer);
        }
    }
}
