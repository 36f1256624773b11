//! Runs a list of calls and holds it against its history.

use crate::book::{judge, open_in, size};
use crate::close::close_in;
use crate::edition::Edition;
use crate::generate::lists::{Call, List};
use crate::history::{Breach, History, Ties};
use crate::numbers::{Answer, ACCEPTED};
use crate::submission::submit_in;
use crate::variant::Context;
use std::collections::BTreeSet;

/// What a run showed.
pub struct Report {
    /// Empty when all held.
    pub breaches: BTreeSet<Breach>,
    /// All answers and statements, one after another.
    pub outputs: Vec<i64>,
    /// How often a call returned each number.
    pub numbers: [u64; 15],
    pub residual_closes: u64,
    /// Those of them in the second edition.
    pub second_closes: u64,
    /// Accepted closes of a difference above zero, and below it.
    pub raising: u64,
    pub lowering: u64,
    pub finished: bool,
    pub ties: Ties,
}

/// Runs the list with a book of the context's variant. After every call the
/// book must be well formed and hold the words that the history tells, a
/// refusal must have changed nothing, and the list so far must hold.
pub fn run(context: Context, list: &List) -> Report {
    let book_words = size(list.opening).unwrap_or(0) as usize;
    // What no call may read or touch.
    let spare = vec![i64::MIN + 7; list.spare_words];
    let mut book = vec![-1; book_words];
    book.extend(&spare);

    let mut report = Report {
        breaches: BTreeSet::new(),
        outputs: Vec::new(),
        numbers: [0; 15],
        residual_closes: 0,
        second_closes: 0,
        raising: 0,
        lowering: 0,
        finished: false,
        ties: Ties::default(),
    };
    let opened = open_in(context, &mut book, list.opening);
    report.outputs.push(opened.number.into());
    if opened != Answer::ACCEPTED {
        report.breaches.insert(Breach::Answer);
        return report;
    }

    let mut history = History::new(list.opening);
    for call in &list.calls {
        let before = book.clone();
        let number = match call {
            Call::Submit { file, expected } => {
                let answer = submit_in(context, &mut book, file);
                report
                    .outputs
                    .extend([answer.number.into(), answer.position as i64]);
                report.expect(answer == *expected, Breach::Answer);
                history.submitted(file, answer.number);
                answer.number
            }
            Call::Close { statement_words } => {
                let blank: Vec<i64> = (0..*statement_words as i64)
                    .map(|word| -77 - word)
                    .collect();
                let mut statement = blank.clone();
                let (expected, cents) = history.expected_close(*statement_words);
                let answer = close_in(context, &mut book, &mut statement);
                report
                    .outputs
                    .extend([answer.number.into(), answer.position as i64]);
                report
                    .outputs
                    .extend([answer.day, answer.residual_count, answer.difference]);
                report.outputs.extend(&statement);
                report.expect(answer == expected, Breach::Answer);
                if answer.number == ACCEPTED {
                    let (written, beyond) = statement.split_at(history.accounts() + 1);
                    let kept = beyond == &blank[written.len()..];
                    report.expect(written == cents && kept, Breach::Statement);
                    report.residual_closes += u64::from(answer.residual_count > 0);
                    let second = history.residual_edition() == Some(Edition::Second);
                    report.second_closes += u64::from(second);
                    report.raising += u64::from(answer.difference > 0);
                    report.lowering += u64::from(answer.difference < 0);
                } else {
                    report.expect(statement == blank, Breach::RefusalChanged);
                }
                history.closed(*statement_words, &answer);
                answer.number
            }
        };
        report.numbers[usize::from(number)] += 1;
        report.expect(number == ACCEPTED || book == before, Breach::RefusalChanged);
        report.expect(judge(&book).is_some(), Breach::IllFormed);
        let (words, beyond) = book.split_at(book_words);
        report.expect(words == history.words() && beyond == spare, Breach::Words);
        report.breaches.extend(history.breaches(&book));
        if report.breaches.contains(&Breach::ClosedWithoutRows) {
            break;
        }
    }
    report.finished = history.finished();
    report.ties = history.ties;
    report
}

impl Report {
    fn expect(&mut self, holds: bool, breach: Breach) {
        if !holds {
            self.breaches.insert(breach);
        }
    }
}
