//! Counts of what was answered.

use std::collections::{BTreeMap, BTreeSet};

pub struct Tally {
    name: &'static str,
    cases: usize,
    done: usize,
    /// By number: how often, and at which positions.
    answers: BTreeMap<u64, (usize, BTreeSet<u64>)>,
    /// By kind of case: how often accepted, and how often refused.
    kinds: BTreeMap<&'static str, [usize; 2]>,
}

impl Tally {
    pub fn new(name: &'static str, cases: usize) -> Tally {
        Tally {
            name,
            cases,
            done: 0,
            answers: BTreeMap::new(),
            kinds: BTreeMap::new(),
        }
    }

    /// Without a progress line.
    pub fn quiet(name: &'static str) -> Tally {
        Tally::new(name, 0)
    }

    /// The calls made so far.
    pub fn calls(&self) -> usize {
        self.done
    }

    /// One call of this kind was answered so by both.
    pub fn add(&mut self, kind: &'static str, number: u64, position: u64) {
        let (count, positions) = self.answers.entry(number).or_default();
        *count += 1;
        positions.insert(position);
        self.kinds.entry(kind).or_default()[usize::from(number != 0)] += 1;
        self.done += 1;
        if self.cases > 0 && self.done.is_multiple_of(10_000) {
            eprint!("\r{}: {} of {}", self.name, self.done, self.cases);
        }
    }

    pub fn print(&self) {
        eprint!("\r");
        println!("{}: {} cases, all equal", self.name, self.done);
        for (number, (count, positions)) in &self.answers {
            let places = match positions.len() {
                1 => String::new(),
                several => format!(", at {several} positions"),
            };
            println!("  number {number:>2}: {count:>7}{places}");
        }
        for (kind, [accepted, refused]) in &self.kinds {
            println!("  {kind}: {accepted} accepted, {refused} refused");
        }
    }
}
