//! A list of submissions and closes on one newly opened book, told from the
//! calls' arguments and answers, never from the book's words.
//!
//! It reads accepted files by itself, keeps the rows in force, and says what
//! the book must hold and what the next close must answer.
//!
//! It is independent on purpose: where each word stands is worked out here once
//! more, and neither `layout` nor the book's own header is used, so that a slip
//! there does not hide itself.

use crate::book::Opening;
use crate::edition::Edition;
use crate::numbers::{Answer, ACCEPTED, DATUM_ABSENT, FINISHED, OUTPUT_TOO_SHORT};
use crate::reference_price::reference_price;
use crate::share::{second_share, share};
use crate::tranche::tranche;
use crate::units::{nearest, INTERVALS, LAST_DAY, THOUSANDTHS_A_CENT};
use std::collections::{BTreeMap, BTreeSet};
use std::ops::RangeInclusive;

/// A row's section (0 to 3), account and day; the account is 0 in section 3.
pub type Key = (usize, usize, i64);

pub const VESTING: usize = 0;
pub const METER: usize = 1;
pub const RESIDUAL: usize = 2;
pub const NCC: usize = 3;

struct Row {
    /// Tranches or facilities.
    count: usize,
    /// The values of 48 intervals.
    values: Vec<i64>,
}

impl Row {
    fn interval(&self, interval: usize) -> &[i64] {
        let width = self.values.len() / INTERVALS;
        &self.values[interval * width..][..width]
    }
}

/// What a list of calls, or a single one, did against the rules.
#[derive(Clone, Copy, Debug, PartialEq, Eq, PartialOrd, Ord)]
pub enum Breach {
    /// A holder's balance is not the sum of its formula amounts.
    Balance,
    /// The balances do not total zero.
    Total,
    /// The residual counts do not add up.
    ResidualCount,
    /// Word 8 is not the sum of the closed days' rounding differences.
    Difference,
    /// The differences that the closes returned do not add up to word 8.
    ReturnedDifferences,
    /// A close reported a missing datum where none was missing, or the reverse.
    MissingDatum,
    /// A close was accepted with no day left or without the rows it needs;
    /// what follows has no formula amounts and is not told.
    ClosedWithoutRows,
    /// Accepted bytes are no submission file.
    AcceptedNoFile,
    /// A call's answer is another than the rules give.
    Answer,
    /// A statement does not hold the formula amounts, or words beyond changed.
    Statement,
    /// A word of the book is another than the rules give.
    Words,
    /// A refusal changed a lent word.
    RefusalChanged,
    IllFormed,
}

/// The breaches that the whole list's theorem speaks of.
pub const LIST_BREACHES: [Breach; 6] = [
    Breach::Balance,
    Breach::Total,
    Breach::ResidualCount,
    Breach::Difference,
    Breach::ReturnedDifferences,
    Breach::MissingDatum,
];

/// How many day sums were exact half cents.
#[derive(Clone, Copy, Debug, Default)]
pub struct Ties {
    pub positive: u64,
    pub negative: u64,
}

pub struct History {
    accounts: usize,
    lag: i64,
    horizon: i64,
    first_day: i64,
    /// 0 for never.
    change_day: i64,
    in_force: BTreeMap<Key, Row>,
    closes: i64,
    sums: Vec<i64>,
    residual_counts: i64,
    /// Of the closed days, from their formula amounts.
    difference: i64,
    /// The sum of what the closes told.
    returned_differences: i64,
    breaches: BTreeSet<Breach>,
    pub ties: Ties,
}

impl History {
    /// The history of a book that this opening, being accepted, left.
    pub fn new(opening: Opening) -> History {
        History {
            accounts: opening.accounts as usize,
            lag: opening.lag as i64,
            horizon: opening.horizon as i64,
            first_day: opening.first_day as i64,
            change_day: opening.change_day as i64,
            in_force: BTreeMap::new(),
            closes: 0,
            sums: vec![0; opening.accounts as usize],
            residual_counts: 0,
            difference: 0,
            returned_differences: 0,
            breaches: BTreeSet::new(),
            ties: Ties::default(),
        }
    }

    pub fn accounts(&self) -> usize {
        self.accounts
    }

    /// The day that the next close is of.
    pub fn next_day(&self) -> i64 {
        self.first_day + self.closes
    }

    pub fn finished(&self) -> bool {
        self.next_day() > LAST_DAY
    }

    /// The days that a section's rows may name; may be empty.
    pub fn open_days(&self, section: usize) -> RangeInclusive<i64> {
        let oldest = match section {
            VESTING | METER => self.next_day(),
            _ => self.first_day.max(self.next_day() - self.lag),
        };
        oldest..=LAST_DAY.min(self.next_day() + self.horizon - 1)
    }

    /// The rows that the next close needs, in its search order.
    pub fn needed(&self) -> Vec<Key> {
        let (day, accounts) = (self.next_day(), 0..self.accounts);
        let mut needed = Vec::new();
        for account in accounts.clone() {
            needed.extend([(VESTING, account, day), (METER, account, day)]);
        }
        if let Some(residual_day) = self.residual_day() {
            needed.push((NCC, 0, residual_day));
            needed.extend(accounts.map(|account| (RESIDUAL, account, residual_day)));
        }
        needed
    }

    pub fn is_in_force(&self, key: &Key) -> bool {
        self.in_force.contains_key(key)
    }

    /// A submission was answered with this number.
    pub fn submitted(&mut self, file: &[u8], number: u8) {
        if number != ACCEPTED {
            return;
        }
        match rows_of(file) {
            Some(rows) => self.in_force.extend(rows),
            None => {
                self.breaches.insert(Breach::AcceptedNoFile);
            }
        }
    }

    /// What a close must answer, and the cents it must post: each account's,
    /// then the MSSL's.
    pub fn expected_close(&self, statement_words: usize) -> (Answer, Vec<i64>) {
        let refused = |number, position| (Answer::at(number, position), Vec::new());
        if self.finished() {
            return refused(FINISHED, 0);
        }
        if statement_words < self.accounts + 1 {
            return refused(OUTPUT_TOO_SHORT, 0);
        }
        if let Some(key) = self.first_missing() {
            return refused(DATUM_ABSENT, self.flag_at(&key, 0));
        }
        let residuals = match self.residual_day() {
            Some(_) => INTERVALS * self.accounts,
            None => 0,
        };
        let sums = self.day_sums();
        let difference = mssl_difference(&sums);
        let answer = Answer::closed(self.next_day(), residuals as i64, difference);
        let mut cents: Vec<i64> = sums.into_iter().map(to_cents).collect();
        cents.push(-cents.iter().sum::<i64>());
        (answer, cents)
    }

    /// A close with a statement of so many words was answered so.
    pub fn closed(&mut self, statement_words: usize, answer: &Answer) {
        let missing = self.first_missing().is_some();
        let must_report = !self.finished() && statement_words > self.accounts && missing;
        if (answer.number == DATUM_ABSENT) != must_report {
            self.breaches.insert(Breach::MissingDatum);
        }
        self.residual_counts += answer.residual_count;
        self.returned_differences += answer.difference;
        if answer.number != ACCEPTED {
            return;
        }
        if missing || self.finished() {
            self.breaches.insert(Breach::ClosedWithoutRows);
        } else {
            let sums = self.day_sums();
            self.difference += mssl_difference(&sums);
            for (account, sum) in sums.into_iter().enumerate() {
                self.sums[account] += to_cents(sum);
                self.ties.positive += u64::from(sum % 1_000 == 500);
                self.ties.negative += u64::from(sum % 1_000 == -500);
            }
        }
        self.closes += 1;
    }

    /// All breaches of the list so far, `book` being the book after it.
    pub fn breaches(&self, book: &[i64]) -> BTreeSet<Breach> {
        let mut breaches = self.breaches.clone();
        let balances: Vec<i64> = (0..self.accounts)
            .map(|account| book[64 + 8 * account])
            .collect();
        if balances != self.sums {
            breaches.insert(Breach::Balance);
        }
        let total: i128 = balances
            .iter()
            .chain([&book[6]])
            .map(|&cents| i128::from(cents))
            .sum();
        if total != 0 {
            breaches.insert(Breach::Total);
        }
        let settled_days = (self.closes - self.lag).max(0);
        if self.residual_counts != 48 * self.accounts as i64 * settled_days {
            breaches.insert(Breach::ResidualCount);
        }
        if book[8] != self.difference {
            breaches.insert(Breach::Difference);
        }
        if book[8] != self.returned_differences {
            breaches.insert(Breach::ReturnedDifferences);
        }
        breaches
    }

    /// The words that the book must hold.
    pub fn words(&self) -> Vec<i64> {
        let size = self.slot_at(self.first_day + self.lag + self.horizon - 1) + self.slot_words();
        let mut words = vec![0; size];
        words[0] = 395;
        words[1] = self.accounts as i64;
        words[2] = self.lag;
        words[3] = self.horizon;
        words[4] = self.first_day;
        words[5] = self.next_day();
        words[6] = -self.sums.iter().sum::<i64>();
        words[7] = self.change_day;
        words[8] = self.difference;
        for (account, sum) in self.sums.iter().enumerate() {
            words[64 + 8 * account] = *sum;
        }
        // The window of sections 3 and 4 is the widest.
        let window = self.open_days(NCC);
        for (key, row) in self
            .in_force
            .iter()
            .filter(|(key, _)| window.contains(&key.2))
        {
            for interval in 0..INTERVALS {
                let flag = self.flag_at(key, interval);
                words[flag] = match key.0 {
                    VESTING => 1 + row.count as i64,
                    METER => row.count as i64,
                    _ => 1,
                };
                let values = row.interval(interval);
                let first = if key.0 == NCC { flag - 1 } else { flag + 1 };
                words[first..first + values.len()].copy_from_slice(values);
            }
        }
        words
    }

    /// The day r of the next close, if it is not before the first day.
    fn residual_day(&self) -> Option<i64> {
        let day = self.next_day() - self.lag;
        (day >= self.first_day).then_some(day)
    }

    /// The edition that the next close shares its residual day in, if it has one:
    /// the second from the change day on.
    pub fn residual_edition(&self) -> Option<Edition> {
        let changed = |day| self.change_day > 0 && self.change_day <= day;
        self.residual_day().map(|day| match changed(day) {
            false => Edition::First,
            true => Edition::Second,
        })
    }

    fn first_missing(&self) -> Option<Key> {
        self.needed().into_iter().find(|key| !self.is_in_force(key))
    }

    /// Each account's exact amount for the next close, in thousandths of a
    /// cent; every needed row is in force.
    fn day_sums(&self) -> Vec<i64> {
        let accounts = 0..self.accounts;
        let mut sums = vec![0; self.accounts];
        for interval in 0..INTERVALS {
            let values =
                |section, account, day| self.in_force[&(section, account, day)].interval(interval);
            let hedges = |account, day| values(VESTING, account, day).chunks_exact(2);
            let v = |account, day| {
                let (meps, ieqs): (Vec<i64>, Vec<i64>) = values(METER, account, day)
                    .chunks_exact(2)
                    .map(|pair| (pair[0], pair[1]))
                    .unzip();
                reference_price(&meps, &ieqs).price
            };

            for account in accounts.clone() {
                let v = v(account, self.next_day());
                for hedge in hedges(account, self.next_day()) {
                    sums[account] += (hedge[1] - v) * hedge[0];
                }
            }

            let (Some(day), Some(edition)) = (self.residual_day(), self.residual_edition()) else {
                continue;
            };
            let hedged: i64 = accounts
                .clone()
                .flat_map(|account| hedges(account, day))
                .map(|hedge| hedge[0])
                .sum();
            let remaining = values(NCC, 0, day)[0] - hedged;
            let uegqs: Vec<i64> = accounts
                .clone()
                .map(|account| values(RESIDUAL, account, day)[0])
                .collect();
            let mut shares = vec![0; self.accounts];
            match edition {
                Edition::First => share(remaining, &uegqs, &mut shares),
                Edition::Second => second_share(remaining, &uegqs, &mut shares),
            };
            for account in accounts.clone() {
                let v = v(account, day);
                let bvq = values(VESTING, account, day)[0];
                let residual = values(RESIDUAL, account, day);
                let split = tranche(shares[account], bvq, residual[1]);
                sums[account] += (residual[2] - v) * split.first + (residual[3] - v) * split.second;
            }
        }
        sums
    }

    fn interval_words(&self) -> usize {
        4 + 24 * self.accounts
    }

    fn slot_words(&self) -> usize {
        48 * self.interval_words()
    }

    fn slot_at(&self, day: i64) -> usize {
        let slot = (day - self.first_day) % (self.lag + self.horizon);
        64 + 8 * self.accounts + slot as usize * self.slot_words()
    }

    /// The flag word of a row in an interval.
    fn flag_at(&self, &(section, account, day): &Key, interval: usize) -> usize {
        let interval_at = self.slot_at(day) + interval * self.interval_words();
        let entry_at = interval_at + 4 + 24 * account;
        match section {
            VESTING => entry_at,
            METER => entry_at + 9,
            RESIDUAL => entry_at + 18,
            _ => interval_at + 1,
        }
    }
}

fn to_cents(thousandths: i64) -> i64 {
    nearest(thousandths, THOUSANDTHS_A_CENT)
}

/// 1,000 times what the MSSL is posted for a day of these sums, less its exact
/// amount.
fn mssl_difference(sums: &[i64]) -> i64 {
    let exact = -sums.iter().sum::<i64>();
    let posted = -sums.iter().map(|&sum| to_cents(sum)).sum::<i64>();
    1_000 * posted - exact
}

/// A file's rows as its bytes say, if it has the four sections and no more.
fn rows_of(file: &[u8]) -> Option<Vec<(Key, Row)>> {
    let mut rest = file;
    let mut number = |bytes: usize| {
        let (field, after) = rest.split_at_checked(bytes)?;
        rest = after;
        let digits = field.iter().rev();
        Some(digits.fold(0_u32, |number, &byte| number << 8 | u32::from(byte)))
    };
    let mut rows = Vec::new();
    for section in [VESTING, METER, RESIDUAL, NCC] {
        for _ in 0..number(2)? {
            let account = if section == NCC { 0 } else { number(1)? };
            let day = number(2)?;
            let count = if section <= METER {
                number(1)? as usize
            } else {
                0
            };
            let width = match section {
                VESTING => 2 + 2 * count,
                METER => 2 * count,
                RESIDUAL => 4,
                _ => 1,
            };
            let values: Option<Vec<i64>> = (0..INTERVALS * width)
                .map(|_| Some(i64::from(number(4)? as i32)))
                .collect();
            let key = (section, account as usize, i64::from(day));
            rows.push((
                key,
                Row {
                    count,
                    values: values?,
                },
            ));
        }
    }
    rest.is_empty().then_some(rows)
}
