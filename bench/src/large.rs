//! Books of the longest lag and horizon, and large files for them.

use crate::robijan;
use reference::book::{open, size, Opening};
use reference::generate::Rng;

pub const FIRST_DAY: u64 = 9_497;
const NEXT_DAY: usize = 5;

/// The size of a book, and its change day.
#[derive(Clone, Copy)]
pub struct Terms {
    pub accounts: usize,
    pub lag: usize,
    pub horizon: usize,
    pub change: u64,
}

impl Terms {
    /// Without a change day.
    pub fn unchanging(accounts: usize, lag: usize, horizon: usize) -> Terms {
        Terms {
            accounts,
            lag,
            horizon,
            change: 0,
        }
    }

    /// The longest lag and horizon.
    pub fn longest(accounts: usize) -> Terms {
        Terms::unchanging(accounts, 75, 92)
    }

    /// The second edition from this day on.
    pub fn changing(self, change: u64) -> Terms {
        Terms { change, ..self }
    }

    pub fn words(self) -> usize {
        size(self.reference()).unwrap() as usize
    }

    /// With the first day, as the second implementation takes them.
    pub fn reference(self) -> Opening {
        let [accounts, lag, horizon] =
            [self.accounts, self.lag, self.horizon].map(|term| term as u64);
        Opening {
            accounts,
            lag,
            horizon,
            first_day: FIRST_DAY,
            change_day: self.change,
        }
    }

    /// With the first day, as Robijan takes them.
    pub fn opening(self) -> robijan::Terms {
        robijan::Terms {
            accounts: self.accounts,
            lag: self.lag,
            horizon: self.horizon,
            first: FIRST_DAY as usize,
            change: self.change as usize,
        }
    }

    /// Opens a book in these words, by the second implementation.
    pub fn open(self, book: &mut [i64]) {
        assert_eq!(open(book, self.reference()).number, 0);
    }
}

/// What the slots of a book hold.
#[derive(Clone, Copy, PartialEq, Eq)]
pub enum Rows {
    /// Every row of every day, with every tranche and facility.
    Full,
    /// Every row of every day, with as many tranches and facilities as chance gives.
    Mixed,
    /// The rows of the closed days alone.
    Closed,
    /// The rows of the open days alone: no day is closed.
    Open,
    /// None: a book newly opened.
    None,
}

/// A book of these terms, written word by word; all but `Rows::Open` and `Rows::None` have closed as many days as the lag.
pub fn book(rng: &mut Rng, terms: Terms, rows: Rows) -> Vec<i64> {
    let mut book = vec![0; terms.words()];
    terms.open(&mut book);
    let Terms {
        accounts,
        lag,
        horizon,
        ..
    } = terms;
    let (closed, filled) = match rows {
        Rows::Full | Rows::Mixed => (lag, lag + horizon),
        Rows::Closed => (lag, lag),
        Rows::Open => (0, horizon),
        Rows::None => (0, 0),
    };
    book[NEXT_DAY] += closed as i64;
    let interval_words = 4 + 24 * accounts;
    let slots = &mut book[64 + 8 * accounts..][..filled * 48 * interval_words];
    for interval in slots.chunks_exact_mut(interval_words) {
        let (own, accounts) = interval.split_at_mut(4);
        // A load that leaves some of the spare generation to be shared.
        let (mut hedged, mut spare) = (0, 0);
        for account in accounts.chunks_exact_mut(24) {
            fill(rng, account, rows != Rows::Full);
            hedged += account[1] + account[3] + account[5] + account[7];
            spare += account[19];
        }
        own[0] = (hedged + rng.between(0, spare)).min(1_000_000_000);
        own[1] = 1;
    }
    book
}

fn fill(rng: &mut Rng, account: &mut [i64], mixed: bool) {
    let mut count = || if mixed { 1 + rng.below(4) } else { 4 };
    let (vesting, meter) = (count(), count());
    account[0] = vesting as i64;
    for pair in account[1..].chunks_exact_mut(2).take(vesting) {
        pair[0] = rng.between(0, 10_000_000);
        pair[1] = rng.between(-1_000_000, 1_000_000);
    }
    account[9] = meter as i64;
    for pair in account[10..].chunks_exact_mut(2).take(meter) {
        pair[0] = rng.between(-1_000_000, 1_000_000);
        pair[1] = rng.between(-10_000_000, 10_000_000);
    }
    account[18] = 1;
    account[19] = rng.between(0, 10_000_000);
    account[20] = rng.between(0, 10_000_000);
    account[21] = rng.between(-1_000_000, 1_000_000);
    account[22] = rng.between(-1_000_000, 1_000_000);
}

/// So many rows from this day on, accounts ascending in each day.
#[derive(Clone, Copy)]
pub struct Given {
    pub day: i64,
    pub rows: usize,
}

/// What a file gives: vesting rows with three tranches and as many meter rows with four facilities, residual rows, NCC rows.
#[derive(Clone, Copy)]
pub struct Sections {
    pub contracts: Given,
    pub residuals: Given,
    pub loads: Given,
}

impl Sections {
    /// So many rows of each from the book's next day on.
    pub fn next(book: &[i64], contracts: usize, residuals: usize, loads: usize) -> Sections {
        let given = |rows| Given {
            day: book[NEXT_DAY],
            rows,
        };
        Sections {
            contracts: given(contracts),
            residuals: given(residuals),
            loads: given(loads),
        }
    }

    pub fn rows(&self) -> usize {
        2 * self.contracts.rows + self.residuals.rows + self.loads.rows
    }
}

const QUANTITY: (i64, i64) = (0, 10_000_000);
const PRICE: (i64, i64) = (-1_000_000, 1_000_000);
const IEQ: (i64, i64) = (-10_000_000, 10_000_000);
const LOAD: (i64, i64) = (0, 1_000_000_000);

/// A file with random values.
pub fn file(rng: &mut Rng, accounts: usize, sections: Sections) -> Vec<u8> {
    let Sections {
        contracts,
        residuals,
        loads,
    } = sections;
    let mut file = Vec::new();
    let mut values = |file: &mut Vec<u8>, ranges: &[(i64, i64)]| {
        for &(low, high) in (0..48).flat_map(|_| ranges) {
            file.extend((rng.between(low, high) as i32).to_le_bytes());
        }
    };
    let head = |file: &mut Vec<u8>, given: Given, i: usize| {
        file.push((i % accounts) as u8);
        file.extend((given.day as u16 + (i / accounts) as u16).to_le_bytes());
    };
    for (most, pair) in [(3, [QUANTITY, PRICE]), (4, [PRICE, IEQ])] {
        file.extend((contracts.rows as u16).to_le_bytes());
        for i in 0..contracts.rows {
            head(&mut file, contracts, i);
            file.push(most);
            values(&mut file, &pair.repeat(4));
        }
    }
    file.extend((residuals.rows as u16).to_le_bytes());
    for i in 0..residuals.rows {
        head(&mut file, residuals, i);
        values(&mut file, &[QUANTITY, QUANTITY, PRICE, PRICE]);
    }
    file.extend((loads.rows as u16).to_le_bytes());
    for i in 0..loads.rows {
        file.extend((loads.day as u16 + i as u16).to_le_bytes());
        values(&mut file, &[LOAD]);
    }
    file
}
