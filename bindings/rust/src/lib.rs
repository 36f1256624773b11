//! Robijan, the settlement book of Singapore's residual vesting scheme, for Rust programs.
//!
//! Accounts hold vesting contracts, which fix the price of a quantity for each of a day's 48 half-hours. A book is opened for some accounts in
//! words that the caller lends, takes submission files with the data of each account and day, and is closed day by day; a close posts whole
//! cents that total zero. `include/robijan.h` of the repository has the units, the format of a file and the words of a book that may be read.
//!
//! Every input is answered: a call either does what it says or returns a [`Refusal`] and leaves all that is lent as it was. No call allocates,
//! panics or keeps anything, and each may be made from any thread. Where the process dies within an accepted call, the words lent are neither
//! the book before nor the book after: so never lend the only copy (copy, call, sync, rename; the example of the repository does so).
//!
//! A book of one account whose first day is 1 January 2026, closed with a lag of one day:
//!
//! ```
//! use robijan::{book_words, close, day, numbers, open, submit, Terms};
//!
//! let terms = Terms { accounts: 1, lag: 1, horizon: 1, first: day(2026, 1, 1)? as usize, change: 0 };
//! let mut book = vec![0; book_words(terms)?];
//! open(&mut book, terms)?;
//!
//! // Eight zero bytes are a file without rows.
//! submit(&mut book, &[0; 8])?;
//!
//! // So the close lacks account 0's vesting row; the position is that of its flag in the book.
//! let mut statement = [0; 2];
//! let refusal = close(&mut book, &mut statement).unwrap_err();
//! assert_eq!(refusal.number, numbers::DATUM_ABSENT);
//! assert_eq!(refusal.position, 76);
//! # Ok::<(), robijan::Refusal>(())
//! ```

pub mod numbers;
pub mod raw;

pub use raw::Terms;
use std::fmt;

/// Why a call was refused: a number of [`numbers`], and the position of what is refused, 0 unless the number names one.
#[derive(Clone, Copy, Debug, PartialEq, Eq)]
pub struct Refusal {
    pub number: u64,
    pub position: u64,
}

impl fmt::Display for Refusal {
    fn fmt(&self, f: &mut fmt::Formatter) -> fmt::Result {
        write!(f, "{}: {}", self.number, numbers::text(self.number))?;
        match self.number {
            4..=8 | numbers::PACKED_FIELD_WRONG => write!(f, ", at byte {}", self.position),
            numbers::DATUM_ABSENT => write!(f, ", at word {}", self.position),
            _ => Ok(()),
        }
    }
}

impl std::error::Error for Refusal {}

/// Accepted, or refused with this number and position.
fn told<T>(number: u64, position: u64, accepted: T) -> Result<T, Refusal> {
    match number {
        numbers::ACCEPTED => Ok(accepted),
        _ => Err(Refusal { number, position }),
    }
}

/// What an accepted close did.
#[derive(Clone, Copy, Debug, PartialEq, Eq)]
pub struct Closed {
    /// The day closed.
    pub day: i64,
    /// How many residuals, of an account and an interval each, were settled: 48 an account, or none.
    pub residuals: u64,
    /// By how many thousandths of a cent 1,000 times the MSSL's posted cents exceed its exact amount of the day: at most 500 an account, either way.
    pub difference: i64,
}

/// Both parts of a share, in kWh.
#[derive(Clone, Copy, Debug, PartialEq, Eq)]
pub struct Tranches {
    pub first: i64,
    pub second: i64,
}

#[derive(Clone, Copy, Debug, PartialEq, Eq)]
pub struct Date {
    pub year: u64,
    pub month: u64,
    pub day: u64,
}

/// How many words a book of these terms takes; terms that [`open`] refuses are refused here too.
///
/// ```
/// use robijan::Terms;
///
/// let terms = Terms { accounts: 2, lag: 1, horizon: 1, first: 9_497, change: 0 };
/// assert_eq!(robijan::book_words(terms), Ok(5_072));
/// let refusal = robijan::book_words(Terms { accounts: 0, ..terms }).unwrap_err();
/// assert_eq!(refusal.number, robijan::numbers::OUTSIDE_RANGE);
/// ```
pub fn book_words(terms: Terms) -> Result<usize, Refusal> {
    let answer = raw::book_size(terms);
    told(answer.number, 0, answer.words as usize)
}

/// Opens a book in the words lent, whatever they held; words beyond its size are kept.
///
/// ```
/// use robijan::Terms;
///
/// let terms = Terms { accounts: 2, lag: 1, horizon: 1, first: 9_497, change: 9_587 };
/// let mut words = vec![-1; 5_073];
/// robijan::open(&mut words, terms)?;
/// assert_eq!(words[..9], [395, 2, 1, 1, 9_497, 9_497, 0, 9_587, 0]);
/// assert_eq!(words[5_072], -1);
///
/// let refusal = robijan::open(&mut words[..5_071], terms).unwrap_err();
/// assert_eq!(refusal.number, robijan::numbers::WORDS_TOO_FEW);
/// # Ok::<(), robijan::Refusal>(())
/// ```
pub fn open(book: &mut [i64], terms: Terms) -> Result<(), Refusal> {
    let answer = raw::open(book, terms);
    told(answer.number, answer.position, ())
}

/// Takes a whole submission file, or refuses it at its first faulty field and stores nothing.
///
/// ```
/// use robijan::Terms;
///
/// let mut book = vec![0; 5_072];
/// robijan::open(&mut book, Terms { accounts: 2, lag: 1, horizon: 1, first: 9_497, change: 0 })?;
/// robijan::submit(&mut book, &[0; 8])?;
///
/// // One vesting row, of account 2, which the book does not have.
/// let refusal = robijan::submit(&mut book, &[1, 0, 2]).unwrap_err();
/// assert_eq!(refusal.to_string(), "5: account, count or value out of range, at byte 2");
/// # Ok::<(), robijan::Refusal>(())
/// ```
pub fn submit(book: &mut [i64], file: &[u8]) -> Result<(), Refusal> {
    let answer = raw::submit(book, file);
    told(answer.number, answer.position, ())
}

/// Closes the next day: writes an amount for each account to the statement, in cents, then the MSSL's, and adds them to the balances, and the day's
/// rounding difference to the sum of the earlier ones.
///
/// ```
/// use robijan::Terms;
///
/// let mut book = vec![0; 5_072];
/// robijan::open(&mut book, Terms { accounts: 2, lag: 1, horizon: 1, first: 9_497, change: 0 })?;
/// let refusal = robijan::close(&mut book, &mut [0; 3]).unwrap_err();
/// assert_eq!(refusal.to_string(), "11: datum absent, at word 84");
/// let refusal = robijan::close(&mut book, &mut [0; 2]).unwrap_err();
/// assert_eq!(refusal.number, robijan::numbers::OUTPUT_TOO_SHORT);
/// # Ok::<(), robijan::Refusal>(())
/// ```
pub fn close(book: &mut [i64], statement: &mut [i64]) -> Result<Closed, Refusal> {
    let answer = raw::close(book, statement);
    let closed = Closed {
        day: answer.day as i64,
        residuals: answer.count,
        difference: answer.difference,
    };
    told(answer.number, answer.position, closed)
}

/// Are these words a well-formed book, as every accepted call leaves one? The other calls ask this themselves.
///
/// ```
/// use robijan::Terms;
///
/// let mut book = vec![0; 5_072];
/// assert_eq!(robijan::judge(&book).unwrap_err().number, robijan::numbers::NOT_WELL_FORMED);
/// robijan::open(&mut book, Terms { accounts: 2, lag: 1, horizon: 1, first: 9_497, change: 0 })?;
/// robijan::judge(&book)?;
/// # Ok::<(), robijan::Refusal>(())
/// ```
pub fn judge(book: &[i64]) -> Result<(), Refusal> {
    told(raw::judge(book), 0, ())
}

/// The next day that an opened book will close; 36,525 when all are closed.
///
/// ```
/// use robijan::Terms;
///
/// let mut book = vec![0; 5_072];
/// robijan::open(&mut book, Terms { accounts: 2, lag: 1, horizon: 1, first: 9_497, change: 0 })?;
/// assert_eq!(robijan::next_day(&book), Some(9_497));
/// # Ok::<(), robijan::Refusal>(())
/// ```
pub fn next_day(book: &[i64]) -> Option<i64> {
    book.get(5).copied()
}

/// The change day of an opened book; 0 for never.
///
/// ```
/// use robijan::Terms;
///
/// let mut book = vec![0; 5_072];
/// robijan::open(&mut book, Terms { accounts: 2, lag: 1, horizon: 1, first: 9_497, change: 9_587 })?;
/// assert_eq!(robijan::change_day(&book), Some(9_587));
/// # Ok::<(), robijan::Refusal>(())
/// ```
pub fn change_day(book: &[i64]) -> Option<i64> {
    book.get(7).copied()
}

/// The MSSL's balance in an opened book, in cents.
///
/// ```
/// use robijan::Terms;
///
/// let mut book = vec![0; 5_072];
/// robijan::open(&mut book, Terms { accounts: 2, lag: 1, horizon: 1, first: 9_497, change: 0 })?;
/// assert_eq!(robijan::mssl_balance(&book), Some(0));
/// # Ok::<(), robijan::Refusal>(())
/// ```
pub fn mssl_balance(book: &[i64]) -> Option<i64> {
    book.get(6).copied()
}

/// The sum of the rounding differences in an opened book: [`Closed::difference`] of each close so far that kept it, in thousandths of a cent.
///
/// ```
/// use robijan::Terms;
///
/// let mut book = vec![0; 5_072];
/// robijan::open(&mut book, Terms { accounts: 2, lag: 1, horizon: 1, first: 9_497, change: 0 })?;
/// assert_eq!(robijan::rounding_differences(&book), Some(0));
/// # Ok::<(), robijan::Refusal>(())
/// ```
pub fn rounding_differences(book: &[i64]) -> Option<i64> {
    book.get(8).copied()
}

/// An account's balance in an opened book, in cents; `None` for an account that the book does not have.
///
/// ```
/// use robijan::Terms;
///
/// let mut book = vec![0; 5_072];
/// robijan::open(&mut book, Terms { accounts: 2, lag: 1, horizon: 1, first: 9_497, change: 0 })?;
/// assert_eq!(robijan::balance(&book, 1), Some(0));
/// assert_eq!(robijan::balance(&book, 2), None);
/// # Ok::<(), robijan::Refusal>(())
/// ```
pub fn balance(book: &[i64], account: usize) -> Option<i64> {
    let accounts = usize::try_from(*book.get(1)?).ok()?;
    match account < accounts.min(32) {
        true => book.get(64 + 8 * account).copied(),
        false => None,
    }
}

/// A row that a close lacks.
#[derive(Clone, Copy, Debug, PartialEq, Eq)]
pub enum Missing {
    Vesting { account: usize, day: i64 },
    Meter { account: usize, day: i64 },
    Ncc { day: i64 },
    Residual { account: usize, day: i64 },
}

impl fmt::Display for Missing {
    fn fmt(&self, f: &mut fmt::Formatter) -> fmt::Result {
        match self {
            Missing::Vesting { account, .. } => write!(f, "account {account}'s vesting row"),
            Missing::Meter { account, .. } => write!(f, "account {account}'s meter row"),
            Missing::Ncc { .. } => write!(f, "the NCC row"),
            Missing::Residual { account, .. } => write!(f, "account {account}'s residual row"),
        }
    }
}

impl Missing {
    /// The day that the row is of.
    pub fn day(self) -> i64 {
        match self {
            Missing::Vesting { day, .. }
            | Missing::Meter { day, .. }
            | Missing::Ncc { day }
            | Missing::Residual { day, .. } => day,
        }
    }
}

/// What a close lacks that was refused with [`numbers::DATUM_ABSENT`] at this position of the book; `None` for a position of no flag.
///
/// ```
/// use robijan::{Missing, Terms};
///
/// let mut book = vec![0; 5_072];
/// robijan::open(&mut book, Terms { accounts: 2, lag: 1, horizon: 1, first: 9_497, change: 0 })?;
/// let refusal = robijan::close(&mut book, &mut [0; 3]).unwrap_err();
/// let missing = robijan::missing(&book, refusal.position);
/// assert_eq!(missing, Some(Missing::Vesting { account: 0, day: 9_497 }));
/// // The words of the first interval, which begins at 80.
/// assert_eq!(robijan::missing(&book, 80 + 4 + 9), Some(Missing::Meter { account: 0, day: 9_497 }));
/// assert_eq!(robijan::missing(&book, 80 + 4 + 24 + 18), Some(Missing::Residual { account: 1, day: 9_496 }));
/// assert_eq!(robijan::missing(&book, 80 + 52 + 1), Some(Missing::Ncc { day: 9_496 }));
/// assert_eq!(robijan::missing(&book, 80), None);
/// # Ok::<(), robijan::Refusal>(())
/// ```
pub fn missing(book: &[i64], position: u64) -> Option<Missing> {
    let accounts = usize::try_from(*book.get(1)?).ok()?.min(32);
    let (lag, next) = (*book.get(2)?, *book.get(5)?);
    let settled = next.checked_sub(lag)?;
    let first_interval = 64 + 8 * accounts;
    let word = usize::try_from(position)
        .ok()?
        .checked_sub(first_interval)?
        % (4 + 24 * accounts);
    if word == 1 {
        return Some(Missing::Ncc { day: settled });
    }
    let account = word.checked_sub(4)? / 24;
    match (word - 4) % 24 {
        0 => Some(Missing::Vesting { account, day: next }),
        9 => Some(Missing::Meter { account, day: next }),
        18 => Some(Missing::Residual {
            account,
            day: settled,
        }),
        _ => None,
    }
}

/// The reference price V of 1 to 4 facilities, of these prices and injections.
///
/// ```
/// assert_eq!(robijan::price(&[10_000, 10_001], &[3, 1]), Ok(10_000));
/// assert_eq!(robijan::price(&[101, 104], &[-5, 0]), Ok(103));
/// ```
pub fn price(mep: &[i64], ieq: &[i64]) -> Result<i64, Refusal> {
    let answer = raw::price(mep, ieq);
    told(answer.number, 0, answer.price)
}

/// Writes each account's share of the residual load, in kWh, by the first edition: rounded down; words beyond are kept.
///
/// ```
/// let mut shares = [-1; 4];
/// robijan::share(300, &[100, 200, 300], &mut shares)?;
/// assert_eq!(shares, [50, 100, 150, -1]);
/// # Ok::<(), robijan::Refusal>(())
/// ```
pub fn share(residual: i64, uegq: &[i64], output: &mut [i64]) -> Result<(), Refusal> {
    told(raw::share(residual, uegq, output), 0, ())
}

/// The same by the second edition, whose shares use every kWh.
///
/// ```
/// let mut shares = [-1; 4];
/// robijan::second_share(2, &[1, 1, 1], &mut shares)?;
/// assert_eq!(shares, [0, 1, 1, -1]);
/// robijan::share(2, &[1, 1, 1], &mut shares)?;
/// assert_eq!(shares, [0, 0, 0, -1]);
/// # Ok::<(), robijan::Refusal>(())
/// ```
pub fn second_share(residual: i64, uegq: &[i64], output: &mut [i64]) -> Result<(), Refusal> {
    told(raw::second_share(residual, uegq, output), 0, ())
}

/// Both parts of a share.
///
/// ```
/// let parts = robijan::tranches(150, 400, 500)?;
/// assert_eq!((parts.first, parts.second), (100, 50));
/// # Ok::<(), robijan::Refusal>(())
/// ```
pub fn tranches(rvq: i64, bvq: i64, mq: i64) -> Result<Tranches, Refusal> {
    let answer = raw::tranche(rvq, bvq, mq);
    let tranches = Tranches {
        first: answer.first,
        second: answer.second,
    };
    told(answer.number, 0, tranches)
}

/// Does a forecaster's profile of a day, 48 quantities, keep its limits? The intervals at indices 0 and 1, 2 and 3, .. are a Gas Balancing Period
/// each; its kWh may be from 80 to 125 per cent of `contracted`, both ends included, and the day's must be `total`. `contracted` is the daily
/// contracted quantity in kWh for one such period, 0 to 10,000,000; `total` is 0 to 480,000,000. A list not of 48, or a figure out of range, is
/// [`numbers::OUTSIDE_RANGE`]; a total that no 48 quantities could have within the limits [`numbers::TOTAL_IMPOSSIBLE`].
///
/// ```
/// let mut profile = [50; 48];
/// assert_eq!(robijan::keeps_limits(&profile, 2_400, 100), Ok(true));
/// profile[0] = 20;
/// profile[2] = 80;
/// assert_eq!(robijan::keeps_limits(&profile, 2_400, 100), Ok(false));
/// let refusal = robijan::keeps_limits(&profile, 3_001, 100).unwrap_err();
/// assert_eq!(refusal.number, robijan::numbers::TOTAL_IMPOSSIBLE);
/// ```
pub fn keeps_limits(profile: &[i64], total: i64, contracted: i64) -> Result<bool, Refusal> {
    let answer = raw::profile(profile, total, contracted);
    told(answer.number, 0, answer.keeps == 1)
}

/// The bytes of an amount in packed decimal: 15 digits, most significant first, two a byte, and a last half byte for the sign, hex C for zero and
/// above, hex D below zero.
pub const PACKED_FIELD_BYTES: usize = 8;

/// Writes a statement of 2 to 33 amounts as packed decimal, a field of [`PACKED_FIELD_BYTES`] an amount; bytes beyond are kept. Every statement
/// that [`close`] writes fits; an amount of more than 15 digits is [`numbers::OUTSIDE_RANGE`].
///
/// ```
/// use robijan::PACKED_FIELD_BYTES;
///
/// let mut fields = [0xFF; 2 * PACKED_FIELD_BYTES + 1];
/// robijan::pack(&[2_400, -1], &mut fields)?;
/// assert_eq!(fields, [0, 0, 0, 0, 0, 0x02, 0x40, 0x0C, 0, 0, 0, 0, 0, 0, 0, 0x1D, 0xFF]);
///
/// let refusal = robijan::pack(&[1_000_000_000_000_000, -1], &mut fields).unwrap_err();
/// assert_eq!(refusal.number, robijan::numbers::OUTSIDE_RANGE);
/// # Ok::<(), robijan::Refusal>(())
/// ```
pub fn pack(amounts: &[i64], output: &mut [u8]) -> Result<(), Refusal> {
    told(raw::pack(amounts, output), 0, ())
}

/// Reads such fields back and says how many amounts were written; words beyond are kept. Only one field stands for each amount: zero with D is
/// [`numbers::PACKED_FIELD_WRONG`], as a wrong digit, another sign or a cut last field is.
///
/// ```
/// let mut fields = [0, 0, 0, 0, 0, 0x02, 0x40, 0x0C, 0, 0, 0, 0, 0, 0, 0, 0x1D];
/// let mut amounts = [7; 3];
/// assert_eq!(robijan::unpack(&fields, &mut amounts), Ok(2));
/// assert_eq!(amounts, [2_400, -1, 7]);
///
/// fields[15] = 0x0D;
/// let refusal = robijan::unpack(&fields, &mut amounts).unwrap_err();
/// assert_eq!(refusal.to_string(), "16: packed field wrong or cut, at byte 15");
/// ```
pub fn unpack(fields: &[u8], output: &mut [i64]) -> Result<usize, Refusal> {
    let answer = raw::unpack(fields, output);
    told(answer.number, answer.position, answer.count as usize)
}

/// The date of a day.
///
/// ```
/// let date = robijan::date(9_497)?;
/// assert_eq!((date.year, date.month, date.day), (2026, 1, 1));
/// assert_eq!(robijan::date(36_525).unwrap_err().number, robijan::numbers::NO_SUCH_DATE);
/// # Ok::<(), robijan::Refusal>(())
/// ```
pub fn date(day: i64) -> Result<Date, Refusal> {
    let answer = raw::date(day);
    let date = Date {
        year: answer.year,
        month: answer.month,
        day: answer.day,
    };
    told(answer.number, 0, date)
}

fn told_day(answer: raw::Day) -> Result<i64, Refusal> {
    told(answer.number, 0, answer.day as i64)
}

/// The day of a date.
///
/// ```
/// assert_eq!(robijan::day(2026, 1, 1), Ok(9_497));
/// assert!(robijan::day(2026, 2, 29).is_err());
/// ```
pub fn day(year: i64, month: i64, day: i64) -> Result<i64, Refusal> {
    told_day(raw::day(year, month, day))
}

/// The weekday of a day: 0 for Saturday, 6 for Friday.
///
/// ```
/// // 1 January 2026 is a Thursday.
/// assert_eq!(robijan::weekday(9_497), Ok(5));
/// ```
pub fn weekday(day: i64) -> Result<u64, Refusal> {
    let answer = raw::weekday(day);
    told(answer.number, 0, answer.weekday)
}

/// The day 75 days later.
///
/// ```
/// assert_eq!(robijan::statement_day(9_497), Ok(9_572));
/// assert_eq!(robijan::statement_day(36_450).unwrap_err().number, robijan::numbers::PAST_LAST_DAY);
/// ```
pub fn statement_day(day: i64) -> Result<i64, Refusal> {
    told_day(raw::statement_day(day))
}

/// Is this day a Monday to Friday that is no holiday? Holidays are days, strictly ascending.
///
/// ```
/// assert_eq!(robijan::is_business_day(9_497, &[]), Ok(true));
/// assert_eq!(robijan::is_business_day(9_497, &[9_497]), Ok(false));
/// assert_eq!(robijan::is_business_day(9_497, &[5, 5]).unwrap_err().number, robijan::numbers::BAD_HOLIDAYS);
/// ```
pub fn is_business_day(day: i64, holidays: &[i64]) -> Result<bool, Refusal> {
    let answer = raw::business_day(day, holidays);
    told(answer.number, 0, answer.business == 1)
}

/// The tenth business day after a day's statement day.
///
/// ```
/// let first = robijan::day(2026, 1, 1)?;
/// assert_eq!(robijan::final_statement(first, &[]), robijan::day(2026, 3, 31));
/// let holiday = robijan::day(2026, 3, 20)?;
/// assert_eq!(robijan::final_statement(first, &[holiday]), robijan::day(2026, 4, 1));
/// # Ok::<(), robijan::Refusal>(())
/// ```
pub fn final_statement(day: i64, holidays: &[i64]) -> Result<i64, Refusal> {
    told_day(raw::final_statement(day, holidays))
}

/// The day on which a month's residual data fall due.
///
/// ```
/// assert_eq!(robijan::residual_due(2026, 1, &[]), robijan::day(2026, 3, 11));
/// ```
pub fn residual_due(year: i64, month: i64, holidays: &[i64]) -> Result<i64, Refusal> {
    told_day(raw::residual_due(year, month, holidays))
}
