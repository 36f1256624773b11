//! The numbers that calls return.

pub const ACCEPTED: u8 = 0;
/// A parameter or a list's length outside its range; lists of unequal length.
pub const BAD_PARAMETER: u8 = 1;
/// Opening: fewer words than the size.
pub const TOO_FEW_WORDS: u8 = 2;
pub const NOT_WELL_FORMED: u8 = 3;
/// A field or count of a file is cut short.
pub const NOT_WHOLE: u8 = 4;
/// An account, count or value of a file is out of range.
pub const OUT_OF_RANGE: u8 = 5;
pub const DAY_NOT_OPEN: u8 = 6;
pub const ROW_REPEATED: u8 = 7;
pub const TRAILING_BYTES: u8 = 8;
/// The book's next day is past the last day.
pub const FINISHED: u8 = 9;
pub const OUTPUT_TOO_SHORT: u8 = 10;
pub const DATUM_ABSENT: u8 = 11;
pub const NO_SUCH_DATE: u8 = 12;
pub const BAD_HOLIDAYS: u8 = 13;
pub const PAST_LAST_DAY: u8 = 14;
/// No profile that keeps the limits adds to the day's total.
pub const IMPOSSIBLE_TOTAL: u8 = 15;
/// A packed field with a wrong digit or sign, of a negative zero, or cut short.
pub const BAD_FIELD: u8 = 16;

/// The answer of an opening, a submission or a close.
#[derive(Clone, Copy, Debug, PartialEq, Eq)]
pub struct Answer {
    pub number: u8,
    /// A byte of the file or a word of the book; 0 unless the number names one.
    pub position: usize,
    /// The day closed; 0 unless a close was accepted.
    pub day: i64,
    /// The residuals settled; 0 unless a close was accepted.
    pub residual_count: i64,
    /// The day's rounding difference, in thousandths of a cent; 0 unless a close
    /// was accepted.
    pub difference: i64,
}

impl Answer {
    /// Of an accepted opening or submission.
    pub const ACCEPTED: Answer = Answer::at(ACCEPTED, 0);

    /// A number and its position, the other figures being 0.
    pub const fn at(number: u8, position: usize) -> Answer {
        Answer {
            number,
            position,
            day: 0,
            residual_count: 0,
            difference: 0,
        }
    }

    /// Of an accepted close.
    pub const fn closed(day: i64, residual_count: i64, difference: i64) -> Answer {
        Answer {
            day,
            residual_count,
            difference,
            ..Answer::ACCEPTED
        }
    }
}
