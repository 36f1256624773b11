//! The numbers that calls return.

pub const ACCEPTED: u64 = 0;
/// A parameter, or a list's length, outside its range; MEP and IEQ lists of unequal length.
pub const OUTSIDE_RANGE: u64 = 1;
/// An opening got fewer words than the book takes.
pub const WORDS_TOO_FEW: u64 = 2;
/// The words lent are not a well-formed book.
pub const NOT_WELL_FORMED: u64 = 3;
/// The file ends before or within a field; its first byte.
pub const FIELD_NOT_WHOLE: u64 = 4;
/// An account, count or value of a file is out of range; its first byte.
pub const FIELD_OUT_OF_RANGE: u64 = 5;
/// A day that takes no such row, or none any more; its first byte.
pub const DAY_NOT_OPEN: u64 = 6;
/// A row was given earlier in the same section; its day's first byte.
pub const ROW_REPEATED: u64 = 7;
/// Bytes follow the last section; the first one.
pub const BYTES_AFTER_END: u64 = 8;
/// 31 December 2099 is closed.
pub const BOOK_FINISHED: u64 = 9;
/// The list to be written is too short.
pub const OUTPUT_TOO_SHORT: u64 = 10;
/// A datum that the close needs was not given; the index of its flag in the book.
pub const DATUM_ABSENT: u64 = 11;
/// No such date or month in 2000 to 2099, or day outside 0 to 36,524.
pub const NO_SUCH_DATE: u64 = 12;
/// Holidays are not strictly ascending days.
pub const BAD_HOLIDAYS: u64 = 13;
/// The day asked for is past 31 December 2099.
pub const PAST_LAST_DAY: u64 = 14;
/// No profile could have this total within the limits.
pub const TOTAL_IMPOSSIBLE: u64 = 15;
/// A digit or the sign of a packed field is wrong, or the last field is cut; its byte, or the cut field's first.
pub const PACKED_FIELD_WRONG: u64 = 16;

/// A number in words.
pub fn text(number: u64) -> &'static str {
    match number {
        ACCEPTED => "accepted",
        OUTSIDE_RANGE => "parameter or length outside its range",
        WORDS_TOO_FEW => "fewer words than the book takes",
        NOT_WELL_FORMED => "not a well-formed book",
        FIELD_NOT_WHOLE => "field not whole",
        FIELD_OUT_OF_RANGE => "account, count or value out of range",
        DAY_NOT_OPEN => "day not open",
        ROW_REPEATED => "row repeated in its section",
        BYTES_AFTER_END => "bytes after the last section",
        BOOK_FINISHED => "book finished",
        OUTPUT_TOO_SHORT => "output too short",
        DATUM_ABSENT => "datum absent",
        NO_SUCH_DATE => "no such date",
        BAD_HOLIDAYS => "holidays not strictly ascending days",
        PAST_LAST_DAY => "past 31 December 2099",
        TOTAL_IMPOSSIBLE => "total impossible within the limits",
        PACKED_FIELD_WRONG => "packed field wrong or cut",
        _ => "unknown number",
    }
}
