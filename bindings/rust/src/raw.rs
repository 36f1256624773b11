//! The C functions of `librobijan.a`, each behind a safe function that answers as the C function does: a Rust slice is all that they ask of
//! a pointer and a length. `include/robijan.h` says what each answers. No proof reaches these declarations; `tests/run`
//! (tests of each number and figure, the example) and the comparison with the second implementation (`bench/compare`) go through them.

/// An opening's terms.
#[repr(C)]
#[derive(Clone, Copy, Debug, PartialEq, Eq)]
pub struct Terms {
    /// 1 to 32, numbered from 0.
    pub accounts: usize,
    /// 1 to 75: after how many days the uncovered load of a day is settled (the market rule says 75).
    pub lag: usize,
    /// 1 to 92: how many days, from the next one to close, rows may be given for.
    pub horizon: usize,
    /// 9,497 (1 January 2026) to 36,524: the first day to close.
    pub first: usize,
    /// 0, for never, or 9,497 to 36,524, before `first` too: from which day on the uncovered load of a day is shared by the second edition. No call
    /// changes it later.
    pub change: usize,
}

/// Of open, submit and close; day, count and difference are a close's.
#[repr(C)]
#[derive(Clone, Copy, Debug, PartialEq, Eq)]
pub struct Answer {
    pub number: u64,
    pub position: u64,
    pub day: u64,
    pub count: u64,
    pub difference: i64,
}

#[repr(C)]
#[derive(Clone, Copy, Debug, PartialEq, Eq)]
pub struct BookSize {
    pub number: u64,
    pub words: u64,
}

#[repr(C)]
#[derive(Clone, Copy, Debug, PartialEq, Eq)]
pub struct ReferencePrice {
    pub number: u64,
    pub price: i64,
}

#[repr(C)]
#[derive(Clone, Copy, Debug, PartialEq, Eq)]
pub struct Tranches {
    pub number: u64,
    pub first: i64,
    pub second: i64,
}

#[repr(C)]
#[derive(Clone, Copy, Debug, PartialEq, Eq)]
pub struct Profile {
    pub number: u64,
    pub keeps: u64,
}

#[repr(C)]
#[derive(Clone, Copy, Debug, PartialEq, Eq)]
pub struct Unpacked {
    pub number: u64,
    pub position: u64,
    pub count: u64,
}

#[repr(C)]
#[derive(Clone, Copy, Debug, PartialEq, Eq)]
pub struct Date {
    pub number: u64,
    pub year: u64,
    pub month: u64,
    pub day: u64,
}

#[repr(C)]
#[derive(Clone, Copy, Debug, PartialEq, Eq)]
pub struct Day {
    pub number: u64,
    pub day: u64,
}

#[repr(C)]
#[derive(Clone, Copy, Debug, PartialEq, Eq)]
pub struct Weekday {
    pub number: u64,
    pub weekday: u64,
}

#[repr(C)]
#[derive(Clone, Copy, Debug, PartialEq, Eq)]
pub struct Business {
    pub number: u64,
    pub business: u64,
}

mod library {
    use super::{
        Answer, BookSize, Business, Date, Day, Profile, ReferencePrice, Terms, Tranches, Unpacked,
        Weekday,
    };

    extern "C" {
        pub fn robijan_open(book: *mut i64, book_words: usize, terms: Terms) -> Answer;
        pub fn robijan_submit(
            book: *mut i64,
            book_words: usize,
            file: *const u8,
            file_bytes: usize,
        ) -> Answer;
        pub fn robijan_close(
            book: *mut i64,
            book_words: usize,
            statement: *mut i64,
            statement_words: usize,
        ) -> Answer;
        pub fn robijan_judge(book: *const i64, book_words: usize) -> u64;
        pub fn robijan_book_size(terms: Terms) -> BookSize;
        pub fn robijan_price(
            mep: *const i64,
            meps: usize,
            ieq: *const i64,
            ieqs: usize,
        ) -> ReferencePrice;
        pub fn robijan_share(
            residual: i64,
            uegq: *const i64,
            uegqs: usize,
            output: *mut i64,
            output_words: usize,
        ) -> u64;
        pub fn robijan_second_share(
            residual: i64,
            uegq: *const i64,
            uegqs: usize,
            output: *mut i64,
            output_words: usize,
        ) -> u64;
        pub fn robijan_tranche(rvq: i64, bvq: i64, mq: i64) -> Tranches;
        pub fn robijan_profile(
            profile: *const i64,
            intervals: usize,
            total: i64,
            contracted: i64,
        ) -> Profile;
        pub fn robijan_pack(
            amounts: *const i64,
            count: usize,
            output: *mut u8,
            output_bytes: usize,
        ) -> u64;
        pub fn robijan_unpack(
            fields: *const u8,
            field_bytes: usize,
            output: *mut i64,
            output_words: usize,
        ) -> Unpacked;
        pub fn robijan_date(day: i64) -> Date;
        pub fn robijan_day(year: i64, month: i64, day: i64) -> Day;
        pub fn robijan_weekday(day: i64) -> Weekday;
        pub fn robijan_statement_day(day: i64) -> Day;
        pub fn robijan_business_day(day: i64, holidays: *const i64, listed: usize) -> Business;
        pub fn robijan_final_statement(day: i64, holidays: *const i64, listed: usize) -> Day;
        pub fn robijan_residual_due(
            year: i64,
            month: i64,
            holidays: *const i64,
            listed: usize,
        ) -> Day;
    }
}

pub fn open(book: &mut [i64], terms: Terms) -> Answer {
    unsafe { library::robijan_open(book.as_mut_ptr(), book.len(), terms) }
}

pub fn submit(book: &mut [i64], file: &[u8]) -> Answer {
    unsafe { library::robijan_submit(book.as_mut_ptr(), book.len(), file.as_ptr(), file.len()) }
}

pub fn close(book: &mut [i64], statement: &mut [i64]) -> Answer {
    unsafe {
        library::robijan_close(
            book.as_mut_ptr(),
            book.len(),
            statement.as_mut_ptr(),
            statement.len(),
        )
    }
}

pub fn judge(book: &[i64]) -> u64 {
    unsafe { library::robijan_judge(book.as_ptr(), book.len()) }
}

pub fn book_size(terms: Terms) -> BookSize {
    unsafe { library::robijan_book_size(terms) }
}

pub fn price(mep: &[i64], ieq: &[i64]) -> ReferencePrice {
    unsafe { library::robijan_price(mep.as_ptr(), mep.len(), ieq.as_ptr(), ieq.len()) }
}

pub fn share(residual: i64, uegq: &[i64], output: &mut [i64]) -> u64 {
    unsafe {
        library::robijan_share(
            residual,
            uegq.as_ptr(),
            uegq.len(),
            output.as_mut_ptr(),
            output.len(),
        )
    }
}

pub fn second_share(residual: i64, uegq: &[i64], output: &mut [i64]) -> u64 {
    unsafe {
        library::robijan_second_share(
            residual,
            uegq.as_ptr(),
            uegq.len(),
            output.as_mut_ptr(),
            output.len(),
        )
    }
}

pub fn tranche(rvq: i64, bvq: i64, mq: i64) -> Tranches {
    unsafe { library::robijan_tranche(rvq, bvq, mq) }
}

pub fn profile(profile: &[i64], total: i64, contracted: i64) -> Profile {
    unsafe { library::robijan_profile(profile.as_ptr(), profile.len(), total, contracted) }
}

pub fn pack(amounts: &[i64], output: &mut [u8]) -> u64 {
    unsafe {
        library::robijan_pack(
            amounts.as_ptr(),
            amounts.len(),
            output.as_mut_ptr(),
            output.len(),
        )
    }
}

pub fn unpack(fields: &[u8], output: &mut [i64]) -> Unpacked {
    unsafe {
        library::robijan_unpack(
            fields.as_ptr(),
            fields.len(),
            output.as_mut_ptr(),
            output.len(),
        )
    }
}

pub fn date(day: i64) -> Date {
    unsafe { library::robijan_date(day) }
}

pub fn day(year: i64, month: i64, day: i64) -> Day {
    unsafe { library::robijan_day(year, month, day) }
}

pub fn weekday(day: i64) -> Weekday {
    unsafe { library::robijan_weekday(day) }
}

pub fn statement_day(day: i64) -> Day {
    unsafe { library::robijan_statement_day(day) }
}

pub fn business_day(day: i64, holidays: &[i64]) -> Business {
    unsafe { library::robijan_business_day(day, holidays.as_ptr(), holidays.len()) }
}

pub fn final_statement(day: i64, holidays: &[i64]) -> Day {
    unsafe { library::robijan_final_statement(day, holidays.as_ptr(), holidays.len()) }
}

pub fn residual_due(year: i64, month: i64, holidays: &[i64]) -> Day {
    unsafe { library::robijan_residual_due(year, month, holidays.as_ptr(), holidays.len()) }
}
