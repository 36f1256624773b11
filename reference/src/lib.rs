//! A second implementation of the residual vesting settlement book: plain,
//! direct Rust, one module for each section of the specification.
//!
//! Every call is total: any slice of any length and content is answered with a
//! number, and a refusal changes no lent word.
//!
//! `book::Opening` has an opening's arguments, `numbers::Answer` what open,
//! submit and close answer, `layout::Layout` where a book's words stand.
//!
//! `history` tells a list of calls from their arguments and answers alone,
//! `generate` makes cases from a fixed seed, `checker` runs one against the
//! other, and `variant` holds the wrong books, rounding differences,
//! editions, shares, reports, calendars, profile checks, packed fields and programs
//! which the cases have to show. `frames` and `player` are the form of the test program `replay`'s input
//! and output, `stored` has all the cases that are kept as files.

pub mod book;
pub mod calendar;
pub mod checker;
pub mod close;
pub mod day_amount;
pub mod difference;
pub mod edition;
pub mod frames;
pub mod generate;
pub mod history;
pub mod layout;
pub mod numbers;
pub mod packed;
pub mod player;
pub mod profile;
pub mod reference_price;
pub mod report;
pub mod settle;
pub mod share;
pub mod stored;
pub mod submission;
pub mod tranche;
pub mod units;
pub mod variant;
mod wrong_difference;
mod wrong_edition;
pub mod wrong_packed;
pub mod wrong_profile;
pub mod wrong_report;
pub mod wrong_share;
