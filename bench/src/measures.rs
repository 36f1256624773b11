//! Each call timed beside the second implementation, and beside a copy of the memory that it goes through.

use crate::large::{self, Rows, Sections, Terms};
use crate::timing::{interleaved, timed, Times};
use crate::{plain, robijan};
use ::robijan::PACKED_FIELD_BYTES;
use reference::book::{open, well_formed};
use reference::calendar;
use reference::close::close;
use reference::generate::packed::{statement, unpack_case, PackCase, UnpackCase};
use reference::generate::profiles::{keeping_profile, profile_case, ProfileCase};
use reference::generate::Rng;
use reference::packed::{pack, unpack};
use reference::profile::profile;
use reference::share::{second_share, share};
use reference::submission::submit;
use std::cell::RefCell;
use std::hint::black_box;
use std::time::Duration;

/// A call's times and those of the others on the same input, and the bytes that it goes through.
pub struct Measured {
    pub name: String,
    pub ours: Times,
    pub others: Vec<(&'static str, Times)>,
    pub bytes: usize,
}

impl Measured {
    /// Of the times of Robijan and then of the others.
    fn of(name: &str, mut times: Vec<Times>, others: &[&'static str], bytes: usize) -> Measured {
        let rest = times.split_off(1);
        Measured {
            name: name.to_string(),
            ours: times.remove(0),
            others: others.iter().copied().zip(rest).collect(),
            bytes,
        }
    }
}

/// A book's size, and the fastest judge and close of it, in seconds.
pub struct Grown {
    pub accounts: usize,
    pub horizon: usize,
    pub words: usize,
    pub judge: f64,
    pub close: f64,
}

/// Calls timed as one, where a single one is too short.
const BATCH: usize = 1_000;

/// Rounds: more where a call is short.
fn rounds(words: usize) -> usize {
    match words {
        0..=100_000 => 2_001,
        100_001..=500_000 => 1_001,
        500_001..=2_000_000 => 401,
        _ => 151,
    }
}

/// A copy of these words into others, timed.
fn copying<'a>(from: &'a [i64], to: &'a RefCell<Vec<i64>>) -> impl FnMut() -> Duration + 'a {
    move || {
        let to = &mut to.borrow_mut()[..from.len()];
        timed(|| black_box(to).copy_from_slice(black_box(from)))
    }
}

/// The judge of Robijan, that of the second implementation, and a plain one.
pub fn judge(name: &str, book: &[i64]) -> Measured {
    let words = book.len();
    let copy = RefCell::new(book.to_vec());
    let times = interleaved(
        rounds(words),
        &mut [
            &mut || timed(|| assert_eq!(robijan::judge(black_box(book)), 0)),
            &mut || timed(|| assert!(well_formed(black_box(book)))),
            &mut || timed(|| assert!(plain::well_formed(black_box(book)))),
            &mut copying(book, &copy),
        ],
    );
    Measured::of(
        name,
        times,
        &["reference", "plain judge", "copy"],
        8 * words,
    )
}

/// An opening in words that held something else.
pub fn opening(name: &str, terms: Terms) -> Measured {
    let words = terms.words();
    let (lent, copy) = (RefCell::new(vec![7; words]), RefCell::new(vec![7; words]));
    let from = vec![5; words];
    let times = interleaved(
        rounds(words),
        &mut [
            &mut || {
                let book = &mut lent.borrow_mut()[..];
                timed(|| {
                    let told = robijan::open(black_box(book), terms.opening());
                    assert_eq!(told.number, 0);
                })
            },
            &mut || {
                let book = &mut lent.borrow_mut()[..];
                timed(|| {
                    let answer = open(black_box(book), terms.reference());
                    assert_eq!(answer.number, 0);
                })
            },
            &mut copying(&from, &copy),
        ],
    );
    Measured::of(name, times, &["reference", "copy"], 8 * words)
}

/// A submission that is accepted, each time to the same book, in the same words.
pub fn submission(name: &str, book: &[i64], rng: &mut Rng, sections: Sections) -> Measured {
    let file = &large::file(rng, book[1] as usize, sections)[..];
    let through = book.len() + file.len() / 8;
    let (lent, copy) = (RefCell::new(book.to_vec()), RefCell::new(vec![0; through]));
    let from = vec![5; through];
    let times = interleaved(
        rounds(through),
        &mut [
            &mut || {
                let book = &mut lent.borrow_mut()[..];
                timed(|| {
                    let told = robijan::submit(black_box(book), black_box(file));
                    assert_eq!(told.number, 0);
                })
            },
            &mut || {
                let book = &mut lent.borrow_mut()[..];
                timed(|| {
                    let answer = submit(black_box(book), black_box(file));
                    assert_eq!(answer.number, 0);
                })
            },
            &mut copying(&from, &copy),
        ],
    );
    Measured::of(name, times, &["reference", "copy"], 8 * through)
}

/// A close that is accepted, of the same words; what it changed is restored outside the timed part.
pub fn closing(name: &str, book: &[i64]) -> Measured {
    let (words, accounts) = (book.len(), book[1] as usize);
    // Balances, the rounding difference, the next day, and the slot of the day settled, which is the first one.
    let changed = 64 + 8 * accounts + 48 * (4 + 24 * accounts);
    let (lent, copy) = (RefCell::new(book.to_vec()), RefCell::new(vec![0; words]));
    let restored = || {
        let mut lent = lent.borrow_mut();
        lent[..changed].copy_from_slice(&book[..changed]);
        lent
    };
    let (mut told, mut stated) = (vec![0; accounts + 1], vec![0; accounts + 1]);
    let times = interleaved(
        rounds(words),
        &mut [
            &mut || {
                let book = &mut restored()[..];
                timed(|| {
                    let told = robijan::close(black_box(book), black_box(&mut told));
                    assert_eq!(told.number, 0);
                })
            },
            &mut || {
                let book = &mut restored()[..];
                timed(|| {
                    let answer = close(black_box(book), black_box(&mut stated));
                    assert_eq!(answer.number, 0);
                })
            },
            &mut copying(book, &copy),
        ],
    );
    assert!(told == stated);
    Measured::of(name, times, &["reference", "copy"], 8 * words)
}

/// Shares among so many accounts, by either edition, of as many residual loads as a batch has.
pub fn sharing(rng: &mut Rng, accounts: usize) -> [Measured; 2] {
    let uegq: Vec<i64> = (0..accounts).map(|_| rng.between(0, 10_000_000)).collect();
    let most = 10_000_000 * accounts as i64;
    let loads: Vec<i64> = (0..BATCH).map(|_| rng.between(-most / 8, most)).collect();
    [
        sharing_by(
            &format!("share among {accounts}"),
            robijan::share,
            share,
            &uegq,
            &loads,
        ),
        sharing_by(
            &format!("share among {accounts}, second edition"),
            robijan::second_share,
            second_share,
            &uegq,
            &loads,
        ),
    ]
}

fn sharing_by(
    name: &str,
    call: impl Fn(i64, &[i64], &mut [i64]) -> u64,
    reference: impl Fn(i64, &[i64], &mut [i64]) -> u8,
    uegq: &[i64],
    loads: &[i64],
) -> Measured {
    let accounts = uegq.len();
    let (mut ours, mut theirs) = (vec![0; accounts], vec![0; accounts]);
    let times = interleaved(
        501,
        &mut [
            &mut || {
                timed(|| {
                    for &load in loads {
                        let output = black_box(&mut ours);
                        assert_eq!(call(black_box(load), black_box(uegq), output), 0);
                    }
                })
            },
            &mut || {
                timed(|| {
                    for &load in loads {
                        let output = black_box(&mut theirs);
                        assert_eq!(reference(black_box(load), black_box(uegq), output), 0);
                    }
                })
            },
        ],
    );
    assert!(ours == theirs);
    Measured::of(name, times, &["reference"], 16 * accounts * BATCH)
}

/// Profiles that keep the limits, and profiles of every answer.
pub fn profiles(rng: &mut Rng) -> [Measured; 2] {
    let keeping: Vec<ProfileCase> = (0..BATCH)
        .map(|_| {
            let contracted = rng.between(0, 10_000_000);
            keeping_profile(rng, contracted)
        })
        .collect();
    let any: Vec<ProfileCase> = (0..BATCH).map(|_| profile_case(rng)).collect();
    [
        checking("profile that keeps the limits", &keeping),
        checking("profile, every answer", &any),
    ]
}

fn checking(name: &str, cases: &[ProfileCase]) -> Measured {
    answering(
        name,
        cases,
        |case| {
            let told = robijan::profile(&case.quantities, case.total, case.contracted);
            told.number + told.keeps
        },
        |case| {
            let answer = profile(&case.quantities, case.total, case.contracted);
            u64::from(answer.number) + u64::from(answer.keeps)
        },
    )
}

/// A call of each case; the figures that the calls answer, added up, are alike.
fn answering<C>(
    name: &str,
    cases: &[C],
    mut call: impl FnMut(&C) -> u64,
    mut reference: impl FnMut(&C) -> u64,
) -> Measured {
    let (mut ours, mut theirs) = (0, 0);
    let times = interleaved(
        501,
        &mut [
            &mut || timed(|| ours = cases.iter().map(|case| call(black_box(case))).sum()),
            &mut || timed(|| theirs = cases.iter().map(|case| reference(black_box(case))).sum()),
        ],
    );
    assert_eq!(ours, theirs);
    Measured::of(name, times, &["reference"], 0)
}

/// Statements of so many amounts written in packed decimal, and read back.
pub fn packed(rng: &mut Rng, amounts: usize) -> [Measured; 2] {
    let statements: Vec<PackCase> = (0..BATCH)
        .map(|_| PackCase {
            amounts: statement(rng, amounts),
            output: vec![0; PACKED_FIELD_BYTES * amounts],
        })
        .collect();
    let fields: Vec<UnpackCase> = statements
        .iter()
        .map(|case| {
            let mut fields = case.output.clone();
            assert_eq!(pack(&case.amounts, &mut fields), 0);
            UnpackCase {
                fields,
                output: vec![0; amounts],
            }
        })
        .collect();
    [
        packing(&format!("pack {amounts} amounts"), &statements),
        unpacking(&format!("unpack {amounts} fields"), &fields),
    ]
}

/// Fields of every answer.
pub fn any_packed(rng: &mut Rng) -> Measured {
    let any: Vec<UnpackCase> = (0..BATCH).map(|_| unpack_case(rng)).collect();
    unpacking("unpack, every answer", &any)
}

fn packing(name: &str, cases: &[PackCase]) -> Measured {
    let [mut ours, mut theirs] = outputs(cases.iter().map(|case| case.output.len()));
    let measured = answering(
        name,
        cases,
        |case| {
            let output = &mut ours[..case.output.len()];
            robijan::pack(&case.amounts, black_box(output))
        },
        |case| {
            let output = &mut theirs[..case.output.len()];
            pack(&case.amounts, black_box(output)).into()
        },
    );
    assert!(ours == theirs);
    measured
}

fn unpacking(name: &str, cases: &[UnpackCase]) -> Measured {
    let [mut ours, mut theirs] = outputs(cases.iter().map(|case| case.output.len()));
    let measured = answering(
        name,
        cases,
        |case| {
            let output = &mut ours[..case.output.len()];
            let told = robijan::unpack(&case.fields, black_box(output));
            told.number + told.position + told.count
        },
        |case| {
            let output = &mut theirs[..case.output.len()];
            let answer = unpack(&case.fields, black_box(output));
            u64::from(answer.number) + (answer.position + answer.count) as u64
        },
    );
    assert!(ours == theirs);
    measured
}

/// Two lists to be written, each as long as the longest of these lengths.
fn outputs<T: Clone + Default>(lengths: impl Iterator<Item = usize>) -> [Vec<T>; 2] {
    let longest = vec![T::default(); lengths.max().unwrap_or(0)];
    [longest.clone(), longest]
}

/// Final statement days, with a list of so many holidays, and dates.
pub fn days(rng: &mut Rng, listed: usize) -> [Measured; 2] {
    let mut holidays: Vec<i64> = (0..listed).map(|_| rng.between(0, 36_524)).collect();
    holidays.sort_unstable();
    holidays.dedup();
    let days: Vec<i64> = (0..BATCH).map(|_| rng.between(0, 36_400)).collect();
    let statements = interleaved(
        501,
        &mut [
            &mut || {
                timed(|| {
                    for &day in &days {
                        let told = robijan::final_statement(black_box(day), black_box(&holidays));
                        assert_eq!(told.number, 0);
                    }
                })
            },
            &mut || {
                timed(|| {
                    for &day in &days {
                        let answer =
                            calendar::final_statement(black_box(day), black_box(&holidays));
                        assert_eq!(answer.number, 0);
                    }
                })
            },
        ],
    );
    let dates = interleaved(
        501,
        &mut [
            &mut || {
                timed(|| {
                    for &day in &days {
                        let date = robijan::date(black_box(day));
                        let (year, month) = (date.year as i64, date.month as i64);
                        let back = robijan::day(year, month, date.day as i64);
                        assert_eq!(back.day, day as u64);
                    }
                })
            },
            &mut || {
                timed(|| {
                    for &day in &days {
                        let date = calendar::day_to_date(black_box(day));
                        let back = calendar::date_to_day(date.year, date.month, date.day);
                        assert_eq!(back.day, day);
                    }
                })
            },
        ],
    );
    let name = format!("final statement day, {} holidays listed", holidays.len());
    [
        Measured::of(&name, statements, &["reference"], 0),
        Measured::of("day to date and back", dates, &["reference"], 0),
    ]
}

/// How the judge and the close grow: the fastest round of books of these terms.
pub fn growth(rng: &mut Rng, all: &[Terms]) -> Vec<Grown> {
    let mut grown = Vec::new();
    for &terms in all {
        let book = &large::book(rng, terms, Rows::Mixed)[..];
        let (words, accounts) = (book.len(), terms.accounts);
        let changed = 64 + 8 * accounts + 48 * (4 + 24 * accounts);
        let mut lent = book.to_vec();
        let mut statement = vec![0; accounts + 1];
        let times = interleaved(
            rounds(words),
            &mut [
                &mut || timed(|| assert_eq!(robijan::judge(black_box(book)), 0)),
                &mut || {
                    lent[..changed].copy_from_slice(&book[..changed]);
                    timed(|| {
                        let told = robijan::close(black_box(&mut lent), black_box(&mut statement));
                        assert_eq!(told.number, 0);
                    })
                },
            ],
        );
        let [judge, close] = [&times[0], &times[1]].map(Times::fastest);
        grown.push(Grown {
            accounts,
            horizon: terms.horizon,
            words,
            judge,
            close,
        });
    }
    grown
}
