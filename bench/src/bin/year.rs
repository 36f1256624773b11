//! A year in one go: the book of 32 accounts, lag 75 and horizon 92, closed 365 times, with submissions for each day and residuals from the
//! 76th close on, those of the first hundred days by the first edition and those of the others by the second. Both implementations make the
//! same calls, one after the other; what each one answered and left must be equal, the rounding differences of the closes and their sum too.

use ::robijan::rounding_differences;
use bench::large::{file, Given, Sections, Terms, FIRST_DAY};
use bench::robijan;
use reference::generate::Rng;
use reference::layout::ROUNDING_DIFFERENCE;
use std::process::ExitCode;
use std::time::{Duration, Instant};

const DAYS: i64 = 365;
const LAG: i64 = 75;
const ACCOUNTS: usize = 32;

/// Number, position, day, count and difference of a call, 0 where it has none.
type Figures = [i64; 5];

/// What a year of calls comes to.
struct Year {
    answers: Vec<Figures>,
    statements: Vec<Vec<i64>>,
    book: Vec<i64>,
    /// In the calls alone.
    taken: Duration,
}

/// An implementation's calls.
struct Calls {
    open: fn(&mut [i64], Terms) -> Figures,
    submit: fn(&mut [i64], &[u8]) -> Figures,
    close: fn(&mut [i64], &mut [i64]) -> Figures,
}

fn run(calls: &Calls) -> Year {
    let terms = Terms::longest(ACCOUNTS).changing(FIRST_DAY + 100);
    let mut year = Year {
        answers: Vec::new(),
        statements: Vec::new(),
        book: vec![0; terms.words()],
        taken: Duration::ZERO,
    };
    year.made(|book| (calls.open)(book, terms));
    let mut rng = Rng::new(395);
    let first = FIRST_DAY as i64;
    for day in first..first + DAYS {
        let none = Given { day, rows: 0 };
        let contracts = Given {
            day,
            rows: ACCOUNTS,
        };
        let sections = Sections {
            contracts,
            residuals: none,
            loads: none,
        };
        year.submit(calls, &file(&mut rng, ACCOUNTS, sections));
        let settled = day - LAG;
        if settled >= first {
            // Once a month the close comes before the residual data, and is refused.
            if (day - first) % 30 == 0 {
                year.close(calls);
            }
            let residuals = Given {
                day: settled,
                rows: ACCOUNTS,
            };
            let loads = Given {
                day: settled,
                rows: 1,
            };
            let sections = Sections {
                contracts: none,
                residuals,
                loads,
            };
            year.submit(calls, &file(&mut rng, ACCOUNTS, sections));
        }
        year.close(calls);
    }
    year
}

impl Year {
    /// Makes a call, timed.
    fn made(&mut self, call: impl FnOnce(&mut [i64]) -> Figures) {
        let begin = Instant::now();
        let answer = call(&mut self.book);
        self.taken += begin.elapsed();
        self.answers.push(answer);
    }

    fn submit(&mut self, calls: &Calls, file: &[u8]) {
        self.made(|book| (calls.submit)(book, file));
    }

    fn close(&mut self, calls: &Calls) {
        let mut statement = vec![0; ACCOUNTS + 1];
        self.made(|book| (calls.close)(book, &mut statement));
        self.statements.push(statement);
    }

    /// What the closes told of their differences.
    fn told_difference(&self) -> i64 {
        self.answers.iter().map(|answer| answer[4]).sum()
    }

    /// With the running sum that the book holds.
    fn print(&self, name: &str, difference: i64) {
        let refused = self.answers.iter().filter(|answer| answer[0] != 0).count();
        let residuals: i64 = self.answers.iter().map(|answer| answer[3]).sum();
        let days = self.book[5] - self.book[4];
        let balances = (0..ACCOUNTS).map(|account| self.book[64 + 8 * account]);
        let accounts: i64 = balances.sum();
        let mssl = self.book[6];
        println!(
            "{name}: {days} days closed, {} calls, {refused} of them refused, {residuals} residuals settled, {:.2} s in the calls",
            self.answers.len(),
            self.taken.as_secs_f64()
        );
        println!(
            "  accounts {accounts} cents, MSSL {mssl} cents, total {}",
            accounts + mssl
        );
        println!("  rounding difference {difference} thousandths");
    }
}

fn figures(told: robijan::Answer) -> Figures {
    let [number, position, day, count] =
        [told.number, told.position, told.day, told.count].map(|figure| figure as i64);
    [number, position, day, count, told.difference]
}

fn reference_figures(answer: reference::numbers::Answer) -> Figures {
    let (number, position) = (answer.number.into(), answer.position as i64);
    let (day, count) = (answer.day, answer.residual_count);
    [number, position, day, count, answer.difference]
}

fn main() -> ExitCode {
    let ours = run(&Calls {
        open: |book, terms| figures(robijan::open(book, terms.opening())),
        submit: |book, file| figures(robijan::submit(book, file)),
        close: |book, statement| figures(robijan::close(book, statement)),
    });
    let our_difference = rounding_differences(&ours.book).unwrap_or(i64::MIN);
    ours.print("Robijan", our_difference);
    let theirs = run(&Calls {
        open: |book, terms| {
            terms.open(book);
            [0; 5]
        },
        submit: |book, file| reference_figures(reference::submission::submit(book, file)),
        close: |book, statement| reference_figures(reference::close::close(book, statement)),
    });
    let their_difference = theirs.book[ROUNDING_DIFFERENCE];
    theirs.print("reference", their_difference);
    let equal = ours.answers == theirs.answers
        && ours.statements == theirs.statements
        && ours.book == theirs.book;
    let balanced = ours.book[6] + (0..ACCOUNTS).map(|a| ours.book[64 + 8 * a]).sum::<i64>() == 0;
    let summed = our_difference == their_difference && our_difference == ours.told_difference();
    if equal && balanced && summed {
        println!(
            "equal: every answer, every statement, every word of the book; balances total zero, \
             the closes' differences the rounding difference"
        );
        ExitCode::SUCCESS
    } else {
        println!(
            "answers, statements or books differ, balances do not total zero, \
             or the closes' differences are not the rounding difference"
        );
        ExitCode::FAILURE
    }
}
