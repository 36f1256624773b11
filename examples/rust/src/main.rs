//! A small settlement through Robijan: two accounts, a lag of 75 days, and the first day's uncovered load settled 75 days later.
//! The book is kept in the file that the program's one word names. `examples/settlement.c` is the same in C; `tests/run` builds and runs
//! both and compares what they print with `examples/expected.txt`.

use robijan::{
    balance, book_words, close, date, day, final_statement, missing, mssl_balance, numbers, open,
    pack, residual_due, rounding_differences, submit, unpack, Closed, Refusal, Terms,
    PACKED_FIELD_BYTES,
};
use std::error::Error;
use std::io::Write;
use std::path::{Path, PathBuf};
use std::{env, fs};

const ACCOUNTS: usize = 2;
const LAG: i64 = 75;
const HORIZON: usize = 1;

/// A submission file, written field by field; all fields are little-endian.
#[derive(Default)]
struct File(Vec<u8>);

impl File {
    fn byte(&mut self, value: u8) {
        self.0.push(value);
    }

    /// A count of rows, or a day.
    fn short(&mut self, value: u16) {
        self.0.extend(value.to_le_bytes());
    }

    /// One interval's values, for each of the 48.
    fn all_day(&mut self, values: &[i32]) {
        for value in (0..48).flat_map(|_| values) {
            self.0.extend(value.to_le_bytes());
        }
    }
}

/// Every account's vesting and meter row of a day.
fn contracts(day: u16) -> Vec<u8> {
    let mut file = File::default();
    file.short(2); // section 1: two vesting rows

    // Account 0: 400 kWh at 15,000 cents per MWh under its base contract, no tender contract.
    file.byte(0);
    file.short(day);
    file.byte(0);
    file.all_day(&[400, 15_000]);

    // Account 1: no base contract; 100 kWh at 9,001 cents per MWh under one tender contract.
    file.byte(1);
    file.short(day);
    file.byte(1);
    file.all_day(&[0, 0, 100, 9_001]);

    file.short(2); // section 2: two meter rows

    // One facility each, paid 10,000 cents per MWh for what it injected: V is 10,000.
    for account in 0..ACCOUNTS as u8 {
        file.byte(account);
        file.short(day);
        file.byte(1);
        file.all_day(&[10_000, 500]);
    }
    file.short(0); // section 3: no residual row
    file.short(0); // section 4: no NCC row
    file.0
}

/// Every account's residual row and the NCC load of a day.
///
/// The small consumers took 650 kWh, of which contracts cover 400 + 100: 150 are shared. The accounts had 100 and 200 kWh to spare, so they
/// get 50 and 100. Account 0's base contract could have given 420, 20 more than it did: tranche 1 is 20, tranche 2 is 30. Account 1 has no
/// base contract: all of its 100 are tranche 2.
fn residuals(day: u16) -> Vec<u8> {
    let mut file = File::default();
    file.short(0); // section 1: no vesting row
    file.short(0); // section 2: no meter row
    file.short(2); // section 3: two residual rows, of UEGQ, MQ, RVP1 and RVP2
    file.byte(0);
    file.short(day);
    file.all_day(&[100, 420, 12_000, 11_000]);
    file.byte(1);
    file.short(day);
    file.all_day(&[200, 0, 12_000, 11_500]);
    file.short(1); // section 4: the load
    file.short(day);
    file.all_day(&[650]);
    file.0
}

fn print_date(what: &str, day: i64) -> Result<(), Refusal> {
    let date = date(day)?;
    println!("{what} {:04}-{:02}-{:02}", date.year, date.month, date.day);
    Ok(())
}

fn print_close(
    what: &str,
    answer: Result<Closed, Refusal>,
    book: &[i64],
    statement: &[i64],
) -> Result<(), Refusal> {
    match answer {
        Ok(closed) => {
            print_date(what, closed.day)?;
            println!("  residuals settled: {}", closed.residuals);
            for (account, cents) in statement[..ACCOUNTS].iter().enumerate() {
                println!("  account {account}: {cents} cents");
            }
            println!("  MSSL: {} cents", statement[ACCOUNTS]);
            println!("  rounding difference: {} thousandths", closed.difference);
        }
        Err(refusal) => {
            println!(
                "close refused: number {}, position {}",
                refusal.number, refusal.position
            );
            if refusal.number == numbers::DATUM_ABSENT {
                if let Some(row) = missing(book, refusal.position) {
                    print_date(&format!("  missing: {row} of"), row.day())?;
                }
            }
        }
    }
    Ok(())
}

fn print_balances(book: &[i64]) {
    print!("balances");
    for account in 0..ACCOUNTS {
        print!(" {}", balance(book, account).unwrap_or(0));
    }
    println!(", MSSL {}", mssl_balance(book).unwrap_or(0));
    let sum = rounding_differences(book).unwrap_or(0);
    println!("  rounding differences so far: {sum} thousandths");
}

/// The statement for a ledger that takes packed decimal, a field an amount, and read back from there.
fn print_packed(statement: &[i64; ACCOUNTS + 1]) -> Result<(), Refusal> {
    let mut fields = [0; PACKED_FIELD_BYTES * (ACCOUNTS + 1)];
    let mut amounts = [0; ACCOUNTS + 1];
    pack(statement, &mut fields)?;
    for field in fields.chunks_exact(PACKED_FIELD_BYTES) {
        print!("  packed");
        for byte in field {
            print!(" {byte:02X}");
        }
        println!();
    }
    let count = unpack(&fields, &mut amounts)?;
    let same = amounts == *statement;
    println!(
        "  read back: {count} amounts, {}",
        if same { "the same" } else { "others" }
    );
    Ok(())
}

/// The book becomes the file's content by a rename, and only when it is whole on the disk: a process that dies at any time leaves the book
/// before or the book after, never something between.
fn keep(path: &Path, book: &[i64]) -> std::io::Result<()> {
    let bytes: Vec<u8> = book.iter().flat_map(|word| word.to_le_bytes()).collect();
    let new = path.with_extension("new");
    let mut file = fs::File::create(&new)?;
    file.write_all(&bytes)?;
    file.sync_all()?;
    fs::rename(new, path)
}

fn main() -> Result<(), Box<dyn Error>> {
    let path = PathBuf::from(env::args().nth(1).unwrap_or("settlement.book".to_string()));

    let first = day(2026, 1, 1)?;
    let terms = Terms {
        accounts: ACCOUNTS,
        lag: LAG as usize,
        horizon: HORIZON,
        first: first as usize,
        change: 0,
    };

    // The words are ours: the library says how many a book takes.
    let mut book = vec![0; book_words(terms)?];
    let mut statement = [0; ACCOUNTS + 1];
    println!("book of {} words", book.len());

    open(&mut book, terms)?;
    keep(&path, &book)?;
    print_date("opened, first day", first)?;
    let due = residual_due(2026, 1, &[])?;
    print_date("residual data of January are due", due)?;

    // 75 days with contracts and meter data alone. An interval is (15,000 - 10,000) x 400 thousandths of a cent to account 0, 2,000 cents, and
    // (9,001 - 10,000) x 100 to account 1, -99.9 cents. The day's 48 are 96,000 and -4,795.2, posted as 96,000 and -4,795; the MSSL is posted
    // -91,205 for -91,204.8, a rounding difference of -200 thousandths a day.
    for day in first..first + LAG {
        submit(&mut book, &contracts(day as u16))?;
        let answer = close(&mut book, &mut statement);
        if answer.is_ok() {
            keep(&path, &book)?;
        }
        if day == first || answer.is_err() {
            print_close("closed", answer, &book, &statement)?;
        }
    }
    print_balances(&book);

    // The next close settles the first day's uncovered load too, so it needs that day's residual data.
    submit(&mut book, &contracts((first + LAG) as u16))?;
    keep(&path, &book)?;
    let answer = close(&mut book, &mut statement);
    print_close("closed", answer, &book, &statement)?;

    // With them, account 0 gets (12,000 - 10,000) x 20 + (11,000 - 10,000) x 30 thousandths an interval more, 70 cents; account 1
    // (11,500 - 10,000) x 100, 150 cents. The day is 96,000 + 3,360 cents to account 0 and -4,795.2 + 7,200 = 2,404.8 to account 1, posted as
    // 2,405; the MSSL is posted -101,765 for -101,764.8, -200 thousandths again. A look ahead is a close on a copy.
    submit(&mut book, &residuals(first as u16))?;
    keep(&path, &book)?;
    let mut copy = book.clone();
    let answer = close(&mut copy, &mut statement);
    print_close("would close", answer, &copy, &statement)?;
    print_balances(&book);

    let answer = close(&mut book, &mut statement);
    if answer.is_ok() {
        keep(&path, &book)?;
    }
    print_close("closed", answer, &book, &statement)?;
    if answer.is_ok() {
        print_packed(&statement)?;
    }
    print_balances(&book);
    let last = final_statement(first, &[])?;
    print_date("final statement of the first day", last)?;
    Ok(())
}
