//! Submission files: judged whole, then stored.

use crate::book::{judge_in, Header, MOST_SLOTS};
use crate::layout::Layout;
use crate::numbers::{
    Answer, DAY_NOT_OPEN, NOT_WELL_FORMED, NOT_WHOLE, OUT_OF_RANGE, ROW_REPEATED, TRAILING_BYTES,
};
use crate::units::{IEQ, INTERVALS, MOST_FACILITIES, MOST_TRANCHES, NCC_LOAD, PRICE, QUANTITY};
use crate::variant::{Context, Variant};
use crate::wrong_edition::submit_context;
use std::ops::{Range, RangeInclusive};

/// Submits a file to a book.
pub fn submit(book: &mut [i64], file: &[u8]) -> Answer {
    submit_in(Context::RIGHT, book, file)
}

pub fn submit_in(context: Context, book: &mut [i64], file: &[u8]) -> Answer {
    let Some(header) = judge_in(submit_context(context), book) else {
        return Answer::at(NOT_WELL_FORMED, 0);
    };
    if context.is(Variant::RefusesEverything) {
        return Answer::at(NOT_WELL_FORMED, 0);
    }
    let mut rows = Vec::new();
    let judged = judge_file(&header, file, &mut rows);
    let stored = match context.variant {
        Variant::StoresNothing => false,
        Variant::StoresRowsOfRefusedFile => true,
        _ => judged.is_ok(),
    };
    if stored {
        for row in rows {
            store(book, header.layout(), &row, &file[row.values.clone()]);
        }
    }
    judged.err().unwrap_or(Answer::ACCEPTED)
}

#[derive(Clone, Copy)]
enum Section {
    Vesting,
    Meter,
    Residual,
    Ncc,
}

const SECTIONS: [Section; 4] = [
    Section::Vesting,
    Section::Meter,
    Section::Residual,
    Section::Ncc,
];

/// The ranges of an interval's values, in the order of the file.
const VESTING_VALUES: [RangeInclusive<i64>; 8] = [
    QUANTITY, PRICE, QUANTITY, PRICE, QUANTITY, PRICE, QUANTITY, PRICE,
];
const METER_VALUES: [RangeInclusive<i64>; 8] = [PRICE, IEQ, PRICE, IEQ, PRICE, IEQ, PRICE, IEQ];
const RESIDUAL_VALUES: [RangeInclusive<i64>; 4] = [QUANTITY, QUANTITY, PRICE, PRICE];
const NCC_VALUES: [RangeInclusive<i64>; 1] = [NCC_LOAD];

/// A row found good.
struct Row {
    section: Section,
    /// 0 in section 4.
    account: usize,
    day: i64,
    /// The flag word that the row sets.
    flag: i64,
    /// Where the file holds its values.
    values: Range<usize>,
}

/// The fields in file order; a refusal names the first one at fault, and
/// `rows` has those before it.
fn judge_file(header: &Header, file: &[u8], rows: &mut Vec<Row>) -> Result<(), Answer> {
    let mut reader = Reader { file, position: 0 };
    for section in SECTIONS {
        // By slot, a bit for each account whose row was given.
        let mut given = [0_u32; MOST_SLOTS];
        for _ in 0..reader.two_bytes()? {
            rows.push(judge_row(&mut reader, header, section, &mut given)?);
        }
    }
    if reader.position < file.len() {
        return Err(Answer::at(TRAILING_BYTES, reader.position));
    }
    Ok(())
}

fn judge_row(
    reader: &mut Reader,
    header: &Header,
    section: Section,
    given: &mut [u32; MOST_SLOTS],
) -> Result<Row, Answer> {
    let account = match section {
        Section::Ncc => 0,
        _ => reader.byte_in(0..=header.accounts() - 1)?,
    };

    let day_at = reader.position;
    let day = i64::from(reader.two_bytes()?);
    if !open_days(header, section).contains(&day) {
        return Err(Answer::at(DAY_NOT_OPEN, day_at));
    }
    let (marks, mark) = (&mut given[header.layout().slot(day)], 1 << account);
    if *marks & mark != 0 {
        return Err(Answer::at(ROW_REPEATED, day_at));
    }
    *marks |= mark;

    let (flag, values) = match section {
        Section::Vesting => {
            let tranches = reader.byte_in(0..=MOST_TRANCHES)?;
            (1 + tranches, &VESTING_VALUES[..2 + 2 * tranches])
        }
        Section::Meter => {
            let facilities = reader.byte_in(1..=MOST_FACILITIES)?;
            (facilities, &METER_VALUES[..2 * facilities])
        }
        Section::Residual => (1, &RESIDUAL_VALUES[..]),
        Section::Ncc => (1, &NCC_VALUES[..]),
    };
    Ok(Row {
        section,
        account,
        day,
        flag: flag as i64,
        values: reader.values(values)?,
    })
}

/// Vesting and meter rows are open from the next day to close on, residual
/// and NCC rows as far back as the book holds days.
fn open_days(header: &Header, section: Section) -> RangeInclusive<i64> {
    let window = header.window();
    match section {
        Section::Vesting | Section::Meter => header.next_day()..=*window.end(),
        Section::Residual | Section::Ncc => window,
    }
}

/// Walks over a file; moves on only past a whole field.
struct Reader<'a> {
    file: &'a [u8],
    position: usize,
}

impl Reader<'_> {
    fn field<const LENGTH: usize>(&mut self) -> Result<[u8; LENGTH], Answer> {
        let Some(&bytes) = self.file[self.position..].first_chunk() else {
            return Err(Answer::at(NOT_WHOLE, self.position));
        };
        self.position += LENGTH;
        Ok(bytes)
    }

    fn two_bytes(&mut self) -> Result<u16, Answer> {
        self.field().map(u16::from_le_bytes)
    }

    /// An account or a count.
    fn byte_in(&mut self, range: RangeInclusive<usize>) -> Result<usize, Answer> {
        let at = self.position;
        let [byte] = self.field()?;
        if !range.contains(&usize::from(byte)) {
            return Err(Answer::at(OUT_OF_RANGE, at));
        }
        Ok(usize::from(byte))
    }

    /// A day's values, interval after interval; returns where they stand.
    fn values(&mut self, ranges: &[RangeInclusive<i64>]) -> Result<Range<usize>, Answer> {
        let start = self.position;
        for _ in 0..INTERVALS {
            for range in ranges {
                let at = self.position;
                if !range.contains(&value_of(self.field()?)) {
                    return Err(Answer::at(OUT_OF_RANGE, at));
                }
            }
        }
        Ok(start..self.position)
    }
}

fn value_of(bytes: [u8; 4]) -> i64 {
    i64::from(i32::from_le_bytes(bytes))
}

/// Replaces all that the row names: flags, values and the pairs not used.
fn store(book: &mut [i64], layout: &Layout, row: &Row, file: &[u8]) {
    let values = file.chunks_exact(file.len() / INTERVALS);
    for (interval, values) in values.enumerate() {
        let flag = match row.section {
            Section::Vesting => layout.vesting_flag_at(row.day, interval, row.account),
            Section::Meter => layout.meter_flag_at(row.day, interval, row.account),
            Section::Residual => layout.residual_flag_at(row.day, interval, row.account),
            Section::Ncc => layout.ncc_flag_at(row.day, interval),
        };
        let (first, words) = match row.section {
            Section::Vesting | Section::Meter => (flag + 1, 8),
            Section::Residual => (flag + 1, 4),
            Section::Ncc => (layout.ncc_load_at(row.day, interval), 1),
        };
        book[flag] = row.flag;
        let words = &mut book[first..first + words];
        words.fill(0);
        for (word, bytes) in words.iter_mut().zip(values.chunks_exact(4)) {
            *word = value_of([bytes[0], bytes[1], bytes[2], bytes[3]]);
        }
    }
}
