//! Submission files, valid or damaged, with the answer each must get.

use super::Rng;
use crate::history::{History, Key, METER, NCC, RESIDUAL, VESTING};
use crate::numbers::{Answer, DAY_NOT_OPEN, NOT_WHOLE, OUT_OF_RANGE, ROW_REPEATED, TRAILING_BYTES};
use crate::units::{IEQ, INTERVALS, NCC_LOAD, PRICE, QUANTITY};
use std::collections::BTreeSet;
use std::ops::RangeInclusive;

/// How large the numbers of a list are.
#[derive(Clone, Copy, Debug, PartialEq, Eq)]
pub enum Style {
    /// A few kWh at a few cents: ties of V, shares rounded down.
    Tiny,
    Usual,
    /// The whole of each range.
    Wide,
    /// The ends of each range.
    Extreme,
    /// Day sums of exact half cents, or a thousandth beside.
    HalfCent,
}

pub const STYLES: [Style; 5] = [
    Style::Tiny,
    Style::Usual,
    Style::Wide,
    Style::Extreme,
    Style::HalfCent,
];

#[derive(Clone)]
pub struct DraftRow {
    pub key: Key,
    /// Tranches or facilities.
    pub count: u8,
    pub values: Vec<i64>,
}

/// A file yet to be written; rows go to their sections in the order given.
#[derive(Clone, Default)]
pub struct Draft {
    pub rows: Vec<DraftRow>,
}

#[derive(Clone)]
enum Kind {
    RowCount,
    Account,
    Day { section: usize },
    Count { legal: RangeInclusive<u8> },
    Value { legal: RangeInclusive<i64> },
}

struct Field {
    at: usize,
    length: usize,
    kind: Kind,
}

/// A written file and its fields.
struct Written {
    bytes: Vec<u8>,
    fields: Vec<Field>,
}

impl Written {
    fn put(&mut self, bytes: &[u8], kind: Kind) {
        self.fields.push(Field {
            at: self.bytes.len(),
            length: bytes.len(),
            kind,
        });
        self.bytes.extend_from_slice(bytes);
    }
}

/// The legal values of one interval, in file order.
fn legal_values(section: usize, count: u8) -> Vec<RangeInclusive<i64>> {
    let pairs = |first: RangeInclusive<i64>, second: RangeInclusive<i64>, count: u8| {
        (0..count)
            .flat_map(|_| [first.clone(), second.clone()])
            .collect()
    };
    match section {
        VESTING => pairs(QUANTITY, PRICE, 1 + count),
        METER => pairs(PRICE, IEQ, count),
        RESIDUAL => vec![QUANTITY, QUANTITY, PRICE, PRICE],
        _ => vec![NCC_LOAD],
    }
}

impl Draft {
    /// A random row for each key, each of them open and named once.
    pub fn of(rng: &mut Rng, style: Style, accounts: usize, keys: &[Key]) -> Draft {
        let rows = keys
            .iter()
            .map(|&key| draft_row(rng, style, accounts, key))
            .collect();
        Draft { rows }
    }

    /// Up to `most` rows a section, of open days.
    pub fn random(rng: &mut Rng, style: Style, history: &History, most: usize) -> Draft {
        let mut keys = BTreeSet::new();
        for section in [VESTING, METER, RESIDUAL, NCC] {
            let days = history.open_days(section);
            for _ in 0..rng.below(most + 1) {
                if !days.is_empty() {
                    let account = if section == NCC {
                        0
                    } else {
                        rng.below(history.accounts())
                    };
                    keys.insert((section, account, rng.between(*days.start(), *days.end())));
                }
            }
        }
        let mut keys: Vec<Key> = keys.into_iter().collect();
        rng.shuffle(&mut keys);
        Draft::of(rng, style, history.accounts(), &keys)
    }

    pub fn bytes(&self) -> Vec<u8> {
        self.written().bytes
    }

    fn written(&self) -> Written {
        let mut written = Written {
            bytes: Vec::new(),
            fields: Vec::new(),
        };
        for section in [VESTING, METER, RESIDUAL, NCC] {
            let rows: Vec<&DraftRow> = self
                .rows
                .iter()
                .filter(|row| row.key.0 == section)
                .collect();
            written.put(&(rows.len() as u16).to_le_bytes(), Kind::RowCount);
            for row in rows {
                let (_, account, day) = row.key;
                if section != NCC {
                    written.put(&[account as u8], Kind::Account);
                }
                written.put(&(day as u16).to_le_bytes(), Kind::Day { section });
                if section <= METER {
                    let legal = if section == VESTING { 0..=3 } else { 1..=4 };
                    written.put(&[row.count], Kind::Count { legal });
                }
                let legal = legal_values(section, row.count);
                for (value, legal) in row.values.iter().zip(legal.iter().cycle()) {
                    let legal = legal.clone();
                    written.put(&(*value as i32).to_le_bytes(), Kind::Value { legal });
                }
            }
        }
        written
    }
}

/// A row with the same values in each interval.
pub fn even_row(key: Key, count: u8, interval: &[i64]) -> DraftRow {
    DraftRow {
        key,
        count,
        values: interval.repeat(48),
    }
}

/// The row without tender tranches, or with one facility only.
pub fn slim(row: DraftRow) -> DraftRow {
    let (kept, width) = match row.key.0 {
        VESTING => (0, 2 + 2 * usize::from(row.count)),
        METER => (1, 2 * usize::from(row.count)),
        _ => return row,
    };
    let pairs = row.values.chunks_exact(width).flat_map(|pairs| &pairs[..2]);
    DraftRow {
        key: row.key,
        count: kept,
        values: pairs.copied().collect(),
    }
}

fn draft_row(rng: &mut Rng, style: Style, accounts: usize, key: Key) -> DraftRow {
    let section = key.0;
    let count = match section {
        VESTING => rng.below(4) as u8,
        METER => rng.between(1, 4) as u8,
        _ => 0,
    };
    let legal = legal_values(section, count);
    let mut values = Vec::with_capacity(INTERVALS * legal.len());
    for _ in 0..INTERVALS {
        for range in &legal {
            values.push(value(rng, style, accounts, section, range));
        }
    }
    if style == Style::HalfCent && section == VESTING {
        place_half_cents(rng, &mut values, legal.len());
    }
    DraftRow { key, count, values }
}

fn value(
    rng: &mut Rng,
    style: Style,
    accounts: usize,
    section: usize,
    legal: &RangeInclusive<i64>,
) -> i64 {
    let (low, high) = (*legal.start(), *legal.end());
    let accounts = accounts as i64;
    match style {
        Style::Extreme => rng.pick(&[low, high, low + 1, high - 1, 0, 1]),
        Style::Wide if *legal == NCC_LOAD => rng.between(0, high.min(30_000_000 * accounts)),
        Style::Wide => rng.between(low, high),
        Style::Usual if *legal == NCC_LOAD => rng.between(0, 20_000 * accounts),
        Style::Usual if *legal == PRICE => rng.between(5_000, 25_000),
        Style::Usual => rng.between(low.max(-2_000), 5_000),
        Style::Tiny if *legal == NCC_LOAD => rng.between(0, 15 * accounts),
        Style::Tiny if *legal == PRICE => rng.between(-300, 300),
        Style::Tiny => rng.between(low.max(-4), 5),
        // No hedges yet, V is 0, and residuals come to whole cents.
        Style::HalfCent => match section {
            VESTING => 0,
            METER if *legal == PRICE => 0,
            METER => rng.between(-1, 1),
            RESIDUAL if *legal == PRICE => 1_000 * rng.between(-9, 9),
            RESIDUAL => rng.between(0, 3),
            _ => rng.between(0, 4 * accounts),
        },
    }
}

/// Base amounts in a few intervals that add up to a half cent or nearly so.
fn place_half_cents(rng: &mut Rng, values: &mut [i64], width: usize) {
    let sign = rng.pick(&[1, -1]);
    let sum = rng.pick(&[499, 500, 500, 500, 501, 1_500, 12_500]);
    let part = rng.between(0, sum);
    let first = rng.below(INTERVALS / 2);
    let second = INTERVALS / 2 + rng.below(INTERVALS / 2);
    for (interval, part) in [(first, part), (second, sum - part)] {
        values[interval * width] = 1;
        values[interval * width + 1] = sign * part;
    }
}

/// A damaged file and the answer that it must get from the book of `history`.
/// Damage after the first does not count, and is there now and then.
pub fn damaged(rng: &mut Rng, draft: &Draft, history: &History) -> (Vec<u8>, Answer) {
    if !draft.rows.is_empty() && rng.percent(15) {
        return repeated(rng, draft);
    }
    let Written { mut bytes, fields } = draft.written();
    match rng.below(10) {
        0 => trailing(rng, bytes),
        1..=3 => {
            let field = &fields[rng.below(fields.len())];
            bytes.truncate(field.at + rng.below(field.length));
            (bytes, Answer::at(NOT_WHOLE, field.at))
        }
        _ => {
            // Heads of rows are few among the values; choose them as often.
            let heads = rng.percent(50);
            let faults: Vec<(usize, Vec<u8>, u8)> = fields
                .iter()
                .filter(|field| heads != matches!(field.kind, Kind::Value { .. }))
                .flat_map(|field| faults(field, history))
                .collect();
            if faults.is_empty() {
                return trailing(rng, bytes);
            }
            let (at, fault, number) = &faults[rng.below(faults.len())];
            bytes[*at..*at + fault.len()].copy_from_slice(fault);
            if rng.percent(30) {
                let kept = at + fault.len();
                bytes.truncate(kept + rng.below(bytes.len() - kept + 1));
            }
            (bytes, Answer::at(*number, *at))
        }
    }
}

/// A whole file with bytes after its end.
fn trailing(rng: &mut Rng, mut bytes: Vec<u8>) -> (Vec<u8>, Answer) {
    let end = bytes.len();
    let more = rng.between(1, 5) as usize;
    bytes.extend(rng.bytes(more));
    (bytes, Answer::at(TRAILING_BYTES, end))
}

/// A file with one row given twice; the later one's day is at fault.
fn repeated(rng: &mut Rng, draft: &Draft) -> (Vec<u8>, Answer) {
    let mut draft = draft.clone();
    let mut twice = draft.rows[rng.below(draft.rows.len())].clone();
    let section = twice.key.0;
    twice.values.fill(0);
    draft.rows.push(twice);
    let written = draft.written();
    // The copy is the last row of its section.
    let of_section =
        |field: &&Field| matches!(field.kind, Kind::Day { section: of } if of == section);
    let last = written.fields.iter().rfind(of_section);
    let at = last.map_or(0, |field| field.at);
    (written.bytes, Answer::at(ROW_REPEATED, at))
}

/// The faulty bytes that a field can get, with its position and the number.
fn faults(field: &Field, history: &History) -> Vec<(usize, Vec<u8>, u8)> {
    let fault = |bytes: &[u8], number| (field.at, bytes.to_vec(), number);
    match &field.kind {
        Kind::RowCount => vec![],
        Kind::Account => {
            let first = history.accounts() as u8;
            vec![fault(&[first], OUT_OF_RANGE), fault(&[255], OUT_OF_RANGE)]
        }
        Kind::Day { section } => {
            let open = history.open_days(*section);
            let days = [open.start() - 1, open.end() + 1, 0, 36_525, 65_535];
            days.iter()
                .map(|&day| fault(&(day as u16).to_le_bytes(), DAY_NOT_OPEN))
                .collect()
        }
        Kind::Count { legal } => {
            let below = legal.start().checked_sub(1);
            let counts = below.into_iter().chain([legal.end() + 1, 255]);
            counts.map(|count| fault(&[count], OUT_OF_RANGE)).collect()
        }
        Kind::Value { legal } => {
            let values = [
                legal.start() - 1,
                legal.end() + 1,
                i64::from(i32::MIN),
                i64::from(i32::MAX),
            ];
            values
                .iter()
                .map(|&value| fault(&(value as i32).to_le_bytes(), OUT_OF_RANGE))
                .collect()
        }
    }
}

/// Calls back with every damage of one field: each cut, each fault, each row
/// repeated, and a byte after the end.
pub fn every_damage(draft: &Draft, history: &History, mut case: impl FnMut(&[u8], Answer)) {
    let Written { bytes, fields } = draft.written();
    for field in &fields {
        for end in field.at..field.at + field.length {
            case(&bytes[..end], Answer::at(NOT_WHOLE, field.at));
        }
        for (at, fault, number) in faults(field, history) {
            let mut faulty = bytes.clone();
            faulty[at..at + fault.len()].copy_from_slice(&fault);
            case(&faulty, Answer::at(number, at));
            // A cut right after the fault does not matter.
            case(&faulty[..at + fault.len()], Answer::at(number, at));
        }
    }
    for row in &draft.rows {
        let only = Draft {
            rows: vec![row.clone(), row.clone()],
        };
        let written = only.written();
        let mut days = written
            .fields
            .iter()
            .filter(|field| matches!(field.kind, Kind::Day { .. }));
        let at = days.next_back().map_or(0, |field| field.at);
        case(&written.bytes, Answer::at(ROW_REPEATED, at));
    }
    let mut longer = bytes.clone();
    longer.push(0);
    case(&longer, Answer::at(TRAILING_BYTES, bytes.len()));
}
