//! The inputs of the test program `replay_settle`: many short ones of
//! `settle`, from fixed seeds.

use super::files::{damaged, even_row, slim, Draft, Style, STYLES};
use super::inputs::{input, submit_bytes, Input, Told, SHAPES};
use super::Rng;
use crate::book::Opening;
use crate::history::{Key, METER, VESTING};
use crate::numbers::Answer;
use crate::settle::{CLOSE, SUBMIT};

/// The longest input of a frame.
pub const LONGEST_INPUT: usize = 40_000;
/// About how many bytes the random inputs come to.
const RANDOM_BYTES: usize = 600_000;

const DAY: u64 = 9_497;
/// After an opening: a close, a file without rows, a refused one and a close.
const ITEMS: [u8; 18] = [
    CLOSE, SUBMIT, 8, 0, 0, 0, 0, 0, 0, 0, 0, 0, SUBMIT, 2, 0, 1, 0, CLOSE,
];

/// All inputs, in the order of the frames.
pub fn settle_inputs() -> Vec<Vec<u8>> {
    let parts = [
        commands(),
        lengths(),
        openings(),
        cuts(),
        changes(),
        told_lives().into_iter().map(|told| told.input).collect(),
        random(),
    ];
    parts.concat()
}

fn one() -> Input {
    Input::open(Opening::smallest(DAY))
}

/// The items alone, on the book of the specification's example.
fn short_input() -> Vec<u8> {
    one().bytes(&ITEMS).finish()
}

/// A close too early, a day's file, its close.
fn day_input() -> Vec<u8> {
    let key = |section| (section, 0, DAY as i64);
    let rows = [
        even_row(key(VESTING), 0, &[1_000, 15_000]),
        even_row(key(METER), 1, &[10_000, 1]),
    ];
    one().close().submit_rows(&rows).close().finish()
}

/// Every byte as a command, first and after an item.
pub fn commands() -> Vec<Vec<u8>> {
    let after = |first: Input| {
        (0..=255).map(move |command| {
            let item = [command, 8, 0, 0, 0, 0, 0, 0, 0, 0, 0];
            first.clone().bytes(&item).close().finish()
        })
    };
    after(one()).chain(after(one().close())).collect()
}

/// Every short length, whole and cut at each byte; those beside a limit.
pub fn lengths() -> Vec<Vec<u8>> {
    let mut inputs = Vec::new();
    for length in 0..=20 {
        for byte in [0, 1, CLOSE] {
            inputs.push(one().submit(&vec![byte; length]).close().finish());
        }
        let submission = submit_bytes(&vec![0; length]);
        for there in 0..submission.len() {
            inputs.push(one().bytes(&submission[..there]).finish());
            inputs.push(one().close().bytes(&submission[..there]).finish());
        }
    }
    for length in [
        255, 256, 257, 258, 511, 512, 513, 999, 1_000, 1_001, 4_096, 16_383, 16_384, 16_385,
        16_386, 16_640, 32_768,
    ] {
        inputs.push(one().submit(&vec![0; length]).close().finish());
    }
    for length in [
        64, 320, 16_384, 16_385, 32_767, 32_768, 32_769, 49_152, 65_535_u16,
    ] {
        for there in [0, 1, 8, 70] {
            let [low, high] = length.to_le_bytes();
            let cut = one().close().bytes(&[SUBMIT, low, high]);
            inputs.push(cut.bytes(&vec![0; there]).finish());
        }
    }
    inputs
}

/// Each parameter at and beside its limits and those of 5,072 words, items
/// following.
pub fn openings() -> Vec<Vec<u8>> {
    let mut inputs = Vec::new();
    for accounts in [0, 1, 2, 3, 32, 33, 255] {
        for lag in [0, 1, 2, 3, 75, 76, 92, 255] {
            for horizon in [0, 1, 2, 3, 75, 76, 92, 93, 255] {
                let opening = Opening {
                    accounts,
                    lag,
                    horizon,
                    ..Opening::smallest(DAY)
                };
                inputs.push(Input::open(opening).bytes(&ITEMS).finish());
            }
        }
    }
    let three = Opening {
        accounts: 3,
        ..Opening::smallest(DAY)
    };
    for shape in SHAPES.into_iter().chain([three]) {
        for first_day in [
            0, 255, 256, 6_437, 9_496, 9_497, 9_498, 9_510, 9_765, 32_767, 32_768, 36_523, 36_524,
            36_525, 36_526, 65_535,
        ] {
            let opening = Opening { first_day, ..shape };
            inputs.push(Input::open(opening).bytes(&ITEMS).finish());
        }
    }
    inputs
}

/// Inputs cut at every byte, longer ones at and beside their items.
pub fn cuts() -> Vec<Vec<u8>> {
    let mut inputs = Vec::new();
    for input in [short_input(), day_input()] {
        inputs.extend((0..=input.len()).map(|end| input[..end].to_vec()));
    }
    for told in told_lives().iter().step_by(23) {
        for item in item_positions(&told.input) {
            let ends = item..(item + 4).min(told.input.len());
            inputs.extend(ends.map(|end| told.input[..end].to_vec()));
        }
    }
    inputs
}

/// Where the items of an input begin, the first ones.
fn item_positions(input: &[u8]) -> Vec<usize> {
    let mut positions = Vec::new();
    let mut position = 5;
    while position < input.len() && positions.len() < 6 {
        positions.push(position);
        position += match input[position..] {
            [SUBMIT, low, high, ..] => 3 + usize::from(u16::from_le_bytes([low, high])),
            _ => 1,
        };
    }
    positions
}

/// Inputs with one byte changed: a short one's bytes in many ways, a day's
/// file at its heads and here and there among its values, lives anywhere.
pub fn changes() -> Vec<Vec<u8>> {
    let mut inputs = Vec::new();
    let changed = |input: &[u8], at: usize, byte: u8| {
        let mut input = input.to_vec();
        input[at] = byte;
        input
    };
    let short = short_input();
    for (at, &byte) in short.iter().enumerate() {
        for other in [
            0,
            1,
            2,
            3,
            CLOSE,
            SUBMIT,
            0x63,
            0x73,
            0xFF,
            byte ^ 0x80,
            byte ^ 0x10,
        ] {
            if other != byte {
                inputs.push(changed(&short, at, other));
            }
        }
    }
    let day = day_input();
    // The opening, the commands and the head of each section.
    let heads = (0..15).chain(399..405).chain(789..day.len());
    for at in heads {
        for other in [0, 1, 2, 0xFF, day[at] ^ 0x40] {
            if other != day[at] {
                inputs.push(changed(&day, at, other));
            }
        }
    }
    for at in (15..789).step_by(11) {
        inputs.push(changed(&day, at, 0x80));
    }
    let mut rng = Rng::new(0xC4A);
    for told in told_lives() {
        let (at, byte) = (rng.below(told.input.len()), rng.draw() as u8);
        inputs.push(changed(&told.input, at, byte));
    }
    inputs
}

/// A few days' life of each book, style and end of the calendar, with files
/// refused and revised and closes too early, and the output that its history
/// tells.
pub fn told_lives() -> Vec<Told> {
    let mut rng = Rng::new(0x11FE);
    let mut lives = Vec::new();
    for shape in SHAPES {
        for style in STYLES {
            for first_day in [9_497, 9_510, 36_521, 36_523, 36_524] {
                let opening = Opening { first_day, ..shape };
                lives.push(life(&mut rng, style, opening));
            }
        }
    }
    lives
}

/// One day more than the book has slots, so that one is used anew.
fn life(rng: &mut Rng, style: Style, opening: Opening) -> Told {
    let mut told = Told::open(opening);
    for _ in 0..=opening.lag + opening.horizon {
        if !told.history.finished() {
            settle_day(rng, style, &mut told);
        }
    }
    // Too early, or of a finished book.
    told.close();
    told.submit(&[0; 8], Answer::ACCEPTED);
    told
}

/// Gives what the next close needs in two files and closes, other items in
/// between now and then.
fn settle_day(rng: &mut Rng, style: Style, told: &mut Told) {
    let mut keys = told.history.needed();
    keys.retain(|key| !told.history.is_in_force(key));
    rng.shuffle(&mut keys);
    let late = keys.split_off(rng.below(keys.len() + 1));
    give(rng, style, told, &keys);
    if rng.percent(40) {
        let draft = slim_draft(Draft::random(rng, style, &told.history, 1));
        let (file, expected) = damaged(rng, &draft, &told.history);
        told.submit(&file, expected);
    }
    if rng.percent(40) {
        told.close();
    }
    give(rng, style, told, &late);
    if rng.percent(25) {
        let revision = slim_draft(Draft::random(rng, style, &told.history, 1));
        told.submit(&revision.bytes(), Answer::ACCEPTED);
    }
    told.close();
}

/// Submits a row for each key, the most of them slim.
fn give(rng: &mut Rng, style: Style, told: &mut Told, keys: &[Key]) {
    let mut draft = Draft::of(rng, style, told.history.accounts(), keys);
    if rng.percent(80) {
        draft = slim_draft(draft);
    }
    told.submit(&draft.bytes(), Answer::ACCEPTED);
}

fn slim_draft(draft: Draft) -> Draft {
    Draft {
        rows: draft.rows.into_iter().map(slim).collect(),
    }
}

/// Random lists of calls as inputs, perhaps with a bad ending.
fn random() -> Vec<Vec<u8>> {
    let mut rng = Rng::new(0x5E77);
    let mut inputs = Vec::new();
    let mut bytes = 0;
    while bytes < RANDOM_BYTES {
        let (input, _) = input(&mut rng);
        if input.len() <= LONGEST_INPUT {
            bytes += input.len();
            inputs.push(input);
        }
    }
    inputs
}
