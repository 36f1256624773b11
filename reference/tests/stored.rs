//! The stored files are the generated ones, and show every wrong variant.

use reference::stored::{is_shown_by_replay_alone, Cases, Stored};
use reference::variant::{
    wrong, Context, Variant, WRONG_BETWEEN_CALLS, WRONG_BOOKS, WRONG_CHANGE_DAYS, WRONG_EDITIONS,
    WRONG_REPORTS, WRONG_SHARES, WRONG_SHARE_CALLS, WRONG_WITHOUT_CHANGE_DAY, WRONG_WORDS,
};
use std::collections::BTreeSet;
use std::fs;
use std::path::PathBuf;

fn folder() -> PathBuf {
    PathBuf::from(env!("CARGO_MANIFEST_DIR")).join("../crates")
}

fn names(folder: PathBuf) -> BTreeSet<String> {
    let entries = fs::read_dir(folder).unwrap();
    let names = entries.map(|entry| entry.unwrap().file_name());
    names.map(|name| name.into_string().unwrap()).collect()
}

#[test]
fn stored_files_are_the_generated_ones() {
    let cases = Cases::generate();
    let mut generated = cases.inputs();
    generated.extend(cases.outputs(Context::RIGHT));
    for Stored { path, contents } in &generated {
        let stored = fs::read(folder().join(path)).unwrap_or_default();
        // Not with assert_eq: the files are long.
        assert!(stored == *contents, "{path} is not what is generated");
    }

    // No other runs are stored.
    let runs = generated
        .iter()
        .filter_map(|file| file.path.strip_prefix("settle/runs/"));
    let runs: BTreeSet<String> = runs.map(str::to_owned).collect();
    assert_eq!(names(folder().join("settle/runs")), runs);
}

#[test]
fn the_single_example_is_a_run_too() {
    for (single, run) in [("stdin", "example.in"), ("stdout", "example.out")] {
        let single = fs::read(folder().join("settle").join(single)).unwrap();
        let run = fs::read(folder().join("settle/runs").join(run)).unwrap();
        assert_eq!(single, run);
    }
}

/// The parts of the stored files that have a line changed.
fn changed(right: &[Stored], wrong: &[Stored]) -> BTreeSet<&'static str> {
    let mut changed = BTreeSet::new();
    for file in wrong {
        let stored = right.iter().find(|stored| stored.path == file.path);
        if stored.unwrap().contents != file.contents {
            let parts = ["replay/", "replay_settle/", "settle/runs/"];
            let part = parts.iter().find(|part| file.path.starts_with(**part));
            changed.insert(*part.unwrap());
        }
    }
    changed
}

/// How many lines of `replay` came before those of the editions.
const EARLIER_LINES: usize = 10_704;

/// The lines of `replay` from the editions on.
fn later_lines(files: &[Stored]) -> Vec<&[u8]> {
    let replay = files.iter().find(|file| file.path == "replay/stdout");
    let lines = replay.unwrap().contents.split(|&byte| byte == b'\n');
    lines.skip(EARLIER_LINES).collect()
}

fn is_of_editions(variant: Variant) -> bool {
    WRONG_EDITIONS.contains(&variant)
        || WRONG_CHANGE_DAYS.contains(&variant)
        || WRONG_WORDS.contains(&variant)
        || WRONG_SHARES.contains(&variant)
        || WRONG_SHARE_CALLS.contains(&variant)
}

#[test]
fn every_wrong_variant_is_shown() {
    let cases = Cases::generate();
    let right = cases.outputs(Context::RIGHT);
    for variant in wrong() {
        let wrong = cases.variant_outputs(Context::of(variant));
        let changed = changed(&right, &wrong);
        let expected: &[&str] = match variant {
            // A frame's input is too short for these.
            Variant::ReadsOnly65536Bytes | Variant::PositionsOf16Bits => &["settle/runs/"],
            // No run leaves an odd kWh to two accounts.
            Variant::ChangesOnFirstDay => &["replay_settle/"],
            Variant::NeverIsAlways | Variant::SecondAlwaysUsed => &["replay/", "replay_settle/"],
            Variant::StartsAnewAtEachRound
            | Variant::FigureOfEarlierIntervals
            | Variant::BaseRoundWithoutLastAccount => {
                &["replay/", "replay_settle/", "settle/runs/"]
            }
            // No run's shares depend on its tenders.
            _ if WRONG_REPORTS.contains(&variant) => &["replay/", "replay_settle/"],
            _ if WRONG_BOOKS.contains(&variant) || WRONG_WITHOUT_CHANGE_DAY.contains(&variant) => {
                &["replay/", "replay_settle/", "settle/runs/"]
            }
            // The runs' half cents are those of one account.
            Variant::Word8MustBeZero
            | Variant::BoundExclusive
            | Variant::BoundOfDayLess
            | Variant::BoundOf499 => &["replay/", "replay_settle/", "settle/runs/"],
            _ if WRONG_BETWEEN_CALLS.contains(&variant) => &["replay/", "replay_settle/"],
            _ if is_shown_by_replay_alone(variant) => &["replay/"],
            _ => &["replay_settle/", "settle/runs/"],
        };
        assert!(changed.iter().eq(expected), "{variant:?}: {changed:?}");
        if is_of_editions(variant) {
            assert!(later_lines(&wrong) != later_lines(&right), "{variant:?}");
        }
    }
}

#[test]
fn no_variant_is_listed_twice() {
    let names: BTreeSet<String> = wrong().map(|variant| format!("{variant:?}")).collect();
    assert_eq!(names.len(), wrong().count());
    assert!(!names.contains("Right"));
}
