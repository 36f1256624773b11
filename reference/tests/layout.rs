//! The layout against the paper's figures, and against the words that the
//! history tells, which it lays out by itself.

use reference::book::{size, Opening};
use reference::generate::files::{even_row, Draft};
use reference::history::{History, METER, NCC, RESIDUAL, VESTING};
use reference::layout::{
    Layout, CHANGE_DAY, ENTRY_WORDS, HEADER_WORDS, MSSL_BALANCE, NCC_WORDS, NEXT_DAY,
    ROUNDING_DIFFERENCE,
};
use reference::numbers::ACCEPTED;

/// N = 2, L = H = 1, told by hand.
#[test]
fn the_book_of_5072_words() {
    let opening = Opening {
        accounts: 2,
        ..Opening::smallest(9_497)
    };
    let layout = Layout::of(opening).unwrap();
    assert_eq!((layout.accounts(), layout.slots()), (2, 2));
    assert_eq!(layout.size(), 5_072);
    assert_eq!((HEADER_WORDS, NEXT_DAY), (64, 5));
    assert_eq!((MSSL_BALANCE, CHANGE_DAY, ROUNDING_DIFFERENCE), (6, 7, 8));
    assert_eq!((layout.balance_at(0), layout.balance_at(1)), (64, 72));
    assert_eq!(layout.first_interval_at(), 80);
    assert_eq!((NCC_WORDS, ENTRY_WORDS), (4, 24));
    assert_eq!((layout.interval_words(), layout.slot_words()), (52, 2_496));

    let slots = [9_497, 9_498, 9_499, 36_524].map(|day| layout.slot(day));
    assert_eq!(slots, [0, 1, 0, 1]);
    assert_eq!(layout.slot_range(9_497), 80..2_576);
    assert_eq!(layout.slot_range(9_498), 2_576..5_072);
    assert_eq!(layout.slot_range(9_499), 80..2_576);

    // The second day's last interval, and the second account in it.
    assert_eq!(layout.interval_at(9_498, 47), 5_020);
    assert_eq!(layout.ncc_load_at(9_498, 47), 5_020);
    assert_eq!(layout.ncc_flag_at(9_498, 47), 5_021);
    assert_eq!(layout.entry_at(9_498, 47, 1), 5_048);
    assert_eq!(layout.vesting_flag_at(9_498, 47, 1), 5_048);
    assert_eq!(layout.meter_flag_at(9_498, 47, 1), 5_057);
    assert_eq!(layout.residual_flag_at(9_498, 47, 1), 5_066);

    // The first flags of the paper's two examples of number 11.
    assert_eq!(layout.vesting_flag_at(9_497, 0, 0), 84);
    let one = Layout::of(Opening::smallest(9_497)).unwrap();
    assert_eq!(one.vesting_flag_at(9_497, 0, 0), 76);
}

#[test]
fn a_layout_where_there_is_a_size() {
    let good = Opening::smallest(9_497);
    for (accounts, lag, horizon, there) in [
        (1, 1, 1, true),
        (32, 75, 92, true),
        (0, 1, 1, false),
        (33, 1, 1, false),
        (1, 0, 1, false),
        (1, 76, 1, false),
        (1, 1, 0, false),
        (1, 1, 93, false),
        (u64::MAX, u64::MAX, u64::MAX, false),
    ] {
        let opening = Opening {
            accounts,
            lag,
            horizon,
            ..good
        };
        assert_eq!(Layout::of(opening).is_some(), there);
        assert_eq!(size(opening).is_some(), there);
    }
    // The first day is not judged, and any day has a slot.
    for first_day in [0, 36_525, 1 << 63, u64::MAX] {
        let layout = Layout::of(Opening { first_day, ..good }).unwrap();
        for day in [i64::MIN, -1, 0, 9_497, i64::MAX] {
            assert!(layout.slot(day) < layout.slots());
            assert!(layout.slot_range(day).end <= layout.size());
        }
    }
}

/// One row of each section at a time: the words that change are its flags and
/// values.
#[test]
fn rows_stand_where_the_history_has_them() {
    for (accounts, lag, horizon, first_day) in [
        (1, 1, 1, 9_497),
        (2, 1, 3, 20_000),
        (3, 2, 2, 36_515),
        (32, 1, 2, 9_500),
    ] {
        let opening = Opening {
            accounts,
            lag,
            horizon,
            ..Opening::smallest(first_day)
        };
        let layout = Layout::of(opening).unwrap();
        assert_eq!(History::new(opening).words().len(), layout.size());
        let last = (layout.accounts() - 1, (first_day + horizon - 1) as i64);
        for (account, day) in [(0, first_day as i64), last] {
            for section in [VESTING, METER, RESIDUAL, NCC] {
                let account = if section == NCC { 0 } else { account };
                let (count, values) = match section {
                    VESTING => (3, vec![11, 12, 13, 14, 15, 16, 17, 18]),
                    METER => (4, vec![11, 12, 13, 14, 15, 16, 17, 18]),
                    RESIDUAL => (0, vec![11, 12, 13, 14]),
                    _ => (0, vec![11]),
                };
                let rows = vec![even_row((section, account, day), count, &values)];
                let mut history = History::new(opening);
                let mut expected = history.words();
                history.submitted(&Draft { rows }.bytes(), ACCEPTED);
                for interval in 0..48 {
                    let (flag, word) = match section {
                        VESTING => (layout.vesting_flag_at(day, interval, account), 4),
                        METER => (layout.meter_flag_at(day, interval, account), 4),
                        RESIDUAL => (layout.residual_flag_at(day, interval, account), 1),
                        _ => (layout.ncc_flag_at(day, interval), 1),
                    };
                    expected[flag] = word;
                    let first = match section {
                        NCC => layout.ncc_load_at(day, interval),
                        _ => flag + 1,
                    };
                    expected[first..first + values.len()].copy_from_slice(&values);
                }
                assert!(history.words() == expected, "{opening:?} {section} {day}");
            }
        }
    }
}
