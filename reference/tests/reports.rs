//! The hedge total of an interval in rounds: base quantities, then first, second
//! and third tranches.

use reference::book::Opening;
use reference::close::close;
use reference::frames::Frame;
use reference::generate::books::{kept_book, opened_book};
use reference::generate::cases::cases;
use reference::generate::files::{even_row, Draft, DraftRow};
use reference::generate::Rng;
use reference::history::{METER, NCC, RESIDUAL, VESTING};
use reference::layout::{Interval, Layout};
use reference::numbers::Answer;
use reference::player::Player;
use reference::report::HedgeReport;
use reference::submission::submit;
use reference::variant::{Context, Variant, WRONG_REPORTS};
use reference::wrong_report::WrongReport;

const F: i64 = 9_497;

fn opening(accounts: usize) -> Opening {
    Opening {
        accounts: accounts as u64,
        ..Opening::smallest(F as u64)
    }
}

fn give(book: &mut [i64], rows: Vec<DraftRow>) {
    assert_eq!(submit(book, &Draft { rows }.bytes()), Answer::ACCEPTED);
}

/// A book with these BVQ and TVQ in each interval of day F, at price 7; MQ is BVQ.
fn hedged_book(hedges: &[&[i64]]) -> Vec<i64> {
    let mut book = opened_book(opening(hedges.len()));
    let mut rows = Vec::new();
    for (account, quantities) in hedges.iter().enumerate() {
        let pairs: Vec<i64> = quantities.iter().flat_map(|kwh| [*kwh, 7]).collect();
        let tranches = quantities.len() as u8 - 1;
        rows.push(even_row((VESTING, account, F), tranches, &pairs));
        let residual = [0, quantities[0], 0, 0];
        rows.push(even_row((RESIDUAL, account, F), 0, &residual));
    }
    give(&mut book, rows);
    book
}

/// The intervals of day F.
fn intervals(book: &[i64], accounts: usize) -> Vec<Interval<'_>> {
    let layout = Layout::of(opening(accounts)).unwrap();
    layout.intervals(book, F).collect()
}

fn figures(interval: Interval) -> [i64; 4] {
    let report = HedgeReport::of(interval);
    let HedgeReport {
        base,
        first_tranches,
        second_tranches,
        third_tranches,
    } = report;
    [base, first_tranches, second_tranches, third_tranches]
}

/// The figures of hedges that are alike in all intervals.
fn figures_of(hedges: &[&[i64]]) -> [i64; 4] {
    let book = hedged_book(hedges);
    let told: Vec<[i64; 4]> = intervals(&book, hedges.len())
        .into_iter()
        .map(figures)
        .collect();
    assert_eq!(told, vec![told[0]; 48]);
    told[0]
}

#[test]
fn figures_told_by_hand() {
    // The second account has no base contract and one tender.
    let hedges: [&[i64]; 3] = [&[100, 7], &[0, 20], &[300, 5, 0, 2]];
    assert_eq!(figures_of(&hedges), [400, 432, 432, 434]);
    let hedges: [&[i64]; 3] = [&[400], &[0, 0, 30], &[0, 6, 0, 1]];
    assert_eq!(figures_of(&hedges), [400, 406, 436, 437]);
    assert_eq!(figures_of(&[&[0, 0, 0, 9]]), [0, 0, 0, 9]);
    assert_eq!(figures_of(&[&[0], &[0], &[0]]), [0; 4]);
    let most: &[i64] = &[10_000_000; 4];
    let sums = [320_000_000, 640_000_000, 960_000_000, 1_280_000_000];
    assert_eq!(figures_of(&[most; 32]), sums);
}

/// Each round has a digit of its own: rounds in any other order show.
#[test]
fn rounds_come_in_the_order_of_the_report() {
    let hedges: [&[i64]; 3] = [
        &[1, 10, 100, 1_000],
        &[2, 20, 200, 2_000],
        &[3, 30, 300, 3_000],
    ];
    assert_eq!(figures_of(&hedges), [6, 66, 666, 6_666]);
}

#[test]
fn absent_rows_count_nothing() {
    let book = opened_book(opening(3));
    for interval in intervals(&book, 3) {
        assert_eq!(figures(interval), [0; 4]);
    }
}

/// The quantities of an account in use in an interval: BVQ, then its TVQ.
fn quantities<'a>(layout: &Layout, book: &'a [i64], at: (i64, usize, usize)) -> Vec<&'a i64> {
    let (day, interval, account) = at;
    let flag = layout.vesting_flag_at(day, interval, account);
    let pairs = book[flag + 1..].iter().step_by(2);
    pairs.take(book[flag] as usize).collect()
}

/// Account by account, of each the quantities up to the round.
fn figures_by_account(layout: &Layout, book: &[i64], day: i64, interval: usize) -> [i64; 4] {
    let mut figures = [0; 4];
    for account in 0..layout.accounts() {
        let quantities = quantities(layout, book, (day, interval, account));
        for (round, figure) in figures.iter_mut().enumerate() {
            *figure += quantities.iter().take(round + 1).copied().sum::<i64>();
        }
    }
    figures
}

/// The hedge total as it was formed before: all of an account, then the next.
fn total_by_account(layout: &Layout, book: &[i64], day: i64, interval: usize) -> i64 {
    let accounts = 0..layout.accounts();
    accounts
        .flat_map(|account| quantities(layout, book, (day, interval, account)))
        .sum()
}

#[test]
fn figures_of_any_book() {
    let mut rng = Rng::new(0x3EB);
    let mut unlike = 0;
    for _ in 0..150 {
        let opening = Opening {
            accounts: rng.pick(&[1, 2, 3, 5, 32]),
            lag: rng.pick(&[1, 2]),
            ..Opening::smallest(F as u64)
        };
        let closes = rng.below(4);
        let (book, _) = kept_book(&mut rng, opening, closes, true);
        let layout = Layout::of(opening).unwrap();
        let next_day = F + closes as i64;
        for day in F.max(next_day - opening.lag as i64)..=next_day {
            for (at, interval) in layout.intervals(&book, day).enumerate() {
                let told = figures(interval);
                assert_eq!(told, figures_by_account(&layout, &book, day, at));
                assert_eq!(told[3], total_by_account(&layout, &book, day, at));
                unlike += u32::from((0..3).all(|round| told[round] < told[round + 1]));
            }
        }
    }
    assert!(unlike > 3_000, "{unlike}");
}

/// A vesting row of day F with any quantities below 1,000.
fn drawn_hedges(rng: &mut Rng, account: usize) -> DraftRow {
    let tranches = rng.below(4);
    let base = rng.pick(&[0, 999]);
    let mut row = even_row((VESTING, account, F), tranches as u8, &[]);
    for _ in 0..48 {
        row.values.extend([rng.between(0, base), 0]);
        let tenders = (0..tranches).flat_map(|_| [rng.between(0, 999), -3]);
        row.values.extend(tenders);
    }
    row
}

/// A book of this many accounts with day F closed and all hedges drawn.
fn drawn_book(rng: &mut Rng, accounts: usize) -> Vec<i64> {
    let mut book = opened_book(opening(accounts));
    let mut rows = Vec::new();
    for account in 0..accounts {
        rows.push(drawn_hedges(rng, account));
        rows.push(even_row((METER, account, F), 1, &[0, 1]));
    }
    give(&mut book, rows);
    assert_eq!(close(&mut book, &mut vec![0; accounts + 1]).number, 0);
    book
}

/// Gives the rows of the next close: the last account has all the spare
/// generation, 1,000 kWh, and gets 1 cent for each kWh of its share.
fn give_loads(book: &mut [i64], accounts: usize, loads: Vec<i64>) {
    let mut rows = vec![DraftRow {
        values: loads,
        ..even_row((NCC, 0, F), 0, &[])
    }];
    for account in 0..accounts {
        let uegq = if account == accounts - 1 { 1_000 } else { 0 };
        rows.push(even_row((VESTING, account, F + 1), 0, &[0, 0]));
        rows.push(even_row((METER, account, F + 1), 1, &[0, 1]));
        let residual = [uegq, 0, 0, 1_000];
        rows.push(even_row((RESIDUAL, account, F), 0, &residual));
    }
    give(book, rows);
}

#[test]
fn a_close_takes_the_last_figure_off_the_load() {
    let mut rng = Rng::new(0x3EC);
    for _ in 0..60 {
        let accounts = rng.between(1, 6) as usize;
        let mut book = drawn_book(&mut rng, accounts);
        let totals = intervals(&book, accounts).into_iter().map(figures);
        let totals: Vec<i64> = totals.map(|figures| figures[3]).collect();
        let loads = totals.iter().map(|total| total + rng.between(0, 999));
        let loads: Vec<i64> = loads.collect();
        let left = loads.iter().sum::<i64>() - totals.iter().sum::<i64>();
        give_loads(&mut book, accounts, loads);
        let mut statement = vec![0; accounts + 1];
        assert_eq!(close(&mut book, &mut statement).number, 0);
        let mut expected = vec![0; accounts - 1];
        expected.extend([left, -left]);
        assert_eq!(statement, expected);
    }
}

/// Rounds of 6, 380, 4,700 and 8,000 kWh.
const TOLD: [&[i64]; 3] = [&[1, 20], &[0, 300, 4_000], &[5, 60, 700, 8_000]];
const TOLD_TOTAL: i64 = 13_086;

/// A slip's hedge total, told by hand.
const SLIPS: [(Variant, i64); 17] = [
    (Variant::LeavesOutFirstTranches, 12_706),
    (Variant::LeavesOutSecondTranches, 8_386),
    (Variant::LeavesOutThirdTranches, 5_086),
    (Variant::LeavesOutTranches, 6),
    (Variant::CountsTendersInBaseRound, 26_166),
    (Variant::StartsAnewAtEachRound, 8_000),
    (Variant::StartsFromBaseAtEachRound, 8_006),
    (Variant::AsManyRoundsAsFirstAccount, 386),
    (Variant::ReadsFirstTranchesTwice, 8_766),
    (Variant::ReadsSecondTranchesTwice, 9_786),
    // Six prices of 7.
    (Variant::ReadsTranchePrices, 48),
    (Variant::SkipsTranchesWithoutBase, 8_786),
    (Variant::SkipsTranchesWithoutMq, 8_786),
    (Variant::LeavesOutEachLastTranche, 1_066),
    (Variant::RoundEndsWithoutTranche, 386),
    (Variant::BaseRoundWithoutLastAccount, 13_081),
    (Variant::TrancheRoundsWithoutLastAccount, 4_326),
];

#[test]
fn wrong_reports_answer_their_slips() {
    let book = hedged_book(&TOLD);
    let intervals = intervals(&book, TOLD.len());
    assert_eq!(figures(intervals[0]), [6, 386, 5_086, TOLD_TOTAL]);
    for (variant, expected) in SLIPS {
        let mut wrong = WrongReport::new(Context::of(variant));
        for interval in &intervals {
            assert_eq!(wrong.total(*interval), expected, "{variant:?}");
        }
    }
    let carried = Variant::FigureOfEarlierIntervals;
    let mut wrong = WrongReport::new(Context::of(carried));
    for (interval, times) in intervals.iter().zip(1..) {
        assert_eq!(wrong.total(*interval), times * TOLD_TOTAL);
    }
    let told = |variant| SLIPS.iter().any(|slip| slip.0 == variant);
    assert!(WRONG_REPORTS
        .into_iter()
        .all(|variant| told(variant) || variant == carried));
}

#[test]
fn without_a_slip_the_wrong_report_is_right() {
    let mut rng = Rng::new(0x3ED);
    for context in [Context::RIGHT, Context::of(Variant::StoresNothing)] {
        let book = drawn_book(&mut rng, 5);
        let mut report = WrongReport::new(context);
        for interval in intervals(&book, 5) {
            assert_eq!(report.total(interval), figures(interval)[3]);
        }
    }
}

/// How many lines of `replay` come before those of the reports.
const EARLIER_LINES: usize = 11_703;

/// The frames of the reports, book by book.
fn report_books() -> Vec<Vec<Frame>> {
    let mut lines = 0;
    let mut books: Vec<Vec<Frame>> = Vec::new();
    for frame in cases().into_iter().take_while(|frame| !frame.is_packed()) {
        if lines >= EARLIER_LINES {
            match (&frame, books.last_mut()) {
                (Frame::Open { .. }, _) | (_, None) => books.push(vec![frame]),
                (_, Some(book)) => book.push(frame),
            }
            continue;
        }
        lines += usize::from(!matches!(frame, Frame::Poke { .. }));
    }
    books
}

fn lines(context: Context, book: &[Frame]) -> Vec<String> {
    let mut player = Player::new(context);
    book.iter().filter_map(|frame| player.play(frame)).collect()
}

#[test]
fn two_books_of_the_cases_show_each_wrong_report() {
    let books = report_books();
    let right: Vec<_> = books
        .iter()
        .map(|book| lines(Context::RIGHT, book))
        .collect();
    for variant in WRONG_REPORTS {
        let wrong = books.iter().map(|book| lines(Context::of(variant), book));
        let shown = wrong.zip(&right).filter(|(wrong, right)| wrong != *right);
        let shown = shown.count();
        assert!(shown >= 2, "{variant:?}: {shown} of {}", books.len());
    }
}
