//! The hedge total of an interval with the slips of the wrong variants. Without a
//! slip it is the last figure of `report`.

use crate::layout::{Entry, Interval};
use crate::units::MOST_TRANCHES;
use crate::variant::{Context, Variant, WRONG_REPORTS};

/// The hedge totals of a close, interval after interval.
pub struct WrongReport {
    context: Context,
    /// The hedge totals of the intervals before.
    earlier: i64,
}

impl WrongReport {
    pub fn new(context: Context) -> WrongReport {
        WrongReport {
            context,
            earlier: 0,
        }
    }

    /// None if there is no slip.
    pub(crate) fn of(context: Context) -> Option<WrongReport> {
        let wrong = WRONG_REPORTS.contains(&context.variant);
        wrong.then(|| WrongReport::new(context))
    }

    pub fn total(&mut self, interval: Interval) -> i64 {
        let entries: Vec<Entry> = interval.entries().collect();
        let total = wrong_total(self.context.variant, &entries);
        if !self.context.is(Variant::FigureOfEarlierIntervals) {
            return total;
        }
        self.earlier += total;
        self.earlier
    }
}

fn wrong_total(slip: Variant, entries: &[Entry]) -> i64 {
    let base: i64 = entries.iter().map(|entry| entry.bvq()).sum();
    let [first, second, third] = [1, 2, 3].map(|round| tranche_round(entries, round));
    let tranches = first + second + third;
    let others = &entries[..entries.len() - 1];
    match slip {
        Variant::LeavesOutFirstTranches => base + second + third,
        Variant::LeavesOutSecondTranches => base + first + third,
        Variant::LeavesOutThirdTranches => base + first + second,
        Variant::LeavesOutTranches => base,
        Variant::CountsTendersInBaseRound => base + tranches + tranches,
        Variant::StartsAnewAtEachRound => third,
        Variant::StartsFromBaseAtEachRound => base + third,
        Variant::ReadsFirstTranchesTwice => base + first + first + third,
        Variant::ReadsSecondTranchesTwice => base + first + second + second,
        Variant::BaseRoundWithoutLastAccount => {
            others.iter().map(|entry| entry.bvq()).sum::<i64>() + tranches
        }
        Variant::TrancheRoundsWithoutLastAccount => base + others.iter().map(tenders).sum::<i64>(),
        Variant::AsManyRoundsAsFirstAccount => {
            let rounds = 1..=entries[0].tranches();
            base + rounds
                .map(|round| tranche_round(entries, round))
                .sum::<i64>()
        }
        Variant::RoundEndsWithoutTranche => {
            let rounds = 1..=MOST_TRANCHES;
            base + rounds
                .map(|round| round_of_leading(entries, round))
                .sum::<i64>()
        }
        _ => base + entries.iter().map(|entry| read(slip, entry)).sum::<i64>(),
    }
}

fn tranche_round(entries: &[Entry], round: usize) -> i64 {
    entries.iter().map(|entry| entry.hedged(round)).sum()
}

/// A tranche's round up to the first account without it.
fn round_of_leading(entries: &[Entry], round: usize) -> i64 {
    let leading = entries.iter().take_while(|entry| entry.tranches() >= round);
    leading.map(|entry| entry.hedged(round)).sum()
}

/// All TVQ of an account.
fn tenders(entry: &Entry) -> i64 {
    (1..=MOST_TRANCHES).map(|round| entry.hedged(round)).sum()
}

/// What the tranches' rounds read of an account.
fn read(slip: Variant, entry: &Entry) -> i64 {
    match slip {
        Variant::SkipsTranchesWithoutBase if entry.bvq() == 0 => 0,
        Variant::SkipsTranchesWithoutMq if entry.mq() == 0 => 0,
        Variant::LeavesOutEachLastTranche => {
            let rounds = 1..entry.tranches();
            rounds.map(|round| entry.hedged(round)).sum()
        }
        Variant::ReadsTranchePrices => entry.hedges().skip(1).map(|(_, price)| price).sum(),
        _ => tenders(entry),
    }
}
