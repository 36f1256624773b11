//! The daily close.

use crate::book::{judge, judge_in, Header};
use crate::day_amount::{residual_amount, vesting_amount, DayTotal};
use crate::edition::Edition;
use crate::layout::{Interval, CHANGE_DAY, MSSL_BALANCE, NEXT_DAY, ROUNDING_DIFFERENCE};
use crate::numbers::{Answer, ACCEPTED, DATUM_ABSENT, FINISHED, NOT_WELL_FORMED, OUTPUT_TOO_SHORT};
use crate::report::HedgeReport;
use crate::share::write_shares;
use crate::units::{INTERVALS, LAST_DAY, MOST_ACCOUNTS};
use crate::variant::{Context, Variant};
use crate::wrong_difference::{difference_in, refused_in, told_in, word_in};
use crate::wrong_edition::{close_context, edition_in, judges_late};
use crate::wrong_report::WrongReport;
use crate::wrong_share::WrongShares;

/// Closes the book's next day and writes the accounts' cents, then the MSSL's,
/// to the statement.
pub fn close(book: &mut [i64], statement: &mut [i64]) -> Answer {
    close_in(Context::RIGHT, book, statement)
}

pub fn close_in(context: Context, book: &mut [i64], statement: &mut [i64]) -> Answer {
    match judged_close(context, book, statement) {
        accepted if accepted.number == ACCEPTED => accepted,
        refused => refused_in(context, book, refused),
    }
}

fn judged_close(context: Context, book: &mut [i64], statement: &mut [i64]) -> Answer {
    let Some(header) = judge_in(close_context(context), book) else {
        return Answer::at(NOT_WELL_FORMED, 0);
    };
    if context.is(Variant::RefusesEverything) {
        return Answer::at(NOT_WELL_FORMED, 0);
    }
    let layout = header.layout();
    let (accounts, day) = (header.accounts(), header.next_day());
    if day > LAST_DAY {
        return Answer::at(FINISHED, 0);
    }
    let Some(statement) = statement.get_mut(..=accounts) else {
        return Answer::at(OUTPUT_TOO_SHORT, 0);
    };
    if judges_late(context) && judge(book).is_none() {
        return Answer::at(NOT_WELL_FORMED, 0);
    }
    if context.is(Variant::SaysAbsentUnsearched) {
        return Answer::at(DATUM_ABSENT, layout.vesting_flag_at(day, 0, 0));
    }
    if let Some(flag) = first_absent(book, &header) {
        return Answer::at(DATUM_ABSENT, flag);
    }

    let (stated, totals) = stated_and_totals(context, book, &header);
    let (stated, totals) = (&stated[..accounts], &totals[..accounts]);
    let posted = totals.iter().map(|total| total.cents());
    let difference = difference_in(context, book, &header, totals);
    if !(context.is(Variant::OneStatementForAllDays) && day > header.first_day()) {
        statement[..accounts].copy_from_slice(stated);
        statement[accounts] = -stated.iter().sum::<i64>();
    }
    for (account, amount) in posted.clone().enumerate() {
        book[layout.balance_at(account)] += amount;
    }
    book[MSSL_BALANCE] -= posted.sum::<i64>();
    let before = book[ROUNDING_DIFFERENCE];
    book[ROUNDING_DIFFERENCE] = word_in(context, before, difference);
    book[NEXT_DAY] += 1;
    if context.is(Variant::CloseForgetsChangeDay) {
        book[CHANGE_DAY] = 0;
    }

    let residual_day = header.residual_day();
    if let Some(settled) = residual_day {
        book[layout.slot_range(settled)].fill(0);
    }
    let settles = residual_day.is_some() || context.is(Variant::InventsResidualCount);
    let residuals = if settles { INTERVALS * accounts } else { 0 };
    let told = told_in(context, before, difference);
    Answer::closed(day, residuals as i64, told)
}

/// The first flag that is zero among those the close needs, in search order.
pub(crate) fn first_absent(book: &[i64], header: &Header) -> Option<usize> {
    let layout = header.layout();
    'search: {
        for interval in 0..INTERVALS {
            for account in 0..header.accounts() {
                for flag in [
                    layout.vesting_flag_at(header.next_day(), interval, account),
                    layout.meter_flag_at(header.next_day(), interval, account),
                ] {
                    if book[flag] == 0 {
                        break 'search Some(flag);
                    }
                }
            }
            let Some(residual_day) = header.residual_day() else {
                continue;
            };
            let ncc_flag = layout.ncc_flag_at(residual_day, interval);
            if book[ncc_flag] == 0 {
                break 'search Some(ncc_flag);
            }
            for account in 0..header.accounts() {
                let flag = layout.residual_flag_at(residual_day, interval, account);
                if book[flag] == 0 {
                    break 'search Some(flag);
                }
            }
        }
        None
    }
}

/// The statement's amounts, and the totals that the balances and word 8 grow by; a
/// slip alone tells them apart.
fn stated_and_totals(
    context: Context,
    book: &[i64],
    header: &Header,
) -> ([i64; MOST_ACCOUNTS], [DayTotal; MOST_ACCOUNTS]) {
    let totals = day_totals(context, book, header);
    let in_first_edition = || day_totals(Context::of(Variant::SecondNeverUsed), book, header);
    let (stated, totals) = match context.variant {
        Variant::StatementInFirstEdition => (in_first_edition(), totals),
        Variant::BalancesInFirstEdition => (totals, in_first_edition()),
        _ => (totals, totals),
    };
    (stated.map(DayTotal::cents), totals)
}

/// Each account's total; those of accounts the book has not stay zero.
pub(crate) fn day_totals(
    context: Context,
    book: &[i64],
    header: &Header,
) -> [DayTotal; MOST_ACCOUNTS] {
    if context.is(Variant::PostsZerosAfterFirstDay) && header.next_day() > header.first_day() {
        return [DayTotal::default(); MOST_ACCOUNTS];
    }
    let layout = header.layout();
    let mut sharing = Sharing::of(context, header);
    let mut totals = [DayTotal::default(); MOST_ACCOUNTS];
    let mut settled = header.residual_day().map(|day| layout.intervals(book, day));
    for closing in layout.intervals(book, header.next_day()) {
        let totals = totals.iter_mut().zip(closing.entries());
        let Some(residual) = settled.as_mut().and_then(Iterator::next) else {
            for (total, closing) in totals {
                total.absorb(context, vesting_amount(context, closing));
            }
            continue;
        };
        let shares = sharing.shares(residual, closing);
        for (((total, closing), residual), rvq) in totals.zip(residual.entries()).zip(shares) {
            let vesting = vesting_amount(context, closing);
            let residual = residual_amount(context, residual, closing, *rvq);
            total.absorb(context, vesting + residual);
        }
    }
    totals
}

/// How a close shares the load of day r, interval after interval.
struct Sharing {
    context: Context,
    accounts: usize,
    uegqs: [i64; MOST_ACCOUNTS],
    shares: [i64; MOST_ACCOUNTS],
    edition: Edition,
    wrong_report: Option<WrongReport>,
    wrong_shares: Option<WrongShares>,
}

impl Sharing {
    fn of(context: Context, header: &Header) -> Sharing {
        let edition = edition_in(context, header);
        Sharing {
            context,
            accounts: header.accounts(),
            uegqs: [0; MOST_ACCOUNTS],
            shares: [0; MOST_ACCOUNTS],
            edition,
            wrong_report: WrongReport::of(context),
            wrong_shares: WrongShares::of(context).filter(|_| edition == Edition::Second),
        }
    }

    /// The accounts' shares of an interval of day r.
    fn shares(&mut self, residual: Interval, closing: Interval) -> &[i64] {
        let remaining = self.remaining(residual, closing);
        let uegqs = &mut self.uegqs[..self.accounts];
        let shares = &mut self.shares[..self.accounts];
        for (uegq, entry) in uegqs.iter_mut().zip(residual.entries()) {
            *uegq = entry.uegq();
        }
        match &mut self.wrong_shares {
            Some(wrong) => wrong.write(remaining, uegqs, shares),
            None => write_shares(self.edition, remaining, uegqs, shares),
        }
        shares
    }

    /// R of day r, the load less the hedge total of that day.
    fn remaining(&mut self, residual: Interval, closing: Interval) -> i64 {
        let hedged = if self.context.is(Variant::LoadsResidualWithClosingDayHedges) {
            closing
        } else {
            residual
        };
        let hedge_total = match &mut self.wrong_report {
            Some(wrong) => wrong.total(hedged),
            None => HedgeReport::of(hedged).total(),
        };
        residual.ncc_load() - hedge_total
    }
}
