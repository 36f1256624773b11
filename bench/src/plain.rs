//! A plain judge of a book, in one pass: what one would write first in safe Rust with speed in mind.

const HEADER_WORDS: usize = 64;
const DAY_BOUND: i64 = 4_800_000_000_000;
const LAST_DAY: i64 = 36_524;

pub fn well_formed(book: &[i64]) -> bool {
    let Some(header) = book.first_chunk::<HEADER_WORDS>() else {
        return false;
    };
    let [mark, accounts, lag, horizon, first, next, mssl, change, difference, spares @ ..] = header;
    let fits = *mark == 395
        && (1..=32).contains(accounts)
        && (1..=75).contains(lag)
        && (1..=92).contains(horizon)
        && (9_497..=LAST_DAY).contains(first)
        && (*first..=LAST_DAY + 1).contains(next)
        && (*change == 0 || (9_497..=LAST_DAY).contains(change))
        && blank(spares);
    if !fits {
        return false;
    }
    let bound = (next - first) * DAY_BOUND;
    let (n, slots) = (*accounts as usize, lag + horizon);
    let interval_words = 4 + 24 * n;
    let slot_words = 48 * interval_words;
    let base = HEADER_WORDS + 8 * n;
    let Some(book) = book.get(..base + slots as usize * slot_words) else {
        return false;
    };
    let left = 500 * accounts * (next - first);
    if mssl.abs_diff(0) > (bound * accounts) as u64 || difference.abs_diff(0) > left as u64 {
        return false;
    }
    for account in book[HEADER_WORDS..base].chunks_exact(8) {
        if account[0].abs_diff(0) > bound as u64 || !blank(&account[1..]) {
            return false;
        }
    }
    let oldest = *first.max(&(next - lag));
    let newest = LAST_DAY.min(next + horizon - 1);
    for (slot, words) in book[base..].chunks_exact(slot_words).enumerate() {
        let later = (slot as i64 - (oldest - first)).rem_euclid(slots);
        let day = oldest + later;
        let fits = if day > newest {
            blank(words)
        } else {
            slot_fits(words, interval_words, day < *next)
        };
        if !fits {
            return false;
        }
    }
    true
}

fn slot_fits(words: &[i64], interval_words: usize, closed: bool) -> bool {
    for interval in words.chunks_exact(interval_words) {
        let (ncc, accounts) = interval.split_at(4);
        let most = if ncc[1] == 1 { 1_000_000_000 } else { 0 };
        if !(0..=1).contains(&ncc[1]) || !(0..=most).contains(&ncc[0]) || ncc[2] != 0 || ncc[3] != 0
        {
            return false;
        }
        for account in accounts.chunks_exact(24) {
            let account: &[i64; 24] = account.try_into().unwrap();
            if !account_fits(account, closed) {
                return false;
            }
        }
    }
    true
}

const QUANTITY: (i64, i64) = (0, 10_000_000);
const IEQ: (i64, i64) = (-10_000_000, 10_000_000);
const PRICE: (i64, i64) = (-1_000_000, 1_000_000);

fn account_fits(words: &[i64; 24], closed: bool) -> bool {
    let (vesting, meter, residual) = (words[0], words[9], words[18]);
    if closed && (vesting == 0 || meter == 0) {
        return false;
    }
    if !(0..=4).contains(&vesting) || !(0..=4).contains(&meter) || !(0..=1).contains(&residual) {
        return false;
    }
    let mut fits = true;
    for pair in 0..4 {
        let used = (pair as i64) < vesting;
        fits &= within(words[1 + 2 * pair], QUANTITY, used);
        fits &= within(words[2 + 2 * pair], PRICE, used);
        let used = (pair as i64) < meter;
        fits &= within(words[10 + 2 * pair], PRICE, used);
        fits &= within(words[11 + 2 * pair], IEQ, used);
    }
    let used = residual == 1;
    fits & within(words[19], QUANTITY, used)
        & within(words[20], QUANTITY, used)
        & within(words[21], PRICE, used)
        & within(words[22], PRICE, used)
        & (words[23] == 0)
}

/// In range where the word is in use, else zero.
fn within(word: i64, (low, high): (i64, i64), used: bool) -> bool {
    if used {
        (low <= word) & (word <= high)
    } else {
        word == 0
    }
}

fn blank(words: &[i64]) -> bool {
    words.iter().fold(0, |any, word| any | word) == 0
}
