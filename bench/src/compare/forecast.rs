//! Compares forecasts.
use super::{Tally, same, same_parts};
use crate::inputs::forecast::{CLAIM_BYTES, MOST_CENTS, Run};
use crate::inputs::{self, forecast};
use crate::random::Random;
use crate::tracker;
use bench::rules;
use std::cmp::Ordering;
use std::ops::RangeInclusive;

const FORECAST: &str = "forecast";
const ACCOUNT: &str = "forecast, account";
const DATE: &str = "forecast, no date";
const CUT: &str = "claim cut";
const CUT_BEHIND: &str = "claim cut, behind";
const LENGTH: &str = "claim, length";
const KIND: &str = "claim, kind";
const SAME: &str = "claim, same parties";
const PAYER: &str = "claim, payer";
const PAYEE: &str = "claim, payee";
const PLACE: &str = "bad claim, place";
const UNCOUNTED: &str = "bad claim, uncounted";
const SEVERAL: &str = "forecast, 18 and 19";
const PAST: &str = "sum past, whose";
const PAST_BY: &str = "sum past, by";
const ONE_PAST: &str = "sum one past, whose";
const WRAPS: &str = "sum wraps, by";
const AT_LIMIT: &str = "sum at limit, whose";
const DIFFERENCE: &str = "difference";
const EMPTY: &str = "forecast, empty run";
const NOTHING: &str = "nothing counts, but";
const NOTICE: &str = "notice of the account";
const LARGE: &str = "large, uncounted";
const COUNTED: &str = "counted for account";
const HUNDREDS: &str = "forecast, hundreds";
const EDGE: &str = "forecast, edge date";

/// Why a claim does not count.
const IS_NOTICE: u16 = 0;
const OTHER_DATE: u16 = 1;
const OTHER_ACCOUNTS: u16 = 2;

/// What a comparison of many inputs has to meet, each number of it. The numbers of a forecast. For 18, each reason alone: an account, by
/// its lowest 16 bits; a date that is none; a record that is cut, by its bytes, alone (0) and behind others (1); a byte of the header, by
/// its place; equal parties; a payer and a payee above 15. A bad record in front (0), in the middle (1) and last (2) of several, and one
/// that does not count, by the reason. 18 where a sum is past the limit too, the bad record before the one that brings it there (0), and
/// behind it (1). 19 for the sum to pay (0), to receive (1) and both (2); by interest (0), by principal (1), by the two together (2) and by
/// several claims (3); by one cent; and for a sum that is small once it wraps, by one claim (0) and by several (1). Sums at the limit,
/// whose likewise. Equal sums above zero (0), a positive difference (1) and a negative one (2) of such sums, and cents to receive (3) or to
/// pay (4) alone. An empty run. A run in which nothing counts, though a claim lacks but one thing. The outcomes of notices. A claim past
/// the limit that does not count, by the reason. Each account. The first (0) and the last date (1).
const EACH: [(&str, &[u16]); 25] = [
    (FORECAST, &[0, 18, 19]),
    (ACCOUNT, &[16, 255, 256, u16::MAX]),
    (DATE, &[0]),
    (CUT, &[1, 2, 3, 4, 5, 34]),
    (CUT_BEHIND, &[0, 1]),
    (LENGTH, &[0, 1]),
    (KIND, &[2, 3]),
    (SAME, &[0, 1, 14, 15]),
    (PAYER, &[16, 17, 32, 128, 255]),
    (PAYEE, &[16, 17, 32, 128, 255]),
    (PLACE, &[0, 1, 2]),
    (UNCOUNTED, &[IS_NOTICE, OTHER_DATE, OTHER_ACCOUNTS]),
    (SEVERAL, &[0, 1]),
    (PAST, &[0, 1, 2]),
    (PAST_BY, &[0, 1, 2, 3]),
    (ONE_PAST, &[0, 1]),
    (WRAPS, &[0, 1]),
    (AT_LIMIT, &[0, 1, 2]),
    (DIFFERENCE, &[0, 1, 2, 3, 4]),
    (EMPTY, &[0]),
    (NOTHING, &[IS_NOTICE, OTHER_DATE, OTHER_ACCOUNTS]),
    (NOTICE, &[1, 2, 3, 4, 128, 255]),
    (LARGE, &[IS_NOTICE, OTHER_DATE, OTHER_ACCOUNTS]),
    (COUNTED, &[0, 1, 2, 3, 4, 5, 6, 7, 8, 9, 10, 11, 12, 13, 14, 15]),
    (EDGE, &[0, 1]),
];

/// And one of these: an account whose lowest 16 bits are one of the sixteen, or whose lowest 8 are, a record cut in its middle, and a long run.
const ONE_OF: [(&str, RangeInclusive<u16>); 4] = [(ACCOUNT, 0..=15), (ACCOUNT, 257..=271), (CUT, 6..=33), (HUNDREDS, 1..=3)];

/// All of both.
pub fn wanted() -> impl Iterator<Item = (&'static str, RangeInclusive<u16>)> {
    let each = EACH.into_iter().flat_map(|(name, numbers)| numbers.iter().map(move |&number| (name, number..=number)));
    each.chain(ONE_OF)
}

fn count(name: &'static str, number: u16, tally: &mut Tally) {
    *tally.entry((name, number)).or_default() += 1;
}

/// The interest and the principal of a whole record.
fn amounts(record: &[u8]) -> [u128; 2] {
    [14, 22].map(|at| (0..8).map(|place| (record[at + place] as u128) << (8 * place)).sum())
}

/// The reasons for 18 in a record, each with the number that it is counted by.
fn faults(record: &[u8]) -> Vec<(&'static str, u16)> {
    if record.len() < CLAIM_BYTES {
        return vec![(CUT, record.len() as u16)];
    }
    let header = [(LENGTH, 0, 33), (LENGTH, 1, 0), (KIND, 2, 3), (KIND, 3, 0)];
    let wrong = header.into_iter().filter(|&(_, at, byte)| record[at] != byte).map(|(name, at, _)| (name, at as u16));
    let parties = [(PAYER, record[6]), (PAYEE, record[7])].into_iter().filter(|&(_, party)| party > 15);
    let same = (record[6] == record[7]).then_some((SAME, record[6]));
    wrong.chain(parties.chain(same).map(|(name, party)| (name, party as u16))).collect()
}

/// Why a whole record does not count for the account and the date.
fn misses(run: &Run, record: &[u8]) -> Vec<u16> {
    let is_other_date = record[30..34] != run.date.to_le_bytes();
    let is_others = record[6..8].iter().all(|&party| party as u32 != run.account);
    let reasons = [(record[5] != 0, IS_NOTICE), (is_other_date, OTHER_DATE), (is_others, OTHER_ACCOUNTS)];
    reasons.into_iter().filter_map(|(applies, reason)| applies.then_some(reason)).collect()
}

/// The amounts of the claims that the account pays (side 0) or receives (side 1) on the date, each with its place in the run.
fn counted(run: &Run, side: usize) -> Vec<(usize, [u128; 2])> {
    let records = run.claims.chunks_exact(CLAIM_BYTES).enumerate();
    let good = records.filter(|(_, record)| faults(record).is_empty() && misses(run, record).is_empty());
    good.filter(|(_, record)| record[6 + side] as u32 == run.account).map(|(at, record)| (at, amounts(record))).collect()
}

/// The place of the record that brings a sum past the limit.
fn past_at(run: &Run, side: usize) -> Option<usize> {
    let mut sum = 0;
    let mut claims = counted(run, side).into_iter();
    let is_past = |(_, [interest, principal]): &(usize, [u128; 2])| {
        sum += interest + principal;
        sum > MOST_CENTS as u128
    };
    claims.find(is_past).map(|(at, _)| at)
}

/// Counts an 18 by its reason, where that is one alone, and by its bad record, where that is one alone.
fn count_bad(run: &Run, tally: &mut Tally) {
    let records: Vec<&[u8]> = run.claims.chunks(CLAIM_BYTES).collect();
    let bad: Vec<usize> = (0..records.len()).filter(|&at| !faults(records[at]).is_empty()).collect();
    let past = [0, 1].into_iter().filter_map(|side| past_at(run, side)).min();
    if let (Some(past), Some(&bad)) = (past, bad.first()) {
        count(SEVERAL, (bad > past) as u16, tally);
    }
    let mut reasons: Vec<_> = records.iter().flat_map(|record| faults(record)).collect();
    reasons.extend((run.account > 15).then_some((ACCOUNT, run.account as u16)));
    reasons.extend((!inputs::is_date(run.date)).then_some((DATE, 0)));
    let [(name, number)] = reasons[..] else { return };
    count(name, number, tally);
    if let [at] = bad[..] {
        count_bad_record(run, &records, at, tally);
    }
}

/// Counts the only bad record by its place among several, and by why it would not count, or by whether it is cut behind others.
fn count_bad_record(run: &Run, records: &[&[u8]], at: usize, tally: &mut Tally) {
    if records.len() > 2 {
        let place = if at == 0 { 0 } else { 1 + (at == records.len() - 1) as u16 };
        count(PLACE, place, tally);
    }
    if records[at].len() < CLAIM_BYTES {
        count(CUT_BEHIND, (at > 0) as u16, tally);
    } else if let [reason] = misses(run, records[at])[..] {
        count(UNCOUNTED, reason, tally);
    }
}

/// Counts a 19 by the sums that are past the limit, and each of these by how it comes there.
fn count_past(run: &Run, tally: &mut Tally) {
    let sides: Vec<u16> = (0..2).filter(|&side| past_at(run, side as usize).is_some()).collect();
    count(PAST, if let [side] = sides[..] { side } else { 2 }, tally);
    for side in sides {
        count_past_sum(side, &counted(run, side as usize), tally);
    }
}

fn count_past_sum(side: u16, claims: &[(usize, [u128; 2])], tally: &mut Tally) {
    const MOST: u128 = MOST_CENTS as u128;
    let [interest, principal] = [0, 1].map(|part| claims.iter().map(|(_, amounts)| amounts[part]).sum::<u128>());
    let sum = interest + principal;
    let largest = claims.iter().map(|(_, [interest, principal])| interest + principal).max().unwrap_or(0);
    match (interest > MOST, principal > MOST) {
        (true, false) => count(PAST_BY, 0, tally),
        (false, true) => count(PAST_BY, 1, tally),
        (false, false) => count(PAST_BY, 2, tally),
        (true, true) => {}
    }
    if largest <= MOST {
        count(PAST_BY, 3, tally);
    }
    if sum == MOST + 1 {
        count(ONE_PAST, side, tally);
    }
    if sum > u64::MAX as u128 && sum as u64 <= MOST_CENTS {
        count(WRAPS, (largest <= u64::MAX as u128) as u16, tally);
    }
}

/// Counts an accepted forecast by its sums, its account and its date.
fn count_accepted(run: &Run, tally: &mut Tally) {
    let claims = [0, 1].map(|side| counted(run, side));
    let [pay, receive] =
        [0, 1].map(|side| claims[side].iter().map(|(_, [interest, principal])| interest + principal).sum::<u128>());
    match [pay, receive].map(|cents| cents == MOST_CENTS as u128) {
        [true, false] => count(AT_LIMIT, 0, tally),
        [false, true] => count(AT_LIMIT, 1, tally),
        [true, true] => count(AT_LIMIT, 2, tally),
        [false, false] => {}
    }
    match (pay, receive, receive.cmp(&pay)) {
        (0, 0, _) => {}
        (0, _, _) => count(DIFFERENCE, 3, tally),
        (_, 0, _) => count(DIFFERENCE, 4, tally),
        (_, _, Ordering::Equal) => count(DIFFERENCE, 0, tally),
        (_, _, Ordering::Greater) => count(DIFFERENCE, 1, tally),
        (_, _, Ordering::Less) => count(DIFFERENCE, 2, tally),
    }
    let is_nothing = claims.iter().all(Vec::is_empty);
    count_uncounted(run, is_nothing, tally);
    if !is_nothing {
        count(COUNTED, run.account as u16, tally);
        [20000101, 20391231].iter().position(|&edge| edge == run.date).into_iter().for_each(|at| count(EDGE, at as u16, tally));
    }
}

/// Counts an accepted run by its records, and those of them that lack but one thing to count.
fn count_uncounted(run: &Run, is_nothing: bool, tally: &mut Tally) {
    let records = run.claims.chunks_exact(CLAIM_BYTES);
    match records.len() {
        0 => count(EMPTY, 0, tally),
        more => count(HUNDREDS, more as u16 / 100, tally),
    }
    for record in records {
        let [reason] = misses(run, record)[..] else { continue };
        let cents: u128 = amounts(record).iter().sum();
        if is_nothing && cents > 0 {
            count(NOTHING, reason, tally);
        }
        if reason == IS_NOTICE && cents > 0 {
            count(NOTICE, record[5] as u16, tally);
        }
        if cents > MOST_CENTS as u128 {
            count(LARGE, reason, tally);
        }
    }
}

/// A forecast of a run by both; the run stays.
fn compare_run(run: &Run, tally: &mut Tally) -> Result<(), String> {
    let lent = run.claims.clone();
    let library = tracker::forecast(&lent, run.account, run.date);
    let rust = rules::forecast(&run.claims, run.account, run.date);
    count(FORECAST, library.number, tally);
    same("the forecast", &library, &rust)?;
    same_parts("the run", &lent, &run.claims)?;
    match library.number {
        0 => count_accepted(run, tally),
        18 => count_bad(run, tally),
        _ => count_past(run, tally),
    }
    Ok(())
}

/// Forecasts by both.
pub fn compare(random: &mut Random, tally: &mut Tally) -> Result<(), String> {
    for _ in 0..random.pick(&[1, 10, 40]) {
        compare_run(&forecast::run(random), tally)?;
    }
    Ok(())
}
