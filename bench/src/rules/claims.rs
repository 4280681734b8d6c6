//! Amounts, outcomes and release of claims; the claims of a transfer and of a close.
use super::book::Balances;
use super::days::{self, Calendar};
use super::limits::{self, Limits};
use super::records::{CLAIM_BYTES, Claim, Transfer};
use super::tables::{self, Row, Security, Tables};
use super::{Book, TRACKING_WORDS};
use std::ops::Range;

const FAIL: u8 = 1;
const INTERIM: u8 = 2;
const LENDING: u8 = 3;
const REPO: u8 = 4;

/// Cents on a par by a factor, half a cent up.
fn cents(par: u64, factor: u32) -> u64 {
    (par * factor as u64 + 5_000_000) / 10_000_000
}

/// What a claim is about.
struct Due<'a> {
    claim_type: u8,
    payer: u8,
    payee: u8,
    security: u8,
    kind: u32,
    row: u8,
    words: &'a Row,
    transfer: u32,
    par: u64,
}

fn claim(calendar: &Calendar, day: u32, due: &Due) -> Claim {
    let [_, _, payment, interest, principal, is_final, mask] = *due.words;
    let is_tracked = matches!(due.claim_type, LENDING | REPO);
    let interest = cents(due.par, interest);
    let principal = cents(due.par, principal);
    let outcome = if interest == 0 && principal == 0 {
        1
    } else if is_tracked && is_final == 1 {
        2
    } else if mask >> due.payer & 1 == 1 {
        3
    } else {
        0
    };
    let (release, slot) = if outcome != 0 {
        (0, 0)
    } else if !is_tracked && payment <= day {
        (days::open_after(calendar, day).unwrap_or(0), 2)
    } else {
        let slot = if matches!(due.kind, 1 | 4) { 1 } else { 3 };
        (days::open_on_or_after(calendar, payment).unwrap_or(0), slot)
    };
    Claim {
        claim_type: due.claim_type,
        outcome,
        payer: due.payer,
        payee: due.payee,
        security: due.security,
        row: due.row,
        transfer: due.transfer,
        interest,
        principal,
        release,
        slot,
    }
}

/// A bit for each row of a range.
fn bits(rows: Range<usize>) -> u32 {
    (1 << rows.end) - (1 << rows.start)
}

/// The places of the bits that are on, from the lowest.
fn places(mut bits: u32) -> impl Iterator<Item = usize> {
    std::iter::from_fn(move || {
        let place = bits.trailing_zeros();
        bits &= bits.wrapping_sub(1);
        (place < u32::BITS).then_some(place as usize)
    })
}

/// The rows of a range whose Payment Date is after the day, behind the first such row.
fn later_waiting(rows: &[Row], range: Range<usize>, day: u32) -> u32 {
    let waiting = range.filter(|&row| day < rows[row][2]).fold(0u32, |all, row| all | 1 << row);
    waiting & waiting.wrapping_sub(1)
}

/// The rows that a transfer of code 0 claims, a bit for each, and where the interim ones begin.
struct Claimed {
    rows: u32,
    interim: usize,
}

/// The rows that a fail claims of those reached on the day, a bit for each: the most recent ones, and in an MBS only the first of these that
/// waits for its Payment Date.
fn failed(security: &Security, reached: &[Row], limits: &Limits, day: u32, contract: u32) -> u32 {
    let recent = reached.iter().rev().take(limits::of(limits, security));
    let count = recent.take_while(|row| contract < row[1]).count();
    let claimed = reached.len() - count..reached.len();
    let dropped = if tables::is_mbs(security) { later_waiting(reached, claimed.clone(), day) } else { 0 };
    bits(claimed) & !dropped
}

/// The same on a day before the memo: of an MBS all those from the same day six months earlier on.
fn failed_before_memo(security: &Security, reached: &[Row], day: u32, contract: u32) -> u32 {
    if !tables::is_mbs(security) {
        return 0;
    }
    let earliest = days::six_months_before(day);
    let count = reached.iter().rev().take_while(|row| contract < row[1] && earliest <= row[1]).count();
    bits(reached.len() - count..reached.len())
}

/// Record and Beneficiary Dates rise, so the rows with such a date up to the day stand first. A fail claims of those with the Beneficiary
/// Date; interim, in an MBS, are those with the Record Date alone.
fn claimed(security: &Security, limits: &Limits, day: u32, contract: Option<u32>) -> Claimed {
    let rows = tables::rows(security);
    let up_to_day = |date: usize| rows.iter().take_while(|row| row[date] != 0 && row[date] <= day).count();
    let interim = up_to_day(1);
    let reached = &rows[..interim];
    let fails = match contract {
        None => 0,
        Some(contract) if days::is_before_memo(day) => failed_before_memo(security, reached, day, contract),
        Some(contract) => failed(security, reached, limits, day, contract),
    };
    let end = if tables::is_mbs(security) { interim.max(up_to_day(0)) } else { interim };
    Claimed { rows: fails | bits(interim..end), interim }
}

/// The fail and interim claims of a transfer of code 0, written from the buffer's start, or 10. The book has counted the transfer.
pub fn write_transfer(
    calendar: &Calendar,
    tables: &Tables,
    limits: &Limits,
    book: Book,
    transfer: &Transfer,
    contract: Option<u32>,
    buffer: &mut [u8],
) -> Result<usize, u16> {
    let security = &tables::securities(tables)[transfer.security as usize];
    let claimed = claimed(security, limits, book.day, contract);
    let count = claimed.rows.count_ones() as usize;
    let room = buffer.get_mut(..CLAIM_BYTES * count).ok_or(10u16)?;
    let (records, _) = room.as_chunks_mut::<CLAIM_BYTES>();
    let rows = tables::rows(security);
    for (record, row) in records.iter_mut().zip(places(claimed.rows)) {
        let due = Due {
            claim_type: if row < claimed.interim { FAIL } else { INTERIM },
            payer: transfer.sender,
            payee: transfer.receiver,
            security: transfer.security,
            kind: security[0],
            row: row as u8,
            words: &rows[row],
            transfer: book.count,
            par: transfer.par as u64,
        };
        *record = claim(calendar, book.day, &due).bytes();
    }
    Ok(count)
}

/// The rows whose Record Date a close crosses, with their places; an empty row's is 0.
fn crossed(security: &Security, from: u32, to: u32) -> impl Iterator<Item = (usize, &Row)> {
    let rows = tables::rows(security).iter().enumerate();
    rows.filter(move |(_, row)| from < row[0] && row[0] <= to)
}

/// The lending and repo claims of a close from one day to another, written from the buffer's start, or 10.
pub fn write_close(
    calendar: &Calendar,
    tables: &Tables,
    balances: &Balances,
    from: u32,
    to: u32,
    buffer: &mut [u8],
) -> Result<usize, u16> {
    let (loans, repos) = balances.as_chunks::<256>().0.split_at(TRACKING_WORDS / 256);
    let books = || tables::securities(tables).iter().zip(loans.iter().zip(repos));
    let count = books()
        .map(|(security, (loans, repos))| match crossed(security, from, to).count() {
            0 => 0,
            rows => rows * loans.iter().chain(repos).filter(|&&par| par > 0).count(),
        })
        .sum();
    let room = buffer.get_mut(..CLAIM_BYTES * count).ok_or(10u16)?;
    let mut records = room.as_chunks_mut::<CLAIM_BYTES>().0.iter_mut();
    for (number, (security, (loans, repos))) in books().enumerate() {
        for (row, words) in crossed(security, from, to) {
            for (claim_type, pars) in [(LENDING, loans), (REPO, repos)] {
                for (place, &par) in pars.iter().enumerate().filter(|(_, par)| **par > 0) {
                    let due = Due {
                        claim_type,
                        payer: (place % 16) as u8,
                        payee: (place / 16) as u8,
                        security: number as u8,
                        kind: security[0],
                        row: row as u8,
                        words,
                        transfer: 0,
                        par,
                    };
                    if let Some(record) = records.next() {
                        *record = claim(calendar, from, &due).bytes();
                    }
                }
            }
        }
    }
    Ok(count)
}
