//! The cash forecast: what an account pays and receives on a release date, from a run of claim records.
use super::records::{CLAIM_BYTES, CLAIM_HEADER};
use super::{Cash, CashForecast, days};

type Record = [u8; CLAIM_BYTES];

/// The outcome of a claim that settles; all others are notices.
const SETTLES: u8 = 0;

/// Accounts are numbered from 0 to this one.
const LAST_ACCOUNT: u8 = 15;

/// Each whole number up to this one is exact as a double.
const MOST_CENTS: u128 = 9_007_199_254_740_992;

/// Whether header or parties are wrong. Parties that are or-ed are above 15 where one of them is.
fn is_bad(record: &Record) -> bool {
    let (payer, payee) = (record[6], record[7]);
    record[..4] != CLAIM_HEADER || (payer | payee) > LAST_ACCOUNT || payer == payee
}

fn word(record: &Record, at: usize) -> u64 {
    u64::from_le_bytes(std::array::from_fn(|place| record[at + place]))
}

fn release(record: &Record) -> u32 {
    u32::from_le_bytes([record[30], record[31], record[32], record[33]])
}

/// The cents that an account pays and receives on a date by good records. Few records have the date, so it is looked at first. As a function
/// of its own the loop is faster than within another.
#[inline(never)]
fn sums(records: &[Record], account: u8, date: u32) -> Result<[u128; 2], u16> {
    let (mut pay, mut receive) = (0, 0);
    for record in records {
        if is_bad(record) {
            return Err(18);
        }
        if release(record) == date && record[5] == SETTLES {
            let cents = word(record, 14) as u128 + word(record, 22) as u128;
            if record[6] == account {
                pay += cents;
            }
            if record[7] == account {
                receive += cents;
            }
        }
    }
    Ok([pay, receive])
}

/// Judges account, date, records and sums, in this order.
fn judge(claims: &[u8], account: u32, date: u32) -> Result<Cash, u16> {
    let account = u8::try_from(account).ok().filter(|&account| account <= LAST_ACCOUNT).ok_or(18u16)?;
    if !days::is_date(date) {
        return Err(18);
    }
    let (records, []) = claims.as_chunks() else {
        return Err(18);
    };
    let sums = sums(records, account, date)?;
    if sums.iter().any(|&cents| cents > MOST_CENTS) {
        return Err(19);
    }
    let [pay, receive] = sums.map(|cents| cents as i64);
    Ok(Cash { pay: pay as f64, receive: receive as f64, difference: (receive - pay) as f64 })
}

/// Forecasts the cash of an account on a release date.
pub fn forecast(claims: &[u8], account: u32, date: u32) -> CashForecast {
    match judge(claims, account, date) {
        Ok(cash) => CashForecast { number: 0, cash },
        Err(number) => CashForecast { number, cash: Cash { pay: 0.0, receive: 0.0, difference: 0.0 } },
    }
}
