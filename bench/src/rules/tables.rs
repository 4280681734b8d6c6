//! Securities and their payments.
use super::TABLE_WORDS;
use super::days;

pub type Tables = [u32; TABLE_WORDS];

/// Type, frequency and 16 rows.
pub type Security = [u32; 114];

/// Record Date, Beneficiary Date, Payment Date, interest factor, principal factor, final, mask.
pub type Row = [u32; 7];

const EMPTY: Row = [0; 7];
const MOST_FACTOR: u32 = 2_000_000_000;

pub fn securities(tables: &Tables) -> &[Security] {
    tables.as_chunks().0
}

pub fn rows(security: &Security) -> &[Row] {
    security[2..].as_chunks().0
}

/// The filled rows are those before the first empty one.
fn filled(security: &Security) -> &[Row] {
    let rows = rows(security);
    let count = rows.iter().position(|row| *row == EMPTY).unwrap_or(rows.len());
    &rows[..count]
}

pub fn is_used(security: &Security) -> bool {
    security[0] != 0
}

/// Whether a security is mortgage-backed.
pub fn is_mbs(security: &Security) -> bool {
    matches!(security[0], 3 | 4)
}

/// Whether the tables keep every rule.
pub fn are_sound(tables: &Tables, last_open: Option<u32>) -> bool {
    securities(tables).iter().all(|security| is_sound(security, last_open.unwrap_or(0)))
}

fn is_sound(security: &Security, last_open: u32) -> bool {
    if !is_used(security) {
        return is_zero(security);
    }
    let [kind, frequency, ..] = *security;
    if kind > 4 || !(1..=4).contains(&frequency) {
        return false;
    }
    let filled = filled(security);
    filled.iter().all(|row| is_row(row, last_open))
        && filled.windows(2).all(|pair| pair[0][0] < pair[1][0] && pair[0][1] < pair[1][1])
        && is_zero(&security[2 + 7 * filled.len()..])
}

fn is_zero(words: &[u32]) -> bool {
    words.iter().fold(0, |all, word| all | word) == 0
}

fn is_row(row: &Row, last_open: u32) -> bool {
    let [record, beneficiary, payment, interest, principal, is_final, mask] = *row;
    days::is_date(record)
        && days::is_date(beneficiary)
        && days::is_date(payment)
        && record <= payment
        && beneficiary <= payment
        && payment <= last_open
        && interest <= MOST_FACTOR
        && principal <= MOST_FACTOR
        && is_final <= 1
        && mask <= 0xffff
}
