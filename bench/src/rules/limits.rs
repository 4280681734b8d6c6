//! Date limits: the maximum numbers of Beneficiary Dates that a fail looks at.
use super::LIMIT_WORDS;
use super::tables::{self, Security};

/// Of an MBS, then of the other types by frequency: monthly, quarterly, semiannual, annual.
pub type Limits = [u32; LIMIT_WORDS];

/// The numbers of a call that is lent none.
pub const PUBLISHED: Limits = [7, 6, 3, 2, 1];

const MOST: u32 = 16;

/// The limits, where they keep their rules: each is 1 to 16, and from monthly to annual none is larger than the one before.
pub fn judged(limits: &[u32]) -> Option<&Limits> {
    let limits: &Limits = limits.try_into().ok()?;
    let in_range = limits.iter().all(|limit| (1..=MOST).contains(limit));
    let in_order = limits[1..].is_sorted_by(|one, next| one >= next);
    (in_range && in_order).then_some(limits)
}

/// The maximum number of a security.
pub fn of(limits: &Limits, security: &Security) -> usize {
    let place = if tables::is_mbs(security) { 0 } else { security[1] as usize };
    limits[place] as usize
}
