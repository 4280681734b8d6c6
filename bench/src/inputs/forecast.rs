//! Inputs of a forecast: runs of claim records, sound and damaged, accounts and dates.
use super::{DAYS, date, other};
use crate::random::Random;

pub const CLAIM_BYTES: usize = 35;
pub const MOST_CENTS: u64 = 9_007_199_254_740_992;

/// What a forecast is given.
pub struct Run {
    pub claims: Vec<u8>,
    pub account: u32,
    pub date: u32,
}

/// What a forecast looks at in a claim: payer and payee, interest and principal.
struct Claim {
    outcome: u8,
    parties: [u8; 2],
    cents: [u64; 2],
    release: u32,
}

impl Claim {
    /// The record. The fields that a forecast does not look at are of any values.
    fn bytes(&self, random: &mut Random) -> [u8; CLAIM_BYTES] {
        let mut bytes = [random.word() as u8; CLAIM_BYTES];
        bytes[..4].copy_from_slice(&[33, 0, 3, 0]);
        bytes[5] = self.outcome;
        bytes[6..8].copy_from_slice(&self.parties);
        bytes[14..22].copy_from_slice(&self.cents[0].to_le_bytes());
        bytes[22..30].copy_from_slice(&self.cents[1].to_le_bytes());
        bytes[30..34].copy_from_slice(&self.release.to_le_bytes());
        bytes
    }
}

/// An account, mostly one of the sixteen; some others are the same in their lowest bits.
fn account(random: &mut Random) -> u32 {
    let one = random.below(16) as u32;
    match random.below(12) {
        0 => random.pick(&[16, 17, 255, 256, 256 + one, 65536 + one, 1 << 31 | one, u32::MAX]),
        1 => random.pick(&[0, 15]),
        _ => one,
    }
}

/// A release date, mostly one that is a date.
fn wanted_date(random: &mut Random) -> u32 {
    let one = date(random.below(DAYS));
    match random.below(10) {
        0 => other(random, one),
        1 => random.pick(&[20000101, 20391231, 20240229, 20230228]),
        _ => one,
    }
}

/// What the claims of one run are like: one in so many is a notice, has another date, or is of other accounts, the account is the payer in so
/// many of four, and the cents are below a limit.
struct Shape {
    notices: u64,
    elsewhere: u64,
    strangers: u64,
    payers: u64,
    limit: u64,
}

fn shape(random: &mut Random) -> Shape {
    Shape {
        notices: random.pick(&[1, 2, 8, 8, 8, 1000, 1000, 1000]),
        elsewhere: random.pick(&[1, 2, 8, 8, 8, 1000, 1000, 1000]),
        strangers: random.pick(&[1, 2, 8, 8, 8, 1000, 1000, 1000]),
        payers: random.pick(&[0, 2, 2, 4]),
        limit: random.pick(&[1, 2, 1000, 10_000_000_000_000, MOST_CENTS]),
    }
}

fn parties(random: &mut Random, shape: &Shape, account: u8) -> [u8; 2] {
    let distance = random.from(1, 15) as u8;
    let one = (account + distance) % 16;
    if random.one_in(shape.strangers) {
        // The distance of the second party from the account is neither 0 nor that of the first.
        let second = (distance + random.from(1, 14) as u8 - 1) % 15 + 1;
        return [one, (account + second) % 16];
    }
    if random.below(4) < shape.payers { [account, one] } else { [one, account] }
}

fn claim(random: &mut Random, shape: &Shape, account: u8, wanted: u32) -> Claim {
    let any = date(random.below(DAYS));
    let beside = [0, wanted.wrapping_add(1), wanted.wrapping_sub(1), wanted ^ 1 << random.below(32), any];
    Claim {
        outcome: if random.one_in(shape.notices) { random.pick(&[1, 2, 3, 4, 128, 255]) } else { 0 },
        parties: parties(random, shape, account),
        cents: [random.below(shape.limit), random.below(shape.limit)],
        release: if random.one_in(shape.elsewhere) { random.pick(&beside) } else { wanted },
    }
}

/// Two numbers that add up to what is needed, or to 2 to the power of 64 more.
fn parts(random: &mut Random, needed: u64) -> [u64; 2] {
    let some = random.below(needed.saturating_add(1));
    let past = needed.wrapping_add(random.from(1, MOST_CENTS));
    let first = random.pick(&[0, 0, needed, needed, some, some, some, past, needed.wrapping_add(1), 1 << 63]);
    [first, needed.wrapping_sub(first)]
}

/// The limit, a number beside it, or one below it.
fn target(random: &mut Random) -> u64 {
    let some = random.below(MOST_CENTS);
    random.pick(&[MOST_CENTS, MOST_CENTS, MOST_CENTS + 1, MOST_CENTS + 1, MOST_CENTS + 2, MOST_CENTS - 1, some])
}

/// Brings the sum that the account pays (side 0) or receives (side 1) to a target, or 2 to the power of 64 past it, by one claim or by two.
fn fit_sum(random: &mut Random, claims: &mut [Claim], [side, account]: [u8; 2], date: u32, target: u64) {
    let counts = |claim: &&mut Claim| claim.outcome == 0 && claim.release == date && claim.parties[side as usize] == account;
    let mut counted: Vec<&mut Claim> = claims.iter_mut().filter(counts).collect();
    if counted.is_empty() {
        return;
    }
    let (first, second) = (random.place(&counted), random.place(&counted));
    counted[first].cents = [0; 2];
    counted[second].cents = [0; 2];
    let rest: u128 = counted.iter().flat_map(|claim| claim.cents).map(u128::from).sum();
    let Some(needed) = u64::try_from(rest).ok().and_then(|rest| target.checked_sub(rest)) else {
        return;
    };
    let parts = parts(random, needed);
    if first == second {
        counted[first].cents = parts;
    } else {
        counted[first].cents[random.below(2) as usize] = parts[0];
        counted[second].cents[random.below(2) as usize] = parts[1];
    }
}

/// Gives some of the claims that do not count for the account large amounts.
fn enlarge(random: &mut Random, claims: &mut [Claim], account: u8, date: u32) {
    for claim in claims {
        let counts = claim.outcome == 0 && claim.release == date && claim.parties.contains(&account);
        if !counts && random.one_in(4) {
            claim.cents = random.pick(&[[u64::MAX; 2], [u64::MAX, 0], [0, MOST_CENTS + 1], [1 << 63; 2]]);
        }
    }
}

/// Damages a record: its header, its parties, or any byte.
fn damage_record(random: &mut Random, record: &mut [u8]) {
    let party = 6 + random.below(2) as usize;
    match random.below(4) {
        0 => record[random.below(4) as usize] ^= 1 << random.below(8),
        1 => record[party] = record[13 - party],
        2 => record[party] = random.pick(&[15, 16, 17, 31, 32, 128, 255]),
        _ => record[random.place(record)] = random.pick(&[0, 1, 3, 16, 33, 127, 255]),
    }
}

/// Damages the length of a run: bytes are missing at its end or within it, or more stand there.
fn damage_length(random: &mut Random, claims: &mut Vec<u8>) {
    let at = random.below(claims.len() as u64 + 1) as usize;
    let some = random.pick(&[1, 2, 4, 34]).max(random.below(CLAIM_BYTES as u64)) as usize;
    let length = claims.len();
    match random.below(6) {
        0 => claims.truncate(length.saturating_sub(some)),
        1 => claims.truncate(at),
        2 => claims.extend(random.bytes(some)),
        3 => claims.extend_from_within(..some.min(length)),
        4 => _ = claims.drain(at..(at + some).min(length)),
        _ => {
            let record = at / CLAIM_BYTES * CLAIM_BYTES;
            let answer = random.pick(&[[4, 0, 4, 0, 0, 0], [2, 0, 2, 0, 33, 0], [33, 0, 3, 0, 0, 0]]);
            claims.splice(record..record, answer);
        }
    }
}

/// Damages a run, often its first or its last record.
fn damage(random: &mut Random, claims: &mut Vec<u8>) {
    let records = claims.len() / CLAIM_BYTES;
    if records == 0 || random.one_in(3) {
        return damage_length(random, claims);
    }
    let any = random.below(records as u64) as usize;
    let record = random.pick(&[0, any, any, records - 1]);
    damage_record(random, &mut claims[CLAIM_BYTES * record..][..CLAIM_BYTES]);
}

/// Brings one sum of the account to a target, or both to the same or to others.
fn fit_sums(random: &mut Random, claims: &mut [Claim], account: u8, date: u32) {
    let targets = [target(random), target(random)];
    let [pay, receive] = random.pick(&[targets, [targets[0]; 2]]);
    let is_fitted = random.pick(&[[true, false], [false, true], [true, true]]);
    for (side, target) in [(0, pay), (1, receive)] {
        if is_fitted[side as usize] {
            fit_sum(random, claims, [side, account], date, target);
        }
    }
}

/// A run of claims, an account and a date: about one in three is damaged, and in half of them some sum is near the limit.
pub fn run(random: &mut Random) -> Run {
    let (account, date) = (account(random), wanted_date(random));
    let (shape, party) = (shape(random), (account % 16) as u8);
    let most = random.pick(&[0, 1, 2, 3, 3, 10, 10, 40, 40, 300]);
    let count = random.from(most.min(1), most);
    let mut claims: Vec<Claim> = (0..count).map(|_| claim(random, &shape, party, date)).collect();
    if random.one_in(2) {
        fit_sums(random, &mut claims, party, date);
    }
    if random.one_in(4) {
        enlarge(random, &mut claims, party, date);
    }
    let mut bytes: Vec<u8> = claims.iter().flat_map(|claim| claim.bytes(random)).collect();
    for _ in 0..random.pick(&[0, 0, 0, 0, 1, 2]) {
        damage(random, &mut bytes);
    }
    Run { claims: bytes, account, date }
}
