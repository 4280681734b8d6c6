//! Compares setting marks and returning to them.
use super::{LENDING_CLAIM, REPO_CLAIM, SOME, Tally, bad_words, compare_calls_on, same, same_parts};
use crate::inputs::{self, World};
use crate::random::Random;
use crate::tracker;
use bench::rules::{self, MARK_WORDS, MARKS, STORE_WORDS, TRACKING_WORDS};
use std::ops::RangeInclusive;

const SET: &str = "set mark";
const RETURN: &str = "return to mark";
const SEVERAL: &str = "mark, several";
const NO_MARK: &str = "mark outside";
const LENGTH: &str = "store, other length";
const UNSET: &str = "mark unset";
const COUNT: &str = "mark, count past 32";
const DAY: &str = "mark, bad day";
const DAY_PAST: &str = "mark, day past 32";
const OWN: &str = "mark, own par";
const TOO_MUCH: &str = "mark, too much";
const LARGEST: &str = "mark, count full";
const CHANGED: &str = "return, half changed";
const OVERWRITTEN: &str = "set mark, over another";
const CLAIMED: &str = "returned, claimed";

/// What a comparison of many inputs has to meet: each number of both calls; 16 for a length alone, and for a mark outside, by its lowest 16
/// bits, alone; 17 for each of its reasons alone; 1, 2, 4 and 16 where a later number applies too; a full count returned to; a return that
/// changes each half of the balances; a set mark overwritten; and a book whose par is claimed behind a return.
pub const WANTED: [(&str, RangeInclusive<u16>); 31] = [
    (SET, 0..=0),
    (SET, 1..=1),
    (SET, 2..=2),
    (SET, 4..=4),
    (SET, 16..=16),
    (RETURN, 0..=0),
    (RETURN, 1..=1),
    (RETURN, 2..=2),
    (RETURN, 4..=4),
    (RETURN, 16..=16),
    (RETURN, 17..=17),
    (SEVERAL, 1..=1),
    (SEVERAL, 2..=2),
    (SEVERAL, 4..=4),
    (SEVERAL, 16..=16),
    (NO_MARK, 0..=0),
    (NO_MARK, 5..=5),
    (NO_MARK, 1..=4),
    (NO_MARK, 256..=260),
    (LENGTH, 1..=4),
    (UNSET, SOME),
    (COUNT, SOME),
    (DAY, SOME),
    (DAY_PAST, SOME),
    (OWN, SOME),
    (TOO_MUCH, SOME),
    (LARGEST, SOME),
    (CHANGED, 0..=0),
    (CHANGED, SOME),
    (OVERWRITTEN, SOME),
    (CLAIMED, SOME),
];

/// What a mark of a store that is long enough for it has in its words.
fn words(store: &[u64], mark: u32) -> Option<&[u64]> {
    store.chunks_exact(MARK_WORDS).nth(mark.checked_sub(1)? as usize)
}

/// The only reason for which a return to a mark gets 17; with none that is looked for here it is the day.
fn reason(words: &[u64]) -> Option<&'static str> {
    let [own, too_much] = bad_words(&words[3..]);
    let past = u32::MAX as u64;
    let reasons =
        [(words[0] != 1, UNSET), (words[1] > past, DAY_PAST), (words[2] > past, COUNT), (own, OWN), (too_much, TOO_MUCH)];
    let mut applying = reasons.iter().filter(|(applies, _)| *applies);
    match (applying.next(), applying.next()) {
        (None, _) => Some(DAY),
        (Some((_, name)), None) => Some(name),
        _ => None,
    }
}

/// Counts a refusal by what it is for, where that is one thing alone, or with the reasons for other numbers behind its own.
fn count_refusal(store: &[u64], mark: u32, number: u16, tally: &mut Tally) {
    let is_outside = !(1..=MARKS).contains(&mark);
    let is_other_length = store.len() != STORE_WORDS;
    let is_unset = words(store, mark).is_some_and(|words| words[0] != 1);
    if matches!(number, 1 | 2 | 4) && (is_outside || is_other_length) || number == 16 && is_unset {
        *tally.entry((SEVERAL, number)).or_default() += 1;
    }
    match (number, is_outside, is_other_length) {
        (16, true, false) => *tally.entry((NO_MARK, mark as u16)).or_default() += 1,
        (16, false, true) => *tally.entry((LENGTH, mark as u16)).or_default() += 1,
        (17, ..) => {
            if let Some(name) = words(store, mark).and_then(reason) {
                *tally.entry((name, mark as u16)).or_default() += 1;
            }
        }
        _ => {}
    }
}

/// Sets a mark by both, each in its own store; the balances stay.
fn compare_set(world: &World, stores: &mut [Vec<u64>; 2], mark: u32, tally: &mut Tally) -> Result<(), String> {
    let [ours, theirs] = stores;
    let before = words(ours, mark).is_some_and(|words| words[0] == 1);
    let lent = world.balances.clone();
    let library = tracker::set_mark(&world.calendar, world.book, &lent, ours, mark);
    let rust = rules::set_mark(&world.calendar, world.book, &world.balances, theirs, mark);
    *tally.entry((SET, library)).or_default() += 1;
    same("the answer", &library, &rust)?;
    same_parts("the store", ours, theirs)?;
    same_parts("the balances", &lent, &world.balances)?;
    count_refusal(theirs, mark, library, tally);
    *tally.entry((OVERWRITTEN, (library == 0 && before) as u16)).or_default() += 1;
    Ok(())
}

/// Returns to a mark by both; the book goes on from there, and the stores stay.
fn compare_return(world: &mut World, stores: &[Vec<u64>; 2], mark: u32, tally: &mut Tally) -> Result<(), String> {
    let [ours, theirs] = stores;
    let (mut left, before) = (world.balances.clone(), world.balances.clone());
    let library = tracker::return_to_mark(&world.calendar, world.book, &mut left, ours, mark);
    let rust = rules::return_to_mark(&world.calendar, world.book, &mut world.balances, theirs, mark);
    *tally.entry((RETURN, library.number)).or_default() += 1;
    same("the answer", &library, &rust)?;
    same_parts("the balances", &left, &world.balances)?;
    same_parts("the store", ours, theirs)?;
    count_refusal(theirs, mark, library.number, tally);
    if library.number == 0 {
        *tally.entry((LARGEST, (rust.book.count == u32::MAX) as u16)).or_default() += 1;
        for (half, (new, old)) in left.chunks(TRACKING_WORDS).zip(before.chunks(TRACKING_WORDS)).enumerate() {
            if new != old {
                *tally.entry((CHANGED, half as u16)).or_default() += 1;
            }
        }
    }
    world.book = rust.book;
    Ok(())
}

/// Marks that are set and returned to by both while a book goes on; then calls on what is left.
pub fn compare(random: &mut Random, tally: &mut Tally) -> Result<(), String> {
    let (mut world, store) = inputs::marked_world(random);
    let mut stores = [store.clone(), store];
    let mut returned = false;
    for _ in 0..random.pick(&[1, 2, 6]) {
        let mark = inputs::mark(random);
        returned = random.one_in(2);
        if returned {
            compare_return(&mut world, &stores, mark, tally)?;
        } else {
            compare_set(&world, &mut stores, mark, tally)?;
            inputs::go_on(random, &mut world);
        }
    }
    if !returned {
        return Ok(());
    }
    let claims = |tally: &Tally| {
        let outcomes = [LENDING_CLAIM, REPO_CLAIM].into_iter().flat_map(|name| (0..=3).map(move |outcome| (name, outcome)));
        outcomes.filter_map(|claim| tally.get(&claim)).sum::<u64>()
    };
    let before = claims(tally);
    compare_calls_on(random, world, tally)?;
    *tally.entry((CLAIMED, (claims(tally) > before) as u16)).or_default() += 1;
    Ok(())
}
