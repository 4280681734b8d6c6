//! Compares the library with the Rust rules on random inputs and stops at the first difference.
mod forecast;
mod marks;

use crate::inputs::{self, World};
use crate::random::Random;
use crate::tracker;
use bench::rules::{self, Book, ONES, PUBLISHED, RECORD_ROOM, TRACKING_WORDS};
use std::collections::BTreeMap;
use std::fmt::Debug;
use std::ops::RangeInclusive;

const CLAIM_BYTES: usize = 35;
const FAIL: u8 = 1;
const LENDING: u8 = 3;
const REPO: u8 = 4;
const ROWS_DROPPED: &str = "fail, rows dropped";
const PAID_BEHIND: &str = "fail, paid behind";
const LENDING_CLAIM: &str = "lending claim, outcome";
const REPO_CLAIM: &str = "repo claim, outcome";
const ROWS_OF_BOTH: &str = "close, rows of both";
const REPO_TRANSFER: &str = "transfer, repo";
const TRANSFER: &str = "transfer";
const WITH_LIMITS: &str = "transfer with limits";
const MORE_BY_LIMITS: &str = "limits, claims more";
const FEWER_BY_LIMITS: &str = "limits, claims fewer";
const CLEARED: &str = "off piece, cleared";
const ONE_BESIDE: &str = "off piece, one beside";
const OTHER_HALF: &str = "off piece, other half";
const AN_INCREASE: &str = "off piece, an increase";
const EMPTY_TAG: &str = "empty tag";
const EMPTY_BEFORE: &str = "before, empty tag";
const EMPTY_OTHER: &str = "before, empty, class 1";
const LENDING_BEFORE: &str = "before, lending";
const REPO_BEFORE: &str = "before, repo";
const FAIL_BEFORE: &str = "before, fail claims";
const NOT_MBS_BEFORE: &str = "before, rows, no MBS";
const TOO_OLD: &str = "before, rows too old";
const ON_THE_EDGE: &str = "before, on the edge";
const SHORT_MONTH: &str = "before, short month";
const PAST_LIMIT: &str = "before, past a limit";
const LATER_WAITING: &str = "before, later waiting";
const CROSSED: &str = "into the memo's day";
const CARRY_OVER: &str = "carry over";
const CARRIED_BEFORE: &str = "carry over, before";
const CARRIED_ONTO: &str = "carry over, onto bad";
const OWN_SAVED: &str = "carry over, own par";
const TOO_MUCH_SAVED: &str = "carry over, too much";
const SAVED_DAY: &str = "carry over, bad day";
const SEVERAL: &str = "carry over, several";
const CARRIED_CLAIM: &str = "carried, loans claimed";

/// Any number but 0.
const SOME: RangeInclusive<u16> = 1..=u16::MAX;

/// How often each kind of input got each number.
type Tally = BTreeMap<(&'static str, u16), u64>;

fn same<T: PartialEq + Debug>(what: &str, library: &T, rust: &T) -> Result<(), String> {
    if library == rust {
        return Ok(());
    }
    Err(format!("{what} differs\n  library: {library:?}\n  rust:    {rust:?}"))
}

/// Like `same`, but says only the first place where the parts differ.
fn same_parts<T: PartialEq + Debug>(what: &str, library: &[T], rust: &[T]) -> Result<(), String> {
    if library == rust {
        return Ok(());
    }
    let at = library.iter().zip(rust).position(|(a, b)| a != b);
    let at = at.unwrap_or(library.len().min(rust.len()));
    Err(format!("{what} differs at {at}\n  library: {:?}\n  rust:    {:?}", library.get(at), rust.get(at)))
}

fn compare_open(random: &mut Random, tally: &mut Tally) -> Result<(), String> {
    let world = inputs::world(random);
    let (mut ours, mut theirs) = (world.balances.clone(), world.balances);
    let day = world.book.day;
    let library = tracker::open(&world.calendar, &world.tables, &mut ours, day);
    let rust = rules::open(&world.calendar, &world.tables, &mut theirs, day);
    *tally.entry(("open", library.number)).or_default() += 1;
    same("the answer", &library, &rust)?;
    same_parts("the balances", &ours, &theirs)
}

/// Counts the outcomes of claims.
fn count_claims(claims: &[u8], tally: &mut Tally) {
    for claim in claims.chunks_exact(CLAIM_BYTES) {
        let name = match claim[4] {
            FAIL => "fail claim, outcome",
            2 => "interim claim, outcome",
            LENDING => LENDING_CLAIM,
            _ => REPO_CLAIM,
        };
        *tally.entry((name, claim[5] as u16)).or_default() += 1;
    }
}

/// What the Contract Date tag of a transfer holds, where there is one.
fn tag_of(message: &[u8]) -> Option<&[u8]> {
    const OPENER: &[u8] = b"{98A:CNTR/";
    message.get(13..141)?.chunks(64).find_map(|line| {
        let at = line.windows(OPENER.len()).position(|part| part == OPENER)? + OPENER.len();
        let end = line[at..].iter().position(|&byte| byte == b'}')?;
        Some(&line[at..at + end])
    })
}

/// Counts a transfer with an empty tag by its number, on days before the memo and on later ones apart, and accepted ones of class 1.
fn count_empty_tag(day: u32, message: &[u8], number: u16, tally: &mut Tally) {
    if !matches!(tag_of(message), Some([])) {
        return;
    }
    let is_before = rules::is_before_memo(day);
    *tally.entry((if is_before { EMPTY_BEFORE } else { EMPTY_TAG }, number)).or_default() += 1;
    if is_before && number == 0 && message[7] == 1 {
        *tally.entry((EMPTY_OTHER, 0)).or_default() += 1;
    }
}

/// Counts a failed transfer on a day before the memo: by its claims, by the rows behind the Contract Date that are too old for it, that lie
/// on the edge of the half year, there since a month is short, or are more than its limit, by those that wait behind another that waits,
/// and by the rows that a security which is no MBS has.
fn count_fail_before(tables: &[u32], limit: u32, day: u32, message: &[u8], claims: &[u8], tally: &mut Tally) {
    let Some(contract) = tag_of(message).and_then(|held| std::str::from_utf8(held).ok()?.parse().ok()) else { return };
    let security = &tables[114 * message[6] as usize..][..114];
    let rows: Vec<&[u32]> = security[2..].chunks(7).filter(|row| row[1] > contract && row[1] <= day).collect();
    if !matches!(security[0], 3 | 4) {
        *tally.entry((NOT_MBS_BEFORE, rows.len() as u16)).or_default() += 1;
        return;
    }
    let edge = rules::six_months_before(day);
    let fails = claims.chunks_exact(CLAIM_BYTES).filter(|claim| claim[4] == FAIL).count();
    let on_edge = rows.iter().any(|row| row[1] == edge);
    let claimed = rows.iter().filter(|row| row[1] >= edge);
    let waiting = claimed.filter(|row| row[2] > day).count();
    for (name, count) in [
        (FAIL_BEFORE, fails),
        (TOO_OLD, rows.len() - fails),
        (ON_THE_EDGE, on_edge as usize),
        (SHORT_MONTH, (on_edge && edge % 100 < day % 100) as usize),
        (PAST_LIMIT, fails.saturating_sub(limit as usize)),
        (LATER_WAITING, waiting.saturating_sub(1)),
    ] {
        *tally.entry((name, count as u16)).or_default() += 1;
    }
}

/// Counts a transfer with a tracking code on a day before the memo: those of lending by their codes where they get 15, those of repo by
/// their numbers.
fn count_code_before(message: &[u8], number: u16, tally: &mut Tally) {
    match message.get(8) {
        Some(&code @ 1..=6) if number == 15 => *tally.entry((LENDING_BEFORE, code as u16)).or_default() += 1,
        Some(7..=12) => *tally.entry((REPO_BEFORE, number)).or_default() += 1,
        _ => {}
    }
}

/// Counts a failed transfer in an MBS by the rows reached on the day that it drops behind the first one that it claims, and by those that it
/// claims as paid behind one that waits for its Payment Date.
fn count_waiting(tables: &[u32], day: u32, claims: &[u8], tally: &mut Tally) {
    let fails: Vec<&[u8]> = claims.chunks_exact(CLAIM_BYTES).filter(|claim| claim[4] == FAIL).collect();
    let Some(first) = fails.first() else { return };
    let security = &tables[114 * first[8] as usize..][..114];
    if !matches!(security[0], 3 | 4) {
        return;
    }
    let row = |place: u8| &security[2 + 7 * place as usize..][..7];
    let reached = (first[9]..16).filter(|&place| row(place)[1] != 0 && row(place)[1] <= day).count();
    let is_paid = |claim: &&&[u8]| row(claim[9])[2] <= day;
    let paid = fails.iter().skip_while(is_paid).filter(is_paid).count();
    for (name, rows) in [(ROWS_DROPPED, reached - fails.len()), (PAID_BEHIND, paid)] {
        *tally.entry((name, rows as u16)).or_default() += 1;
    }
}

/// Counts a close by the rows that give lending claims and then repo claims.
fn count_rows_of_both(claims: &[u8], tally: &mut Tally) {
    let claims: Vec<&[u8]> = claims.chunks_exact(CLAIM_BYTES).collect();
    let is_turn = |pair: &&[&[u8]]| (pair[0][4], pair[1][4]) == (LENDING, REPO) && pair[0][8..10] == pair[1][8..10];
    let rows = claims.windows(2).filter(is_turn).count();
    *tally.entry((ROWS_OF_BOTH, rows as u16)).or_default() += 1;
}

/// Counts a transfer without a tracking code by how many claims more or fewer its limits give than the published numbers. It leaves the
/// balances as they are.
fn count_by_limits(world: &World, book: Book, balances: &mut [u64], message: &[u8], claims: usize, tally: &mut Tally) {
    let mut room = [0; 16 * CLAIM_BYTES];
    let published = rules::transfer(&world.calendar, &world.tables, &ONES, book, balances, message, &mut room).claims;
    let name = if claims < published { FEWER_BY_LIMITS } else { MORE_BY_LIMITS };
    *tally.entry((name, claims.abs_diff(published) as u16)).or_default() += 1;
}

/// Counts by its code a transfer whose par is no multiple of its security's piece: one that is accepted since it clears a balance, and one
/// that gets 14 though its par is one beside the balance that it takes from, is that on the other half, or is the one that it adds to.
fn count_off_piece(pieces: &[u32], balances: &[u64], message: &[u8], number: u16, tally: &mut Tally) {
    let [sender, receiver, security, _, code] = [4, 5, 6, 7, 8].map(|at| message[at] as usize);
    let par = u32::from_le_bytes([9, 10, 11, 12].map(|at| message[at]));
    let beside = |half: usize, lender: usize, borrower: usize| {
        let lent = balances[TRACKING_WORDS * half + 256 * security + 16 * lender + borrower];
        lent.abs_diff(par as u64)
    };
    let half = (code > 6) as usize;
    let takes = matches!(code, 2 | 3 | 6 | 8 | 9 | 12);
    let name = match number {
        0 if par % pieces[security] != 0 => CLEARED,
        14 if takes && beside(half, receiver, sender) == 1 => ONE_BESIDE,
        14 if takes && beside(1 - half, receiver, sender) == 0 => OTHER_HALF,
        14 if !takes && code > 0 && beside(half, sender, receiver) == 0 => AN_INCREASE,
        _ => return,
    };
    *tally.entry((name, code as u16)).or_default() += 1;
}

/// Whether balances have a word where an account would lend itself, and one above the limit.
fn bad_words(balances: &[u64]) -> [bool; 2] {
    let own = balances.iter().enumerate().any(|(at, &par)| at / 16 % 16 == at % 16 && par > 0);
    [own, balances.iter().any(|&par| par > inputs::MOST_LENT)]
}

/// Counts a carry over: one accepted on a day before the memo, and to a half of the balances that held bad words; one that gets 4 for one of
/// its reasons alone; and one with reasons for other numbers behind its own.
fn count_carry_over(world: &World, saved: &[u64], number: u16, tally: &mut Tally) {
    let [own, too_much] = bad_words(saved);
    let is_calendar_bad = world.calendar.iter().any(|word| word >> 31 == 1);
    if number == 1 && is_calendar_bad || matches!(number, 1 | 2) && (own || too_much) {
        *tally.entry((SEVERAL, number)).or_default() += 1;
    }
    match number {
        0 => {
            *tally.entry((CARRIED_BEFORE, rules::is_before_memo(world.book.day) as u16)).or_default() += 1;
            for (half, words) in world.balances.chunks(TRACKING_WORDS).enumerate() {
                if bad_words(words) != [false; 2] {
                    *tally.entry((CARRIED_ONTO, half as u16)).or_default() += 1;
                }
            }
        }
        4 => {
            let name = match (own, too_much) {
                (false, false) => SAVED_DAY,
                (true, false) => OWN_SAVED,
                (false, true) => TOO_MUCH_SAVED,
                (true, true) => return,
            };
            *tally.entry((name, 4)).or_default() += 1;
        }
        _ => {}
    }
}

/// A carry over by both; where it is accepted, calls on what it leaves.
fn compare_carry_over(random: &mut Random, tally: &mut Tally) -> Result<(), String> {
    let (mut world, saved) = inputs::saved_world(random);
    let (mut ours, mut theirs) = (world.balances.clone(), world.balances.clone());
    let library = tracker::carry_over(&world.calendar, world.book, &saved, &mut ours);
    let rust = rules::carry_over(&world.calendar, world.book, &saved, &mut theirs);
    *tally.entry((CARRY_OVER, library.number)).or_default() += 1;
    same("the answer", &library, &rust)?;
    same_parts("the balances", &ours, &theirs)?;
    count_carry_over(&world, &saved, library.number, tally);
    if library.number != 0 {
        return Ok(());
    }
    let claims = |tally: &Tally| (0..=3).filter_map(|outcome| tally.get(&(LENDING_CLAIM, outcome))).sum::<u64>();
    let before = claims(tally);
    world.balances = ours;
    compare_calls_on(random, world, tally)?;
    *tally.entry((CARRIED_CLAIM, (claims(tally) > before) as u16)).or_default() += 1;
    Ok(())
}

/// A call on the same book from both, again and again on what the last one left.
fn compare_calls(random: &mut Random, tally: &mut Tally) -> Result<(), String> {
    let world = inputs::world(random);
    compare_calls_on(random, world, tally)
}

/// Likewise on a book that is given.
fn compare_calls_on(random: &mut Random, world: World, tally: &mut Tally) -> Result<(), String> {
    let mut book = world.book;
    let (mut ours, mut theirs) = (world.balances.clone(), world.balances.clone());
    for _ in 0..random.pick(&[1, 1, 3, 40]) {
        let closing = random.one_in(3);
        let mut message = inputs::message(random, book.day, closing);
        let limits = random.one_in(2).then(|| inputs::limits(random));
        let pieces = inputs::pieces(random);
        if !closing && !random.one_in(8) {
            inputs::fit_par(random, &mut message, &pieces, &ours);
        }
        if !closing && random.one_in(3) {
            inputs::fit_fail(random, &mut message, &world.tables, book.day);
        }
        let mut our_claims = inputs::buffer(random);
        let mut their_claims = our_claims.clone();
        let World { calendar, tables, .. } = &world;
        let (name, library, rust) = if closing {
            let library = tracker::close(calendar, tables, book, &mut ours, &message, &mut our_claims);
            let rust = rules::close(calendar, tables, book, &mut theirs, &message, &mut their_claims);
            ("close", library, rust)
        } else if let Some(limits) = &limits {
            let library =
                tracker::transfer_with_limits(calendar, tables, limits, &pieces, book, &mut ours, &message, &mut our_claims);
            let rust =
                rules::transfer_with_limits(calendar, tables, limits, &pieces, book, &mut theirs, &message, &mut their_claims);
            (WITH_LIMITS, library, rust)
        } else {
            let library = tracker::transfer(calendar, tables, &pieces, book, &mut ours, &message, &mut our_claims);
            let rust = rules::transfer(calendar, tables, &pieces, book, &mut theirs, &message, &mut their_claims);
            (TRANSFER, library, rust)
        };
        *tally.entry((name, library.number)).or_default() += 1;
        same("the answer", &library, &rust)?;
        same_parts("the balances", &ours, &theirs)?;
        same_parts("the claim buffer", &our_claims, &their_claims)?;
        let claims = &our_claims[..CLAIM_BYTES * library.claims];
        count_claims(claims, tally);
        let is_before = rules::is_before_memo(book.day);
        if !is_before {
            count_waiting(tables, book.day, claims, tally);
        }
        if closing {
            count_rows_of_both(claims, tally);
            let crosses = is_before && !rules::is_before_memo(library.book.day);
            *tally.entry((CROSSED, crosses as u16)).or_default() += 1;
        } else if let Some(7..=12) = message.get(8) {
            *tally.entry((REPO_TRANSFER, library.number)).or_default() += 1;
        }
        if !closing && matches!(library.number, 0 | 14) {
            count_off_piece(&pieces, &ours, &message, library.number, tally);
        }
        if !closing {
            count_empty_tag(book.day, &message, library.number, tally);
        }
        if !closing && is_before {
            count_code_before(&message, library.number, tally);
        }
        let is_plain = !closing && library.number == 0 && message[8] == 0;
        if is_plain && is_before {
            let limit = limits.as_ref().map_or(PUBLISHED[0], |limits| limits[0]);
            count_fail_before(tables, limit, book.day, &message, claims, tally);
        }
        if is_plain && !is_before && name == WITH_LIMITS {
            count_by_limits(&world, book, &mut theirs, &message, library.claims, tally);
        }
        book = library.book;
    }
    Ok(())
}

/// A stream handed over in runs that are cut at random places, into outputs of random lengths.
fn compare_serve(random: &mut Random, tally: &mut Tally) -> Result<(), String> {
    let world = inputs::world(random);
    let stream = inputs::stream(random, world.book.day);
    let mut book = world.book;
    let (mut ours, mut theirs) = (world.balances.clone(), world.balances.clone());
    let (mut from, mut to) = (0, 0);
    let whole = random.one_in(3);
    loop {
        to = if whole { stream.len() } else { (to + random.below(600) as usize).min(stream.len()) };
        let ended = to == stream.len() && random.one_in(2);
        let length = match random.below(8) {
            0 => random.below(100),
            1 => RECORD_ROOM as u64 - 1,
            2 => RECORD_ROOM as u64,
            3 => RECORD_ROOM as u64 + random.below(400),
            _ => 2 * RECORD_ROOM as u64,
        };
        let stamp = random.word() as u8;
        let mut our_output = vec![stamp; length as usize];
        let mut their_output = our_output.clone();
        let World { calendar, tables, .. } = &world;
        let input = &stream[from..to];
        let library = tracker::serve(calendar, tables, book, &mut ours, input, ended, &mut our_output);
        let rust = rules::serve(calendar, tables, book, &mut theirs, input, ended, &mut their_output);
        *tally.entry(("serve", library.number)).or_default() += 1;
        if library.over {
            *tally.entry(("serve, over", 5)).or_default() += 1;
        }
        if library.written > 0 {
            *tally.entry(("serve with output", 0)).or_default() += 1;
        }
        same("the answer", &library, &rust)?;
        same_parts("the balances", &ours, &theirs)?;
        same_parts("the output", &our_output, &their_output)?;
        book = library.book;
        from += library.consumed;
        if library.over || library.number != 0 || ended || random.one_in(200) {
            return Ok(());
        }
    }
}

/// What a comparison of many inputs has to meet: a failed transfer that drops a row, one that claims a paid row behind one that waits, a repo
/// claim, a row with claims of both types, a repo refused by its balance and by the limit, limits refused, limits that give more claims
/// and fewer than the published numbers, pieces refused, and par off the piece: refused, accepted on loan and on repo since it clears the
/// balance, and refused for what is nearly that. Of days before the memo: lending refused by each of its codes and repo accepted; an empty
/// tag accepted, of class 1 too, and refused on a later day; a fail with more claims than its limit, also where several wait, one with a
/// row on the edge of the half year, there since a month is short too, and one before it; a fail in no MBS; and a close into a later day. Of
/// carry overs: each of their numbers, 1 and 2 where others apply too, 4 for each of its reasons alone, one accepted before the memo and
/// later, on bad words in each half of the balances, and a book carried over whose loans are claimed. Of marks: what `marks::WANTED` says.
/// Of forecasts: what `forecast::wanted` says.
fn judge(tally: &Tally, count: u64) -> Result<(), String> {
    const MANY: u64 = 10_000;
    let wanted = [
        (ROWS_DROPPED, SOME),
        (PAID_BEHIND, SOME),
        (REPO_CLAIM, 0..=3),
        (ROWS_OF_BOTH, SOME),
        (REPO_TRANSFER, 7..=7),
        (REPO_TRANSFER, 8..=8),
        (WITH_LIMITS, 12..=12),
        (MORE_BY_LIMITS, SOME),
        (FEWER_BY_LIMITS, SOME),
        (TRANSFER, 13..=13),
        (WITH_LIMITS, 13..=13),
        (TRANSFER, 14..=14),
        (WITH_LIMITS, 14..=14),
        (CLEARED, 2..=6),
        (CLEARED, 8..=12),
        (ONE_BESIDE, SOME),
        (OTHER_HALF, SOME),
        (AN_INCREASE, SOME),
        (TRANSFER, 15..=15),
        (WITH_LIMITS, 15..=15),
        (LENDING_BEFORE, 1..=1),
        (LENDING_BEFORE, 2..=2),
        (LENDING_BEFORE, 3..=3),
        (LENDING_BEFORE, 4..=4),
        (LENDING_BEFORE, 5..=5),
        (LENDING_BEFORE, 6..=6),
        (REPO_BEFORE, 0..=0),
        (REPO_BEFORE, 7..=7),
        (EMPTY_TAG, 135..=135),
        (EMPTY_BEFORE, 0..=0),
        (EMPTY_OTHER, 0..=0),
        (FAIL_BEFORE, 8..=16),
        (NOT_MBS_BEFORE, SOME),
        (TOO_OLD, SOME),
        (ON_THE_EDGE, SOME),
        (SHORT_MONTH, SOME),
        (PAST_LIMIT, SOME),
        (LATER_WAITING, SOME),
        (CROSSED, SOME),
        (CARRY_OVER, 0..=0),
        (CARRY_OVER, 1..=1),
        (CARRY_OVER, 2..=2),
        (SEVERAL, 1..=1),
        (SEVERAL, 2..=2),
        (OWN_SAVED, 4..=4),
        (TOO_MUCH_SAVED, 4..=4),
        (SAVED_DAY, 4..=4),
        (CARRIED_BEFORE, 0..=0),
        (CARRIED_BEFORE, SOME),
        (CARRIED_ONTO, 0..=0),
        (CARRIED_ONTO, SOME),
        (CARRIED_CLAIM, SOME),
    ];
    let mut wanted = wanted.into_iter().chain(marks::WANTED).chain(forecast::wanted());
    let is_met =
        |(name, numbers): &(&str, RangeInclusive<u16>)| tally.keys().any(|(kind, n)| kind == name && numbers.contains(n));
    match wanted.find(|what| !is_met(what)) {
        Some((name, numbers)) if count >= MANY => Err(format!("{count} inputs and none with '{name}' {numbers:?}")),
        _ => Ok(()),
    }
}

/// Compares on so many inputs from a seed.
pub fn run(seed: u64, count: u64) -> Result<(), String> {
    let mut tally = Tally::new();
    for case in 0..count {
        // Each input has a seed of its own, so that one can be tried alone.
        let seed = seed.wrapping_add(case);
        let mut random = Random::new(seed);
        random.word();
        let compared = match random.below(11) {
            0 => compare_open(&mut random, &mut tally),
            1 => compare_carry_over(&mut random, &mut tally),
            2 => marks::compare(&mut random, &mut tally),
            3 => forecast::compare(&mut random, &mut tally),
            4..9 => compare_calls(&mut random, &mut tally),
            _ => compare_serve(&mut random, &mut tally),
        };
        compared.map_err(|difference| format!("seed {seed}: {difference}"))?;
    }
    println!("{count} inputs from seed {seed}, no difference in any answer, book, balance, store, claim buffer or output");
    println!("how often each number was answered, and each outcome given:");
    for ((name, number), times) in &tally {
        println!("  {name:22} {number:3} {times:9}");
    }
    judge(&tally, count)
}
