//! Inputs: calendars, tables, limits, pieces, balances, stores of marks and messages, sound and damaged; runs of claims.
pub mod forecast;

use crate::random::Random;
use bench::rules::{
    BALANCE_WORDS, Book, CALENDAR_WORDS, LIMIT_WORDS, MARK_WORDS, PIECE_WORDS, PUBLISHED, STORE_WORDS, TABLE_WORDS,
    TRACKING_WORDS,
};
use std::ops::Range;

pub const MOST_LENT: u64 = 9_000_000_000;
const MOST_PAR: u64 = 100_000_000;

/// Everything that the calls are given beside messages.
#[derive(Clone)]
pub struct World {
    pub calendar: Vec<u32>,
    pub tables: Vec<u32>,
    pub balances: Vec<u64>,
    pub book: Book,
}

fn month_length(month: usize) -> u32 {
    let lengths = [31, 28, 31, 30, 31, 30, 31, 31, 30, 31, 30, 31];
    lengths[month % 12] + (month % 48 == 1) as u32
}

/// The date of a day, counted from 1 January 2000; days past the end count as the last.
pub fn date(mut day: u64) -> u32 {
    for month in 0..CALENDAR_WORDS {
        let length = month_length(month) as u64;
        if day < length {
            let (year, month) = (2000 + month / 12, month % 12 + 1);
            return (10000 * year + 100 * month + 1) as u32 + day as u32;
        }
        day -= length;
    }
    20391231
}

/// The day on which a month begins, counted likewise; months are counted from January 2000.
fn first_of(month: usize) -> u64 {
    (0..month).map(|month| month_length(month) as u64).sum()
}

/// The day of a date, counted likewise; of a number whose month or year is none, the day of one that is.
fn day_of(date: u32) -> u64 {
    let (year, month, day) = (date / 10000 % 40, date / 100 % 100 % 12, date % 100);
    first_of((12 * year + (month + 11) % 12) as usize) + (day as u64).saturating_sub(1)
}

/// Whether a number is a date.
pub fn is_date(number: u32) -> bool {
    date(day_of(number)) == number
}

/// The days from 1 January 2000 to 31 December 2039.
pub const DAYS: u64 = 14610;

/// The first day on which the rows of some tables may begin: the rules are those of Memo 219 on most days of the first, those of Memo 278
/// on the days of the last, and the second lies around the change.
const BEGINNINGS: [u64; 5] = [6900, 6900, 7700, 8600, 8600];

/// Monday to Friday.
pub fn weekdays() -> Vec<u32> {
    // 1 January 2000 is a Saturday.
    let mut weekday = 5;
    let mut words = Vec::new();
    for month in 0..CALENDAR_WORDS {
        let mut word = 0;
        for bit in 0..month_length(month) {
            word |= ((weekday < 5) as u32) << bit;
            weekday = (weekday + 1) % 7;
        }
        words.push(word);
    }
    words
}

/// A calendar that keeps its rule: weekdays, any days, few days, or none.
fn calendar(random: &mut Random) -> Vec<u32> {
    if !random.one_in(3) {
        return weekdays();
    }
    let shape = random.below(8);
    let mut words: Vec<u32> = (0..CALENDAR_WORDS)
        .map(|month| {
            let days = u32::MAX >> (32 - month_length(month));
            match shape {
                0..4 => random.word() as u32 & days,
                4..6 => random.word() as u32 & random.word() as u32 & random.word() as u32 & days,
                6 if random.one_in(12) => 1 << random.below(month_length(month) as u64),
                6 => 0,
                _ => days,
            }
        })
        .collect();
    if random.one_in(4) {
        let from = random.place(&words);
        words[from..].fill(0);
    }
    words
}

fn open_dates(calendar: &[u32]) -> Vec<u32> {
    let mut open = Vec::new();
    for (month, &word) in calendar.iter().enumerate() {
        for bit in (0..32).filter(|bit| word >> bit & 1 == 1) {
            let (year, month) = (2000 + month / 12, month % 12 + 1);
            open.push((10000 * year + 100 * month + bit + 1) as u32);
        }
    }
    open
}

/// One of the open days within a range of dates, or any open day where there is none.
fn open_within(random: &mut Random, open: &[u32], dates: Range<u32>) -> u32 {
    let within: Vec<u32> = open.iter().copied().filter(|day| dates.contains(day)).collect();
    if within.is_empty() { random.pick(open) } else { random.pick(&within) }
}

/// A day of the book, mostly open and in the middle of the years that the rows cover; some are just before the rules change, on 30 January
/// 2023, or on it.
fn day(random: &mut Random, open: &[u32], beginning: u64) -> u32 {
    match random.below(40) {
        _ if open.is_empty() => date(random.below(DAYS)),
        0 => date(random.below(DAYS)),
        1 => *open.last().unwrap(),
        2 => open[open.len() - 1 - random.below(3.min(open.len() as u64)) as usize],
        3 => open[0],
        4..8 => random.pick(open),
        8..12 => open_within(random, open, 20230116..20230203),
        _ => open_within(random, open, date(beginning + 300)..date(beginning + 1100)),
    }
}

fn factor(random: &mut Random) -> u32 {
    match random.below(8) {
        0 => 0,
        1 => 2_000_000_000,
        2 => random.below(100) as u32,
        3 => random.pick(&[4_999_999, 5_000_000, 5_000_001]),
        _ => random.below(2_000_000_001) as u32,
    }
}

fn mask(random: &mut Random) -> u32 {
    match random.below(4) {
        0 | 1 => 0,
        2 => 1 << random.below(16),
        _ => random.word() as u32 & 0xffff,
    }
}

/// The Record and Beneficiary Dates of rows, as days. The latter lie a few days or weeks behind the former.
fn rising_days(random: &mut Random, beginning: u64) -> [[u64; 2]; 16] {
    let step = random.pick(&[1, 3, 30, 60, 90]);
    let lag = random.pick(&[5, 60]);
    let record = random.from(beginning, beginning + 500);
    let mut days = [record, record + random.below(lag)];
    [(); 16].map(|()| {
        let row = days;
        days = days.map(|day| day + random.from(1, step));
        row
    })
}

/// Likewise, on the last days of months that follow each other, or on the first days behind them.
fn monthly_days(random: &mut Random, beginning: u64) -> [[u64; 2]; 16] {
    let ends = random.pick(&[0, 1, 1]);
    let month = (random.from(beginning, beginning + 500) / 31) as usize;
    let lag = random.pick(&[0, 0, 1]);
    std::array::from_fn(|row| [month + row, month + row + lag].map(|month| first_of(month) - ends))
}

/// Rows that keep the rules where the calendar's last open day is late enough. Their Payment Dates, in any order, lie some weeks or a year
/// behind their other dates.
fn rows(random: &mut Random, count: usize, words: &mut [u32], beginning: u64) {
    let is_monthly = random.one_in(2);
    let days = if is_monthly { monthly_days(random, beginning) } else { rising_days(random, beginning) };
    let delay = random.pick(&[40, 400]);
    for (row, [record, beneficiary]) in words.chunks_mut(7).zip(days).take(count) {
        let payment = record.max(beneficiary) + random.below(delay);
        let last = random.one_in(6) as u32;
        row.copy_from_slice(&[
            date(record),
            date(beneficiary),
            date(payment),
            factor(random),
            factor(random),
            last,
            mask(random),
        ]);
    }
}

fn tables(random: &mut Random, beginning: u64) -> Vec<u32> {
    let mut words = vec![0; TABLE_WORDS];
    let unused = random.pick(&[0, 0, 0, 1, 2, 2, 8, 16]);
    for security in words.chunks_mut(114) {
        if random.below(16) < unused {
            continue;
        }
        security[0] = random.from(1, 4) as u32;
        security[1] = random.from(1, 4) as u32;
        let count = if random.one_in(2) { 16 } else { random.below(17) as usize };
        rows(random, count, &mut security[2..], beginning);
    }
    words
}

/// The par on loan, or that on repo.
fn tracking(random: &mut Random) -> Vec<u64> {
    let shape = random.below(5);
    let few = random.from(2, 200);
    let mut words: Vec<u64> = (0..TRACKING_WORDS)
        .map(|_| match shape {
            0 => 0,
            1 if random.one_in(few) => random.below(MOST_LENT + 1),
            1 => 0,
            2 => random.below(MOST_LENT + 1),
            3 => random.pick(&[0, 1, MOST_LENT, MOST_LENT - 1, 100_000_000]),
            _ => random.below(200_000_000),
        })
        .collect();
    for security in words.chunks_mut(256) {
        security.iter_mut().step_by(17).for_each(|own| *own = 0);
    }
    words
}

fn balances(random: &mut Random) -> Vec<u64> {
    [tracking(random), tracking(random)].concat()
}

/// Changes a length.
fn cut<T: Clone + Default>(random: &mut Random, of: &mut Vec<T>) {
    let length = match random.below(4) {
        0 => 0,
        1 => of.len() + random.from(1, 300) as usize,
        2 => of.len().saturating_sub(1),
        _ => random.below(of.len() as u64 + 1) as usize,
    };
    of.resize(length, T::default());
}

/// A word near the one given or near an end of a range.
fn other(random: &mut Random, word: u32) -> u32 {
    match random.below(10) {
        0 => word.wrapping_add(1),
        1 => word.wrapping_sub(1),
        2 => word ^ 1 << random.below(32),
        3 => 0,
        4 => u32::MAX,
        5 => random.pick(&[1, 2, 4, 5, 0xffff, 0x10000, 2_000_000_000, 2_000_000_001]),
        6 => random.pick(&[20000101, 19991231, 20391231, 20400101, 20230229, 20240229, 20230431, 20231301, 20230100]),
        7 => date(random.below(DAYS)),
        8 => random.below(20400101) as u32,
        _ => random.word() as u32,
    }
}

/// Damages a row: empties it, changes a word, or brings a date to the edge of what another date or the calendar's last open day allows.
fn damage_row(random: &mut Random, tables: &mut [u32], last_open: u32) {
    let Some(row) = tables.chunks_mut(114).nth(random.below(16) as usize).and_then(|security| {
        let at = 2 + 7 * random.below(16) as usize;
        security.get_mut(at..at + 7)
    }) else {
        return;
    };
    let beside = random.pick(&[0, 1, u32::MAX]);
    match random.below(6) {
        0 | 1 => row.fill(0),
        2 => row[2] = last_open.wrapping_add(beside),
        3 => row[random.below(3) as usize] = row[random.below(3) as usize].wrapping_add(beside),
        _ => {
            let at = random.place(row);
            row[at] = other(random, row[at]);
        }
    }
}

/// Brings a date of a row to the edge of what the row before it allows.
fn damage_order(random: &mut Random, tables: &mut [u32]) {
    let at = 114 * random.below(16) as usize + 2 + 7 * random.below(15) as usize + random.below(2) as usize;
    if at + 7 < tables.len() {
        tables[at + 7] = tables[at].wrapping_add(random.pick(&[0, 1, u32::MAX]));
    }
}

/// Damages one thing, or lets a thing be that was not damaged enough to matter.
fn damage(random: &mut Random, world: &mut World) {
    match random.below(14) {
        0 => cut(random, &mut world.calendar),
        1 => cut(random, &mut world.tables),
        2 => cut(random, &mut world.balances),
        3 if !world.calendar.is_empty() => {
            let at = random.place(&world.calendar);
            world.calendar[at] ^= 1 << random.from(26, 31);
        }
        4 if !world.tables.is_empty() => {
            let at = random.place(&world.tables);
            world.tables[at] = other(random, world.tables[at]);
        }
        5 if !world.tables.is_empty() => {
            let at = random.place(&world.tables) / 114 * 114 + random.below(2) as usize;
            if let Some(word) = world.tables.get_mut(at) {
                *word = other(random, *word);
            }
        }
        6 | 7 | 12 => {
            let last_open = open_dates(&world.calendar).last().copied().unwrap_or(0);
            damage_row(random, &mut world.tables, last_open);
        }
        13 => damage_order(random, &mut world.tables),
        8 if !world.balances.is_empty() => {
            let at = random.place(&world.balances);
            world.balances[at] = random.pick(&[MOST_LENT, MOST_LENT + 1, u64::MAX, 1 << 63, 1 << 34, 0, 1]);
        }
        9 if !world.balances.is_empty() => {
            let own = 256 * random.below(32) as usize + 17 * random.below(16) as usize;
            if let Some(word) = world.balances.get_mut(own) {
                *word = random.pick(&[0, 1, u64::MAX, 1 << 63]);
            }
        }
        10 => world.book.day = other(random, world.book.day),
        _ => world.book.count = random.pick(&[0, u32::MAX, u32::MAX - 1, 1]),
    }
}

/// The number of the same day six months behind a date; in some months there is no such day.
fn six_months_behind(date: u32) -> u32 {
    if date / 100 % 100 > 6 { date.wrapping_add(9400) } else { date.wrapping_add(600) }
}

/// An open day beside a Record, Beneficiary or Payment Date of some row, or beside the day six months behind its Beneficiary Date or the end
/// of that month.
fn day_by_row(random: &mut Random, open: &[u32], tables: &[u32]) -> Option<u32> {
    let security = tables.chunks(114).nth(random.below(16) as usize)?;
    let row = security[2..].chunks(7).nth(random.below(16) as usize).filter(|row| row[1] != 0)?;
    let behind = six_months_behind(row[1]);
    let end = behind - behind % 100 + 31;
    let date = random.pick(&[row[0], row[1], row[2], behind, behind, end, end]);
    let near = open.partition_point(|&day| day < date);
    let at = (near + random.pick(&[0, 1, 2, 2, 3, 3, 4])).checked_sub(2)?;
    open.get(at).copied()
}

/// A calendar, tables, balances and a book; about one in four is damaged.
pub fn world(random: &mut Random) -> World {
    let calendar = calendar(random);
    let beginning = random.pick(&BEGINNINGS);
    let tables = tables(random, beginning);
    let open = open_dates(&calendar);
    let by_row = if random.one_in(2) { day_by_row(random, &open, &tables) } else { None };
    let day = by_row.unwrap_or_else(|| day(random, &open, beginning));
    let count = match random.below(8) {
        0 => u32::MAX - random.below(3) as u32,
        1 => random.word() as u32,
        _ => random.below(1000) as u32,
    };
    let mut world = World { calendar, tables, balances: balances(random), book: Book { day, count } };
    if random.one_in(4) {
        damage(random, &mut world);
        if random.one_in(3) {
            damage(random, &mut world);
        }
    }
    world
}

/// Changes a word of balances, often that of an account with itself or one at an end; it may become too large.
fn spoil(random: &mut Random, balances: &mut [u64]) {
    let at = match random.below(3) {
        0 => 256 * random.below(balances.len() as u64 / 256 + 1) as usize + 17 * random.below(16) as usize,
        1 => random.pick(&[0, 1, TRACKING_WORDS - 2, TRACKING_WORDS - 1, TRACKING_WORDS, 2 * TRACKING_WORDS - 1]),
        _ => random.below(balances.len() as u64 + 1) as usize,
    };
    if let Some(word) = balances.get_mut(at) {
        *word = random.pick(&[MOST_LENT, MOST_LENT + 1, u64::MAX, 1 << 63, 1 << 34, 1]);
    }
}

/// What a carry over takes: a world whose balances are any words, since they are only written to, and the saved par on loan, some of it
/// spoilt or of another length. Some calendars have a bit that no month has.
pub fn saved_world(random: &mut Random) -> (World, Vec<u64>) {
    let (mut world, mut saved) = (world(random), tracking(random));
    match random.below(4) {
        0 => world.balances.iter_mut().for_each(|word| *word = random.word()),
        1 => (0..3).for_each(|_| spoil(random, &mut world.balances)),
        _ => {}
    }
    match random.below(8) {
        0 => cut(random, &mut saved),
        1 => saved.resize(random.pick(&[TRACKING_WORDS - 1, TRACKING_WORDS + 1, 2 * TRACKING_WORDS]), 0),
        2 | 3 => spoil(random, &mut saved),
        _ => {}
    }
    if random.one_in(8) && !world.calendar.is_empty() {
        let at = random.place(&world.calendar);
        world.calendar[at] |= 1 << 31;
    }
    (world, saved)
}

/// Spoils a mark: its flag, its day or bits above it, its count, or a balance.
fn spoil_mark(random: &mut Random, mark: &mut [u64]) {
    match random.below(6) {
        0 => mark[0] = random.pick(&[0, 2, 257, 1 << 63, (1 << 32) + 1, u64::MAX]),
        1 => mark[1] |= 1 << random.from(32, 63),
        2 => mark[1] = other(random, mark[1] as u32) as u64,
        3 => mark[2] = random.pick(&[u32::MAX as u64, 1 << 32, (1 << 32) + 5, 1 << 63, u64::MAX]),
        _ => spoil(random, &mut mark[3..]),
    }
}

/// What setting a mark and returning to one take: a world, and a store that holds any words where no mark is set. Some marks are spoilt, and
/// some stores have another length. Some calendars have a bit that no month has.
pub fn marked_world(random: &mut Random) -> (World, Vec<u64>) {
    let mut world = world(random);
    let open = open_dates(&world.calendar);
    let words = random.word();
    let mut store = vec![random.pick(&[0, 1, 7, u64::MAX, words]); STORE_WORDS];
    let saved = balances(random);
    for mark in store.chunks_mut(MARK_WORDS) {
        if random.one_in(4) {
            continue;
        }
        let day = if open.is_empty() || random.one_in(2) { world.book.day } else { random.pick(&open) };
        let count = random.pick(&[0, 5, world.book.count, u32::MAX]);
        let is_same = world.balances.len() == BALANCE_WORDS && random.one_in(4);
        mark[..3].copy_from_slice(&[1, day as u64, count as u64]);
        mark[3..].copy_from_slice(if is_same { &world.balances } else { &saved });
        if random.one_in(3) {
            spoil_mark(random, mark);
        }
    }
    match random.below(16) {
        0 => cut(random, &mut store),
        1 => store.resize(random.pick(&[STORE_WORDS - 1, STORE_WORDS + 1, 2 * MARK_WORDS, 5 * MARK_WORDS]), 1),
        2 if !world.calendar.is_empty() => {
            let at = random.place(&world.calendar);
            world.calendar[at] |= 1 << 31;
        }
        _ => {}
    }
    (world, store)
}

/// A mark to set or to return to: mostly one of the four, some of the others beside them or the same in their lowest bits.
pub fn mark(random: &mut Random) -> u32 {
    let one = random.from(1, 4) as u32;
    match random.below(10) {
        0 => random.pick(&[0, 5, 6, 256 + one, 65536 + one, 1 << 31 | one, u32::MAX]),
        _ => one,
    }
}

/// Goes on with a book: some of its balances are others, a transfer more may be counted, and its day may be another open one.
pub fn go_on(random: &mut Random, world: &mut World) {
    for _ in 0..random.below(4) {
        let at = random.below(BALANCE_WORDS as u64) as usize;
        if let Some(word) = world.balances.get_mut(at).filter(|_| at / 16 % 16 != at % 16) {
            *word = random.below(MOST_LENT + 1);
        }
    }
    world.book.count = world.book.count.saturating_add(random.below(2) as u32);
    let open = open_dates(&world.calendar);
    if random.one_in(3) && !open.is_empty() {
        world.book.day = random.pick(&open);
    }
}

/// Date limits: good ones, the published numbers, another length, a number at the edge of its range, or one above the one before.
pub fn limits(random: &mut Random) -> Vec<u32> {
    let mut limits: Vec<u32> = (0..LIMIT_WORDS).map(|_| random.from(1, 16) as u32).collect();
    limits[1..].sort_by(|one, next| next.cmp(one));
    match random.below(12) {
        0 => limits = PUBLISHED.to_vec(),
        1 => cut(random, &mut limits),
        2 => {
            let at = random.place(&limits);
            limits[at] = random.pick(&[0, 1, 16, 17, u32::MAX]);
        }
        3 => {
            let at = random.from(2, LIMIT_WORDS as u64 - 1) as usize;
            limits[at] = limits[at - 1] + 1;
        }
        _ => {}
    }
    limits
}

/// Pieces: ones, others, another length, or a number at the edge of its range.
pub fn pieces(random: &mut Random) -> Vec<u32> {
    let most = random.pick(&[1, 1, 1, 5, 1000, 1_000_000]);
    let mut pieces: Vec<u32> = (0..PIECE_WORDS).map(|_| random.from(1, most) as u32).collect();
    match random.below(16) {
        0 => pieces.resize(random.pick(&[0, 1, 15, 17, 300]), 1),
        1 => {
            let at = random.place(&pieces);
            pieces[at] = random.pick(&[0, 1, 1_000_000, 1_000_001, u32::MAX]);
        }
        _ => {}
    }
    pieces
}

const OPENER: &[u8] = b"{98A:CNTR/";

/// A date some days or years before the day, or about half a year.
fn earlier(random: &mut Random, day: u32) -> u32 {
    let days = match random.below(4) {
        0 => random.below(40),
        1 => random.from(178, 188),
        _ => random.below(1200),
    };
    date(day_of(day).saturating_sub(days))
}

/// A Contract Date, mostly not after the day.
fn contract(random: &mut Random, day: u32) -> u32 {
    match random.below(12) {
        0 | 1 => day,
        2 => day.wrapping_add(1),
        3 => other(random, day),
        4 => random.below(100_000_000) as u32,
        5 => day.wrapping_sub(1),
        _ => earlier(random, day),
    }
}

/// The bytes of a tag, mostly well made.
fn tag(random: &mut Random, day: u32) -> Vec<u8> {
    let mut bytes = OPENER.to_vec();
    match random.below(20) {
        0 => bytes.extend(random.bytes(8)),
        1 => bytes.extend(format!("{:07}", contract(random, day) / 10).bytes()),
        2 => bytes.extend(format!("{:09}", contract(random, day)).bytes()),
        3 => {
            bytes.extend(format!("{:08}", contract(random, day)).bytes());
            let at = OPENER.len() + random.below(8) as usize;
            bytes[at] = random.pick(b"/:}{ ");
        }
        4 => {}
        5 => bytes.push(random.pick(b" 0}")),
        _ => bytes.extend(format!("{:08}", contract(random, day)).bytes()),
    }
    if !random.one_in(16) {
        bytes.push(b'}');
    }
    if random.one_in(24) {
        let at = random.place(&bytes);
        bytes[at] = random.word() as u8;
    }
    bytes
}

/// Both lines of free text with one tag in one of them: with a date up to the day, or empty.
fn lines_with_tag(random: &mut Random, day: u32) -> Vec<u8> {
    let mut text = vec![random.pick(b" }x0"); 128];
    let date = if random.one_in(4) { day } else { earlier(random, day).min(day) };
    let date = if random.one_in(8) { String::new() } else { format!("{date:08}") };
    let tag = format!("{{98A:CNTR/{date}}}");
    let at = (64 * random.below(2) + random.from(0, 64 - tag.len() as u64)) as usize;
    text[at..at + tag.len()].copy_from_slice(tag.as_bytes());
    text
}

/// Both lines of free text: plain, with tags, with parts of tags, or of any bytes.
fn lines(random: &mut Random, day: u32) -> Vec<u8> {
    if random.one_in(2) && day <= 99_999_999 {
        return lines_with_tag(random, day);
    }
    let mut text = match random.below(6) {
        0 => random.bytes(128),
        1 => vec![b'{'; 128],
        2 => (0..128).map(|_| random.pick(b"{98A:CNTR/}0129")).collect(),
        _ => vec![b' '; 128],
    };
    let tags = random.pick(&[0, 1, 1, 1, 1, 2, 3]);
    for _ in 0..tags {
        let tag = tag(random, day);
        let room = 128 - tag.len() as u64;
        // Some tags lie across both lines, some end with their line.
        let at = match random.below(6) {
            0 => random.from(64 - tag.len() as u64, 64),
            1 => random.pick(&[0, 64 - tag.len() as u64, 64, room]),
            2 => random.pick(&[54, 118, 53, 55]).min(room),
            _ => random.below(room + 1),
        } as usize;
        text[at..at + tag.len()].copy_from_slice(&tag);
    }
    text
}

/// A transfer, mostly with fields in their ranges.
pub fn transfer(random: &mut Random, day: u32) -> Vec<u8> {
    let mut bytes = vec![139, 0, 1, 0];
    let sender = random.below(16) as u8;
    let mut fields = [
        sender,
        (sender + random.from(1, 15) as u8) % 16,
        random.below(16) as u8,
        random.below(2) as u8,
        if random.one_in(2) { 0 } else { random.from(1, 12) as u8 },
    ];
    if !random.one_in(4) {
        fields[3] = 0;
    }
    if random.one_in(16) {
        let at = random.place(&fields);
        fields[at] = random.pick(&[0, 1, 2, 6, 7, 12, 13, 15, 16, 128, 255, sender]);
    }
    bytes.extend(fields);
    let par: u32 = match random.below(8) {
        0 => random.pick(&[0, 1, 100_000_000, 100_000_001, u32::MAX, 2]),
        1 => random.below(100) as u32,
        _ => random.from(1, 100_000_000) as u32,
    };
    bytes.extend(par.to_le_bytes());
    bytes.extend(lines(random, day));
    bytes
}

/// The place of a balance that is a par, where one is near a random place.
fn place_of_par(random: &mut Random, balances: &[u64]) -> Option<usize> {
    let from = random.below(balances.len() as u64 + 1) as usize;
    let near = balances[from..].iter().take(256).position(|balance| (1..=MOST_PAR).contains(balance))?;
    Some(from + near)
}

/// Parties, security and code of a transfer that takes from a balance which is a par, and this par; or of one that adds to it or takes from
/// the other tracking's balance.
fn about_balance(random: &mut Random, balances: &[u64]) -> Option<([u8; 3], u8, u64)> {
    let place = place_of_par(random, balances)?;
    let [security, lender, borrower] = [place / 256 % 16, place / 16 % 16, place % 16].map(|part| part as u8);
    let is_repo = (place >= TRACKING_WORDS) != random.one_in(8);
    let takes = !random.one_in(8);
    let parties = if takes { [borrower, lender, security] } else { [lender, borrower, security] };
    let step = if takes { random.pick(&[2, 3, 6]) } else { random.pick(&[1, 4, 5]) };
    Some((parties, if is_repo { step + 6 } else { step }, balances[place]))
}

/// Gives a transfer another par: a multiple of its security's piece or one beside it, or, with parties and a code for it, a balance, one
/// beside it, or what it holds in whole pieces.
pub fn fit_par(random: &mut Random, message: &mut [u8], pieces: &[u32], balances: &[u64]) {
    let about = if random.one_in(4) { about_balance(random, balances) } else { None };
    let Some([parties @ .., _, code, p0, p1, p2, p3]) = message.get_mut(4..13) else {
        return;
    };
    if let Some((others, step, _)) = about {
        parties.copy_from_slice(&others);
        *code = step;
    }
    let piece = pieces.get(parties[2] as usize).map_or(1, |&piece| piece.max(1) as u64);
    let multiple = piece * random.from(1, (MOST_PAR / piece).max(1));
    let par = match about {
        Some((_, _, par)) => random.pick(&[par, par, par, par + 1, par - 1, par - par % piece]),
        None if piece > 1 => random.pick(&[multiple, multiple, multiple, multiple + 1]),
        None => return,
    };
    [*p0, *p1, *p2, *p3] = (par as u32).to_le_bytes();
}

/// Whether a Beneficiary Date is the earliest that a fail reaches on a day before the memo: no other date up to the same day six months
/// earlier is later.
fn is_on_edge(beneficiary: u32, day: u32) -> bool {
    let next = date(day_of(beneficiary) + 1);
    (six_months_behind(beneficiary)..six_months_behind(next)).contains(&day)
}

/// Makes a transfer one without a tracking code in a security that has a Beneficiary Date up to the day, often one on the edge of the half
/// year, and gives it a Contract Date beside such a date or long before.
pub fn fit_fail(random: &mut Random, message: &mut [u8], tables: &[u32], day: u32) {
    let reached = |words: &[u32]| -> Vec<u32> {
        let dates = words.get(2..).unwrap_or(&[]).chunks_exact(7).map(|row| row[1]);
        dates.filter(|&beneficiary| beneficiary != 0 && beneficiary <= day).collect()
    };
    let has_edge = |dates: &[u32]| dates.iter().any(|&beneficiary| is_on_edge(beneficiary, day));
    let mut securities: Vec<(usize, Vec<u32>)> = tables.chunks(114).map(reached).enumerate().collect();
    securities.retain(|(_, dates)| !dates.is_empty());
    if !random.one_in(3) && securities.iter().any(|(_, dates)| has_edge(dates)) {
        securities.retain(|(_, dates)| has_edge(dates));
    }
    let Some([_, _, security, class, code, _, _, _, _, lines @ ..]) = message.get_mut(4..141) else {
        return;
    };
    if securities.is_empty() {
        return;
    }
    let (number, dates) = &securities[random.place(&securities)];
    [*security, *class, *code] = [*number as u8, 0, 0];
    let contract = match random.below(3) {
        0 => random.pick(dates).wrapping_sub(random.below(2) as u32),
        1 => earlier(random, day),
        _ => date(day_of(dates[0]).saturating_sub(random.below(400))),
    };
    lines.fill(b' ');
    lines[..19].copy_from_slice(format!("{{98A:CNTR/{:08}}}", contract % 100_000_000).as_bytes());
}

/// Damages a message: its header, its length or any byte.
fn damage_message(random: &mut Random, message: &mut Vec<u8>) {
    match random.below(4) {
        0 => {
            let at = random.below(4) as usize;
            message[at] = random.pick(&[0, 1, 2, 3, 4, 33, 139, 140, 255]);
        }
        1 => cut(random, message),
        2 => {
            let at = random.place(message);
            message[at] = random.word() as u8;
        }
        _ => {
            let more = random.below(200) as usize;
            message.extend(random.bytes(more));
        }
    }
}

/// A message for a transfer or a close: mostly of its kind, some damaged, some of any bytes.
pub fn message(random: &mut Random, day: u32, closing: bool) -> Vec<u8> {
    let mut message = match random.below(24) {
        0 => {
            let length = random.below(300) as usize;
            return random.bytes(length);
        }
        1 if closing => transfer(random, day),
        1 => vec![2, 0, 2, 0],
        _ if closing => vec![2, 0, 2, 0],
        _ => transfer(random, day),
    };
    if random.one_in(12) {
        damage_message(random, &mut message);
    }
    message
}

/// A claim buffer: of any length, often so small that claims do not fit, and filled with bytes that must stay.
pub fn buffer(random: &mut Random) -> Vec<u8> {
    let length = match random.below(8) {
        0 => 0,
        1 => random.below(36),
        2 => 35 * random.below(8),
        3 => random.below(300),
        4 => random.below(20_000),
        5 => 65536,
        _ => 140_000,
    };
    let stamp = random.word() as u8;
    (0..length).map(|at| stamp.wrapping_add(at as u8)).collect()
}

/// A stream of records; some end inside a record or hold one that is wrong.
pub fn stream(random: &mut Random, day: u32) -> Vec<u8> {
    let count = random.pick(&[0, 1, 2, 5, 20, 100, 400]);
    let closes = random.pick(&[2, 10, 50]);
    let wrong = random.pick(&[10, 100, 1000]);
    let mut bytes = Vec::new();
    for _ in 0..count {
        if random.one_in(closes) {
            bytes.extend([2, 0, 2, 0]);
        } else {
            bytes.extend(transfer(random, day));
        }
        if random.one_in(wrong) {
            let length = random.below(10) as usize;
            bytes.extend(random.bytes(length));
        }
    }
    if random.one_in(3) && !bytes.is_empty() {
        let end = bytes.len() - random.below(150.min(bytes.len() as u64)) as usize;
        bytes.truncate(end);
    }
    bytes
}
