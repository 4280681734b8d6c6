//! Dates and the calendar.
use super::CALENDAR_WORDS;

pub type Calendar = [u32; CALENDAR_WORDS];

pub const FIRST: u32 = 20000101;
pub const LAST: u32 = 20391231;

/// The first day of Clearing Memo 278; days before it keep the rules of Memo 219.
const MEMO_DAY: u32 = 20230130;

const LENGTHS: [u32; 12] = [31, 28, 31, 30, 31, 30, 31, 31, 30, 31, 30, 31];

/// The days of each month as bits.
const DAYS: Calendar = days_of_months();

const fn days_of_months() -> Calendar {
    let mut days = [0; CALENDAR_WORDS];
    let mut month = 0;
    while month < CALENDAR_WORDS {
        // Every fourth year from 2000 to 2039 is a leap year.
        let leap = month % 48 == 1;
        let length = LENGTHS[month % 12] + leap as u32;
        days[month] = u32::MAX >> (32 - length);
        month += 1;
    }
    days
}

/// The month of a date, counted from January 2000, and the bit of its day.
fn month_and_bit(date: u32) -> Option<(usize, u32)> {
    if !(FIRST..=LAST).contains(&date) {
        return None;
    }
    let (year, month, day) = (date / 10000, date / 100 % 100, date % 100);
    if !(1..=12).contains(&month) || !(1..=31).contains(&day) {
        return None;
    }
    let month = ((year - 2000) * 12 + month - 1) as usize;
    let bit = day - 1;
    (DAYS[month] >> bit & 1 == 1).then_some((month, bit))
}

fn date(month: usize, bit: u32) -> u32 {
    let month = month as u32;
    (2000 + month / 12) * 10000 + (month % 12 + 1) * 100 + bit + 1
}

pub fn is_date(number: u32) -> bool {
    month_and_bit(number).is_some()
}

pub fn is_before_memo(day: u32) -> bool {
    day < MEMO_DAY
}

/// The same day six months before a date, or the last day of that month where it is shorter. It may lie in 1999.
pub fn six_months_before(date: u32) -> u32 {
    let (year, month, day) = (date / 10000, date / 100 % 100, date % 100);
    let (year, month) = if month > 6 { (year, month - 6) } else { (year - 1, month + 6) };
    let leap = month == 2 && year.is_multiple_of(4);
    let length = LENGTHS[month as usize - 1] + leap as u32;
    10000 * year + 100 * month + day.min(length)
}

/// Whether every bit that is on is a day of its month.
pub fn is_sound(calendar: &Calendar) -> bool {
    let lacking = calendar.iter().zip(&DAYS).fold(0, |lacking, (word, days)| lacking | word & !days);
    lacking == 0
}

pub fn is_open(calendar: &Calendar, number: u32) -> bool {
    month_and_bit(number).is_some_and(|(month, bit)| calendar[month] >> bit & 1 == 1)
}

/// The first open day among the days of a month that the mask leaves and of the months behind it.
fn first_open(calendar: &Calendar, month: usize, mask: u32) -> Option<u32> {
    let word = calendar[month] & mask;
    if word != 0 {
        return Some(date(month, word.trailing_zeros()));
    }
    let later = month + 1;
    let skipped = calendar[later..].iter().position(|&word| word != 0)?;
    Some(date(later + skipped, calendar[later + skipped].trailing_zeros()))
}

pub fn open_on_or_after(calendar: &Calendar, day: u32) -> Option<u32> {
    let (month, bit) = month_and_bit(day)?;
    first_open(calendar, month, u32::MAX << bit)
}

pub fn open_after(calendar: &Calendar, day: u32) -> Option<u32> {
    let (month, bit) = month_and_bit(day)?;
    first_open(calendar, month, u32::MAX << bit << 1)
}

pub fn last_open(calendar: &Calendar) -> Option<u32> {
    let month = calendar.iter().rposition(|&word| word != 0)?;
    Some(date(month, calendar[month].ilog2()))
}
