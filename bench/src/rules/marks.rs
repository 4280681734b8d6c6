//! Marks: a book's day, count and balances, kept in a lent store and returned to.
use super::book::{Balances, judge_balances, judge_day, refused};
use super::days::{self, Calendar};
use super::{Book, Done, MARK_WORDS, MARKS, STORE_WORDS};
use std::ops::Range;

/// Calendar and balances of a book that keeps its rules, before any store is looked at.
fn judge_present<'a>(calendar: &'a [u32], book: Book, balances: &[u64]) -> Result<&'a Calendar, u16> {
    let (Ok(calendar), Ok(balances)) = (calendar.try_into(), <&Balances>::try_from(balances)) else {
        return Err(1);
    };
    if !days::is_sound(calendar) {
        return Err(2);
    }
    judge_day(calendar, book.day)?;
    judge_balances(balances)?;
    Ok(calendar)
}

/// Where a mark stands in a store.
fn words_of(mark: u32, store: usize) -> Result<Range<usize>, u16> {
    if store != STORE_WORDS || !(1..=MARKS).contains(&mark) {
        return Err(16);
    }
    let end = MARK_WORDS * mark as usize;
    Ok(end - MARK_WORDS..end)
}

/// The book and the balances of a mark that is set and keeps the rules of a book.
fn read<'a>(calendar: &Calendar, words: &'a [u64]) -> Option<(Book, &'a Balances)> {
    let &[1, day, count, ref balances @ ..] = words else {
        return None;
    };
    let book = Book { day: day.try_into().ok()?, count: count.try_into().ok()? };
    let balances = balances.try_into().ok()?;
    judge_day(calendar, book.day).and_then(|()| judge_balances(balances)).ok()?;
    Some((book, balances))
}

/// Sets a mark.
pub fn set_mark(calendar: &[u32], book: Book, balances: &[u64], store: &mut [u64], mark: u32) -> u16 {
    match judge_present(calendar, book, balances).and_then(|_| words_of(mark, store.len())) {
        Ok(words) => {
            let (head, saved) = store[words].split_at_mut(3);
            head.copy_from_slice(&[1, book.day as u64, book.count as u64]);
            saved.copy_from_slice(balances);
            0
        }
        Err(number) => number,
    }
}

/// Returns to a mark, which stays.
pub fn return_to_mark(calendar: &[u32], book: Book, balances: &mut [u64], store: &[u64], mark: u32) -> Done {
    let judged = judge_present(calendar, book, balances)
        .and_then(|calendar| words_of(mark, store.len()).map(|words| (calendar, words)))
        .and_then(|(calendar, words)| read(calendar, &store[words]).ok_or(17));
    match judged {
        Ok((book, saved)) => {
            balances.copy_from_slice(saved);
            Done { number: 0, book, claims: 0 }
        }
        Err(number) => refused(number, book),
    }
}
