//! The book and its calls.
use super::claims;
use super::days::{self, Calendar};
use super::limits::{self, Limits, PUBLISHED};
use super::pieces::{self, ONES, Pieces};
use super::records::{self, Transfer};
use super::tables::{self, Tables};
use super::tags;
use super::{BALANCE_WORDS, Book, Done, TRACKING_WORDS};

pub type Balances = [u64; BALANCE_WORDS];

const MOST_LENT: u64 = 9_000_000_000;
const MOST_PAR: u32 = 100_000_000;

/// Calendar and tables that keep their rules.
fn judge_tables<'a>(calendar: &'a [u32], tables: &'a [u32], balances: usize) -> Result<(&'a Calendar, &'a Tables), u16> {
    let (Ok(calendar), Ok(tables)) = (calendar.try_into(), tables.try_into()) else {
        return Err(1);
    };
    if balances != BALANCE_WORDS {
        return Err(1);
    }
    if !days::is_sound(calendar) {
        return Err(2);
    }
    if !tables::are_sound(tables, days::last_open(calendar)) {
        return Err(3);
    }
    Ok((calendar, tables))
}

/// A book's day is open and an open day follows it.
pub fn judge_day(calendar: &Calendar, day: u32) -> Result<(), u16> {
    if !days::is_open(calendar, day) || days::open_after(calendar, day).is_none() {
        return Err(4);
    }
    Ok(())
}

pub fn judge_balances<const WORDS: usize>(balances: &[u64; WORDS]) -> Result<(), u16> {
    let too_large = balances.iter().any(|&par| par > MOST_LENT);
    let own = balances.as_chunks::<256>().0.iter().flat_map(|pars| pars.iter().step_by(17));
    let own = own.fold(0, |all, &par| all | par);
    if too_large || own != 0 {
        return Err(4);
    }
    Ok(())
}

/// What a transfer does to the balances: it adds to a word or takes from one.
enum Change {
    Nothing,
    Up(usize),
    Down(usize),
}

/// Codes 7 to 12 do on repo what 1 to 6 do on loan.
fn change(transfer: &Transfer) -> Change {
    let (start, step) = if transfer.code > 6 { (TRACKING_WORDS, transfer.code - 6) } else { (0, transfer.code) };
    let word = |lender, borrower| start + 256 * transfer.security as usize + 16 * lender as usize + borrower as usize;
    match step {
        1 | 4 | 5 => Change::Up(word(transfer.sender, transfer.receiver)),
        2 | 3 | 6 => Change::Down(word(transfer.receiver, transfer.sender)),
        _ => Change::Nothing,
    }
}

/// A book with its balances on a calendar, tables, date limits and pieces, all of which keep their rules.
pub struct Sound<'a> {
    calendar: &'a Calendar,
    tables: &'a Tables,
    limits: &'a Limits,
    pieces: &'a Pieces,
    balances: &'a mut Balances,
    pub book: Book,
}

impl<'a> Sound<'a> {
    /// Judges numbers 1, 2, 3, 12, 13 and 4.
    pub fn judge(
        calendar: &'a [u32],
        tables: &'a [u32],
        limits: &'a [u32],
        pieces: &'a [u32],
        book: Book,
        balances: &'a mut [u64],
    ) -> Result<Self, u16> {
        let (calendar, tables) = judge_tables(calendar, tables, balances.len())?;
        let balances: &mut Balances = balances.try_into().or(Err(1u16))?;
        let limits = limits::judged(limits).ok_or(12u16)?;
        let pieces = pieces::judged(pieces).ok_or(13u16)?;
        judge_day(calendar, book.day)?;
        judge_balances(balances)?;
        Ok(Sound { calendar, tables, limits, pieces, balances, book })
    }

    fn judge_fields(&self, transfer: &Transfer) -> Result<(), u16> {
        let securities = tables::securities(self.tables);
        let used = securities.get(transfer.security as usize).is_some_and(tables::is_used);
        if transfer.sender > 15
            || transfer.receiver > 15
            || !used
            || transfer.class > 1
            || transfer.code > 12
            || !(1..=MOST_PAR).contains(&transfer.par)
            || transfer.sender == transfer.receiver
        {
            return Err(6);
        }
        Ok(())
    }

    /// Par comes in whole pieces, unless it takes all of a balance.
    fn judge_piece(&self, transfer: &Transfer, change: &Change) -> Result<(), u16> {
        let clears = matches!(*change, Change::Down(at) if self.balances[at] == transfer.par as u64);
        let whole = transfer.par.is_multiple_of(self.pieces[transfer.security as usize]);
        if whole || clears { Ok(()) } else { Err(14) }
    }

    /// Before the memo there is no lending.
    fn judge_lending(&self, transfer: &Transfer) -> Result<(), u16> {
        let is_lending = (1..=6).contains(&transfer.code);
        if is_lending && days::is_before_memo(self.book.day) { Err(15) } else { Ok(()) }
    }

    /// The word of the balances that a transfer changes and what it becomes.
    fn tracked(&self, par: u64, change: &Change) -> Result<Option<(usize, u64)>, u16> {
        match *change {
            Change::Up(at) => {
                let after = self.balances[at] + par;
                if after > MOST_LENT { Err(8) } else { Ok(Some((at, after))) }
            }
            Change::Down(at) => {
                let after = self.balances[at].checked_sub(par).ok_or(7u16)?;
                Ok(Some((at, after)))
            }
            Change::Nothing => Ok(None),
        }
    }

    /// Works a transfer and says how many claims it gives.
    pub fn transfer(&mut self, message: &[u8], claims: &mut [u8]) -> Result<usize, u16> {
        let transfer = records::read_transfer(message).ok_or(5u16)?;
        self.judge_fields(&transfer)?;
        let contract = tags::contract_date(transfer.lines, self.book.day, transfer.class)?;
        let count = self.book.count.checked_add(1).ok_or(11u16)?;
        let counted = Book { count, ..self.book };
        let change = change(&transfer);
        self.judge_piece(&transfer, &change)?;
        self.judge_lending(&transfer)?;
        let tracked = self.tracked(transfer.par as u64, &change)?;
        let written = match transfer.code {
            0 => claims::write_transfer(self.calendar, self.tables, self.limits, counted, &transfer, contract, claims)?,
            _ => 0,
        };
        if let Some((at, after)) = tracked {
            self.balances[at] = after;
        }
        self.book = counted;
        Ok(written)
    }

    /// Works a close and says how many claims it gives.
    pub fn close(&mut self, message: &[u8], claims: &mut [u8]) -> Result<usize, u16> {
        if !records::is_close(message) {
            return Err(5);
        }
        let from = self.book.day;
        let to = days::open_after(self.calendar, from).ok_or(4u16)?;
        days::open_after(self.calendar, to).ok_or(9u16)?;
        let written = claims::write_close(self.calendar, self.tables, self.balances, from, to, claims)?;
        self.book.day = to;
        Ok(written)
    }
}

pub fn refused(number: u16, book: Book) -> Done {
    Done { number, book, claims: 0 }
}

/// Opens a book on a day.
pub fn open(calendar: &[u32], tables: &[u32], balances: &mut [u64], day: u32) -> Done {
    let judged = judge_tables(calendar, tables, balances.len()).and_then(|(calendar, _)| judge_day(calendar, day));
    match judged {
        Ok(()) => {
            balances.fill(0);
            Done { number: 0, book: Book { day, count: 0 }, claims: 0 }
        }
        Err(number) => refused(number, Book { day: days::FIRST, count: 0 }),
    }
}

/// The par on loan of a saved book, where calendar, day and par keep their rules.
fn judge_saved<'a>(calendar: &[u32], day: u32, saved: &'a [u64]) -> Result<&'a [u64; TRACKING_WORDS], u16> {
    let (Ok(calendar), Ok(saved)) = (calendar.try_into(), saved.try_into()) else {
        return Err(1);
    };
    if !days::is_sound(calendar) {
        return Err(2);
    }
    judge_day(calendar, day)?;
    judge_balances::<TRACKING_WORDS>(saved)?;
    Ok(saved)
}

/// Carries a book over that was saved with the par on loan alone: nothing is on repo, and day and count stay.
pub fn carry_over(calendar: &[u32], book: Book, saved: &[u64], balances: &mut [u64]) -> Done {
    let Ok(balances) = <&mut Balances>::try_from(balances) else {
        return refused(1, book);
    };
    match judge_saved(calendar, book.day, saved) {
        Ok(saved) => {
            let (on_loan, on_repo) = balances.split_at_mut(TRACKING_WORDS);
            on_loan.copy_from_slice(saved);
            on_repo.fill(0);
            Done { number: 0, book, claims: 0 }
        }
        Err(number) => refused(number, book),
    }
}

/// Works a transfer with the published numbers of Beneficiary Dates.
pub fn transfer(
    calendar: &[u32],
    tables: &[u32],
    pieces: &[u32],
    book: Book,
    balances: &mut [u64],
    message: &[u8],
    claims: &mut [u8],
) -> Done {
    transfer_with_limits(calendar, tables, &PUBLISHED, pieces, book, balances, message, claims)
}

/// Works a transfer with other numbers of Beneficiary Dates.
#[allow(clippy::too_many_arguments)]
pub fn transfer_with_limits(
    calendar: &[u32],
    tables: &[u32],
    limits: &[u32],
    pieces: &[u32],
    book: Book,
    balances: &mut [u64],
    message: &[u8],
    claims: &mut [u8],
) -> Done {
    let worked = Sound::judge(calendar, tables, limits, pieces, book, balances)
        .and_then(|mut sound| sound.transfer(message, claims).map(|claims| (sound.book, claims)));
    match worked {
        Ok((book, claims)) => Done { number: 0, book, claims },
        Err(number) => refused(number, book),
    }
}

/// Works a close.
pub fn close(calendar: &[u32], tables: &[u32], book: Book, balances: &mut [u64], message: &[u8], claims: &mut [u8]) -> Done {
    let worked = Sound::judge(calendar, tables, &PUBLISHED, &ONES, book, balances)
        .and_then(|mut sound| sound.close(message, claims).map(|claims| (sound.book, claims)));
    match worked {
        Ok((book, claims)) => Done { number: 0, book, claims },
        Err(number) => refused(number, book),
    }
}
