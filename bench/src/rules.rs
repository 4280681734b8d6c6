//! The rules of document 01, with cards 1 to 10 of document 02, in Rust: opening, carrying over, marks, transfer, close, a run of records and
//! the cash forecast.
mod book;
mod claims;
mod days;
mod forecast;
mod limits;
mod marks;
mod pieces;
mod records;
mod serve;
mod tables;
mod tags;

pub use book::{carry_over, close, open, transfer, transfer_with_limits};
pub use days::{is_before_memo, six_months_before};
pub use forecast::forecast;
pub use limits::PUBLISHED;
pub use marks::{return_to_mark, set_mark};
pub use pieces::ONES;
pub use records::answer;
pub use serve::serve;

/// Words of the calendar, one a month from January 2000.
pub const CALENDAR_WORDS: usize = 480;

/// Words of the tables, 114 for each of 16 securities.
pub const TABLE_WORDS: usize = 1824;

/// Words of the date limits.
pub const LIMIT_WORDS: usize = 5;

/// Words of the pieces, one for each security.
pub const PIECE_WORDS: usize = 16;

/// Words of the par on loan, 256 for each of 16 securities, and of the balances: on loan, then on repo.
pub const TRACKING_WORDS: usize = 4096;
pub const BALANCE_WORDS: usize = 2 * TRACKING_WORDS;

/// Words of a mark, which are whether it is set, the day, the count and the balances, and of a store of four.
pub const MARKS: u32 = 4;
pub const MARK_WORDS: usize = 3 + BALANCE_WORDS;
pub const STORE_WORDS: usize = MARKS as usize * MARK_WORDS;

/// The claim buffer of a record in a run, and the room for it and the answer.
pub const CLAIM_ROOM: usize = 65536;
pub const RECORD_ROOM: usize = CLAIM_ROOM + 6;

/// A book's day, yyyymmdd, and the number of its accepted transfers.
#[repr(C)]
#[derive(Clone, Copy, Debug, PartialEq, Eq)]
pub struct Book {
    pub day: u32,
    pub count: u32,
}

/// What a call answers.
#[repr(C)]
#[derive(Clone, Copy, Debug, PartialEq, Eq)]
pub struct Done {
    pub number: u16,
    pub book: Book,
    pub claims: usize,
}

/// What a run of records answers.
#[repr(C)]
#[derive(Clone, Copy, Debug, PartialEq, Eq)]
pub struct Served {
    pub number: u16,
    pub book: Book,
    pub consumed: usize,
    pub written: usize,
    pub over: bool,
    pub full: bool,
}

/// Cents to pay, cents to receive, and receive less pay.
#[repr(C)]
#[derive(Clone, Copy, Debug)]
pub struct Cash {
    pub pay: f64,
    pub receive: f64,
    pub difference: f64,
}

impl Cash {
    fn bits(&self) -> [u64; 3] {
        [self.pay, self.receive, self.difference].map(f64::to_bits)
    }
}

/// Doubles are the same where their bits are: a negative zero is not a positive one.
impl PartialEq for Cash {
    fn eq(&self, other: &Self) -> bool {
        self.bits() == other.bits()
    }
}

/// What a forecast answers.
#[repr(C)]
#[derive(Clone, Copy, Debug, PartialEq)]
pub struct CashForecast {
    pub number: u16,
    pub cash: Cash,
}
