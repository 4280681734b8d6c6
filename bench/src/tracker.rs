//! The proved library: the exports of libtracker.a.
use bench::rules::{Book, CashForecast, Done, Served};

mod exports {
    use super::{Book, CashForecast, Done, Served};

    #[link(name = "tracker", kind = "static")]
    unsafe extern "C" {
        pub fn claim_tracker_open(
            calendar: *const u32,
            calendar_words: usize,
            tables: *const u32,
            table_words: usize,
            balances: *mut u64,
            balance_words: usize,
            day: u32,
        ) -> Done;

        pub fn claim_tracker_carry_over(
            calendar: *const u32,
            calendar_words: usize,
            book: Book,
            saved: *const u64,
            saved_words: usize,
            balances: *mut u64,
            balance_words: usize,
        ) -> Done;

        pub fn claim_tracker_set_mark(
            calendar: *const u32,
            calendar_words: usize,
            book: Book,
            balances: *const u64,
            balance_words: usize,
            store: *mut u64,
            store_words: usize,
            mark: u32,
        ) -> u16;

        pub fn claim_tracker_return_to_mark(
            calendar: *const u32,
            calendar_words: usize,
            book: Book,
            balances: *mut u64,
            balance_words: usize,
            store: *const u64,
            store_words: usize,
            mark: u32,
        ) -> Done;

        pub fn claim_tracker_transfer(
            calendar: *const u32,
            calendar_words: usize,
            tables: *const u32,
            table_words: usize,
            pieces: *const u32,
            piece_words: usize,
            book: Book,
            balances: *mut u64,
            balance_words: usize,
            message: *const u8,
            message_bytes: usize,
            claims: *mut u8,
            claim_bytes: usize,
        ) -> Done;

        pub fn claim_tracker_transfer_with_limits(
            calendar: *const u32,
            calendar_words: usize,
            tables: *const u32,
            table_words: usize,
            limits: *const u32,
            limit_words: usize,
            pieces: *const u32,
            piece_words: usize,
            book: Book,
            balances: *mut u64,
            balance_words: usize,
            message: *const u8,
            message_bytes: usize,
            claims: *mut u8,
            claim_bytes: usize,
        ) -> Done;

        pub fn claim_tracker_close(
            calendar: *const u32,
            calendar_words: usize,
            tables: *const u32,
            table_words: usize,
            book: Book,
            balances: *mut u64,
            balance_words: usize,
            message: *const u8,
            message_bytes: usize,
            claims: *mut u8,
            claim_bytes: usize,
        ) -> Done;

        pub fn claim_tracker_serve(
            calendar: *const u32,
            calendar_words: usize,
            tables: *const u32,
            table_words: usize,
            book: Book,
            balances: *mut u64,
            balance_words: usize,
            input: *const u8,
            input_bytes: usize,
            ended: bool,
            output: *mut u8,
            output_bytes: usize,
        ) -> Served;

        pub fn claim_tracker_forecast(claims: *const u8, claim_bytes: usize, account: u32, date: u32) -> CashForecast;
    }
}

// Each call hands over slices that outlive it and do not overlap what it writes; that is all the library asks.

pub fn open(calendar: &[u32], tables: &[u32], balances: &mut [u64], day: u32) -> Done {
    unsafe {
        exports::claim_tracker_open(
            calendar.as_ptr(),
            calendar.len(),
            tables.as_ptr(),
            tables.len(),
            balances.as_mut_ptr(),
            balances.len(),
            day,
        )
    }
}

pub fn carry_over(calendar: &[u32], book: Book, saved: &[u64], balances: &mut [u64]) -> Done {
    unsafe {
        exports::claim_tracker_carry_over(
            calendar.as_ptr(),
            calendar.len(),
            book,
            saved.as_ptr(),
            saved.len(),
            balances.as_mut_ptr(),
            balances.len(),
        )
    }
}

pub fn set_mark(calendar: &[u32], book: Book, balances: &[u64], store: &mut [u64], mark: u32) -> u16 {
    unsafe {
        exports::claim_tracker_set_mark(
            calendar.as_ptr(),
            calendar.len(),
            book,
            balances.as_ptr(),
            balances.len(),
            store.as_mut_ptr(),
            store.len(),
            mark,
        )
    }
}

pub fn return_to_mark(calendar: &[u32], book: Book, balances: &mut [u64], store: &[u64], mark: u32) -> Done {
    unsafe {
        exports::claim_tracker_return_to_mark(
            calendar.as_ptr(),
            calendar.len(),
            book,
            balances.as_mut_ptr(),
            balances.len(),
            store.as_ptr(),
            store.len(),
            mark,
        )
    }
}

pub fn transfer(
    calendar: &[u32],
    tables: &[u32],
    pieces: &[u32],
    book: Book,
    balances: &mut [u64],
    message: &[u8],
    claims: &mut [u8],
) -> Done {
    unsafe {
        exports::claim_tracker_transfer(
            calendar.as_ptr(),
            calendar.len(),
            tables.as_ptr(),
            tables.len(),
            pieces.as_ptr(),
            pieces.len(),
            book,
            balances.as_mut_ptr(),
            balances.len(),
            message.as_ptr(),
            message.len(),
            claims.as_mut_ptr(),
            claims.len(),
        )
    }
}

#[allow(clippy::too_many_arguments)]
pub fn transfer_with_limits(
    calendar: &[u32],
    tables: &[u32],
    limits: &[u32],
    pieces: &[u32],
    book: Book,
    balances: &mut [u64],
    message: &[u8],
    claims: &mut [u8],
) -> Done {
    unsafe {
        exports::claim_tracker_transfer_with_limits(
            calendar.as_ptr(),
            calendar.len(),
            tables.as_ptr(),
            tables.len(),
            limits.as_ptr(),
            limits.len(),
            pieces.as_ptr(),
            pieces.len(),
            book,
            balances.as_mut_ptr(),
            balances.len(),
            message.as_ptr(),
            message.len(),
            claims.as_mut_ptr(),
            claims.len(),
        )
    }
}

pub fn close(calendar: &[u32], tables: &[u32], book: Book, balances: &mut [u64], message: &[u8], claims: &mut [u8]) -> Done {
    unsafe {
        exports::claim_tracker_close(
            calendar.as_ptr(),
            calendar.len(),
            tables.as_ptr(),
            tables.len(),
            book,
            balances.as_mut_ptr(),
            balances.len(),
            message.as_ptr(),
            message.len(),
            claims.as_mut_ptr(),
            claims.len(),
        )
    }
}

pub fn serve(
    calendar: &[u32],
    tables: &[u32],
    book: Book,
    balances: &mut [u64],
    input: &[u8],
    ended: bool,
    output: &mut [u8],
) -> Served {
    unsafe {
        exports::claim_tracker_serve(
            calendar.as_ptr(),
            calendar.len(),
            tables.as_ptr(),
            tables.len(),
            book,
            balances.as_mut_ptr(),
            balances.len(),
            input.as_ptr(),
            input.len(),
            ended,
            output.as_mut_ptr(),
            output.len(),
        )
    }
}

pub fn forecast(claims: &[u8], account: u32, date: u32) -> CashForecast {
    unsafe { exports::claim_tracker_forecast(claims.as_ptr(), claims.len(), account, date) }
}
