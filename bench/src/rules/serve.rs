//! A run of records.
use super::book::Sound;
use super::records::{self, ANSWER_BYTES, CLAIM_BYTES, CLOSE_BYTES, CLOSE_HEADER, TRANSFER_BYTES, TRANSFER_HEADER};
use super::{Book, CLAIM_ROOM, ONES, PUBLISHED, RECORD_ROOM, Served};

enum Next<'a> {
    Transfer(&'a [u8]),
    Close(&'a [u8]),
    Waiting,
    Wrong,
}

/// What the input begins with.
fn next(input: &[u8], ended: bool) -> Next<'_> {
    let cut = if ended { Next::Wrong } else { Next::Waiting };
    let Some(header) = input.first_chunk::<4>() else {
        return if input.is_empty() { Next::Waiting } else { cut };
    };
    match *header {
        TRANSFER_HEADER => input.get(..TRANSFER_BYTES).map_or(cut, Next::Transfer),
        CLOSE_HEADER => Next::Close(&input[..CLOSE_BYTES]),
        _ => Next::Wrong,
    }
}

/// Works the records of a run of input into the output while there is room for another; stops at one that is not whole yet, or after a 5.
pub fn serve(
    calendar: &[u32],
    tables: &[u32],
    book: Book,
    balances: &mut [u64],
    input: &[u8],
    ended: bool,
    output: &mut [u8],
) -> Served {
    let mut sound = match Sound::judge(calendar, tables, &PUBLISHED, &ONES, book, balances) {
        Ok(sound) => sound,
        Err(number) => return Served { number, book, consumed: 0, written: 0, over: false, full: false },
    };
    let (mut consumed, mut written, mut over) = (0, 0, false);
    while !over && output.len() - written >= RECORD_ROOM {
        let room = &mut output[written..];
        let claims = &mut room[..CLAIM_ROOM];
        let (size, worked) = match next(&input[consumed..], ended) {
            Next::Transfer(message) => (message.len(), sound.transfer(message, claims)),
            Next::Close(message) => (message.len(), sound.close(message, claims)),
            Next::Waiting => break,
            Next::Wrong => {
                over = true;
                (0, Err(5))
            }
        };
        let (number, claims) = match worked {
            Ok(claims) => (0, claims),
            Err(number) => (number, 0),
        };
        let at = CLAIM_BYTES * claims;
        room[at..at + ANSWER_BYTES].copy_from_slice(&records::answer(number));
        consumed += size;
        written += at + ANSWER_BYTES;
    }
    let full = output.len() - written < RECORD_ROOM;
    Served { number: 0, book: sound.book, consumed, written, over, full }
}
