//! The program claimrun on the Rust rules: reads book.dat, then serves the records of standard input to standard output.
use bench::rules::{self, BALANCE_WORDS, CALENDAR_WORDS, CLAIM_ROOM, TABLE_WORDS};
use std::io::{self, Read, Write};

const BOOK_BYTES: usize = 4 * (CALENDAR_WORDS + TABLE_WORDS + 1);

fn words(bytes: &[u8]) -> Vec<u32> {
    bytes.as_chunks().0.iter().map(|word| u32::from_le_bytes(*word)).collect()
}

fn main() -> io::Result<()> {
    let (mut stdin, mut stdout) = (io::stdin().lock(), io::stdout().lock());
    let file = std::fs::read("book.dat").unwrap_or_default();
    if file.len() != BOOK_BYTES {
        return stdout.write_all(&rules::answer(1));
    }
    let words = words(&file);
    let (calendar, rest) = words.split_at(CALENDAR_WORDS);
    let (tables, day) = rest.split_at(TABLE_WORDS);
    let mut balances = vec![0; BALANCE_WORDS];
    let opened = rules::open(calendar, tables, &mut balances, day[0]);
    if opened.number != 0 {
        return stdout.write_all(&rules::answer(opened.number));
    }
    let mut book = opened.book;
    let mut input = vec![0; 16 * CLAIM_ROOM];
    let mut output = vec![0; 4 * CLAIM_ROOM];
    let mut have = 0;
    loop {
        let read = stdin.read(&mut input[have..])?;
        have += read;
        let mut from = 0;
        loop {
            let served = rules::serve(calendar, tables, book, &mut balances, &input[from..have], read == 0, &mut output);
            stdout.write_all(&output[..served.written])?;
            book = served.book;
            from += served.consumed;
            if served.over {
                return stdout.flush();
            }
            if served.consumed == 0 {
                break;
            }
        }
        if read == 0 {
            return stdout.flush();
        }
        input.copy_within(from..have, 0);
        have -= from;
    }
}
