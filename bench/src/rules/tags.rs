//! The Contract Date tag and its edits.
use super::days;
use super::records::Line;

const OPENER: &[u8; 10] = b"{98A:CNTR/";

/// What the free text behind each opener of a line is.
fn openers(line: &Line) -> impl Iterator<Item = &[u8]> {
    line.windows(OPENER.len()).enumerate().filter(|(_, window)| *window == OPENER).map(|(at, _)| &line[at + OPENER.len()..])
}

/// The Contract Date, if the lines have one, or the number of the edit that refuses the tag.
pub fn contract_date(lines: [&Line; 2], day: u32, class: u8) -> Result<Option<u32>, u16> {
    let mut openers = openers(lines[0]).chain(openers(lines[1]));
    let Some(text) = openers.next() else {
        return Ok(None);
    };
    if openers.next().is_some() {
        return Err(132);
    }
    let end = text.iter().position(|&byte| byte == b'}').ok_or(133u16)?;
    let date = match &text[..end] {
        // Before the memo an empty tag means the day itself.
        [] if days::is_before_memo(day) => day,
        held => read_date(held).ok_or(135u16)?,
    };
    if date > day {
        return Err(138);
    }
    if class == 1 && date != day {
        return Err(139);
    }
    Ok(Some(date))
}

/// Exactly eight digits that are a date.
fn read_date(text: &[u8]) -> Option<u32> {
    let digits: &[u8; 8] = text.try_into().ok()?;
    if !digits.iter().all(u8::is_ascii_digit) {
        return None;
    }
    let date = digits.iter().fold(0, |number, digit| 10 * number + (digit - b'0') as u32);
    days::is_date(date).then_some(date)
}
