//! Minimum pieces: what a security's par is delivered in multiples of.
use super::PIECE_WORDS;

/// The piece of each security.
pub type Pieces = [u32; PIECE_WORDS];

/// What a run of records lends.
pub const ONES: Pieces = [1; PIECE_WORDS];

const MOST: u32 = 1_000_000;

/// The pieces, where each is 1 to 1,000,000.
pub fn judged(pieces: &[u32]) -> Option<&Pieces> {
    let pieces: &Pieces = pieces.try_into().ok()?;
    pieces.iter().all(|piece| (1..=MOST).contains(piece)).then_some(pieces)
}
