//! The pieces of a round.

use crate::input::Round;
use crate::vectors;

/// The number of lines of a piece.
const PIECE: usize = 1024;

/// The number of bytes whose line ends are counted at a time.
const BLOCK: usize = 512;

/// The number of bytes whose line ends are found at a time.
const PART: usize = 64;

/// Some lines of a round.
pub struct Piece {
    pub number: usize,
    pub start: usize,
    pub end: usize,
}

/// Cuts a round as its pieces are drawn.
pub struct Cutter<'a> {
    round: Round<'a>,
    /// The number of pieces that are drawn, and the end of the last one.
    drawn: usize,
    at: usize,
}

/// Returns the number of line ends. Those of 128 bytes are counted in a byte, of which the compiler
/// makes vectors.
#[inline(always)]
fn count_line_ends(block: &[u8; BLOCK]) -> usize {
    let count = |part: &[u8]| part.iter().map(|octet| u8::from(*octet == b'\n')).sum::<u8>();
    block.chunks_exact(128).map(|part| usize::from(count(part))).sum()
}

/// Returns the index of the set bit with a number, counted from 0.
fn index_of_bit(mut bits: u64, number: usize) -> usize {
    for _ in 0..number {
        bits &= bits - 1;
    }
    bits.trailing_zeros() as usize
}

impl<'a> Cutter<'a> {
    pub fn new(round: Round<'a>) -> Cutter<'a> {
        Cutter { round, drawn: 0, at: round.start }
    }

    /// Returns the next piece of a round, if there is one.
    pub fn draw(&mut self) -> Option<Piece> {
        let start = self.at;
        if start >= self.round.end {
            return None;
        }
        let mut left = PIECE;
        self.skip_blocks(&mut left);
        self.skip_parts(left);
        self.drawn += 1;
        Some(Piece { number: self.drawn - 1, start, end: self.at })
    }

    /// Skips whole blocks while less than `left` lines end in them, and subtracts these.
    fn skip_blocks(&mut self, left: &mut usize) {
        while self.at + BLOCK <= self.round.end {
            let block = self.round.octets[self.at..].first_chunk().unwrap();
            let count = count_line_ends(block);
            if count >= *left {
                return;
            }
            *left -= count;
            self.at += BLOCK;
        }
    }

    /// Skips as many lines, or those that are left.
    fn skip_parts(&mut self, mut left: usize) {
        while self.at < self.round.end {
            let part = self.round.octets[self.at..].first_chunk::<PART>().unwrap();
            let bits = vectors::equal(part, b'\n');
            let count = bits.count_ones() as usize;
            if count >= left {
                let end = self.at + index_of_bit(bits, left - 1) + 1;
                self.at = end.min(self.round.end);
                return;
            }
            left -= count;
            self.at += PART;
        }
        self.at = self.round.end;
    }
}
