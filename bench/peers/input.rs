//! The column, read in rounds of whole lines.

use crate::batch::{AFTER, BEFORE};
use std::io::Read;

/// The bytes of a round by one worker, which stay in the second cache.
const SMALL_ROUND: usize = 128 << 10;

/// The bytes of a round by several workers. It has to be worth the start of their threads.
const LARGE_ROUND: usize = 2 << 20;

/// The bytes that are asked for at a time.
const READ: usize = 128 << 10;

/// Reads a column.
pub struct Input<R> {
    reader: R,
    /// The bytes that are added for a round.
    round: usize,
    /// Bytes before the lines, the lines of the last round, the bytes that were read after them, and
    /// free room.
    octets: Vec<u8>,
    /// The end of the lines of the last round.
    end: usize,
    /// The end of the bytes that were read.
    len: usize,
}

/// Whole lines of a column.
#[derive(Clone, Copy)]
pub struct Round<'a> {
    /// The lines, and at least `BEFORE` bytes before and `AFTER` bytes after them.
    pub octets: &'a [u8],
    pub start: usize,
    pub end: usize,
}

impl<R: Read> Input<R> {
    pub fn new(reader: R, workers: usize) -> Input<R> {
        let round = if workers == 1 { SMALL_ROUND } else { LARGE_ROUND };
        Input { reader, round, octets: vec![0; BEFORE], end: BEFORE, len: BEFORE }
    }

    /// Reads the next round, if there is one. If the last line has no line end, it gets one. A round
    /// may have no lines, if it is within a long one.
    pub fn next_round(&mut self) -> Option<Round<'_>> {
        self.octets.copy_within(self.end..self.len, BEFORE);
        self.len -= self.end - BEFORE;
        let is_last = self.gather();
        if is_last && self.len > BEFORE && self.octets[self.len - 1] != b'\n' {
            self.octets[self.len] = b'\n';
            self.len += 1;
        }
        let lines = &self.octets[BEFORE..self.len];
        let line_end = lines.iter().rposition(|octet| *octet == b'\n');
        self.end = line_end.map_or(BEFORE, |place| BEFORE + place + 1);
        let round = Round { octets: &self.octets, start: BEFORE, end: self.end };
        (self.end > BEFORE || !is_last).then_some(round)
    }

    /// Reads until a round is complete or the column ends, and returns whether it ended.
    fn gather(&mut self) -> bool {
        let wanted = self.len + self.round;
        if self.octets.len() < wanted + AFTER {
            self.octets.resize(wanted + AFTER, 0);
        }
        while self.len < wanted {
            let most = wanted.min(self.len + READ);
            let count = self.reader.read(&mut self.octets[self.len..most]).unwrap();
            if count == 0 {
                return true;
            }
            self.len += count;
        }
        false
    }
}
