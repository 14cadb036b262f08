//! A batch of records, column by column, and the lines of which it is made.

use crate::local_time_types::TypeNumber;

/// The greatest number of records in a batch.
pub const BATCH: usize = 256;

/// The bytes that are there before the lines, so that the last 16 bytes before a line end can be
/// read.
pub const BEFORE: usize = 16;

/// The bytes that are there after the lines, so that blocks of bytes can be read from any place.
pub const AFTER: usize = 128;

/// Lines, each with its line end, and bytes before and after them. Places are counted from the start
/// of the lines.
#[derive(Clone, Copy)]
pub struct Lines<'a> {
    /// Begins `BEFORE` bytes before the lines.
    all: &'a [u8],
    /// Begins with the lines.
    ahead: &'a [u8],
    /// The end of the lines.
    pub end: u32,
}

impl<'a> Lines<'a> {
    /// Returns the lines from `start` to `end`.
    pub fn new(octets: &'a [u8], start: usize, end: usize) -> Lines<'a> {
        let all = &octets[start - BEFORE..end + AFTER];
        let end = u32::try_from(end - start).expect("a piece is too long");
        Lines { all, ahead: &all[BEFORE..], end }
    }

    /// Returns the block of bytes from a place on.
    #[inline(always)]
    pub fn block<const LEN: usize>(&self, at: u32) -> &'a [u8; LEN] {
        self.ahead[at as usize..at as usize + LEN].try_into().unwrap()
    }

    /// Returns the last 16 bytes before a place.
    #[inline(always)]
    pub fn last_16(&self, end: u32) -> &'a [u8; BEFORE] {
        self.all[end as usize..end as usize + BEFORE].try_into().unwrap()
    }

    /// Returns the bytes from a place to another.
    pub fn part(&self, start: u32, end: u32) -> &'a [u8] {
        &self.ahead[start as usize..end as usize]
    }
}

/// A batch of records: an array for each column.
pub struct Batch {
    count: usize,
    /// There is room for a few that aren't counted.
    pub line_ends: [u32; BATCH + 4],
    /// The lengths of the names.
    pub name_lens: [u8; BATCH],
    /// Seconds from 1970, or `instants::ODD`.
    pub instants: [i64; BATCH],
    pub zones: [u16; BATCH],
    /// Whether all records have the zone of the first one.
    pub is_one_zone: bool,
    pub types: [TypeNumber; BATCH],
}

impl Batch {
    pub fn new() -> Box<Batch> {
        Box::new(Batch {
            count: 0,
            line_ends: [0; BATCH + 4],
            name_lens: [0; BATCH],
            instants: [0; BATCH],
            zones: [0; BATCH],
            is_one_zone: false,
            types: [0; BATCH],
        })
    }

    pub fn set_len(&mut self, count: usize) {
        assert!(count <= BATCH);
        self.count = count;
    }

    /// Returns the number of records.
    #[inline(always)]
    pub fn len(&self) -> usize {
        self.count.min(BATCH)
    }

    /// Returns the end of the last line, with its line end.
    pub fn end(&self) -> u32 {
        self.line_ends[self.len() - 1] + 1
    }
}
