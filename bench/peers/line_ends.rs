//! The first step: the line ends of a batch.

use crate::batch::{BATCH, Batch, Lines};
use crate::vectors;

/// The number of bytes that are searched at a time.
const BLOCK: u32 = 64;

/// Finds line ends from `at` on until there may be no room for those of another block, and returns
/// where the search ended. That is a number of blocks after `at`.
#[inline(never)]
pub fn find_line_ends(lines: Lines<'_>, mut at: u32, batch: &mut Batch) -> u32 {
    let mut count = 0;
    while at < lines.end && count <= BATCH - BLOCK as usize {
        let mut bits = vectors::equal(lines.block(at), b'\n');
        if lines.end - at < BLOCK {
            bits &= (1 << (lines.end - at)) - 1;
        }
        count += push(&mut batch.line_ends[count..], at, bits);
        at += BLOCK;
    }
    batch.set_len(count);
    at
}

/// Writes the place of each bit that is set, counted from `at`, and returns how many there are. The
/// first three are written whether they are there or not: a branch on their number would often be
/// mispredicted.
#[inline(always)]
fn push(places: &mut [u32], at: u32, mut bits: u64) -> usize {
    let first: &mut [u32; 4] = places.first_chunk_mut().unwrap();
    let mut count = 0;
    for _ in 0..3 {
        first[count % 4] = at + bits.trailing_zeros();
        count += usize::from(bits != 0);
        bits &= bits.wrapping_sub(1);
    }
    while bits != 0 {
        places[count] = at + bits.trailing_zeros();
        count += 1;
        bits &= bits - 1;
    }
    count
}
