//! Lines with double quotes and carriage returns, written anew without them.

use crate::batch::{AFTER, BEFORE, Batch, Lines};
use crate::vectors;
use std::ops::Range;

/// The greatest length of a line whose fields are found.
const LINE: usize = 64;

/// The bytes of an instant that are copied, whatever its length.
const INSTANT: usize = 16;

/// The places of the fields of a line, without their quotes.
struct Fields {
    name: Range<usize>,
    instant: Range<usize>,
}

/// A buffer for plain lines.
#[derive(Default)]
pub struct PlainLines {
    octets: Vec<u8>,
}

/// Returns the fields of a line that begins a block, if it has one comma and no quotes but those
/// around fields. A carriage return may follow.
#[inline(always)]
fn fields(block: &[u8; LINE], len: usize) -> Option<Fields> {
    if !(1..=LINE).contains(&len) {
        return None;
    }
    let len = len - usize::from(block[len - 1] == b'\r');
    let in_line = (!0u64).checked_shr((LINE - len) as u32).unwrap_or(0);
    let quotes = vectors::equal(block, b'"') & in_line;
    let commas = vectors::equal(block, b',') & in_line;
    let comma = commas.trailing_zeros() as usize;
    if commas.count_ones() != 1 || comma + 1 == len {
        return None;
    }
    let name_quotes = (quotes & 1) as usize;
    let instant_quotes = (quotes >> (len - 1)) as usize;
    let name = name_quotes..comma.checked_sub(name_quotes)?;
    let instant = comma + 1 + instant_quotes..len - instant_quotes;
    let bit = |place: usize, is_set: usize| (is_set as u64) << place;
    let around_name = bit(0, name_quotes) | bit(name.end, name_quotes);
    let around_instant = bit(comma + 1, instant_quotes) | bit(instant.end, instant_quotes);
    let are_around = quotes == around_name | around_instant;
    let are_ranges = name.start <= name.end && instant.start <= instant.end;
    (are_around && are_ranges && instant.len() <= INSTANT).then_some(Fields { name, instant })
}

/// Writes a line without its line end, and returns the number of bytes. One whose fields aren't
/// found is written as it stands.
#[inline(always)]
fn write_line(out: &mut [u8], lines: Lines<'_>, at: u32, end: u32) -> usize {
    let line = lines.part(at, end);
    let Some(Fields { name, instant }) = fields(lines.block(at), line.len()) else {
        out[..line.len()].copy_from_slice(line);
        return line.len();
    };
    out[..LINE].copy_from_slice(lines.block::<LINE>(at + name.start as u32));
    let rest = &mut out[name.len()..name.len() + 1 + INSTANT];
    rest[0] = b',';
    rest[1..].copy_from_slice(lines.block::<INSTANT>(at + instant.start as u32));
    name.len() + 1 + instant.len()
}

impl PlainLines {
    /// Returns the lines of a batch as plain lines, and updates its line ends to them.
    #[inline(never)]
    pub fn write(&mut self, lines: Lines<'_>, start: u32, batch: &mut Batch) -> Lines<'_> {
        let room = BEFORE + (batch.end() - start) as usize + AFTER;
        if self.octets.len() < room {
            self.octets.resize(room, 0);
        }
        let mut at = start;
        let mut len = BEFORE;
        for i in 0..batch.len() {
            let end = batch.line_ends[i];
            len += write_line(&mut self.octets[len..], lines, at, end);
            self.octets[len] = b'\n';
            batch.line_ends[i] = (len - BEFORE) as u32;
            len += 1;
            at = end + 1;
        }
        Lines::new(&self.octets, BEFORE, len)
    }
}
