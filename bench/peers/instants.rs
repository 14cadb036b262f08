//! The second step: the instants of a batch, and the lengths of its names.

use crate::batch::{Batch, Lines};
use crate::names::KEY_SIZE;
use crate::vectors::{self, Marks};

/// Stands in place of the instant of an unusual record.
pub const ODD: i64 = i64::MIN;

/// The greatest number of digits of an instant.
const MOST_DIGITS: usize = 12;

/// By the index of the last of 16 bytes that is no digit: the least number of so many digits that
/// doesn't begin with a zero. There is none of no digits or of more than 12.
static LEAST: [u64; 16] = least_numbers();

const fn least_numbers() -> [u64; 16] {
    let mut least = [u64::MAX; 16];
    let mut count = 1;
    let mut power = 1;
    while count <= MOST_DIGITS {
        least[15 - count] = if count == 1 { 0 } else { power };
        power *= 10;
        count += 1;
    }
    least
}

/// The number at the end of a line.
struct Number {
    value: u64,
    /// The index of the byte before it, among the last 16 of the line.
    before: usize,
    /// Whether it has 1 to 12 digits, and no zero before other digits.
    is_plain: bool,
}

impl Number {
    #[inline(always)]
    fn new(octets: &[u8; 16], marks: Marks) -> Number {
        let before = (marks.no_digits | 1).ilog2() as usize;
        let value = vectors::number_after(octets, before);
        Number { value, before, is_plain: value >= LEAST[before % 16] }
    }
}

/// Reads the instants from the last 16 bytes of each line, and returns how many are odd. The last
/// byte there that is no digit has to be the comma, which tells the length of the name.
#[inline(never)]
pub fn read_instants(lines: Lines<'_>, start: u32, batch: &mut Batch) -> usize {
    let mut at = start;
    let mut is_any_odd = false;
    for i in 0..batch.len() {
        let end = batch.line_ends[i];
        let octets = lines.last_16(end);
        let marks = vectors::marks(octets);
        let number = Number::new(octets, marks);
        let name_len = (end - at + number.before as u32).wrapping_sub(16);
        let is_after_other = marks.no_digits ^ marks.commas >= marks.commas;
        let is_odd = !number.is_plain | is_after_other | (name_len >= KEY_SIZE as u32);
        batch.instants[i] = if is_odd { ODD } else { number.value as i64 };
        batch.name_lens[i] = name_len as u8;
        is_any_odd |= is_odd;
        at = end + 1;
    }
    if is_any_odd { read_negative_instants(lines, start, batch) } else { 0 }
}

/// Reads the instants of the odd records that have a comma and a minus sign before a number, and
/// returns how many are still odd.
#[inline(never)]
fn read_negative_instants(lines: Lines<'_>, start: u32, batch: &mut Batch) -> usize {
    let mut at = start;
    let mut odd = 0;
    for i in 0..batch.len() {
        let end = batch.line_ends[i];
        if batch.instants[i] == ODD {
            let octets = lines.last_16(end);
            let number = Number::new(octets, vectors::marks(octets));
            let name_len = (end - at + number.before as u32).wrapping_sub(17);
            let is_plain = number.is_plain && number.value != 0 && name_len < KEY_SIZE as u32;
            if is_plain && number.before > 0 && &octets[number.before - 1..=number.before] == b",-"
            {
                batch.instants[i] = -(number.value as i64);
                batch.name_lens[i] = name_len as u8;
            } else {
                odd += 1;
            }
        }
        at = end + 1;
    }
    odd
}
