//! The local time types of all zones, each of which is kept once.

use crate::calendar::two_digits;
use crate::quick_hash::QuickMap;

/// The number of a local time type. The long ones are numbered from `FIRST_LONG` on.
pub type TypeNumber = u16;

/// Stands in place of a number where a table has none.
pub const UNKNOWN: TypeNumber = u16::MAX;

const FIRST_LONG: TypeNumber = 1 << 15;

/// The greatest length of a text that isn't long: that of a designation of 10 bytes.
pub const SHORT: usize = 24;

/// A local time type whose text isn't long. It has 32 bytes, so those in use stay in the first
/// cache.
#[repr(align(32))]
pub struct ShortType {
    /// The end of a row, followed by zeros.
    pub text: [u8; SHORT],
    pub len: u32,
    /// Seconds, positive east.
    pub utc_offset: i32,
}

/// A local time type as a row shows it.
#[derive(Clone, PartialEq, Eq, Hash)]
pub struct LocalTimeType {
    /// Seconds, positive east.
    pub utc_offset: i32,
    /// The text of a row after its local time, such as `,-05:00:00,0,EST` and a newline.
    pub text: Vec<u8>,
}

#[derive(Default)]
pub struct LocalTimeTypes {
    /// Those whose text isn't long, by number.
    pub short: Vec<ShortType>,
    long: Vec<LocalTimeType>,
    numbers: QuickMap<LocalTimeType, TypeNumber>,
}

impl LocalTimeType {
    pub fn new(utc_offset: i32, is_daylight: bool, designation: &[u8]) -> LocalTimeType {
        let sign = if utc_offset < 0 { b'-' } else { b'+' };
        let size = utc_offset.unsigned_abs() as usize;
        let [[a, b], [c, d], [e, f]] = [size / 3600, size / 60 % 60, size % 60].map(two_digits);
        let flag = b'0' + u8::from(is_daylight);
        let mut text = vec![b',', sign, a, b, b':', c, d, b':', e, f, b',', flag, b','];
        text.extend_from_slice(designation);
        text.push(b'\n');
        LocalTimeType { utc_offset, text }
    }
}

impl LocalTimeTypes {
    /// Returns the number of a local time type, which may be a new one.
    pub fn number(&mut self, local_type: LocalTimeType) -> TypeNumber {
        if let Some(number) = self.numbers.get(&local_type) {
            return *number;
        }
        let number = self.push(&local_type);
        self.numbers.insert(local_type, number);
        number
    }

    fn push(&mut self, local_type: &LocalTimeType) -> TypeNumber {
        let LocalTimeType { utc_offset, text } = local_type;
        if text.len() > SHORT {
            self.long.push(local_type.clone());
            return FIRST_LONG + (self.long.len() - 1) as TypeNumber;
        }
        let mut short =
            ShortType { text: [0; SHORT], len: text.len() as u32, utc_offset: *utc_offset };
        short.text[..text.len()].copy_from_slice(text);
        self.short.push(short);
        (self.short.len() - 1) as TypeNumber
    }

    /// Returns the UT offset and the text of a local time type.
    pub fn offset_and_text(&self, number: TypeNumber) -> (i32, &[u8]) {
        if number >= FIRST_LONG {
            let long = &self.long[usize::from(number - FIRST_LONG)];
            return (long.utc_offset, &long.text);
        }
        let short = &self.short[usize::from(number)];
        (short.utc_offset, &short.text[..short.len as usize])
    }
}
