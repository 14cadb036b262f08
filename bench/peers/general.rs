//! The general way to convert a line: with carriage returns, double quotes, zeros before a number, or
//! a name or a designation of any length.

use crate::calendar::{Date, DayAndSecond};
use crate::local_time_types::UNKNOWN;
use crate::refuse;
use crate::tables::{INSTANTS, Tables};
use crate::text::Text;
use std::io::Write;

/// The greatest number of digits that are read, with zeros in front.
const MOST_DIGITS: usize = 18;

/// Writes the rows of the records of a line, of which the bytes before the newline are given. A
/// carriage return ends a record, too, and an empty line is no record.
#[cold]
#[inline(never)]
pub fn write_line(tables: &Tables, line: &[u8], text: &mut Text) {
    let records = line.split(|octet| *octet == b'\r');
    for record in records.filter(|record| !record.is_empty()) {
        write_record(tables, record, text);
    }
}

fn write_record(tables: &Tables, record: &[u8], text: &mut Text) {
    let Some(comma) = record.iter().position(|octet| *octet == b',') else { refuse("RowFields") };
    let [name, instant] = [&record[..comma], &record[comma + 1..]].map(without_quotes);
    let Some(zone) = tables.names.find(name) else { refuse("RowZone") };
    let Some(instant) = number(instant) else { refuse("RowInstant") };
    if !INSTANTS.contains(&instant) {
        refuse("RowRange");
    }
    let number = match tables.slots.type_at(zone, instant) {
        UNKNOWN => tables.type_beside_slots(zone, instant),
        number => number,
    };
    let (utc_offset, end) = tables.types.offset_and_text(number);
    let DayAndSecond { day, second } = DayAndSecond::new(instant, utc_offset);
    let Date { year, month_and_day } = tables.calendar.date(day);
    let time_of_day = tables.calendar.time_of_day(second);
    text.push(name);
    text.push(b",");
    push_number(instant, text);
    for part in [&year[..5], &month_and_day[..7], &time_of_day, end] {
        text.push(part);
    }
}

/// Returns the text between the double quotes of a field, or the whole field if it has none.
fn without_quotes(field: &[u8]) -> &[u8] {
    match field {
        [b'"', text @ .., b'"'] => text,
        [b'"', ..] => refuse("RowFields"),
        _ => field,
    }
}

/// Returns the number that an optional minus sign and 1 to 18 digits spell.
fn number(field: &[u8]) -> Option<i64> {
    let digits = field.strip_prefix(b"-").unwrap_or(field);
    let are_digits = digits.iter().all(u8::is_ascii_digit);
    if !are_digits || !(1..=MOST_DIGITS).contains(&digits.len()) {
        return None;
    }
    let size = digits.iter().fold(0, |size, digit| 10 * size + i64::from(digit - b'0'));
    Some(if digits.len() < field.len() { -size } else { size })
}

/// Appends a number as a plain decimal.
fn push_number(number: i64, text: &mut Text) {
    let mut room = [0; 20];
    let mut rest = &mut room[..];
    write!(rest, "{number}").unwrap();
    let len = 20 - rest.len();
    text.push(&room[..len]);
}
