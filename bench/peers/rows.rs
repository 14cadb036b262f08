//! The last step: the text of a batch.

use crate::batch::{Batch, Lines};
use crate::calendar::{Calendar, Date, DayAndSecond};
use crate::general;
use crate::local_time_types::{SHORT, ShortType};
use crate::tables::Tables;
use crate::text::Text;

/// The bytes of a line that are copied, whatever its length. That is enough for a name of 31 bytes,
/// a comma, and an instant with a sign.
const LINE: usize = 48;

/// The room that rows need in addition to the bytes of their lines, for each row.
const ROOM_FOR_ROW: usize = 64;

/// The room that the last row needs in addition, because it is copied with a fixed size.
const ROOM_FOR_LAST: usize = 128;

/// The number of bytes of `,YYYY-MM-DDThh:mm:ss`.
const LOCAL_TIME: usize = 20;

/// Writes local times, and keeps the date while the day is the same.
struct LocalTimes<'a> {
    calendar: &'a Calendar,
    day: u32,
    date: Date,
}

impl LocalTimes<'_> {
    /// Writes the local time and the end of a row.
    #[inline(always)]
    fn write(&mut self, out: &mut [u8; 64], instant: i64, local_type: &ShortType) {
        let DayAndSecond { day, second } = DayAndSecond::new(instant, local_type.utc_offset);
        if day != self.day {
            (self.day, self.date) = (day, self.calendar.date(day));
        }
        // Each part begins where the one before ends, or overwrites what follows it.
        out[..8].copy_from_slice(&self.date.year);
        out[5..13].copy_from_slice(&self.date.month_and_day);
        out[12..LOCAL_TIME].copy_from_slice(&self.calendar.time_of_day(second));
        out[LOCAL_TIME..LOCAL_TIME + SHORT].copy_from_slice(&local_type.text);
    }
}

/// Writes the rows of a batch that begins at a place of the lines.
#[inline(never)]
pub fn write_rows(tables: &Tables, lines: Lines<'_>, start: u32, batch: &Batch, text: &mut Text) {
    let count = batch.len();
    let room =
        |at: u32, rows: usize| (batch.end() - at) as usize + rows * ROOM_FOR_ROW + ROOM_FOR_LAST;
    let mut local_times =
        LocalTimes { calendar: &tables.calendar, day: u32::MAX, date: Date::default() };
    let mut at = start;
    let mut out = text.room(room(at, count));
    let mut written = 0;
    for i in 0..count {
        let end = batch.line_ends[i];
        if let Some(local_type) = tables.types.short.get(usize::from(batch.types[i])) {
            let row: &mut [u8; ROOM_FOR_LAST] = out[written..].first_chunk_mut().unwrap();
            row[..LINE].copy_from_slice(lines.block::<LINE>(at));
            let len = (end - at) as usize % 64;
            let rest = (&mut row[len..len + 64]).try_into().unwrap();
            local_times.write(rest, batch.instants[i], local_type);
            written += len + LOCAL_TIME + local_type.len as usize;
        } else {
            text.advance(written);
            general::write_line(tables, lines.part(at, end), text);
            out = text.room(room(end, count - i));
            written = 0;
        }
        at = end + 1;
    }
    text.advance(written);
}
