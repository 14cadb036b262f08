//! What a zone shows in years that only its footer tells, by the kind of the year.

use crate::calendar::{Calendar, DAY, DayAndSecond, FIRST_LEAP_KIND, KINDS};
use crate::footer::{Daylight, Edges, Footer};
use crate::local_time_types::TypeNumber;
use crate::slots;
use crate::zone::Zone;
use std::array;

/// The two parts of each year in UT: an inside part between the edges, and the outside part before
/// and after it.
pub struct FooterYears {
    /// By the kind of the year, and room so that each number below 16 is an index.
    inside: [Part; 16],
    inside_type: TypeNumber,
    outside_type: TypeNumber,
}

/// A part of a year, in seconds.
#[derive(Clone, Copy, Default)]
struct Part {
    /// Counted from the start of the year in UT.
    start: u32,
    len: u32,
}

impl Part {
    fn between(edges: &Edges) -> Part {
        let Edges { start, stop } = *edges;
        Part { start: start.min(stop) as u32, len: start.abs_diff(stop) as u32 }
    }
}

/// Returns whether daylight saving time starts before it stops, as in the north.
fn starts_first(edges: &Edges) -> bool {
    edges.start < edges.stop
}

/// Returns whether the edges of each kind of year are within the year, in the same order.
fn are_regular(edges: &[Edges; KINDS]) -> bool {
    edges.iter().enumerate().all(|(kind, of_kind)| {
        let year = if kind < FIRST_LEAP_KIND { 0..365 * DAY } else { 0..366 * DAY };
        let Edges { start, stop } = of_kind;
        let is_same_order = starts_first(of_kind) == starts_first(&edges[0]);
        is_same_order && start != stop && year.contains(start) && year.contains(stop)
    })
}

impl FooterYears {
    /// Returns the parts of years after the slots, unless transitions of the file or irregular edges
    /// are in the way.
    pub fn new(zone: &Zone) -> Option<FooterYears> {
        let last = zone.last_type();
        // By then both edges of the footer came after the last transition.
        let begin = slots::END - 400 * DAY;
        if zone.last_transition().is_some_and(|transition| transition.at >= begin) {
            return None;
        }
        let Some(Footer { standard, daylight: Some(daylight) }) = &zone.footer else {
            let inside = [Part::default(); 16];
            return Some(FooterYears { inside, inside_type: last, outside_type: last });
        };
        let Daylight { number, edges } = daylight;
        if !are_regular(edges) {
            return None;
        }
        let inside = array::from_fn(|kind| edges.get(kind).map_or(Part::default(), Part::between));
        let [inside_type, outside_type] =
            if starts_first(&edges[0]) { [*number, *standard] } else { [*standard, *number] };
        Some(FooterYears { inside, inside_type, outside_type })
    }

    /// Returns the local time type at an instant after the slots, up to the year 9999.
    #[inline(always)]
    pub fn type_at(&self, t: i64, calendar: &Calendar) -> TypeNumber {
        let DayAndSecond { day, second } = DayAndSecond::new(t, 0);
        let year = calendar.year_of(day);
        let in_year = (day - calendar.first_day(year)) * DAY as u32 + second;
        let part = self.inside[calendar.kind(year) % 16];
        let is_inside = in_year.wrapping_sub(part.start) < part.len;
        if is_inside { self.inside_type } else { self.outside_type }
    }
}
