//! The meaning of a footer: local time after the last transition.

use crate::calendar::{Calendar, DAY, FIRST_LEAP_KIND, KINDS};
use crate::local_time_types::TypeNumber;
use crate::zone::Transition;
use std::ops::RangeInclusive;

pub struct Footer {
    pub standard: TypeNumber,
    pub daylight: Option<Daylight>,
}

/// Daylight saving time.
pub struct Daylight {
    pub number: TypeNumber,
    pub edges: [Edges; KINDS],
}

/// When daylight saving time starts and stops, in seconds from the start of the year in UT. This is
/// the same for all years of a kind.
#[derive(Clone, Copy)]
pub struct Edges {
    pub start: i64,
    pub stop: i64,
}

/// When daylight saving time starts and stops, by rules.
pub struct Rule {
    pub start: Edge,
    pub stop: Edge,
}

pub struct Edge {
    pub day: DayRule,
    /// The time of day in UT, in seconds. It may be on another day.
    pub time: i32,
}

pub enum DayRule {
    /// A day from 1 to 365, without February 29.
    J(i32),
    /// A day from 0 to 365.
    N(i32),
    /// A weekday of a week from 1 to 5 of a month.
    M { month: i32, week: i32, weekday: i32 },
}

/// The days of a common year before each month, and of the whole year.
const DAYS_BEFORE: [i32; 13] = [0, 31, 59, 90, 120, 151, 181, 212, 243, 273, 304, 334, 365];

/// Returns the days before a month, from 1 to 13, in a year of a kind.
fn days_before(month: i32, kind: usize) -> i32 {
    let leap_days = i32::from(kind >= FIRST_LEAP_KIND && month > 2);
    DAYS_BEFORE[month as usize - 1] + leap_days
}

impl DayRule {
    /// Returns the day in a year of a kind, from 0 on.
    fn day_in(&self, kind: usize) -> i32 {
        match *self {
            DayRule::J(day) => day - 1 + i32::from(kind >= FIRST_LEAP_KIND && day >= 60),
            DayRule::N(day) => day,
            DayRule::M { month, week, weekday } => {
                let first = days_before(month, kind);
                let first_weekday = (kind % FIRST_LEAP_KIND) as i32 + first;
                let day = first + (weekday - first_weekday).rem_euclid(7) + 7 * (week - 1);
                // The fifth week stands for the last one.
                if day < days_before(month + 1, kind) { day } else { day - 7 }
            }
        }
    }
}

impl Edge {
    fn second_in(&self, kind: usize) -> i64 {
        i64::from(self.day.day_in(kind)) * DAY + i64::from(self.time)
    }
}

impl Rule {
    /// Returns daylight saving time by this rule and with this local time type.
    pub fn daylight(&self, number: TypeNumber) -> Daylight {
        let edges =
            |kind| Edges { start: self.start.second_in(kind), stop: self.stop.second_in(kind) };
        Daylight { number, edges: std::array::from_fn(edges) }
    }
}

impl Footer {
    /// Returns the transitions in some years, in rising order. If daylight saving time starts when
    /// it stops, it goes on.
    pub fn transitions(
        &self,
        years: RangeInclusive<usize>,
        calendar: &Calendar,
    ) -> Vec<Transition> {
        let Some(daylight) = &self.daylight else {
            return Vec::new();
        };
        let transitions_of = |year| {
            let Edges { start, stop } = daylight.edges[calendar.kind(year)];
            let first = calendar.start(year);
            [
                Transition { at: first + start, number: daylight.number },
                Transition { at: first + stop, number: self.standard },
            ]
        };
        let mut all = years.flat_map(transitions_of).collect::<Vec<_>>();
        all.sort_by_key(|transition| (transition.at, transition.number == daylight.number));
        all
    }

    /// Returns the last transition that isn't after an instant. Edges are at most ten days outside
    /// their year.
    pub fn last_transition(&self, t: i64, calendar: &Calendar) -> Option<Transition> {
        let year = calendar.year_at(t);
        let all = self.transitions(year - 1..=year + 1, calendar);
        all.into_iter().rfind(|transition| transition.at <= t)
    }
}
