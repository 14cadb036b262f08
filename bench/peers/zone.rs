//! A zone as its file tells it.

use crate::calendar::Calendar;
use crate::footer::Footer;
use crate::footer_text;
use crate::local_time_types::{LocalTimeType, LocalTimeTypes, TypeNumber};
use std::ops::RangeInclusive;

/// From an instant on, a local time type applies.
#[derive(Clone, Copy)]
pub struct Transition {
    /// Seconds from 1970.
    pub at: i64,
    pub number: TypeNumber,
}

pub struct Zone {
    transitions: Vec<Transition>,
    /// The local time type before the first transition.
    first: TypeNumber,
    pub footer: Option<Footer>,
}

/// Returns the big-endian number at an index of a file.
fn number(file: &[u8], at: usize) -> usize {
    u32::from_be_bytes(file[at..at + 4].try_into().unwrap()) as usize
}

/// Returns the six counts of the header at an index of a file.
fn counts(file: &[u8], header: usize) -> [usize; 6] {
    [20, 24, 28, 32, 36, 40].map(|place| number(file, header + place))
}

fn local_time_type(record: &[u8], designations: &[u8]) -> LocalTimeType {
    let utc_offset = i32::from_be_bytes(record[..4].try_into().unwrap());
    let designation = &designations[usize::from(record[5])..];
    let designation = designation.split(|octet| *octet == 0).next().unwrap();
    LocalTimeType::new(utc_offset, record[4] == 1, designation)
}

impl Zone {
    /// Reads the second data block and the footer of a file, without checks.
    pub fn new(file: &[u8], types: &mut LocalTimeTypes) -> Zone {
        let [ut, standard, _, times, records, letters] = counts(file, 0);
        let header = 44 + times * 5 + records * 6 + letters + standard + ut;
        let [ut, standard, _, times, records, letters] = counts(file, header);
        let (instants, rest) = file[header + 44..].split_at(times * 8);
        let (indices, rest) = rest.split_at(times);
        let (records, rest) = rest.split_at(records * 6);
        let (designations, rest) = rest.split_at(letters);
        let text = std::str::from_utf8(&rest[standard + ut..]).unwrap().trim();
        let numbers =
            records.chunks(6).map(|record| types.number(local_time_type(record, designations)));
        let numbers = numbers.collect::<Vec<_>>();
        let transition = |(instant, index): (&[u8], &u8)| Transition {
            at: i64::from_be_bytes(instant.try_into().unwrap()),
            number: numbers[usize::from(*index)],
        };
        let transitions = instants.chunks(8).zip(indices).map(transition).collect::<Vec<_>>();
        let footer = (!text.is_empty()).then(|| footer_text::parse(text, types));
        let first = match &footer {
            Some(footer) if transitions.is_empty() => footer.standard,
            _ => numbers[0],
        };
        Zone { transitions, first, footer }
    }

    /// Returns the last transition of the file.
    pub fn last_transition(&self) -> Option<Transition> {
        self.transitions.last().copied()
    }

    /// Returns the local time type that applies after the last transition of the file, up to the
    /// next one by the footer.
    pub fn last_type(&self) -> TypeNumber {
        self.last_transition().map_or(self.first, |transition| transition.number)
    }

    /// Returns the local time type at an instant of the years 1 to 9999, by a search.
    pub fn type_at(&self, t: i64, calendar: &Calendar) -> TypeNumber {
        let count = self.transitions.partition_point(|transition| transition.at <= t);
        let listed = count.checked_sub(1).map(|index| self.transitions[index]);
        let by_footer = match &self.footer {
            Some(footer) if count == self.transitions.len() => footer.last_transition(t, calendar),
            _ => None,
        };
        match (listed, by_footer) {
            (Some(listed), Some(by_footer)) if listed.at >= by_footer.at => listed.number,
            (_, Some(by_footer)) => by_footer.number,
            (Some(listed), None) => listed.number,
            (None, None) => self.first,
        }
    }

    /// Returns the transitions of the file, and then those by the footer from a year to another.
    pub fn transitions(
        &self,
        years: RangeInclusive<usize>,
        calendar: &Calendar,
    ) -> Vec<Transition> {
        let mut all = self.transitions.clone();
        if let Some(footer) = &self.footer {
            let last = self.transitions.last().map_or(i64::MIN, |transition| transition.at);
            let year = if last < calendar.start(*years.start()) {
                *years.start()
            } else {
                calendar.year_at(last) - 1
            };
            let by_footer = footer.transitions(year..=*years.end(), calendar);
            all.extend(by_footer.into_iter().filter(|transition| transition.at > last));
        }
        all
    }
}
