//! Reads the text of a footer, a POSIX TZ string, without checks.

use crate::footer::{DayRule, Edge, Footer, Rule};
use crate::local_time_types::{LocalTimeType, LocalTimeTypes};

/// Returns the footer that a text spells. The text must not be empty.
pub fn parse(text: &str, types: &mut LocalTimeTypes) -> Footer {
    let mut rest = Rest(text);
    let designation = rest.designation();
    let utc_offset = -rest.seconds();
    let standard = types.number(LocalTimeType::new(utc_offset, false, designation));
    if rest.0.is_empty() {
        return Footer { standard, daylight: None };
    }
    let designation = rest.designation();
    let ahead = if rest.0.starts_with(',') { utc_offset + 3600 } else { -rest.seconds() };
    let number = types.number(LocalTimeType::new(ahead, true, designation));
    let rule = Rule { start: rest.edge(utc_offset), stop: rest.edge(ahead) };
    Footer { standard, daylight: Some(rule.daylight(number)) }
}

/// The rest of the text.
struct Rest<'a>(&'a str);

impl<'a> Rest<'a> {
    /// Returns the text before the first of some characters, and skips it.
    fn take(&mut self, is_end: impl Fn(char) -> bool) -> &'a str {
        let (text, rest) = self.0.split_at(self.0.find(is_end).unwrap_or(self.0.len()));
        self.0 = rest;
        text
    }

    /// Returns whether the text begins with a character, and skips that.
    fn passes(&mut self, wanted: char) -> bool {
        let rest = self.0.strip_prefix(wanted);
        self.0 = rest.unwrap_or(self.0);
        rest.is_some()
    }

    fn designation(&mut self) -> &'a [u8] {
        if !self.passes('<') {
            return self.take(|letter| !letter.is_ascii_alphabetic()).as_bytes();
        }
        let designation = self.take(|letter| letter == '>').as_bytes();
        self.passes('>');
        designation
    }

    fn number(&mut self) -> i32 {
        self.take(|digit| !digit.is_ascii_digit()).parse().unwrap()
    }

    fn seconds(&mut self) -> i32 {
        let sign = if self.passes('-') { -1 } else { 1 };
        self.passes('+');
        let hours = self.number();
        let minutes = if self.passes(':') { self.number() } else { 0 };
        let seconds = if self.passes(':') { self.number() } else { 0 };
        sign * (hours * 3600 + minutes * 60 + seconds)
    }

    /// Reads an edge whose time of day is told by clocks with a UTC offset.
    fn edge(&mut self, utc_offset: i32) -> Edge {
        self.passes(',');
        let day = self.day_rule();
        let time = if self.passes('/') { self.seconds() } else { 7200 };
        Edge { day, time: time - utc_offset }
    }

    fn day_rule(&mut self) -> DayRule {
        if self.passes('J') {
            return DayRule::J(self.number());
        }
        if !self.passes('M') {
            return DayRule::N(self.number());
        }
        let mut next = || {
            let number = self.number();
            self.passes('.');
            number
        };
        DayRule::M { month: next(), week: next(), weekday: next() }
    }
}
