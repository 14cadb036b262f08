//! What zones show from June 1902 to April 2038, in slots of 2^23 seconds, some 97 days.

use crate::calendar::Calendar;
use crate::local_time_types::{TypeNumber, UNKNOWN};
use crate::quick_hash::QuickMap;
use crate::zone::{Transition, Zone};
use std::ops::RangeInclusive;

/// The binary logarithm of the seconds of a slot.
const SHIFT: u32 = 23;

/// The number of slots. The last one stands for all instants that are in no other, and tells
/// nothing.
const SLOTS: usize = 512;

/// The instant at which the first slot starts.
const START: i64 = (1 << 24) - (1 << 31);

/// The instant at which the last slot starts.
pub const END: i64 = START + ((SLOTS as i64 - 1) << SHIFT);

/// The years of `START` and `END`.
const YEARS: RangeInclusive<usize> = 1902..=2038;

/// The slots of all zones. Each different slot is kept once, so they fit into the second cache.
#[derive(Default)]
pub struct Slots {
    slots: Vec<Slot>,
    /// The numbers of its slots, by zone.
    rows: Vec<[u16; SLOTS]>,
}

/// What a zone shows in a slot of time, with at most one change. From the lowest bit on: the change,
/// in seconds from `START`, in 32 bits; the numbers of the local time types before and from the
/// change on, in 16 bits each.
#[derive(Clone, Copy, PartialEq, Eq, Hash)]
struct Slot(u64);

impl Slot {
    fn new(before: TypeNumber, change: u32, after: TypeNumber) -> Slot {
        Slot(u64::from(change) | u64::from(before) << 32 | u64::from(after) << 48)
    }

    fn constant(number: TypeNumber) -> Slot {
        Slot::new(number, 0, number)
    }

    #[inline(always)]
    fn change(self) -> u32 {
        self.0 as u32
    }

    #[inline(always)]
    fn before(self) -> TypeNumber {
        (self.0 >> 32) as TypeNumber
    }

    #[inline(always)]
    fn after(self) -> TypeNumber {
        (self.0 >> 48) as TypeNumber
    }
}

/// Returns the index of the slot in which an instant is.
#[inline(always)]
fn index(t: i64) -> usize {
    let seconds = t.wrapping_sub(START) as u64;
    (seconds >> SHIFT).min(SLOTS as u64 - 1) as usize
}

impl Slots {
    #[inline(always)]
    fn slot(&self, zone: u16, index: usize) -> Slot {
        self.slots[usize::from(self.rows[usize::from(zone)][index])]
    }

    /// Returns the local time type of a zone at an instant, or `UNKNOWN`.
    #[inline(always)]
    pub fn type_at(&self, zone: u16, t: i64) -> TypeNumber {
        let slot = self.slot(zone, index(t));
        let second = t.wrapping_sub(START) as u32;
        if second >= slot.change() { slot.after() } else { slot.before() }
    }

    /// Returns the local time type of a zone at all of some instants, if they are in the same part
    /// of a slot and it tells one.
    pub fn type_at_all(&self, zone: u16, instants: &[i64]) -> Option<TypeNumber> {
        let first = *instants.first()?;
        let number = self.type_at(zone, first);
        if number == UNKNOWN {
            return None;
        }
        let slot = self.slot(zone, index(first));
        let start = START + ((index(first) as i64) << SHIFT);
        let end = start + (1 << SHIFT);
        let change = START + i64::from(slot.change());
        let [from, to] =
            if first >= change { [change.max(start), end] } else { [start, change.min(end)] };
        let is_same = |t: i64| (t.wrapping_sub(from) as u64) < (to - from) as u64;
        let are_same = instants.iter().fold(true, |are_same, t| are_same & is_same(*t));
        are_same.then_some(number)
    }
}

/// Makes the slots of zones.
#[derive(Default)]
pub struct SlotsMaker {
    made: Slots,
    numbers: QuickMap<Slot, u16>,
}

impl SlotsMaker {
    /// Returns the number of a slot, which may be a new one.
    fn number(&mut self, slot: Slot) -> u16 {
        *self.numbers.entry(slot).or_insert_with(|| {
            self.made.slots.push(slot);
            u16::try_from(self.made.slots.len() - 1).expect("too many different slots")
        })
    }

    /// Adds the slots of the next zone.
    pub fn push(&mut self, zone: &Zone, calendar: &Calendar) {
        let first = zone.type_at(START, calendar);
        let mut changes = vec![Transition { at: START, number: first }];
        let transitions = zone.transitions(YEARS, calendar).into_iter();
        changes.extend(transitions.filter(|transition| (START + 1..END).contains(&transition.at)));
        changes.dedup_by_key(|change| change.number);
        let mut row = [0; SLOTS];
        let (mut next, mut before) = (0, first);
        for group in changes[1..].chunk_by(|change, next| index(change.at) == index(next.at)) {
            let index = index(group[0].at);
            row[next..index].fill(self.number(Slot::constant(before)));
            row[index] = self.number(slot_of(before, group));
            before = group[group.len() - 1].number;
            next = index + 1;
        }
        row[next..].fill(self.number(Slot::constant(before)));
        row[SLOTS - 1] = self.number(Slot::constant(UNKNOWN));
        self.made.rows.push(row);
    }

    /// Returns the slots, with those of one more zone that tell nothing.
    pub fn finish(mut self) -> Slots {
        let nothing = self.number(Slot::constant(UNKNOWN));
        self.made.rows.push([nothing; SLOTS]);
        self.made
    }
}

/// Returns the slot with these changes.
fn slot_of(before: TypeNumber, changes: &[Transition]) -> Slot {
    match changes {
        [change] => Slot::new(before, (change.at - START) as u32, change.number),
        _ => Slot::constant(UNKNOWN),
    }
}
