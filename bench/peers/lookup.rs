//! The third and the fourth step: the zones of a batch, and its local time types.

use crate::batch::{BATCH, Batch, Lines};
use crate::local_time_types::{TypeNumber, UNKNOWN};
use crate::names::Key;
use crate::tables::Tables;

/// The name of the last record, and its zone.
#[derive(Clone, Copy)]
pub struct LastName {
    key: Key,
    zone: u16,
}

impl LastName {
    pub fn new(tables: &Tables) -> LastName {
        let key = Key::new(&[0; 32], 0);
        LastName { key, zone: tables.names.zone_of(&key) }
    }
}

/// Finds the zones of the names.
#[inline(never)]
pub fn find_zones(
    tables: &Tables,
    lines: Lines<'_>,
    start: u32,
    batch: &mut Batch,
    last_name: &mut LastName,
) {
    let LastName { mut key, mut zone } = *last_name;
    let mut at = start;
    let mut is_one_zone = true;
    for i in 0..batch.len() {
        let next = Key::new(lines.block(at), batch.name_lens[i]);
        if next != key {
            (key, zone) = (next, tables.names.zone_of(&next));
            is_one_zone = false;
        }
        batch.zones[i] = zone;
        at = batch.line_ends[i] + 1;
    }
    batch.is_one_zone = is_one_zone;
    *last_name = LastName { key, zone };
}

/// Finds the local time types by the slots of the zones, and then those that slots don't tell.
#[inline(never)]
pub fn find_types(tables: &Tables, batch: &mut Batch) {
    if let Some(number) = type_of_all(tables, batch) {
        batch.types.fill(number);
        return;
    }
    let mut rest = [0u16; BATCH];
    let mut count = 0;
    for i in 0..batch.len() {
        let number = tables.slots.type_at(batch.zones[i], batch.instants[i]);
        batch.types[i] = number;
        rest[count % BATCH] = i as u16;
        count += usize::from(number == UNKNOWN);
    }
    for i in &rest[..count] {
        let i = usize::from(*i) % BATCH;
        batch.types[i] = tables.type_beside_slots(batch.zones[i], batch.instants[i]);
    }
}

/// Returns the local time type of all records, if they are in one zone and in one part of a slot, as
/// in most batches of a sorted column.
fn type_of_all(tables: &Tables, batch: &Batch) -> Option<TypeNumber> {
    let instants = &batch.instants[..batch.len()];
    if batch.is_one_zone { tables.slots.type_at_all(batch.zones[0], instants) } else { None }
}
