//! All that rows are made from. Nothing in it changes once it is made.

use crate::calendar::Calendar;
use crate::footer_years::FooterYears;
use crate::local_time_types::{LocalTimeTypes, TypeNumber, UNKNOWN};
use crate::names::Names;
use crate::quick_hash::QuickMap;
use crate::slots::{END, Slots, SlotsMaker};
use crate::tree::ZoneFile;
use crate::zone::Zone;
use std::ops::RangeInclusive;

/// The instants that a row may have: from 0001-01-02 00:00:00 to 9999-12-30 23:59:59 UT.
pub const INSTANTS: RangeInclusive<i64> = -62_135_510_400..=253_402_214_399;

pub struct Tables {
    pub calendar: Calendar,
    pub names: Names,
    pub types: LocalTimeTypes,
    /// The slots of the zones, and of one more, which stands for names that aren't found.
    pub slots: Slots,
    /// What zones show after the slots, by zone.
    footer_years: Vec<Option<FooterYears>>,
    zones: Vec<Zone>,
}

impl Tables {
    pub fn new(files: Vec<ZoneFile>) -> Tables {
        let calendar = Calendar::new();
        let mut types = LocalTimeTypes::default();
        let mut zones = Vec::new();
        let mut numbers = QuickMap::default();
        let mut names = Vec::new();
        for ZoneFile { name, octets } in files {
            let zone = *numbers.entry(octets).or_insert_with_key(|octets| {
                zones.push(Zone::new(octets, &mut types));
                (zones.len() - 1) as u16
            });
            names.push((name.into_bytes(), zone));
        }
        let mut slots = SlotsMaker::default();
        zones.iter().for_each(|zone| slots.push(zone, &calendar));
        Tables {
            names: Names::new(names, zones.len() as u16),
            slots: slots.finish(),
            footer_years: zones.iter().map(FooterYears::new).collect(),
            types,
            zones,
            calendar,
        }
    }

    /// Returns the local time type of a zone at an instant that the slots don't tell. Returns
    /// `UNKNOWN` for a name that wasn't found, or an instant that a row may not have.
    #[inline(always)]
    pub fn type_beside_slots(&self, zone: u16, t: i64) -> TypeNumber {
        let zone = usize::from(zone);
        if zone >= self.zones.len() || !INSTANTS.contains(&t) {
            return UNKNOWN;
        }
        match &self.footer_years[zone] {
            Some(years) if t >= END => years.type_at(t, &self.calendar),
            _ => self.zones[zone].type_at(t, &self.calendar),
        }
    }
}
