//! The zones of names.

use crate::quick_hash::QuickMap;

/// The number of bytes from which a key is made. A name that has a key is shorter.
pub const KEY_SIZE: usize = 32;

/// The number of buckets, of which each has a shift.
const BUCKETS: usize = 512;

/// The number of places for keys.
const PLACES: usize = 1024;

/// As many bytes in words. They are never in two lines of the cache.
#[derive(Clone, Copy, PartialEq, Eq)]
#[repr(align(32))]
struct Words([u64; 4]);

/// A name of at most 31 bytes: itself and zeros after it, and its length. Without the length a name
/// with a zero at its end would be the shorter one.
#[derive(Clone, Copy, PartialEq, Eq)]
pub struct Key {
    words: Words,
    len: u8,
}

/// By length, the mask of so many bytes.
static MASKS: [Words; KEY_SIZE] = masks();

const fn masks() -> [Words; KEY_SIZE] {
    let mut masks = [Words([0; 4]); KEY_SIZE];
    let mut len = 0;
    while len < KEY_SIZE {
        let mut octet = 0;
        while octet < len {
            masks[len].0[octet / 8] |= 0xff << (8 * (octet % 8));
            octet += 1;
        }
        len += 1;
    }
    masks
}

impl Key {
    /// Returns the key of a name at the start of a block. With a length of 32 or more it is a key that
    /// no name has, so no branch is needed.
    #[inline(always)]
    pub fn new(block: &[u8; KEY_SIZE], len: u8) -> Key {
        let Words(mask) = &MASKS[usize::from(len) % KEY_SIZE];
        let word =
            |k: usize| u64::from_le_bytes(block[8 * k..8 * k + 8].try_into().unwrap()) & mask[k];
        Key { words: Words([word(0), word(1), word(2), word(3)]), len }
    }

    /// Returns the key of a name, if it has one.
    pub fn of(name: &[u8]) -> Option<Key> {
        if name.len() >= KEY_SIZE {
            return None;
        }
        let mut block = [0; KEY_SIZE];
        block[..name.len()].copy_from_slice(name);
        Some(Key::new(&block, name.len() as u8))
    }

    #[inline(always)]
    fn hash(&self) -> u64 {
        let Words([a, b, c, d]) = self.words;
        let odd = a.wrapping_add(c).wrapping_mul(0x9e37_79b9_7f4a_7c15);
        let even = b.wrapping_add(d).wrapping_mul(0xc2b2_ae3d_27d4_eb4f);
        odd ^ even
    }

    #[inline(always)]
    fn bucket(&self) -> usize {
        (self.hash() >> 45) as usize % BUCKETS
    }

    /// Returns the place of the key, given the shift of its bucket.
    #[inline(always)]
    fn place(&self, shift: u16) -> usize {
        ((self.hash() >> 54) as usize ^ usize::from(shift)) % PLACES
    }
}

/// Zones by name. Keys are in a table with a perfect hash: the shifts of the buckets are such that
/// no two keys have the same place.
pub struct Names {
    shifts: [u16; BUCKETS],
    words: Box<[Words; PLACES]>,
    lens: [u8; PLACES],
    zones: [u16; PLACES],
    /// Names that are too long for a key.
    others: QuickMap<Vec<u8>, u16>,
    /// Stands for names that aren't found.
    nothing: u16,
}

/// A key and its zone.
type Entry = (Key, u16);

impl Names {
    pub fn new(names: Vec<(Vec<u8>, u16)>, nothing: u16) -> Names {
        let mut made = Names {
            shifts: [0; BUCKETS],
            words: Box::new([Words([0; 4]); PLACES]),
            lens: [0; PLACES],
            zones: [nothing; PLACES],
            others: QuickMap::default(),
            nothing,
        };
        let mut buckets = vec![Vec::<Entry>::new(); BUCKETS];
        for (name, zone) in names {
            match Key::of(&name) {
                Some(key) => buckets[key.bucket()].push((key, zone)),
                None => {
                    made.others.insert(name, zone);
                }
            }
        }
        // The largest first, while there are many free places.
        let mut order = (0..BUCKETS).collect::<Vec<_>>();
        order.sort_by_key(|bucket| std::cmp::Reverse(buckets[*bucket].len()));
        for bucket in order {
            made.insert(bucket, &buckets[bucket]);
        }
        made
    }

    /// Inserts the keys of a bucket, with the first shift for which all their places are free.
    fn insert(&mut self, bucket: usize, entries: &[Entry]) {
        let is_good = |shift: &u16| {
            let places = entries.iter().map(|(key, _)| key.place(*shift)).collect::<Vec<_>>();
            let is_free = |(i, place): (usize, &usize)| {
                self.zones[*place] == self.nothing && !places[..i].contains(place)
            };
            places.iter().enumerate().all(is_free)
        };
        let shift = (0..PLACES as u16).find(is_good).expect("too many names");
        self.shifts[bucket] = shift;
        for (key, zone) in entries {
            let place = key.place(shift);
            (self.words[place], self.lens[place], self.zones[place]) = (key.words, key.len, *zone);
        }
    }

    /// Returns the zone of a key.
    #[inline(always)]
    pub fn zone_of(&self, key: &Key) -> u16 {
        let place = key.place(self.shifts[key.bucket()]);
        let is_there = self.words[place] == key.words && self.lens[place] == key.len;
        if is_there { self.zones[place] } else { self.nothing }
    }

    /// Returns the zone of a name of any length.
    pub fn find(&self, name: &[u8]) -> Option<u16> {
        let by_key = Key::of(name).map(|key| self.zone_of(&key));
        let zone = by_key.or_else(|| self.others.get(name).copied())?;
        (zone != self.nothing).then_some(zone)
    }
}
