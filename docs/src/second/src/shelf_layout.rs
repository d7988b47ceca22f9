//! Where the numbers and the texts of a shelf stand, in either version, and
//! whether a buffer is a sound shelf of that version.
//!
//! Change request 2026-04, "The shelf": `EDS`, a 16-bit version (1), a 64-bit
//! map of occupied slots (slot k is the bit worth 2^k), 64 pairs of 32-bit start
//! and length, then the normal forms; numbers are big-endian, starts count from
//! the buffer's beginning. Change request 2026-06, "A shelf that knows its own
//! sums": version 2 has, after the map, 32 bits of text bytes held and 32 bits
//! of duplicates found, and all that follows stands 8 bytes later. Texts start
//! at the least size of the version.

use std::ops::Range;

use crate::contents::Part;
use crate::judging::accept;

/// The largest size of a shelf, in bytes.
pub const LARGEST: usize = 65_536;

pub const SLOTS: usize = 64;

const BEGINNING: &[u8; 3] = b"EDS";

/// Where the numbers stand; the sums in version 2 only.
const VERSION_BYTES: Range<usize> = 3..5;
const MAP_BYTES: Range<usize> = 5..13;
const HELD_BYTES: Range<usize> = 13..17;
const DUPLICATES_BYTES: Range<usize> = 17..21;

/// What one version has otherwise than the other.
pub struct Layout {
    version: u64,
    has_sums: bool,
    first_pair: usize,
    /// Also the least size.
    pub first_text: usize,
}

pub const VERSION_1: Layout =
    Layout { version: 1, has_sums: false, first_pair: 13, first_text: 525 };
pub const VERSION_2: Layout =
    Layout { version: 2, has_sums: true, first_pair: 21, first_text: 533 };

/// The summary of map and two sums.
#[derive(Clone, Copy, Debug, PartialEq, Eq)]
pub struct Summary {
    /// The occupied slots.
    pub map: u64,
    /// Text bytes held.
    pub held: u32,
    /// Duplicates found; it stays at 4,294,967,295.
    pub duplicates: u32,
}

/// A big-endian number of at most 8 bytes.
fn number_at(shelf: &[u8], bytes: Range<usize>) -> u64 {
    shelf[bytes].iter().fold(0, |number, &byte| number * 256 + u64::from(byte))
}

/// Stores a number as so many big-endian bytes.
fn store_number(shelf: &mut [u8], bytes: Range<usize>, number: u64) {
    let mut rest = number;
    for byte in shelf[bytes].iter_mut().rev() {
        *byte = (rest % 256) as u8;
        rest /= 256;
    }
}

/// Slot k is the bit worth 2^k; above 63 there is none.
pub fn is_occupied(map: u64, slot: usize) -> bool {
    slot < SLOTS && map / 2u64.pow(slot as u32) % 2 == 1
}

/// The number of occupied slots of a map.
pub fn occupied_in(map: u64) -> usize {
    (0..SLOTS).filter(|&slot| is_occupied(map, slot)).count()
}

/// The lowest free slot of a map; 64 where none is free.
pub fn lowest_free_in(map: u64) -> usize {
    (0..SLOTS).find(|&slot| !is_occupied(map, slot)).unwrap_or(SLOTS)
}

/// The occupied slots; the map stands at the same place in both versions.
pub fn map_of(shelf: &[u8]) -> u64 {
    number_at(shelf, MAP_BYTES)
}

pub fn store_map(shelf: &mut [u8], map: u64) {
    store_number(shelf, MAP_BYTES, map);
}

/// The numbers of the occupied slots, rising.
pub fn occupied_slots(shelf: &[u8]) -> Vec<usize> {
    let map = map_of(shelf);
    (0..SLOTS).filter(|&slot| is_occupied(map, slot)).collect()
}

/// The summary in the head of a version 2 shelf.
pub fn summary_of(shelf: &[u8]) -> Summary {
    Summary {
        map: map_of(shelf),
        held: number_at(shelf, HELD_BYTES) as u32,
        duplicates: number_at(shelf, DUPLICATES_BYTES) as u32,
    }
}

pub fn store_summary(shelf: &mut [u8], summary: Summary) {
    store_map(shelf, summary.map);
    store_number(shelf, HELD_BYTES, u64::from(summary.held));
    store_number(shelf, DUPLICATES_BYTES, u64::from(summary.duplicates));
}

/// A kept text is a normal form when it is accepted by the rules as they stand
/// and is its own normal form.
fn is_normal_form(text: &[u8]) -> bool {
    accept(text).map_or(false, |accepted| accepted.normal_form() == text)
}

impl Layout {
    /// May a shelf of this version have this size?
    pub fn allows_size(&self, size: usize) -> bool {
        (self.first_text..=LARGEST).contains(&size)
    }

    /// Writes an empty shelf over a buffer of an allowed size.
    pub fn write_empty(&self, buffer: &mut [u8]) {
        buffer.fill(0);
        buffer[..BEGINNING.len()].copy_from_slice(BEGINNING);
        store_number(buffer, VERSION_BYTES, self.version);
    }

    /// The bytes of a slot's start, and those of its length.
    fn pair_bytes(&self, slot: usize) -> (Range<usize>, Range<usize>) {
        let start = self.first_pair + 8 * slot;
        (start..start + 4, start + 4..start + 8)
    }

    /// The start and the length that stand at a slot, occupied or free.
    pub fn entry(&self, shelf: &[u8], slot: usize) -> Part {
        let (start, length) = self.pair_bytes(slot);
        Part { offset: number_at(shelf, start) as u32, length: number_at(shelf, length) as u32 }
    }

    pub fn store_entry(&self, shelf: &mut [u8], slot: usize, entry: Part) {
        let (start, length) = self.pair_bytes(slot);
        store_number(shelf, start, u64::from(entry.offset));
        store_number(shelf, length, u64::from(entry.length));
    }

    /// The entries of the occupied slots, in the order of the slots.
    fn occupied_entries(&self, shelf: &[u8]) -> Vec<Part> {
        occupied_slots(shelf).into_iter().map(|slot| self.entry(shelf, slot)).collect()
    }

    /// Where the last text ends; where texts start, if there is none.
    pub fn end_of_texts(&self, shelf: &[u8]) -> usize {
        let ends = self.occupied_entries(shelf).into_iter().map(|entry| entry.range().end);
        ends.max().unwrap_or(self.first_text)
    }

    /// Is the buffer a sound shelf of this version?
    pub fn is_sound(&self, shelf: &[u8]) -> bool {
        self.allows_size(shelf.len())
            && shelf.starts_with(BEGINNING)
            && number_at(shelf, VERSION_BYTES) == self.version
            && self.free_entries_are_zero(shelf)
            && self.texts_lie_within(shelf)
            && self.texts_fill_the_room(shelf)
            && (!self.has_sums || self.held_is_the_sum(shelf))
            && self.texts_are_different_normal_forms(shelf)
            && shelf[self.end_of_texts(shelf)..].iter().all(|&byte| byte == 0)
    }

    fn free_entries_are_zero(&self, shelf: &[u8]) -> bool {
        let map = map_of(shelf);
        let mut free = (0..SLOTS).filter(|&slot| !is_occupied(map, slot));
        free.all(|slot| self.entry(shelf, slot) == Part { offset: 0, length: 0 })
    }

    /// Start plus length is an exact sum.
    fn texts_lie_within(&self, shelf: &[u8]) -> bool {
        let end = |entry: &Part| u64::from(entry.offset) + u64::from(entry.length);
        self.occupied_entries(shelf).iter().all(|entry| end(entry) <= shelf.len() as u64)
    }

    /// From the first text's byte on, disjoint and without gaps, in any order of
    /// slots. Asked only where the texts lie within the shelf.
    fn texts_fill_the_room(&self, shelf: &[u8]) -> bool {
        let mut entries = self.occupied_entries(shelf);
        entries.sort_by_key(|entry| entry.range().start);
        let mut end = self.first_text;
        for entry in entries {
            if entry.range().start != end {
                return false;
            }
            end = entry.range().end;
        }
        true
    }

    /// The bytes held equal the sum of the lengths. The duplicates may be any.
    fn held_is_the_sum(&self, shelf: &[u8]) -> bool {
        let entries = self.occupied_entries(shelf).into_iter();
        let sum: u64 = entries.map(|entry| u64::from(entry.length)).sum();
        u64::from(summary_of(shelf).held) == sum
    }

    fn texts_are_different_normal_forms(&self, shelf: &[u8]) -> bool {
        let entries = self.occupied_entries(shelf);
        let mut texts: Vec<&[u8]> = entries.iter().map(|entry| entry.of(shelf)).collect();
        texts.sort_unstable();
        let different = texts.windows(2).all(|two| two[0] != two[1]);
        different && texts.iter().all(|text| is_normal_form(text))
    }
}
