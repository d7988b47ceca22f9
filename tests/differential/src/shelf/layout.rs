//! Where things stand in a shelf, and shelves laid out by hand.
//!
//! Change requests 2026-04 and 2026-06: `EDS`, a 16-bit version (2), a 64-bit
//! map, 32 bits of text bytes held, 32 bits of duplicates found, 64 pairs of
//! 32-bit start and length, then the texts from byte 533.

use second::shelf::{SLOTS, SMALLEST};

pub const MAP: usize = 5;
pub const HELD: usize = 13;
pub const DUPLICATES: usize = 17;
pub const PAIRS: usize = 21;

/// A start and a length.
pub type Pair = [u32; 2];

pub fn map(shelf: &[u8]) -> u64 {
    let mut bytes = [0; 8];
    bytes.copy_from_slice(&shelf[MAP..HELD]);
    u64::from_be_bytes(bytes)
}

pub fn store_map(shelf: &mut [u8], map: u64) {
    shelf[MAP..HELD].copy_from_slice(&map.to_be_bytes());
}

/// The number of 32 bits at a place.
pub fn number(shelf: &[u8], place: usize) -> u32 {
    let mut bytes = [0; 4];
    bytes.copy_from_slice(&shelf[place..place + 4]);
    u32::from_be_bytes(bytes)
}

pub fn store_number(shelf: &mut [u8], place: usize, number: u32) {
    shelf[place..place + 4].copy_from_slice(&number.to_be_bytes());
}

pub fn pair(shelf: &[u8], slot: usize) -> Pair {
    [0, 4].map(|part| number(shelf, PAIRS + 8 * slot + part))
}

pub fn store_pair(shelf: &mut [u8], slot: usize, pair: Pair) {
    for (part, number) in pair.into_iter().enumerate() {
        store_number(shelf, PAIRS + 8 * slot + 4 * part, number);
    }
}

/// The occupied slots by the map, in the order of their starts.
pub fn by_position(shelf: &[u8]) -> Vec<usize> {
    let map = map(shelf);
    let mut slots: Vec<usize> = (0..SLOTS).filter(|slot| map >> slot & 1 == 1).collect();
    slots.sort_by_key(|&slot| pair(shelf, slot)[0]);
    slots
}

pub fn free_slots(shelf: &[u8]) -> Vec<usize> {
    let map = map(shelf);
    (0..SLOTS).filter(|slot| map >> slot & 1 == 0).collect()
}

/// The bytes of all texts together, by the pairs of the occupied slots.
pub fn bytes_held(shelf: &[u8]) -> usize {
    let map = map(shelf);
    let occupied = (0..SLOTS).filter(|slot| map >> slot & 1 == 1);
    occupied.map(|slot| pair(shelf, slot)[1] as usize).sum()
}

/// Stores the bytes of all texts together.
pub fn mend_held(shelf: &mut [u8]) {
    let held = bytes_held(shelf);
    store_number(shelf, HELD, held as u32);
}

/// A sound shelf of this size with these texts, each with its slot, in the
/// order in which they lie, and so many duplicates found.
pub fn laid_out(size: usize, texts: &[(usize, &[u8])], duplicates: u32) -> Vec<u8> {
    let mut shelf = b"EDS\x00\x02".to_vec();
    shelf.resize(SMALLEST, 0);
    let mut occupied = 0;
    for (slot, text) in texts {
        occupied |= 1 << slot;
        let pair = [shelf.len() as u32, text.len() as u32];
        store_pair(&mut shelf, *slot, pair);
        shelf.extend(*text);
    }
    store_map(&mut shelf, occupied);
    mend_held(&mut shelf);
    store_number(&mut shelf, DUPLICATES, duplicates);
    shelf.resize(size, 0);
    shelf
}
