//! Who does the operations: the second program, the C functions of the surface,
//! and the safe wrapper. All answer with the surface's structs, so that a field
//! that does not apply is looked at too.

use hverolda::surface::{self, Got, Shelving, SlotNumbers, Started, SumNumbers, Written};
use hverolda::{Shelf, Shelved, Sums, SLOTS};
use second::shelf::{self, Put};

/// The operations of a shelf. A slot may be any number.
#[derive(Clone, Copy)]
pub struct Operations {
    pub name: &'static str,
    pub start: fn(&mut [u8]) -> Started,
    pub put: fn(&mut [u8], &[u8]) -> Shelving,
    pub get: fn(&mut [u8], usize) -> Got,
    pub remove: fn(&mut [u8], usize) -> Written,
    pub slots: fn(&mut [u8]) -> SlotNumbers,
    pub sums: fn(&mut [u8]) -> SumNumbers,
}

pub const SURFACE: Operations = Operations {
    name: "the surface",
    start: surface::shelf_start,
    put: surface::shelf_put,
    get: |bytes, slot| surface::shelf_get(bytes, slot),
    remove: surface::shelf_remove,
    slots: |bytes| surface::shelf_slots(bytes),
    sums: |bytes| surface::shelf_sums(bytes),
};

pub const SECOND: Operations = Operations {
    name: "the second program",
    start: |bytes| match shelf::start(bytes) {
        Ok(()) => Started::default(),
        Err(refusal) => Started { number: refusal.number, place: refusal.place },
    },
    put: |bytes, input| match shelf::put(bytes, input) {
        Ok(Put::New(slot)) => Shelving { added: 1, slot, ..Shelving::default() },
        Ok(Put::Found(slot)) => Shelving { slot, ..Shelving::default() },
        Err(refusal) => {
            Shelving { number: refusal.number, place: refusal.place, ..Shelving::default() }
        }
    },
    get: |bytes, slot| {
        let got = shelf::get(bytes, slot);
        let (offset, length) = (got.offset, got.bytes.len());
        let (number, place) = got.refusal.map_or((0, 0), |told| (told.number, told.place));
        Got { number, place, offset, length }
    },
    remove: |bytes, slot| match shelf::remove(bytes, slot) {
        Ok(length) => Written { length, ..Written::default() },
        Err(refusal) => Written { number: refusal.number, place: refusal.place, length: 0 },
    },
    slots: |bytes| match (shelf::occupied(bytes), shelf::lowest_free(bytes)) {
        (Ok(occupied), Ok(lowest)) => SlotNumbers { occupied, lowest, ..SlotNumbers::default() },
        (Err(refusal), _) | (_, Err(refusal)) => {
            SlotNumbers { number: refusal.number, place: refusal.place, ..SlotNumbers::default() }
        }
    },
    sums: |bytes| match (shelf::held(bytes), shelf::duplicates(bytes)) {
        (Ok(held), Ok(duplicates)) => {
            SumNumbers { held: held as u32, duplicates, ..SumNumbers::default() }
        }
        (Err(refusal), _) | (_, Err(refusal)) => {
            SumNumbers { number: refusal.number, place: refusal.place, ..SumNumbers::default() }
        }
    },
};

pub const WRAPPER: Operations = Operations {
    name: "the wrapper",
    start: |bytes| match Shelf::start(bytes) {
        Ok(_) => Started::default(),
        Err(refusal) => Started { number: refusal.number(), place: refusal.place },
    },
    put: |bytes, input| match Shelf::over(bytes).put(input) {
        Ok(Shelved::New(slot)) => Shelving { added: 1, slot, ..Shelving::default() },
        Ok(Shelved::Copy(slot)) => Shelving { slot, ..Shelving::default() },
        Err(refusal) => {
            Shelving { number: refusal.number(), place: refusal.place, ..Shelving::default() }
        }
    },
    get: |bytes, slot| {
        let beginning = bytes.as_ptr() as usize;
        match Shelf::over(bytes).get(slot) {
            Ok(text) => {
                let offset = text.as_ptr() as usize - beginning;
                Got { offset, length: text.len(), ..Got::default() }
            }
            Err(refusal) => {
                Got { number: refusal.number(), place: refusal.place, ..Got::default() }
            }
        }
    },
    remove: |bytes, slot| match Shelf::over(bytes).remove(slot) {
        Ok(length) => Written { length, ..Written::default() },
        Err(refusal) => Written { number: refusal.number(), place: refusal.place, length: 0 },
    },
    slots: |bytes| match Shelf::over(bytes).slots() {
        Ok(slots) => {
            let lowest = slots.lowest_free.unwrap_or(SLOTS);
            SlotNumbers { occupied: slots.occupied, lowest, ..SlotNumbers::default() }
        }
        Err(refusal) => {
            SlotNumbers { number: refusal.number(), place: refusal.place, ..SlotNumbers::default() }
        }
    },
    sums: |bytes| match Shelf::over(bytes).sums() {
        Ok(Sums { held, duplicates }) => {
            SumNumbers { held: held as u32, duplicates, ..SumNumbers::default() }
        }
        Err(refusal) => {
            SumNumbers { number: refusal.number(), place: refusal.place, ..SumNumbers::default() }
        }
    },
};
