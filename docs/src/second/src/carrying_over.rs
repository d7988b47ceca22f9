//! Old shelves carried over, and back.
//!
//! Change request 2026-07, "Old shelves carried over, and back": a version 1
//! shelf becomes one of version 2 in its own buffer, and back. Slots and texts
//! stay; the duplicates figure starts at 0 and is lost on the way back. A
//! refused one leaves the shelf unchanged.

use crate::contents::Part;
use crate::refusal::{refuse, Answer, NO_ROOM, NO_SHELF};
use crate::shelf_layout::{
    map_of, occupied_slots, store_map, store_summary, Layout, Summary, VERSION_1, VERSION_2,
};

/// The bytes that the two sums need.
const MORE: usize = 8;

/// Turns a version 1 shelf into version 2.
pub fn carry_over(shelf: &mut [u8]) -> Answer<()> {
    if !VERSION_1.is_sound(shelf) {
        return refuse(NO_SHELF, 0);
    }
    let end = VERSION_1.end_of_texts(shelf);
    if shelf.len() - end < MORE {
        return refuse(NO_ROOM, MORE);
    }
    let held = (end - VERSION_1.first_text) as u32;
    lay_out_anew(shelf, &VERSION_1, &VERSION_2);
    store_summary(shelf, Summary { map: map_of(shelf), held, duplicates: 0 });
    Ok(())
}

/// Turns a version 2 shelf into version 1.
pub fn carry_back(shelf: &mut [u8]) -> Answer<()> {
    if !VERSION_2.is_sound(shelf) {
        return refuse(NO_SHELF, 0);
    }
    lay_out_anew(shelf, &VERSION_2, &VERSION_1);
    Ok(())
}

/// Lays the same texts out in the same slots and in the same order, from where
/// the texts of the other version start. Asked only where there is room.
fn lay_out_anew(shelf: &mut [u8], from: &Layout, to: &Layout) {
    let old = shelf.to_vec();
    let texts = &old[from.first_text..from.end_of_texts(&old)];
    to.write_empty(shelf);
    shelf[to.first_text..to.first_text + texts.len()].copy_from_slice(texts);
    store_map(shelf, map_of(&old));
    for slot in occupied_slots(&old) {
        let entry = from.entry(&old, slot);
        let offset = entry.range().start - from.first_text + to.first_text;
        to.store_entry(shelf, slot, Part { offset: offset as u32, length: entry.length });
    }
}
