//! The shelf: normal forms kept in one lent buffer, each once, with the sum of
//! their bytes and the number of duplicates found.
//!
//! Change requests 2026-04, "The shelf", and 2026-06, "A shelf that knows its
//! own sums". Every operation asks first whether the buffer is a sound shelf of
//! version 2, and a refused one leaves it unchanged.

use crate::contents::Part;
use crate::judging::accept;
use crate::refusal::{refuse, Answer, Refusal, FREE_SLOT, NO_ROOM, NO_SHELF, NO_SLOT};
use crate::shelf_layout::{
    is_occupied, map_of, occupied_slots, store_summary, summary_of, VERSION_2,
};

pub use crate::shelf_layout::{lowest_free_in, occupied_in, Summary, LARGEST, SLOTS};

/// The least size of a shelf, in bytes.
pub const SMALLEST: usize = VERSION_2.first_text;

/// Is the buffer a sound shelf?
pub fn is_sound(shelf: &[u8]) -> bool {
    VERSION_2.is_sound(shelf)
}

fn check_sound(shelf: &[u8]) -> Answer<()> {
    if is_sound(shelf) {
        Ok(())
    } else {
        refuse(NO_SHELF, 0)
    }
}

/// Writes an empty shelf over the buffer.
pub fn start(buffer: &mut [u8]) -> Answer<()> {
    if !VERSION_2.allows_size(buffer.len()) {
        return refuse(NO_SHELF, 0);
    }
    VERSION_2.write_empty(buffer);
    Ok(())
}

/// The slot of an interchange that was put, and whether it is new there.
#[derive(Clone, Copy, Debug, PartialEq, Eq)]
pub enum Put {
    New(usize),
    Found(usize),
}

/// Puts an interchange: the slot where its normal form is already, which is a
/// duplicate found, or the lowest free one, where it now is.
pub fn put(shelf: &mut [u8], input: &[u8]) -> Answer<Put> {
    check_sound(shelf)?;
    let text = accept(input)?.normal_form();
    let mut summary = summary_of(shelf);
    let has_text = |slot: &usize| VERSION_2.entry(shelf, *slot).of(shelf) == text;
    if let Some(slot) = occupied_slots(shelf).into_iter().find(has_text) {
        summary.duplicates = summary.duplicates.saturating_add(1);
        store_summary(shelf, summary);
        return Ok(Put::Found(slot));
    }
    let slot = lowest_free_in(summary.map);
    if slot == SLOTS {
        return refuse(NO_SLOT, SLOTS);
    }
    let end = VERSION_2.end_of_texts(shelf);
    if shelf.len() - end < text.len() {
        return refuse(NO_ROOM, text.len());
    }
    shelf[end..end + text.len()].copy_from_slice(&text);
    VERSION_2.store_entry(shelf, slot, Part { offset: end as u32, length: text.len() as u32 });
    summary.map += 2u64.pow(slot as u32);
    summary.held += text.len() as u32;
    store_summary(shelf, summary);
    Ok(Put::New(slot))
}

/// The entry of an occupied slot of a sound shelf.
fn occupied_entry(shelf: &[u8], slot: usize) -> Answer<Part> {
    check_sound(shelf)?;
    if !is_occupied(map_of(shelf), slot) {
        return refuse(FREE_SLOT, slot);
    }
    Ok(VERSION_2.entry(shelf, slot))
}

/// What Get hands back, a part of the shelf; and why, where it has no bytes.
#[derive(Clone, Copy, Debug, PartialEq, Eq)]
pub struct Got<'a> {
    pub refusal: Option<Refusal>,
    pub offset: usize,
    pub bytes: &'a [u8],
}

/// The text kept in a slot; zero bytes at the shelf's start where refused.
pub fn get(shelf: &[u8], slot: usize) -> Got<'_> {
    match occupied_entry(shelf, slot) {
        Ok(entry) => Got { refusal: None, offset: entry.range().start, bytes: entry.of(shelf) },
        Err(refusal) => Got { refusal: Some(refusal), offset: 0, bytes: &shelf[..0] },
    }
}

/// Takes the text out of a slot and answers its length; later texts move down,
/// and what is vacated becomes zero.
pub fn remove(shelf: &mut [u8], slot: usize) -> Answer<usize> {
    let removed = occupied_entry(shelf, slot)?;
    let end = VERSION_2.end_of_texts(shelf);
    let length = removed.range().len();
    shelf.copy_within(removed.range().end..end, removed.range().start);
    shelf[end - length..end].fill(0);
    for other in occupied_slots(shelf) {
        let entry = VERSION_2.entry(shelf, other);
        if entry.offset > removed.offset {
            let moved = Part { offset: entry.offset - removed.length, length: entry.length };
            VERSION_2.store_entry(shelf, other, moved);
        }
    }
    VERSION_2.store_entry(shelf, slot, Part { offset: 0, length: 0 });
    let mut summary = summary_of(shelf);
    summary.map -= 2u64.pow(slot as u32);
    summary.held -= removed.length;
    store_summary(shelf, summary);
    Ok(length)
}

/// The number of occupied slots, read off the map of a sound shelf.
pub fn occupied(shelf: &[u8]) -> Answer<usize> {
    check_sound(shelf)?;
    Ok(occupied_in(map_of(shelf)))
}

/// The lowest free slot, read off the map of a sound shelf; 64 where none is.
pub fn lowest_free(shelf: &[u8]) -> Answer<usize> {
    check_sound(shelf)?;
    Ok(lowest_free_in(map_of(shelf)))
}

/// The summary in the head of a sound shelf.
pub fn summary(shelf: &[u8]) -> Answer<Summary> {
    check_sound(shelf)?;
    Ok(summary_of(shelf))
}

/// The text bytes held.
pub fn held(shelf: &[u8]) -> Answer<usize> {
    Ok(summary(shelf)?.held as usize)
}

/// The duplicates found.
pub fn duplicates(shelf: &[u8]) -> Answer<u32> {
    Ok(summary(shelf)?.duplicates)
}
