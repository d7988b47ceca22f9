//! The functions of the crate `surface` as C declares them, and beside each a
//! function over slices that no caller can misuse. All that is unsafe stands
//! here.
//!
//! A slice crosses as a pointer and a length; one of no bytes has a pointer
//! too, which is never read.

#![allow(unsafe_code)]

mod layout;

use std::ffi::CStr;
use std::os::raw::c_char;

pub use layout::{
    Comparison, Got, Kept, Listing, Location, Morning, Part, Parties, PieceEnd, Shelving,
    SlotNumbers, Started, SumNumbers, Verdict, Written,
};

extern "C" {
    /// Says which rules the archive follows.
    pub fn hverolda_rules() -> u32;

    /// Says what the library is, as text that ends in a zero byte.
    pub fn hverolda_version() -> *const c_char;

    /// Judges one interchange.
    pub fn hverolda_judge(input: *const u8, length: usize) -> Verdict;

    /// Judges one interchange by a table of message structures.
    pub fn hverolda_judge_by_table(
        table: *const u8,
        table_length: usize,
        input: *const u8,
        length: usize,
    ) -> Verdict;

    /// Stores the normal form of one interchange.
    pub fn hverolda_normalise(
        buffer: *mut u8,
        room: usize,
        input: *const u8,
        length: usize,
    ) -> Written;

    /// Says whether two interchanges are the same.
    pub fn hverolda_compare(
        first: *const u8,
        first_length: usize,
        second: *const u8,
        second_length: usize,
    ) -> Comparison;

    /// Says which of two interchanges that are the same is to be kept.
    pub fn hverolda_keep(
        first: *const u8,
        first_length: usize,
        second: *const u8,
        second_length: usize,
    ) -> Kept;

    /// Says where a component is spelled.
    pub fn hverolda_locate_value(
        input: *const u8,
        length: usize,
        segment: usize,
        element: usize,
        repeat: usize,
        component: usize,
    ) -> Location;

    /// Says which part of the input spells a component.
    pub fn hverolda_value_part(
        input: *const u8,
        length: usize,
        segment: usize,
        element: usize,
        repeat: usize,
        component: usize,
    ) -> Part;

    /// Says which parts of the input spell sender, recipient and control reference.
    pub fn hverolda_parties(input: *const u8, length: usize) -> Parties;

    /// Stores the value list of one interchange.
    pub fn hverolda_read(
        bytes: *mut u8,
        bytes_room: usize,
        table: *mut u32,
        table_room: usize,
        input: *const u8,
        length: usize,
    ) -> Listing;

    /// Stores the text of a value list.
    pub fn hverolda_write(
        service: *const u8,
        service_length: usize,
        bytes: *const u8,
        bytes_length: usize,
        table: *const u32,
        table_length: usize,
        output: *mut u8,
        room: usize,
    ) -> Written;

    /// Stores the acknowledgement of one interchange.
    pub fn hverolda_acknowledge(
        received: *const u8,
        length: usize,
        date: *const u8,
        date_length: usize,
        date_table: *const u32,
        date_table_length: usize,
        reference: *const u8,
        reference_length: usize,
        reference_table: *const u32,
        reference_table_length: usize,
        message: *const u8,
        message_length: usize,
        message_table: *const u32,
        message_table_length: usize,
        output: *mut u8,
        room: usize,
    ) -> Written;

    /// Stores the contents of one interchange in columns.
    pub fn hverolda_export(
        buffer: *mut u8,
        room: usize,
        input: *const u8,
        length: usize,
    ) -> Written;

    /// Stores the interchange of a text in columns.
    pub fn hverolda_import(
        service: *const u8,
        service_length: usize,
        columns: *const u8,
        length: usize,
        output: *mut u8,
        room: usize,
    ) -> Written;

    /// Writes an empty shelf over a buffer.
    pub fn hverolda_shelf_start(shelf: *mut u8, size: usize) -> Started;

    /// Keeps the normal form of one interchange.
    pub fn hverolda_shelf_put(
        shelf: *mut u8,
        size: usize,
        input: *const u8,
        length: usize,
    ) -> Shelving;

    /// Says which part of the shelf is the text that a slot keeps.
    pub fn hverolda_shelf_get(shelf: *const u8, size: usize, slot: usize) -> Got;

    /// Takes away the text that a slot keeps.
    pub fn hverolda_shelf_remove(shelf: *mut u8, size: usize, slot: usize) -> Written;

    /// Says how many slots are occupied, and which free one is the lowest.
    pub fn hverolda_shelf_slots(shelf: *const u8, size: usize) -> SlotNumbers;

    /// Says how many bytes are held, and how many duplicates were found.
    pub fn hverolda_shelf_sums(shelf: *const u8, size: usize) -> SumNumbers;

    /// Turns a shelf of version 1 into one of version 2.
    pub fn hverolda_shelf_carry(shelf: *mut u8, size: usize) -> Started;

    /// Turns a shelf of version 2 into one of version 1.
    pub fn hverolda_shelf_carry_back(shelf: *mut u8, size: usize) -> Started;

    /// Says the morning figures of a mailbox file.
    pub fn hverolda_report(file: *const u8, length: usize) -> Morning;

    /// Says how the first piece of a mailbox file ends.
    pub fn hverolda_piece(file: *const u8, length: usize) -> PieceEnd;
}

// Each function below passes on the pointer and the length of slices that are
// lent for the call. The functions are proved, for any bytes and any lengths,
// to read and write nothing but these slices and to keep no pointer.

/// Says which rules the archive follows.
pub fn rules() -> u32 {
    // SAFETY: nothing is lent.
    unsafe { hverolda_rules() }
}

/// Says what the library is. It is plain ASCII, and told as nothing where it is not.
pub fn version() -> &'static str {
    // SAFETY: nothing is lent; what comes back ends in a zero byte and stays.
    unsafe { CStr::from_ptr(hverolda_version()) }.to_str().unwrap_or("")
}

/// Judges one interchange.
pub fn judge(input: &[u8]) -> Verdict {
    // SAFETY: the pointer and the length are those of a lent slice.
    unsafe { hverolda_judge(input.as_ptr(), input.len()) }
}

/// Judges one interchange by a table of message structures.
pub fn judge_by_table(table: &[u8], input: &[u8]) -> Verdict {
    // SAFETY: as in `judge`; neither slice is written, so they may overlap.
    unsafe { hverolda_judge_by_table(table.as_ptr(), table.len(), input.as_ptr(), input.len()) }
}

/// Stores the normal form of one interchange.
pub fn normalise(input: &[u8], buffer: &mut [u8]) -> Written {
    // SAFETY: as in `judge`; `buffer` overlaps no other slice, as it is `&mut`.
    unsafe { hverolda_normalise(buffer.as_mut_ptr(), buffer.len(), input.as_ptr(), input.len()) }
}

/// Says whether two interchanges are the same.
pub fn compare(first: &[u8], second: &[u8]) -> Comparison {
    // SAFETY: as in `judge`; neither slice is written, so they may overlap.
    unsafe { hverolda_compare(first.as_ptr(), first.len(), second.as_ptr(), second.len()) }
}

/// Says which of two interchanges that are the same is to be kept.
pub fn keep(first: &[u8], second: &[u8]) -> Kept {
    // SAFETY: as in `compare`.
    unsafe { hverolda_keep(first.as_ptr(), first.len(), second.as_ptr(), second.len()) }
}

/// Says where a component is spelled.
pub fn locate(
    input: &[u8],
    segment: usize,
    element: usize,
    repeat: usize,
    component: usize,
) -> Location {
    // SAFETY: as in `judge`; the four numbers may be any.
    unsafe {
        hverolda_locate_value(input.as_ptr(), input.len(), segment, element, repeat, component)
    }
}

/// Says which part of the input spells a component.
pub fn part(input: &[u8], segment: usize, element: usize, repeat: usize, component: usize) -> Part {
    // SAFETY: as in `locate`.
    unsafe { hverolda_value_part(input.as_ptr(), input.len(), segment, element, repeat, component) }
}

/// Says which parts of the input spell sender, recipient and control reference.
pub fn parties(input: &[u8]) -> Parties {
    // SAFETY: as in `judge`.
    unsafe { hverolda_parties(input.as_ptr(), input.len()) }
}

/// Stores the value list of one interchange.
pub fn read(input: &[u8], bytes: &mut [u8], table: &mut [u32]) -> Listing {
    let (room, numbers) = (bytes.len(), table.len());
    // SAFETY: as in `normalise`, for both `&mut` slices.
    unsafe {
        hverolda_read(
            bytes.as_mut_ptr(),
            room,
            table.as_mut_ptr(),
            numbers,
            input.as_ptr(),
            input.len(),
        )
    }
}

/// Stores the text of a value list.
pub fn write(service: &[u8], bytes: &[u8], table: &[u32], output: &mut [u8]) -> Written {
    // SAFETY: as in `normalise`; the other slices are only read.
    unsafe {
        hverolda_write(
            service.as_ptr(),
            service.len(),
            bytes.as_ptr(),
            bytes.len(),
            table.as_ptr(),
            table.len(),
            output.as_mut_ptr(),
            output.len(),
        )
    }
}

/// Stores the acknowledgement of one interchange. Each of the three lists is its values
/// and its table.
pub fn acknowledge(
    received: &[u8],
    date: (&[u8], &[u32]),
    reference: (&[u8], &[u32]),
    message: (&[u8], &[u32]),
    output: &mut [u8],
) -> Written {
    // SAFETY: as in `normalise`; the other slices are only read.
    unsafe {
        hverolda_acknowledge(
            received.as_ptr(),
            received.len(),
            date.0.as_ptr(),
            date.0.len(),
            date.1.as_ptr(),
            date.1.len(),
            reference.0.as_ptr(),
            reference.0.len(),
            reference.1.as_ptr(),
            reference.1.len(),
            message.0.as_ptr(),
            message.0.len(),
            message.1.as_ptr(),
            message.1.len(),
            output.as_mut_ptr(),
            output.len(),
        )
    }
}

/// Stores the contents of one interchange in columns.
pub fn export(input: &[u8], buffer: &mut [u8]) -> Written {
    // SAFETY: as in `normalise`.
    unsafe { hverolda_export(buffer.as_mut_ptr(), buffer.len(), input.as_ptr(), input.len()) }
}

/// Stores the interchange of a text in columns.
pub fn import(service: &[u8], columns: &[u8], output: &mut [u8]) -> Written {
    // SAFETY: as in `normalise`; the other slices are only read.
    unsafe {
        hverolda_import(
            service.as_ptr(),
            service.len(),
            columns.as_ptr(),
            columns.len(),
            output.as_mut_ptr(),
            output.len(),
        )
    }
}

/// Writes an empty shelf over a buffer.
pub fn shelf_start(shelf: &mut [u8]) -> Started {
    // SAFETY: as in `normalise`.
    unsafe { hverolda_shelf_start(shelf.as_mut_ptr(), shelf.len()) }
}

/// Keeps the normal form of one interchange.
pub fn shelf_put(shelf: &mut [u8], input: &[u8]) -> Shelving {
    // SAFETY: as in `normalise`.
    unsafe { hverolda_shelf_put(shelf.as_mut_ptr(), shelf.len(), input.as_ptr(), input.len()) }
}

/// Says which part of the shelf is the text that a slot keeps.
pub fn shelf_get(shelf: &[u8], slot: usize) -> Got {
    // SAFETY: as in `judge`; the slot may be any number.
    unsafe { hverolda_shelf_get(shelf.as_ptr(), shelf.len(), slot) }
}

/// Takes away the text that a slot keeps.
pub fn shelf_remove(shelf: &mut [u8], slot: usize) -> Written {
    // SAFETY: as in `normalise`; the slot may be any number.
    unsafe { hverolda_shelf_remove(shelf.as_mut_ptr(), shelf.len(), slot) }
}

/// Says how many slots are occupied, and which free one is the lowest.
pub fn shelf_slots(shelf: &[u8]) -> SlotNumbers {
    // SAFETY: as in `judge`.
    unsafe { hverolda_shelf_slots(shelf.as_ptr(), shelf.len()) }
}

/// Says how many bytes are held, and how many duplicates were found.
pub fn shelf_sums(shelf: &[u8]) -> SumNumbers {
    // SAFETY: as in `judge`.
    unsafe { hverolda_shelf_sums(shelf.as_ptr(), shelf.len()) }
}

/// Turns a shelf of version 1 into one of version 2.
pub fn shelf_carry(shelf: &mut [u8]) -> Started {
    // SAFETY: as in `normalise`.
    unsafe { hverolda_shelf_carry(shelf.as_mut_ptr(), shelf.len()) }
}

/// Turns a shelf of version 2 into one of version 1.
pub fn shelf_carry_back(shelf: &mut [u8]) -> Started {
    // SAFETY: as in `normalise`.
    unsafe { hverolda_shelf_carry_back(shelf.as_mut_ptr(), shelf.len()) }
}

/// Says the morning figures of a mailbox file.
pub fn report(file: &[u8]) -> Morning {
    // SAFETY: as in `judge`.
    unsafe { hverolda_report(file.as_ptr(), file.len()) }
}

/// Says how the first piece of a mailbox file ends.
pub fn piece(file: &[u8]) -> PieceEnd {
    // SAFETY: as in `judge`.
    unsafe { hverolda_piece(file.as_ptr(), file.len()) }
}
