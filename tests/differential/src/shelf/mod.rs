//! Histories of shelves: two sides and the second program do the same operations
//! on the same bytes, which are damaged now and then, and must give the same
//! answers and leave the same bytes, and the guards around them as they were.
//!
//! Change requests 2026-04, "The shelf", and 2026-06, "A shelf that knows its own
//! sums"; 2026-07, "Old shelves carried over, and back", stands in [`carrying`].

mod beginnings;
pub mod carrying;
mod counts;
mod damage;
mod history;
mod layout;
pub mod sides;
mod texts;

use second::generator::Random;

use crate::lent::Lender;
pub use counts::Counts;
use sides::{Operations, SURFACE, WRAPPER};

/// So many operations of the surface and of the wrapper beside the second
/// program's; what occurred, or the first difference.
pub fn run(seed: u64, count: u64, tight: bool) -> Result<Counts, String> {
    run_with(&[SURFACE, WRAPPER], seed, count, tight)
}

/// In histories of some hundreds each.
fn run_with(sides: &[Operations], seed: u64, count: u64, tight: bool) -> Result<Counts, String> {
    let mut random = Random::new(seed);
    let mut lender = Lender::new(seed, tight);
    let pool = texts::Pool::new(&mut random);
    let mut counts = Counts::default();
    while counts.operations < count {
        let length = (count - counts.operations).min(random.between(100, 500) as u64);
        let told = history::History::new(sides, &pool, random.number(), &mut lender, &mut counts)
            .run(length);
        told.map_err(|what| format!("operation {}: {what}", counts.operations))?;
    }
    Ok(counts)
}

#[cfg(test)]
mod tests {
    use super::sides::SECOND;
    use super::*;
    use hverolda::surface::{Got, Shelving, SumNumbers};
    use second::refusal::{FREE_SLOT, NO_ROOM};
    use second::shelf::SMALLEST;

    /// Enough for everything that must occur.
    const COUNT: u64 = 60_000;

    #[test]
    fn the_second_program_agrees_with_itself_and_everything_occurs() {
        let counts = run_with(&[SECOND], 1, COUNT, false).expect("one side is the other");
        assert_eq!(counts.operations, COUNT);
        assert_eq!(counts.gaps(), Vec::<String>::new());
    }

    /// What is told of operations that are not as they should be.
    fn told(operations: Operations) -> String {
        run_with(&[operations], 1, COUNT, false).err().expect("this is to be seen")
    }

    #[test]
    fn a_copy_that_is_told_as_new_is_seen() {
        let put = |bytes: &mut [u8], input: &[u8]| {
            let told = (SECOND.put)(bytes, input);
            Shelving { added: u32::from(told.number == 0), ..told }
        };
        assert!(told(Operations { put, ..SECOND }).contains("put"));
    }

    #[test]
    fn a_slot_beside_a_refusal_is_seen() {
        let put = |bytes: &mut [u8], input: &[u8]| {
            let told = (SECOND.put)(bytes, input);
            Shelving { slot: told.slot.max(told.number as usize), ..told }
        };
        assert!(told(Operations { put, ..SECOND }).contains("put"));
    }

    #[test]
    fn what_is_not_zeroed_is_seen() {
        let remove = |bytes: &mut [u8], slot: usize| {
            let last = bytes.last().copied();
            let told = (SECOND.remove)(bytes, slot);
            if let (0, Some(last), Some(now)) = (told.number, last, bytes.last_mut()) {
                *now = last;
            }
            told
        };
        assert!(told(Operations { remove, ..SECOND }).contains("bytes"));
    }

    #[test]
    fn another_slot_is_seen() {
        // the slots 62 and 63 exchanged
        let put = |bytes: &mut [u8], input: &[u8]| match (SECOND.put)(bytes, input) {
            Shelving { number: 0, added: 1, slot: 62, place } if bytes[5] & 128 == 0 => {
                bytes[5] ^= 128 | 64;
                bytes.copy_within(21 + 62 * 8..21 + 63 * 8, 21 + 63 * 8);
                bytes[21 + 62 * 8..21 + 63 * 8].fill(0);
                Shelving { number: 0, added: 1, slot: 63, place }
            }
            told => told,
        };
        assert!(told(Operations { put, ..SECOND }).contains("put"));
    }

    #[test]
    fn the_place_of_18_is_seen() {
        let put = |bytes: &mut [u8], input: &[u8]| {
            let told = (SECOND.put)(bytes, input);
            Shelving { place: told.place - usize::from(told.number == NO_ROOM), ..told }
        };
        assert!(told(Operations { put, ..SECOND }).contains("put"));
    }

    #[test]
    fn the_place_of_20_is_seen() {
        let get = |bytes: &mut [u8], slot: usize| match (SECOND.get)(bytes, slot) {
            told if told.number == FREE_SLOT => Got { place: slot % 256, ..told },
            told => told,
        };
        assert!(told(Operations { get, ..SECOND }).contains("get"));
    }

    #[test]
    fn a_shelf_that_is_taken_for_sound_is_seen() {
        // nobody looks at the last byte
        let slots = |bytes: &mut [u8]| {
            let mut other = bytes.to_vec();
            if let Some(last) = other.last_mut() {
                *last = 0;
            }
            (SECOND.slots)(&mut other)
        };
        assert!(told(Operations { slots, ..SECOND }).contains("slots"));
    }

    #[test]
    fn a_figure_that_does_not_stay_is_seen() {
        let put = |bytes: &mut [u8], input: &[u8]| {
            let full = bytes.len() > 20 && bytes[17..21] == [255; 4];
            let told = (SECOND.put)(bytes, input);
            if let (0, 0, true) = (told.number, told.added, full) {
                bytes[17..21].fill(0);
            }
            told
        };
        assert!(told(Operations { put, ..SECOND }).contains("bytes"));
    }

    #[test]
    fn a_figure_of_16_bits_is_seen() {
        let put = |bytes: &mut [u8], input: &[u8]| {
            let high = bytes.get(17..19).map(<[u8]>::to_vec);
            let told = (SECOND.put)(bytes, input);
            if let Some(high) = high {
                bytes[17..19].copy_from_slice(&high);
            }
            told
        };
        assert!(told(Operations { put, ..SECOND }).contains("bytes"));
    }

    #[test]
    fn bytes_held_that_nobody_looks_at_are_seen() {
        // another sum is taken for the sum of the lengths
        let slots = |bytes: &mut [u8]| {
            let mut other = bytes.to_vec();
            if other.len() >= SMALLEST {
                layout::mend_held(&mut other);
            }
            (SECOND.slots)(&mut other)
        };
        assert!(told(Operations { slots, ..SECOND }).contains("slots"));
    }

    #[test]
    fn a_remove_that_starts_the_figure_anew_is_seen() {
        let remove = |bytes: &mut [u8], slot: usize| {
            let told = (SECOND.remove)(bytes, slot);
            if told.number == 0 {
                bytes[17..21].fill(0);
            }
            told
        };
        assert!(told(Operations { remove, ..SECOND }).contains("bytes"));
    }

    #[test]
    fn a_refused_put_that_raises_the_figure_is_seen() {
        let put = |bytes: &mut [u8], input: &[u8]| {
            let told = (SECOND.put)(bytes, input);
            if told.number == NO_ROOM {
                bytes[20] = bytes[20].saturating_add(1);
            }
            told
        };
        assert!(told(Operations { put, ..SECOND }).contains("bytes"));
    }

    #[test]
    fn sums_in_the_place_of_each_other_are_seen() {
        let sums = |bytes: &mut [u8]| {
            let told = (SECOND.sums)(bytes);
            SumNumbers { held: told.duplicates, duplicates: told.held, ..told }
        };
        assert!(told(Operations { sums, ..SECOND }).contains("sums"));
    }

    #[test]
    fn a_refused_put_that_stores_is_seen() {
        let put = |bytes: &mut [u8], input: &[u8]| {
            let told = (SECOND.put)(bytes, input);
            if let (NO_ROOM, Some(last)) = (told.number, bytes.last_mut()) {
                *last ^= 1;
            }
            told
        };
        assert!(told(Operations { put, ..SECOND }).contains("bytes"));
    }

    #[test]
    fn a_get_that_stores_is_seen() {
        let get = |bytes: &mut [u8], slot: usize| {
            let told = (SECOND.get)(bytes, slot);
            if let (0, Some(last)) = (told.number, bytes.last_mut()) {
                *last ^= 1;
            }
            told
        };
        assert!(told(Operations { get, ..SECOND }).contains("bytes"));
    }
}
