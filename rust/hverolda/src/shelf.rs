//! The shelf: a buffer that keeps each interchange once.

use crate::refusal::{Fault, Refusal};
use crate::{surface, SLOTS};

/// What [`Shelf::put`] says of an interchange that it took.
#[derive(Clone, Copy, Debug, PartialEq, Eq, Hash)]
pub enum Shelved {
    /// Its normal form was not there: it is now, in this slot.
    New(usize),
    /// Its normal form was there already, in this slot: one more duplicate was
    /// found, and nothing else has changed.
    Copy(usize),
}

impl Shelved {
    /// The slot in which the normal form is, in both cases.
    #[must_use]
    pub fn slot(self) -> usize {
        match self {
            Shelved::New(slot) | Shelved::Copy(slot) => slot,
        }
    }
}

/// What is read off a shelf's map.
#[derive(Clone, Copy, Debug, PartialEq, Eq, Hash)]
pub struct Slots {
    /// How many slots are occupied.
    pub occupied: usize,
    /// The lowest free slot, into which the next new text goes; none where all 64
    /// are occupied.
    pub lowest_free: Option<usize>,
}

/// The two sums that a shelf keeps of itself.
#[derive(Clone, Copy, Debug, PartialEq, Eq, Hash)]
pub struct Sums {
    /// How many bytes the kept texts have together.
    pub held: usize,
    /// How many puts found their copy since the shelf was started, or carried over
    /// from version 1; it stays at [`MOST_DUPLICATES`](crate::MOST_DUPLICATES).
    pub duplicates: u32,
}

/// A shelf over a buffer that is lent (`&mut [u8]`) or owned (`Vec<u8>`,
/// `Box<[u8]>`, `[u8; N]`). It keeps up to 64 normal forms, all different, and
/// counts the duplicates that it finds.
///
/// Each call judges the whole shelf first, whatever its bytes are, and refuses
/// one that is not sound by 19: bytes that come from a file or from somebody
/// else may be wrapped as they are. A shelf of version 1, which had no sums, is
/// refused by 19 too: [`Shelf::carry`] makes it one of version 2.
///
/// ```
/// use hverolda::{Shelf, Shelved, Sums};
///
/// let first = b"UNB+UNOA:1++++1'UNH+1'UNT+2+1'UNZ+1+1'";
/// let second = b"UNA;*.! ~UNB*UNOA;1****1~UNH*1~UNT*2*1~UNZ*1*1~";
/// let mut shelf = Shelf::start(vec![0; 4096])?;
/// assert_eq!(shelf.put(first)?, Shelved::New(0));
/// assert_eq!(shelf.put(second)?, Shelved::Copy(0));
/// assert_eq!(shelf.get(0)?, b"UNA:+.? 'UNB+UNOA:1++++1'UNH+1'UNT+2+1'UNZ+1+1'");
/// assert_eq!(shelf.sums()?, Sums { held: 47, duplicates: 1 });
/// assert_eq!(shelf.remove(0)?, 47);
/// assert_eq!(shelf.sums()?, Sums { held: 0, duplicates: 1 });
/// # Ok::<(), hverolda::Refusal>(())
/// ```
#[derive(Clone, Debug, PartialEq, Eq)]
pub struct Shelf<B> {
    buffer: B,
}

impl<B> Shelf<B> {
    /// The shelf that a buffer holds. Whether it is sound is asked by each call.
    pub fn over(buffer: B) -> Shelf<B> {
        Shelf { buffer }
    }

    /// The buffer.
    pub fn into_inner(self) -> B {
        self.buffer
    }
}

impl<B: AsRef<[u8]>> Shelf<B> {
    /// The bytes of the shelf.
    #[must_use]
    pub fn as_bytes(&self) -> &[u8] {
        self.buffer.as_ref()
    }

    /// How many slots are occupied, and the lowest free one.
    ///
    /// # Errors
    ///
    /// 19 where the shelf is not sound.
    pub fn slots(&self) -> Result<Slots, Refusal> {
        let told = surface::shelf_slots(self.as_bytes());
        Refusal::told(told.number, told.place)?;
        let lowest_free = Some(told.lowest).filter(|slot| *slot < SLOTS);
        Ok(Slots { occupied: told.occupied, lowest_free })
    }

    /// How many bytes are held, and how many duplicates were found.
    ///
    /// # Errors
    ///
    /// 19 where the shelf is not sound.
    pub fn sums(&self) -> Result<Sums, Refusal> {
        let told = surface::shelf_sums(self.as_bytes());
        Refusal::told(told.number, told.place)?;
        Ok(Sums { held: told.held as usize, duplicates: told.duplicates })
    }

    /// The text that is kept in a slot.
    ///
    /// # Errors
    ///
    /// 19 where the shelf is not sound, then 20 where the slot is free or above 63.
    pub fn get(&self, slot: usize) -> Result<&[u8], Refusal> {
        let shelf = self.as_bytes();
        let told = surface::shelf_get(shelf, slot);
        Refusal::told(told.number, told.place)?;
        Ok(&shelf[told.offset..][..told.length])
    }

    /// The slot that keeps the interchange under whatever spelling, if any does. Nothing
    /// changes, and no duplicate is counted.
    ///
    /// # Errors
    ///
    /// 19 where the shelf is not sound; then what [`judge`](crate::judge) refuses the
    /// interchange by.
    pub fn find(&self, interchange: &[u8]) -> Result<Option<usize>, Refusal> {
        // a put looks for a copy before it asks for a free slot or for free bytes
        match Shelf::over(self.as_bytes().to_vec()).put(interchange) {
            Ok(Shelved::Copy(slot)) => Ok(Some(slot)),
            Ok(Shelved::New(_)) => Ok(None),
            Err(Refusal { fault: Fault::NoSlot | Fault::NoRoom, .. }) => Ok(None),
            Err(refusal) => Err(refusal),
        }
    }
}

impl<B: AsRef<[u8]> + AsMut<[u8]>> Shelf<B> {
    /// Writes an empty shelf over the buffer; no duplicates were found.
    ///
    /// # Errors
    ///
    /// 19 where the buffer has fewer than 533 bytes or more than 65,536; its bytes
    /// are then unchanged.
    pub fn start(mut buffer: B) -> Result<Shelf<B>, Refusal> {
        let told = surface::shelf_start(buffer.as_mut());
        Refusal::told(told.number, told.place)?;
        Ok(Shelf { buffer })
    }

    /// Turns a shelf of version 1 into one of version 2, in its own buffer. Slots and
    /// texts stay; no duplicates were found.
    ///
    /// ```
    /// use hverolda::{Shelf, Sums};
    ///
    /// let mut shelf = Shelf::start(vec![0; 600])?;
    /// shelf.put(b"UNB+UNOA:1++++1'UNH+1'UNT+2+1'UNZ+1+1'")?;
    /// shelf.carry_back()?;
    /// assert_eq!(shelf.sums().unwrap_err().number(), 19);
    /// shelf.carry()?;
    /// assert_eq!(shelf.sums()?, Sums { held: 47, duplicates: 0 });
    /// # Ok::<(), hverolda::Refusal>(())
    /// ```
    ///
    /// # Errors
    ///
    /// 19 where the buffer holds no sound shelf of version 1; then 18, with the 8
    /// bytes that the sums need, where fewer are free. Its bytes are then unchanged.
    pub fn carry(&mut self) -> Result<(), Refusal> {
        let told = surface::shelf_carry(self.buffer.as_mut());
        Refusal::told(told.number, told.place)
    }

    /// Turns the shelf into one of version 1, in its own buffer. Slots and texts stay;
    /// how many duplicates were found is lost. All calls but [`carry`](Shelf::carry)
    /// then refuse it by 19: it is for a site that has no version 2 yet.
    ///
    /// # Errors
    ///
    /// 19 where the shelf is not sound. Its bytes are then unchanged.
    pub fn carry_back(&mut self) -> Result<(), Refusal> {
        let told = surface::shelf_carry_back(self.buffer.as_mut());
        Refusal::told(told.number, told.place)
    }

    /// Keeps an interchange, unless its normal form is there already: then the
    /// duplicates found are one more, up to [`MOST_DUPLICATES`](crate::MOST_DUPLICATES).
    ///
    /// # Errors
    ///
    /// 19 where the shelf is not sound; then what [`judge`](crate::judge) refuses
    /// the interchange by; then, for a text that is not there, 17 where no slot is
    /// free and 18, with the bytes that it needs, where fewer are free. The shelf
    /// is then unchanged.
    pub fn put(&mut self, interchange: &[u8]) -> Result<Shelved, Refusal> {
        let told = surface::shelf_put(self.buffer.as_mut(), interchange);
        Refusal::told(told.number, told.place)?;
        Ok(match told.added {
            0 => Shelved::Copy(told.slot),
            _ => Shelved::New(told.slot),
        })
    }

    /// Takes the text of a slot away and answers how long it was. Its slot and its
    /// bytes are free again; the other texts keep their slots, and the duplicates
    /// found stay.
    ///
    /// # Errors
    ///
    /// 19 where the shelf is not sound, then 20 where the slot is free or above 63.
    /// The shelf is then unchanged.
    pub fn remove(&mut self, slot: usize) -> Result<usize, Refusal> {
        let told = surface::shelf_remove(self.buffer.as_mut(), slot);
        Refusal::told(told.number, told.place)?;
        Ok(told.length)
    }
}

#[cfg(test)]
mod tests {
    use super::*;
    use crate::examples::{NORMAL, RESPELLED, WRONG_COUNT, X};
    use crate::{LARGEST_SHELF, MOST_DUPLICATES, SMALLEST_SHELF};

    fn refusal<T: std::fmt::Debug>(result: Result<T, Refusal>) -> (u32, usize) {
        let refusal = result.unwrap_err();
        (refusal.number(), refusal.place)
    }

    /// X with a reference of its own, and its normal form, which has 99 bytes.
    fn numbered(number: usize) -> (Vec<u8>, Vec<u8>) {
        let reference = format!("R1{number:03}");
        let text = |plain: &[u8]| {
            String::from_utf8(plain.to_vec()).unwrap().replace("R1", &reference).into_bytes()
        };
        (text(X), text(NORMAL))
    }

    /// A shelf of X and another, of 1,000 bytes.
    fn two_texts() -> Shelf<Vec<u8>> {
        let mut shelf = Shelf::start(vec![7; 1_000]).unwrap();
        assert_eq!(shelf.put(X), Ok(Shelved::New(0)));
        assert_eq!(shelf.put(&numbered(1).0), Ok(Shelved::New(1)));
        shelf
    }

    fn sums(held: usize, duplicates: u32) -> Result<Sums, Refusal> {
        Ok(Sums { held, duplicates })
    }

    /// The shelf with this figure of duplicates found.
    fn with_duplicates(mut shelf: Shelf<Vec<u8>>, figure: u32) -> Shelf<Vec<u8>> {
        shelf.buffer[17..21].copy_from_slice(&figure.to_be_bytes());
        shelf
    }

    #[test]
    fn a_lent_buffer_and_owned_ones() {
        let mut lent = [7; 1_000];
        let mut shelf = Shelf::start(&mut lent[..]).unwrap();
        assert_eq!(shelf.put(X), Ok(Shelved::New(0)));
        assert_eq!(shelf.into_inner().len(), 1_000);
        assert_eq!(Shelf::over(&lent[..]).get(0), Ok(NORMAL));
        let mut of_vector = Shelf::start(vec![7; 1_000]).unwrap();
        let mut of_box = Shelf::start(vec![7; 1_000].into_boxed_slice()).unwrap();
        let mut of_array = Shelf::start([7; 1_000]).unwrap();
        assert_eq!(of_vector.put(RESPELLED), Ok(Shelved::New(0)));
        assert_eq!(of_box.put(RESPELLED), Ok(Shelved::New(0)));
        assert_eq!(of_array.put(RESPELLED), Ok(Shelved::New(0)));
        for bytes in [of_vector.as_bytes(), of_box.as_bytes(), of_array.as_bytes()] {
            assert_eq!(bytes, lent);
        }
    }

    #[test]
    fn start_writes_over_any_bytes() {
        for size in [SMALLEST_SHELF, 1_000, LARGEST_SHELF] {
            let shelf = Shelf::start(vec![0xA5; size]).unwrap();
            let empty = [&b"EDS\x00\x02"[..], &vec![0; size - 5]].concat();
            assert_eq!(shelf.as_bytes(), empty);
            assert_eq!(shelf.slots(), Ok(Slots { occupied: 0, lowest_free: Some(0) }));
            assert_eq!(shelf.sums(), sums(0, 0));
        }
    }

    #[test]
    fn a_buffer_of_another_size_is_left_alone() {
        for size in [0, 1, 525, SMALLEST_SHELF - 1, LARGEST_SHELF + 1] {
            let mut buffer = vec![0xA5; size];
            assert_eq!(refusal(Shelf::start(&mut buffer[..])), (19, 0));
            assert_eq!(buffer, vec![0xA5; size]);
            assert_eq!(refusal(Shelf::over(&buffer).slots()), (19, 0));
            assert_eq!(refusal(Shelf::over(&buffer).sums()), (19, 0));
        }
    }

    #[test]
    fn a_copy_under_another_spelling_raises_the_figure_alone() {
        let mut shelf = two_texts();
        assert_eq!(shelf.sums(), sums(93 + 99, 0));
        for (copies, spelling) in [(1, X), (2, RESPELLED), (3, NORMAL)] {
            assert_eq!(shelf.put(spelling), Ok(Shelved::Copy(0)));
            assert_eq!(shelf.sums(), sums(93 + 99, copies));
        }
        assert_eq!(shelf.put(&numbered(1).1).map(Shelved::slot), Ok(1));
        assert_eq!(shelf, with_duplicates(two_texts(), 4));
        assert_eq!(shelf.slots(), Ok(Slots { occupied: 2, lowest_free: Some(2) }));
    }

    #[test]
    fn the_figure_stays_at_its_most() {
        for before in [0, 255, 65_535, u32::MAX - 2, u32::MAX - 1, u32::MAX] {
            let mut shelf = with_duplicates(two_texts(), before);
            assert_eq!(shelf.sums(), sums(93 + 99, before));
            for copies in 1..=3 {
                assert_eq!(shelf.put(X), Ok(Shelved::Copy(0)));
                let figure = (MOST_DUPLICATES - before).min(copies) + before;
                assert_eq!(shelf.sums(), sums(93 + 99, figure));
            }
        }
        assert_eq!(MOST_DUPLICATES, u32::MAX);
    }

    #[test]
    fn what_is_refused_or_new_or_removed_leaves_the_figure() {
        let mut shelf = with_duplicates(two_texts(), 7);
        let before = shelf.clone();
        assert_eq!(refusal(shelf.put(WRONG_COUNT)), (12, 67));
        assert_eq!(refusal(shelf.remove(2)), (20, 2));
        assert_eq!(shelf, before);
        assert_eq!(shelf.put(&numbered(2).0), Ok(Shelved::New(2)));
        assert_eq!(shelf.sums(), sums(93 + 99 + 99, 7));
        assert_eq!(shelf.remove(0), Ok(93));
        assert_eq!(shelf.sums(), sums(99 + 99, 7));
    }

    #[test]
    fn a_text_is_a_part_of_the_shelf() {
        let shelf = two_texts();
        let text = shelf.get(1).unwrap();
        assert_eq!(text, numbered(1).1);
        let place = SMALLEST_SHELF + NORMAL.len();
        assert_eq!(text.as_ptr(), shelf.as_bytes()[place..].as_ptr());
    }

    #[test]
    fn what_is_removed_can_be_put_again() {
        let mut shelf = two_texts();
        assert_eq!(shelf.remove(0), Ok(NORMAL.len()));
        assert_eq!(shelf.slots(), Ok(Slots { occupied: 1, lowest_free: Some(0) }));
        assert_eq!(shelf.get(1), Ok(&numbered(1).1[..]));
        assert_eq!(refusal(shelf.get(0)), (20, 0));
        assert_eq!(shelf.put(RESPELLED), Ok(Shelved::New(0)));
        assert_eq!(shelf.get(0), Ok(NORMAL));
        assert_eq!(shelf.remove(1), Ok(99));
        assert_eq!(shelf.remove(0), Ok(NORMAL.len()));
        assert_eq!(shelf, Shelf::start(vec![0; 1_000]).unwrap());
    }

    #[test]
    fn a_full_shelf_refuses_what_is_new() {
        let size = SMALLEST_SHELF + SLOTS * 99;
        for room in [0, 1_000] {
            let mut shelf = Shelf::start(vec![0; size + room]).unwrap();
            for number in 0..SLOTS {
                assert_eq!(shelf.put(&numbered(number).0), Ok(Shelved::New(number)));
            }
            let before = shelf.clone();
            assert_eq!(shelf.slots(), Ok(Slots { occupied: SLOTS, lowest_free: None }));
            assert_eq!(refusal(shelf.put(X)), (17, 64));
            assert_eq!(refusal(shelf.put(WRONG_COUNT)), (12, 67));
            assert_eq!(shelf, before);
            assert_eq!(shelf.put(&numbered(63).1), Ok(Shelved::Copy(63)));
            assert_eq!(shelf, with_duplicates(before, 1));
        }
        let mut shelf = Shelf::start(vec![0; SMALLEST_SHELF + 92]).unwrap();
        assert_eq!(refusal(shelf.put(X)), (18, NORMAL.len()));
        assert_eq!(shelf, Shelf::start(vec![0; SMALLEST_SHELF + 92]).unwrap());
    }

    #[test]
    fn a_slot_may_be_any_number() {
        let mut shelf = two_texts();
        for slot in [2, 63, 64, 64 + 1, 1 << 32, usize::MAX] {
            assert_eq!(refusal(shelf.get(slot)), (20, slot));
            assert_eq!(refusal(shelf.remove(slot)), (20, slot));
        }
        assert_eq!(shelf, two_texts());
    }

    #[test]
    fn a_damaged_shelf_is_refused_before_all_else() {
        let sound = two_texts().into_inner();
        let first = SMALLEST_SHELF;
        // the beginning, the version, the map, the bytes held, a start, a length, a free entry, a
        // text, a free byte
        let places = [0, 4, 12, 16, 24, 28, 21 + 8 * 63, first, first + 92, first + 93 + 99, 999];
        for place in places {
            let mut damaged = sound.clone();
            damaged[place] ^= 1;
            let before = damaged.clone();
            let mut shelf = Shelf::over(&mut damaged[..]);
            assert_eq!(refusal(shelf.put(WRONG_COUNT)), (19, 0), "byte {place}");
            assert_eq!(refusal(shelf.remove(64)), (19, 0));
            assert_eq!(refusal(shelf.get(0)), (19, 0));
            assert_eq!(refusal(shelf.slots()), (19, 0));
            assert_eq!(refusal(shelf.sums()), (19, 0));
            assert_eq!(damaged, before);
        }
    }

    #[test]
    fn a_held_figure_that_is_wrong_by_one_is_refused() {
        for held in [93 + 99 - 1, 93 + 99 + 1, 0, 93 + 99 + 65_536, u32::MAX] {
            let mut shelf = two_texts();
            shelf.buffer[13..17].copy_from_slice(&held.to_be_bytes());
            assert_eq!(refusal(shelf.sums()), (19, 0), "{held} held");
            assert_eq!(refusal(shelf.put(X)), (19, 0));
        }
        let mut empty = Shelf::start(vec![0; SMALLEST_SHELF]).unwrap();
        empty.buffer[16] = 1;
        assert_eq!(refusal(empty.sums()), (19, 0));
    }

    /// The shelf as version 1 had it: without the sums, its texts from byte 525, and
    /// eight free bytes more.
    fn version_1(shelf: Shelf<Vec<u8>>, texts: usize) -> Vec<u8> {
        let mut old = shelf.into_inner();
        old[4] = 1;
        for slot in 0..texts {
            let start = 21 + 8 * slot;
            let place = u32::from_be_bytes(old[start..start + 4].try_into().unwrap());
            old[start..start + 4].copy_from_slice(&(place - 8).to_be_bytes());
        }
        old.drain(13..21);
        old.extend([0; 8]);
        old
    }

    #[test]
    fn a_shelf_of_version_1_is_refused() {
        let empty = Shelf::start(vec![0; SMALLEST_SHELF]).unwrap();
        for old in [version_1(two_texts(), 2), version_1(empty, 0)] {
            let mut shelf = Shelf::over(old.clone());
            assert_eq!(refusal(shelf.put(X)), (19, 0));
            assert_eq!(refusal(shelf.remove(0)), (19, 0));
            assert_eq!(refusal(shelf.get(0)), (19, 0));
            assert_eq!(refusal(shelf.slots()), (19, 0));
            assert_eq!(refusal(shelf.sums()), (19, 0));
            assert_eq!(shelf.as_bytes(), old);
        }
    }

    #[test]
    fn there_and_back_gives_the_same_bytes() {
        let old = version_1(two_texts(), 2);
        assert_eq!(old.len(), 1_000);
        let mut shelf = with_duplicates(two_texts(), 7);
        assert_eq!(shelf.carry_back(), Ok(()));
        assert_eq!(shelf.as_bytes(), old);
        assert_eq!(shelf.carry(), Ok(()));
        assert_eq!(shelf, two_texts());
        assert_eq!(shelf.get(0), Ok(NORMAL));
        assert_eq!(shelf.get(1), Ok(&numbered(1).1[..]));
        assert_eq!(shelf.sums(), sums(93 + 99, 0));
        assert_eq!(shelf.carry_back(), Ok(()));
        assert_eq!(shelf.into_inner(), old);
    }

    #[test]
    fn each_direction_asks_for_its_own_version_and_what_is_refused_is_not_lost() {
        let new = two_texts().into_inner();
        let old = version_1(two_texts(), 2);
        let mut shelf = Shelf::over(new.clone());
        assert_eq!(refusal(shelf.carry()), (19, 0));
        assert_eq!(shelf.into_inner(), new);
        let mut shelf = Shelf::over(old.clone());
        assert_eq!(refusal(shelf.carry_back()), (19, 0));
        assert_eq!(shelf.into_inner(), old);
        for buffer in [vec![0; 700], Vec::new()] {
            let mut shelf = Shelf::over(buffer.clone());
            assert_eq!(refusal(shelf.carry()), (19, 0));
            assert_eq!(refusal(shelf.carry_back()), (19, 0));
            assert_eq!(shelf.into_inner(), buffer);
        }
    }

    #[test]
    fn the_sums_need_eight_free_bytes() {
        let old = version_1(two_texts(), 2);
        let full = 525 + 93 + 99;
        for free in 0..=9 {
            let mut shelf = Shelf::over(old[..full + free].to_vec());
            let carried = shelf.carry();
            match free {
                0..=7 => {
                    assert_eq!(refusal(carried), (18, 8), "{free} free bytes");
                    assert_eq!(shelf.as_bytes(), &old[..full + free]);
                    // eight zero bytes more leave it a sound shelf of version 1
                    let longer = [shelf.as_bytes(), &[0; 8]].concat();
                    assert_eq!(Shelf::over(longer).carry(), Ok(()));
                }
                _ => assert_eq!(shelf.as_bytes(), &two_texts().as_bytes()[..full + free]),
            }
        }
        let mut unsound = old[..full].to_vec();
        unsound[full - 1] = b'A';
        assert_eq!(refusal(Shelf::over(unsound).carry()), (19, 0));
    }

    #[test]
    fn a_small_stack_is_enough() {
        let asked = || {
            let mut shelf = two_texts();
            let put = shelf.put(RESPELLED);
            (put, shelf.sums(), shelf.get(1).map(<[u8]>::len), shelf.remove(1))
        };
        let small = std::thread::Builder::new().stack_size(96 * 1024);
        let answered = small.spawn(asked).unwrap().join().unwrap();
        assert_eq!(answered, (Ok(Shelved::Copy(0)), sums(93 + 99, 1), Ok(99), Ok(99)));
    }
}
