//! Refusals: why an input, a buffer or a value list is not taken, and where.

use std::error::Error;
use std::fmt;

use crate::words::words;

/// Why something is refused. Each has the number of the paper's table.
///
/// More may come, with higher numbers.
#[derive(Clone, Copy, Debug, PartialEq, Eq, PartialOrd, Ord, Hash)]
#[non_exhaustive]
pub enum Fault {
    /// 1: the input or the text has more than 32,000 bytes.
    OverLength,
    /// 2: the service string advice is unusable or cut short.
    Advice,
    /// 3: the body, after the advice and the line breaks behind it, does not begin
    /// `UNB` and the element separator.
    Beginning,
    /// 4: the release character stands before no service character.
    Release,
    /// 5: the body ends inside a segment.
    InsideSegment,
    /// 6: a segment's tag breaks the tag rule, or its element has a second repeat.
    Tag,
    /// 7: the level or its version is not one of ours, UNB's element 1 has a second
    /// repeat that trimming leaves, or there is a repetition separator and the version
    /// is not 4.
    Level,
    /// 8: a byte is outside the level.
    Byte,
    /// 9: a segment is not allowed where it stands, a UNS breaks the rule of
    /// sections (`D` or `S`, each once in a message, D before S), or the end
    /// comes before UNZ.
    Order,
    /// 10: a count or a reference is not as it must be.
    Control,
    /// 11: a trailer's reference differs from its header's.
    Reference,
    /// 12: a trailer's count is wrong.
    Count,
    /// 13: the normal form has more than 32,000 bytes.
    NormalLength,
    /// 14: a lent buffer is too short.
    Buffer,
    /// 15: a value list's table is malformed, or a segment of the list begins with
    /// a line break.
    List,
    /// 16: a value holds a service character and there is no release character, or it
    /// begins a next repeat and there is no repetition separator.
    NoRelease,
    /// 17: no slot of the shelf is free.
    NoSlot,
    /// 18: the shelf has fewer free bytes than the text needs, or than the sums need
    /// to carry it over.
    NoRoom,
    /// 19: there is no sound shelf of version 2, or of version 1 where one is carried
    /// over; or a buffer that is to be started has none of a shelf's sizes.
    Shelf,
    /// 20: the slot is free, or there is none of that number.
    Slot,
    /// 21: the table of message structures is unsound; the rules stand at
    /// [`judge_by_table`](crate::judge_by_table()).
    Table,
    /// 22: a message's body does not match the table of message structures.
    Body,
    /// 23: the received interchange cannot be acknowledged; why stands at
    /// [`acknowledge`](crate::acknowledge()).
    NoAcknowledgement,
    /// 24: the text is none that [`export`](crate::export()) gives for a trimmed list of
    /// values without tab, carriage return and line feed.
    NoColumns,
    /// A number above these, by which only an archive that is newer than this
    /// crate refuses; see [`rules`](crate::rules()).
    Unknown(u32),
}

/// The faults in the order of their numbers, from 1.
const FAULTS: [Fault; 24] = [
    Fault::OverLength,
    Fault::Advice,
    Fault::Beginning,
    Fault::Release,
    Fault::InsideSegment,
    Fault::Tag,
    Fault::Level,
    Fault::Byte,
    Fault::Order,
    Fault::Control,
    Fault::Reference,
    Fault::Count,
    Fault::NormalLength,
    Fault::Buffer,
    Fault::List,
    Fault::NoRelease,
    Fault::NoSlot,
    Fault::NoRoom,
    Fault::Shelf,
    Fault::Slot,
    Fault::Table,
    Fault::Body,
    Fault::NoAcknowledgement,
    Fault::NoColumns,
];

impl Fault {
    /// The number of the paper's table.
    #[must_use]
    pub fn number(self) -> u32 {
        match self {
            Fault::Unknown(number) => number,
            known => FAULTS.iter().take_while(|fault| **fault != known).count() as u32 + 1,
        }
    }

    /// The fault with this number; 0 is none.
    #[must_use]
    pub fn of_number(number: u32) -> Option<Fault> {
        let place = number.checked_sub(1)? as usize;
        Some(FAULTS.get(place).copied().unwrap_or(Fault::Unknown(number)))
    }
}

impl fmt::Display for Fault {
    fn fmt(&self, f: &mut fmt::Formatter) -> fmt::Result {
        let place = (self.number() as usize).checked_sub(1);
        let told = place.and_then(|place| words().get(place));
        f.write_str(
            told.map_or("the archive is newer, and this crate does not know why", |told| {
                told.title
            }),
        )
    }
}

/// A refusal: its fault and its place. In what the place counts depends on the
/// fault: bytes from the beginning of the input or text for most, bytes of the
/// normal form for 13, bytes or numbers of Read's table needed for 14, records of the
/// value list for 15 and 16, slots for 17 and 20, bytes needed for 18, entries of the
/// table of message structures for 21.
///
/// ```
/// let refusal = hverolda::judge(b"UNA:+.? '").unwrap_err();
/// assert_eq!((refusal.number(), refusal.place), (3, 9));
/// assert_eq!(
///     refusal.to_string(),
///     "refused 3 at byte 9: the body does not begin with UNB and the element separator"
/// );
/// ```
#[derive(Clone, Copy, Debug, PartialEq, Eq, Hash)]
pub struct Refusal {
    /// Why.
    pub fault: Fault,
    /// Where, or how much.
    pub place: usize,
}

impl Refusal {
    /// The number of the paper's table.
    #[must_use]
    pub fn number(&self) -> u32 {
        self.fault.number()
    }

    /// The refusal that a struct of the surface tells, if it tells one.
    pub(crate) fn told(number: u32, place: usize) -> Result<(), Refusal> {
        Fault::of_number(number).map_or(Ok(()), |fault| Err(Refusal { fault, place }))
    }
}

impl fmt::Display for Refusal {
    fn fmt(&self, f: &mut fmt::Formatter) -> fmt::Result {
        let Refusal { fault, place } = self;
        let number = fault.number();
        match fault {
            Fault::NormalLength => write!(f, "refused {number}: {fault}: it has {place}"),
            Fault::Buffer => {
                write!(f, "refused {number}: {fault}: {place} bytes or table numbers are needed")
            }
            Fault::List | Fault::NoRelease => {
                write!(f, "refused {number} at record {place}: {fault}")
            }
            Fault::NoSlot | Fault::Shelf | Fault::NoAcknowledgement | Fault::NoColumns => {
                write!(f, "refused {number}: {fault}")
            }
            Fault::NoRoom => write!(f, "refused {number}: {fault}: {place} are needed"),
            Fault::Slot => write!(f, "refused {number} at slot {place}: {fault}"),
            Fault::Table => write!(f, "refused {number} at entry {place}: {fault}"),
            Fault::Unknown(_) => write!(f, "refused {number}, place {place}: {fault}"),
            _ => write!(f, "refused {number} at byte {place}: {fault}"),
        }
    }
}

impl Error for Refusal {}

#[cfg(test)]
mod tests {
    use super::*;

    fn sentence(number: u32, place: usize) -> String {
        Refusal::told(number, place).unwrap_err().to_string()
    }

    #[test]
    fn the_numbers_are_one_to_twenty_four() {
        let numbers: Vec<u32> = FAULTS.iter().map(|fault| fault.number()).collect();
        assert_eq!(numbers, (1..=24).collect::<Vec<u32>>());
        assert_eq!(Fault::of_number(0), None);
        assert_eq!(Fault::of_number(12), Some(Fault::Count));
    }

    #[test]
    fn a_number_of_a_newer_archive_is_told() {
        for number in [25, u32::MAX] {
            let fault = Fault::of_number(number).unwrap();
            assert_eq!((fault, fault.number()), (Fault::Unknown(number), number));
            assert!(Fault::NoColumns < fault);
        }
        let newer = "refused 25, place 64: the archive is newer, and this crate does not know why";
        assert_eq!(sentence(25, 64), newer);
    }

    #[test]
    fn zero_is_no_refusal() {
        assert_eq!(Refusal::told(0, 0), Ok(()));
    }

    #[test]
    fn a_place_counts_in_the_units_of_its_fault() {
        assert_eq!(
            sentence(9, 75),
            "refused 9 at byte 75: no such segment or section is allowed here, or the end comes before UNZ"
        );
        assert_eq!(sentence(12, 67), "refused 12 at byte 67: the trailer's count is wrong");
        assert_eq!(
            sentence(13, 32_004),
            "refused 13: the normal form has more than 32000 bytes: it has 32004"
        );
        assert_eq!(
            sentence(14, 93),
            "refused 14: a lent buffer is too short: 93 bytes or table numbers are needed"
        );
        assert_eq!(
            sentence(15, 2),
            "refused 15 at record 2: the value list's table is malformed, \
             or the segment begins with a line break"
        );
        assert!(sentence(16, 7).starts_with("refused 16 at record 7: "));
        assert_eq!(sentence(17, 64), "refused 17: all 64 slots of the shelf are occupied");
        assert_eq!(sentence(18, 93), "refused 18: the shelf has too few free bytes: 93 are needed");
        assert_eq!(
            sentence(19, 0),
            "refused 19: there is no sound shelf of the version asked for: 2 with 533 to 65536 \
             bytes, or 1 with 525 to 65536 to carry over"
        );
        assert_eq!(sentence(20, 63), "refused 20 at slot 63: no text is kept in this slot");
        assert_eq!(sentence(21, 3), "refused 21 at entry 3: the table's entry breaks its rules");
        assert_eq!(
            sentence(22, 67),
            "refused 22 at byte 67: the table wants another segment here, or none"
        );
        assert_eq!(
            sentence(23, 0),
            "refused 23: it cannot be acknowledged: it is refused by other than 10, 11 and 12, or UNB \
             lacks a sound reference, a sender or a recipient"
        );
    }

    #[test]
    fn every_fault_has_its_own_sentence() {
        let mut sentences: Vec<String> = FAULTS.iter().map(|fault| fault.to_string()).collect();
        sentences.sort();
        sentences.dedup();
        assert_eq!(sentences.len(), FAULTS.len());
    }
}
