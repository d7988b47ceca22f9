//! A refusal: its number and its place.
//!
//! Paper, clause "Refusals by number"; change request 2026-04, "The shelf", has
//! 17 to 20, 2026-08, "Message structures", 21 and 22, 2026-11,
//! "Acknowledgements", 23, and 2026-12, "Lines for a spreadsheet", 24. The order
//! by place and then by number is the order within a stage.

/// The longest input, text and normal form, in bytes (refusals 1 and 13).
pub const LONGEST: usize = 32_000;

/// The longest table of a value list, in numbers (refusal 15).
pub const LONGEST_TABLE: usize = 96_000;

pub const OVER_LENGTH: u32 = 1;
pub const ADVICE: u32 = 2;
pub const BEGINNING: u32 = 3;
pub const RELEASE: u32 = 4;
pub const INSIDE_SEGMENT: u32 = 5;
pub const TAG: u32 = 6;
pub const LEVEL: u32 = 7;
pub const BYTE: u32 = 8;
pub const ORDER: u32 = 9;
pub const CONTROL: u32 = 10;
pub const REFERENCE: u32 = 11;
pub const COUNT: u32 = 12;
pub const NORMAL_LENGTH: u32 = 13;
pub const BUFFER: u32 = 14;
pub const LIST: u32 = 15;
pub const NO_RELEASE: u32 = 16;
pub const NO_SLOT: u32 = 17;
pub const NO_ROOM: u32 = 18;
pub const NO_SHELF: u32 = 19;
pub const FREE_SLOT: u32 = 20;
pub const TABLE: u32 = 21;
pub const BODY: u32 = 22;
pub const NO_REPORT: u32 = 23;
pub const NO_COLUMNS: u32 = 24;

/// Fields in this order, so that the derived order is "the lowest place, then
/// the lowest number".
#[derive(Clone, Copy, Debug, PartialEq, Eq, PartialOrd, Ord)]
pub struct Refusal {
    pub place: usize,
    pub number: u32,
}

pub type Answer<T> = Result<T, Refusal>;

/// The refusal with this number at this place, as an answer.
pub fn refuse<T>(number: u32, place: usize) -> Answer<T> {
    Err(Refusal { place, number })
}
