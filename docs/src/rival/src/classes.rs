//! What a byte is in the body: one table of 256 classes for a level and a set
//! of service characters. A class is a number and three marks.

/// A separator of values.
const SEPARATES: u8 = 0x10;
/// A separator or the terminator, before which an empty end may stand.
const ENDS: u8 = 0x20;
/// A byte at which the pass has something to do.
const STOPS: u8 = 0x40;

/// A value byte that the normal form spells as it stands.
pub const PLAIN: u8 = 0;
// The separators and the terminator, by rank: each ends all that are below it.
pub const COMPONENT: u8 = 1 | SEPARATES | ENDS;
pub const REPETITION: u8 = 2 | SEPARATES | ENDS;
pub const ELEMENT: u8 = 3 | SEPARATES | ENDS;
pub const TERMINATOR: u8 = 4 | ENDS | STOPS;
pub const RELEASE: u8 = 5 | STOPS;
/// A value byte that the normal form releases.
pub const TO_RELEASE: u8 = 6 | STOPS;
/// No byte of the level.
pub const OUTSIDE: u8 = 7 | STOPS;

/// A number for each byte.
pub type Table = [u8; 256];

/// Has the pass something to do at a byte of this class before one of that
/// class? A separator before another or before the terminator may go.
pub fn stops(class: u8, next: u8) -> bool {
    class & STOPS | class << 1 & next & ENDS != 0
}

/// Is it one of the service characters?
pub fn is_service(class: u8) -> bool {
    class & ENDS != 0 || class == RELEASE
}

/// Level A as it stands in the paper.
pub const LEVEL_A: Table =
    with([OUTSIDE; 256], b"ABCDEFGHIJKLMNOPQRSTUVWXYZ0123456789 .,-()/='+:?!\"%&*;<>");
/// Level B: level A and the small letters.
pub const LEVEL_B: Table = with(LEVEL_A, b"abcdefghijklmnopqrstuvwxyz");

const fn with(mut classes: Table, plain: &[u8]) -> Table {
    let mut number = 0;
    while number < plain.len() {
        classes[plain[number] as usize] = PLAIN;
        number += 1;
    }
    classes
}
