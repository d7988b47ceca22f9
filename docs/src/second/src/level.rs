//! The level and version named in UNB, and the bytes a level holds: stages 7
//! and 8.
//!
//! Paper, clause "From bytes to values", the paragraph "Levels", and refusals
//! 7 and 8; change request 2026-10, "Syntax version 4": version `4` is ours too,
//! UNB's first element has one repeat, and only version 4 has a repetition
//! separator.

use crate::contents::Contents;
use crate::refusal::{refuse, Answer, BYTE, LEVEL};
use crate::service_characters::Opening;

#[derive(Clone, Copy, Debug, PartialEq, Eq)]
pub enum Level {
    A,
    B,
}

const LEVEL_A: &[u8] = b"ABCDEFGHIJKLMNOPQRSTUVWXYZ0123456789 .,-()/='+:?!\"%&*;<>";
const ADDED_BY_LEVEL_B: &[u8] = b"abcdefghijklmnopqrstuvwxyz";

/// For each byte value, whether it belongs to level A and to level B.
const HELD: [[bool; 2]; 256] = with_bytes(
    with_bytes([[false; 2]; 256], LEVEL_A, [true, true]),
    ADDED_BY_LEVEL_B,
    [false, true],
);

/// The table with this entry for each of these bytes.
const fn with_bytes(
    mut table: [[bool; 2]; 256],
    bytes: &[u8],
    entry: [bool; 2],
) -> [[bool; 2]; 256] {
    let mut number = 0;
    while number < bytes.len() {
        table[bytes[number] as usize] = entry;
        number += 1;
    }
    table
}

/// Does the byte belong to the level?
pub fn holds(level: Level, byte: u8) -> bool {
    let [level_a, level_b] = HELD[usize::from(byte)];
    match level {
        Level::A => level_a,
        Level::B => level_b,
    }
}

/// The versions of the syntax that are ours.
#[derive(Clone, Copy, Debug, PartialEq, Eq)]
pub enum Version {
    One,
    Two,
    Four,
}

/// What UNB's element 1 names.
#[derive(Clone, Copy, Debug, PartialEq, Eq)]
pub struct Syntax {
    pub level: Level,
    pub version: Version,
}

fn level_of(name: &[u8]) -> Option<Level> {
    match name {
        b"UNOA" => Some(Level::A),
        b"UNOB" => Some(Level::B),
        _ => None,
    }
}

fn version_of(name: &[u8]) -> Option<Version> {
    match name {
        b"1" => Some(Version::One),
        b"2" => Some(Version::Two),
        b"4" => Some(Version::Four),
        _ => None,
    }
}

/// Stage 7: the level and the version that UNB's element 1 names, both ours,
/// and no repetition separator unless the version is 4.
pub fn named_syntax(contents: &Contents, opening: &Opening) -> Answer<Syntax> {
    let repetition = opening.characters.repetition;
    match syntax_of(contents) {
        Some(syntax) if repetition.is_none() || syntax.version == Version::Four => Ok(syntax),
        _ => refuse(LEVEL, opening.body),
    }
}

/// A third component is not judged.
fn syntax_of(contents: &Contents) -> Option<Syntax> {
    let components = contents.only_repeat(contents.segments.first()?, 1)?;
    let value = |number: usize| -> Option<Vec<u8>> {
        components.get(number).map(|part| contents.bytes(part).collect())
    };
    Some(Syntax { level: level_of(&value(0)?)?, version: version_of(&value(1)?)? })
}

/// Stage 8: every value byte, released ones too, is in the level. The values
/// that trimming took away have no bytes.
pub fn check_bytes(contents: &Contents, level: Level) -> Answer<()> {
    let outside = contents.all_parts().find_map(|part| {
        let mut bytes = contents.placed_bytes(part);
        let (place, _) = bytes.find(|&(_, byte)| !holds(level, byte))?;
        Some(part.offset as usize + place)
    });
    match outside {
        Some(place) => refuse(BYTE, place),
        None => Ok(()),
    }
}
