//! Spelling a list of segments under given service characters, and the normal
//! form: stage 13 takes its length from here.
//!
//! Paper, clauses "From bytes to values" (how a list is spelled) and "Normal
//! form"; change request 2026-10, "Syntax version 4": a version 4 normal form
//! has `*` in the fifth place, older ones keep the space.

use crate::contents::{Contents, Element, Part, Repeat};
use crate::level::Version;
use crate::service_characters::{ServiceCharacters, ADVICE_LENGTH, PRINTABLE, PRINTABLE_4};

/// The characters of the normal form of an interchange with this mark and of
/// this version.
pub fn normal_characters(mark: u8, version: Version) -> ServiceCharacters {
    match version {
        Version::One | Version::Two => ServiceCharacters { mark, ..PRINTABLE },
        Version::Four => ServiceCharacters { mark, ..PRINTABLE_4 },
    }
}

/// Length of the advice and the spelled list: one separator or terminator
/// after each value, two bytes for a service character. Exact for every value
/// list: a table has at most 32,000 records and each length is below 2^32.
pub fn text_length(contents: &Contents, characters: &ServiceCharacters) -> u64 {
    let cost = |byte| if characters.is_service(byte) { 2 } else { 1 };
    let spelled = |part| contents.bytes(part).map(cost).sum::<u64>();
    let body: u64 = contents.all_parts().map(|part| spelled(part) + 1).sum();
    ADVICE_LENGTH as u64 + body
}

/// The advice and the spelled list. Where the characters have no repetition
/// separator, no element may have several repeats.
pub fn text(contents: &Contents, characters: &ServiceCharacters) -> Vec<u8> {
    let mut text = characters.advice().to_vec();
    for segment in &contents.segments {
        for (number, element) in contents.elements_of(segment).iter().enumerate() {
            if number > 0 {
                text.push(characters.element);
            }
            spell_element(contents, element, characters, &mut text);
        }
        text.push(characters.terminator);
    }
    text
}

fn spell_element(
    contents: &Contents,
    element: &Element,
    characters: &ServiceCharacters,
    text: &mut Vec<u8>,
) {
    for (number, repeat) in contents.repeats_of(element).iter().enumerate() {
        if number > 0 {
            text.extend(characters.repetition);
        }
        spell_repeat(contents, repeat, characters, text);
    }
}

fn spell_repeat(
    contents: &Contents,
    repeat: &Repeat,
    characters: &ServiceCharacters,
    text: &mut Vec<u8>,
) {
    for (number, part) in contents.components_of(repeat).iter().enumerate() {
        if number > 0 {
            text.push(characters.component);
        }
        spell_value(contents, part, characters, text);
    }
}

fn spell_value(
    contents: &Contents,
    part: &Part,
    characters: &ServiceCharacters,
    text: &mut Vec<u8>,
) {
    for byte in contents.bytes(part) {
        if characters.is_service(byte) {
            text.extend(characters.release);
        }
        text.push(byte);
    }
}
