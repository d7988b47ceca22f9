//! The elements of a service segment, and the values that are judged in them.
//!
//! Paper 01, "Control elements".

use crate::opening::Characters;

/// The parts between these bytes where they are not released.
fn split<'a>(
    text: &'a [u8],
    release: Option<u8>,
    splits: impl Fn(u8) -> bool,
) -> impl Iterator<Item = &'a [u8]> {
    let mut released = false;
    text.split(move |&byte| {
        let stands_free = !released;
        released = stands_free && Some(byte) == release;
        stands_free && splits(byte)
    })
}

/// The elements of a segment, its tag first.
pub fn elements<'a>(
    segment: &'a [u8],
    characters: &Characters,
) -> impl Iterator<Item = &'a [u8]> + 'a {
    let element = characters.element;
    split(segment, characters.release, move |byte| byte == element)
}

/// The value of an element that is, when trimmed, one component.
pub fn single<'a>(element: &'a [u8], characters: &Characters) -> Option<&'a [u8]> {
    let (component, repetition) = (characters.component, characters.repetition);
    let mut values =
        split(element, characters.release, |byte| byte == component || Some(byte) == repetition);
    let first = values.next()?;
    if values.all(|value| value.is_empty()) {
        Some(first)
    } else {
        None
    }
}

/// A reference as it is spelled: one component of 1 to 14 value bytes.
pub fn reference<'a>(element: Option<&'a [u8]>, characters: &Characters) -> Option<&'a [u8]> {
    let value = single(element?, characters)?;
    let mut released = false;
    let released_bytes = value.iter().filter(|&&byte| {
        released = !released && Some(byte) == characters.release;
        released
    });
    match value.len() - released_bytes.count() {
        1..=14 => Some(value),
        _ => None,
    }
}

/// A count: one component of 1 to 6 digits.
pub fn count(element: Option<&[u8]>, characters: &Characters) -> Option<usize> {
    let value = single(element?, characters)?;
    match value.len() {
        1..=6 if value.iter().all(u8::is_ascii_digit) => {
            Some(value.iter().fold(0, |sum, digit| 10 * sum + usize::from(digit - b'0')))
        }
        _ => None,
    }
}

/// Does a repetition separator stand in the tag's element?
pub fn tag_repeats(segment: &[u8], characters: &Characters) -> bool {
    let tag = elements(segment, characters).next().unwrap_or(segment);
    let repetition = characters.repetition;
    split(tag, characters.release, move |byte| Some(byte) == repetition).nth(1).is_some()
}
