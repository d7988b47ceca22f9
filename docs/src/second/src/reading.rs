//! From the bytes of the body to segments, elements, repeats and values: stage
//! (4 5 6).
//!
//! Paper, clause "From bytes to values" and refusals 4, 5 and 6. The body is
//! read from its start to its end and the first fault answers: a broken tag
//! rule is told when its segment is finished, thus before any later release
//! character is looked at, and a segment with a fault 4 is not finished.
//!
//! Change request 2026-01: a segment starts after the breaks that stand behind
//! the terminator before it. Breaks anywhere else are bytes like any other.
//!
//! Change request 2026-10: no repetition separator may follow within a tag
//! element, as it is spelled.

use crate::contents::{Contents, Part, Segment, ValueKind};
use crate::line_breaks::after_breaks;
use crate::refusal::{refuse, Answer, INSIDE_SEGMENT, RELEASE, TAG};
use crate::service_characters::ServiceCharacters;

/// All segments of the body, as they are spelled, before trimming.
pub fn read_body<'a>(
    input: &'a [u8],
    body: usize,
    characters: &ServiceCharacters,
) -> Answer<Contents<'a>> {
    let mut contents = Contents::new(input, characters.release);
    let mut at = body;
    while at < input.len() {
        at = read_segment(&mut contents, at, characters)?;
    }
    Ok(contents)
}

/// Adds the segment that starts here; the place behind it and behind the breaks
/// that follow, where the next one starts.
pub fn read_segment(
    contents: &mut Contents,
    start: usize,
    characters: &ServiceCharacters,
) -> Answer<usize> {
    let input = contents.source;
    let mut kind = ValueKind::NewSegment;
    let mut at = start;
    loop {
        let value = read_value(input, at, characters)?;
        contents.add(kind, value);
        let end = value.range().end;
        kind = kind_after(input[end], characters);
        at = end + 1;
        if kind == ValueKind::NewSegment {
            check_last_tag(contents)?;
            return Ok(after_breaks(input, at));
        }
    }
}

/// How the next value goes on after this separator or terminator.
fn kind_after(byte: u8, characters: &ServiceCharacters) -> ValueKind {
    if byte == characters.component {
        ValueKind::NextComponent
    } else if Some(byte) == characters.repetition {
        ValueKind::NextRepeat
    } else if byte == characters.element {
        ValueKind::NewElement
    } else {
        ValueKind::NewSegment
    }
}

/// The value that starts here; an unreleased separator or terminator stands at
/// its end.
fn read_value(input: &[u8], start: usize, characters: &ServiceCharacters) -> Answer<Part> {
    let mut at = start;
    loop {
        let rest = &input[at..];
        match rest.iter().position(|&byte| characters.is_service(byte)) {
            Some(plain) => at += plain,
            None => return refuse(INSIDE_SEGMENT, input.len()),
        }
        if Some(input[at]) != characters.release {
            return Ok(Part { offset: start as u32, length: (at - start) as u32 });
        }
        match input.get(at + 1) {
            Some(&next) if characters.is_service(next) => at += 2,
            _ => return refuse(RELEASE, at),
        }
    }
}

/// The tag rule for the segment that has just been finished.
fn check_last_tag(contents: &Contents) -> Answer<()> {
    match contents.segments.last() {
        Some(segment) if !keeps_tag_rule(contents, segment) => {
            refuse(TAG, contents.start_of(segment))
        }
        _ => Ok(()),
    }
}

/// No service character is a letter or a digit, so that a tag with a release
/// character in it breaks the rule as spelled and as read.
fn keeps_tag_rule(contents: &Contents, segment: &Segment) -> bool {
    let tag = contents.tag_of(segment).of(contents.source);
    let may_stand = |byte: &u8| byte.is_ascii_uppercase() || byte.is_ascii_digit();
    if tag.len() != 3 || !tag.iter().all(may_stand) {
        return false;
    }
    let components = match contents.only_repeat(segment, 0) {
        Some(components) => components.len(),
        None => return false,
    };
    if !tag.starts_with(b"UN") {
        return true;
    }
    matches!(tag[2], b'B' | b'G' | b'H' | b'S' | b'T' | b'E' | b'Z') && components == 1
}
