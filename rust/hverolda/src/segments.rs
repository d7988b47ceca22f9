//! The segments of an interchange where they stand in its bytes, without a copy.

use std::borrow::Cow;
use std::fmt;

use crate::judging::{judge, Interchange, ServiceCharacters};
use crate::refusal::Refusal;

/// An accepted interchange and the bytes that spell it.
#[derive(Clone, Copy, Debug)]
pub struct Opened<'a> {
    input: &'a [u8],
    judged: Interchange,
}

/// Judges one interchange, so that its segments can be gone through where they stand.
///
/// Numbers are those of [`locate`](crate::locate()): element 0 is the tag, and all count
/// from 0. What the contents do not have is an empty value.
///
/// # Errors
///
/// As [`judge`] refuses.
///
/// ```
/// let input = b"UNB+UNOA:1+AA+BB++R1'UNH+1+ORDERS:1:901:UN'BGM+220+A?+B'UNT+3+1'UNZ+1+R1'";
/// let interchange = hverolda::opened(input)?;
/// for segment in interchange.segments() {
///     if segment.tag() == b"UNH" {
///         assert_eq!(segment.element(2).component(0).spelled(), b"ORDERS");
///         assert_eq!(segment.element(9).component(0).spelled(), b"");
///     }
///     if segment.tag() == b"BGM" {
///         assert_eq!(segment.element(2).component(0).spelled(), b"A?+B");
///         assert_eq!(segment.element(2).component(0).bytes(), &b"A+B"[..]);
///     }
/// }
/// # Ok::<(), hverolda::Refusal>(())
/// ```
pub fn opened(input: &[u8]) -> Result<Opened<'_>, Refusal> {
    Ok(Opened { input, judged: judge(input)? })
}

impl<'a> Opened<'a> {
    /// What Judge says of it.
    #[must_use]
    pub fn judged(&self) -> &Interchange {
        &self.judged
    }

    /// Its segments, from UNB to UNZ.
    #[must_use]
    pub fn segments(&self) -> Segments<'a> {
        Segments::of(self.input, self.judged.characters)
    }
}

/// The segments of an interchange, one after another. Made by [`Opened::segments`].
#[derive(Clone, Debug)]
pub struct Segments<'a> {
    input: &'a [u8],
    characters: ServiceCharacters,
    place: usize,
}

impl<'a> Segments<'a> {
    /// Those of any bytes under these characters, as far as they go.
    pub(crate) fn of(input: &'a [u8], characters: ServiceCharacters) -> Segments<'a> {
        let place = if input.starts_with(b"UNA") { input.len().min(9) } else { 0 };
        Segments { input, characters, place: after_breaks(input, place) }
    }
}

/// The place after the line breaks that stand at this one.
pub(crate) fn after_breaks(input: &[u8], place: usize) -> usize {
    let breaks = input[place..].iter().take_while(|byte| matches!(byte, b'\r' | b'\n'));
    place + breaks.count()
}

impl<'a> Iterator for Segments<'a> {
    type Item = Segment<'a>;

    fn next(&mut self) -> Option<Segment<'a>> {
        if self.place >= self.input.len() {
            return None;
        }
        let (start, rest) = (self.place, &self.input[self.place..]);
        let bytes = part_until(rest, &[Some(self.characters.terminator)], self.characters.release);
        let ended = bytes.len() < rest.len();
        let end = start + bytes.len();
        self.place = if ended { after_breaks(self.input, end + 1) } else { end };
        Some(Segment { bytes, start, ended, characters: self.characters })
    }
}

/// A segment where it stands.
#[derive(Clone, Copy, Debug)]
pub struct Segment<'a> {
    bytes: &'a [u8],
    start: usize,
    ended: bool,
    characters: ServiceCharacters,
}

impl<'a> Segment<'a> {
    /// Where it begins in the input.
    #[must_use]
    pub fn start(&self) -> usize {
        self.start
    }

    /// It as it is spelled, without its terminator.
    #[must_use]
    pub fn spelled(&self) -> &'a [u8] {
        self.bytes
    }

    /// Its tag.
    #[must_use]
    pub fn tag(&self) -> &'a [u8] {
        self.element(0).component(0).spelled()
    }

    /// The element of this number; element 0 is the tag.
    #[must_use]
    pub fn element(&self, number: usize) -> Element<'a> {
        let found = self.elements().nth(number);
        found.unwrap_or(Element { bytes: &[], characters: self.characters })
    }

    /// Its elements, the tag first, without the empty ones at its end.
    pub fn elements(&self) -> impl Iterator<Item = Element<'a>> {
        let characters = self.characters;
        let marks = [Some(characters.element), characters.repetition, Some(characters.component)];
        let bytes = trimmed(self.bytes, &marks, characters.release);
        Parts::of(bytes, Some(characters.element), characters.release)
            .map(move |bytes| Element { bytes, characters })
    }

    /// Does its terminator end it?
    pub(crate) fn is_ended(&self) -> bool {
        self.ended
    }
}

/// An element of a segment.
#[derive(Clone, Copy, Debug)]
pub struct Element<'a> {
    bytes: &'a [u8],
    characters: ServiceCharacters,
}

impl<'a> Element<'a> {
    /// It as it is spelled.
    #[must_use]
    pub fn spelled(&self) -> &'a [u8] {
        self.bytes
    }

    /// The component of this number, of its first repeat.
    #[must_use]
    pub fn component(&self, number: usize) -> Value<'a> {
        self.repeat(0).component(number)
    }

    /// The repeat of this number; in versions 1 and 2 there is only number 0.
    #[must_use]
    pub fn repeat(&self, number: usize) -> Repeat<'a> {
        let found = self.repeats().nth(number);
        found.unwrap_or(Repeat { bytes: &[], characters: self.characters })
    }

    /// Its repeats, without the empty ones at its end, but for the first.
    pub fn repeats(&self) -> impl Iterator<Item = Repeat<'a>> {
        let characters = self.characters;
        let marks = [characters.repetition, Some(characters.component)];
        let bytes = trimmed(self.bytes, &marks, characters.release);
        Parts::of(bytes, characters.repetition, characters.release)
            .map(move |bytes| Repeat { bytes, characters })
    }
}

/// A repeat of an element.
#[derive(Clone, Copy, Debug)]
pub struct Repeat<'a> {
    bytes: &'a [u8],
    characters: ServiceCharacters,
}

impl<'a> Repeat<'a> {
    /// The component of this number.
    #[must_use]
    pub fn component(&self, number: usize) -> Value<'a> {
        let found = self.components().nth(number);
        found.unwrap_or(Value { bytes: &[], release: None })
    }

    /// Its components, without the empty ones at its end, but for the first.
    pub fn components(&self) -> impl Iterator<Item = Value<'a>> {
        let ServiceCharacters { component, release, .. } = self.characters;
        let bytes = trimmed(self.bytes, &[Some(component)], release);
        Parts::of(bytes, Some(component), release).map(move |bytes| Value { bytes, release })
    }
}

/// A value, where it stands.
#[derive(Clone, Copy, Debug)]
pub struct Value<'a> {
    bytes: &'a [u8],
    release: Option<u8>,
}

impl<'a> Value<'a> {
    /// It as it is spelled, with its release characters.
    #[must_use]
    pub fn spelled(&self) -> &'a [u8] {
        self.bytes
    }

    /// Its bytes, without release characters: a copy only where there is one.
    #[must_use]
    pub fn bytes(&self) -> Cow<'a, [u8]> {
        let is_release = |byte: &u8| Some(*byte) == self.release;
        if !self.bytes.iter().any(|byte| is_release(byte)) {
            return Cow::Borrowed(self.bytes);
        }
        let mut bytes = Vec::new();
        let mut rest = self.bytes.iter();
        while let Some(byte) = rest.next() {
            bytes.extend(if is_release(byte) { rest.next() } else { Some(byte) });
        }
        Cow::Owned(bytes)
    }
}

impl fmt::Display for Value<'_> {
    fn fmt(&self, f: &mut fmt::Formatter) -> fmt::Result {
        f.write_str(&String::from_utf8_lossy(&self.bytes()))
    }
}

/// What stands before the first of these separators that is not released, or all.
fn part_until<'a>(bytes: &'a [u8], separators: &[Option<u8>], release: Option<u8>) -> &'a [u8] {
    let mut place = 0;
    while place < bytes.len() {
        let byte = Some(bytes[place]);
        match byte {
            _ if byte == release => place += 2,
            _ if separators.contains(&byte) => break,
            _ => place += 1,
        }
    }
    &bytes[..place.min(bytes.len())]
}

/// The bytes without those of these separators at their end that are not released.
fn trimmed<'a>(bytes: &'a [u8], separators: &[Option<u8>], release: Option<u8>) -> &'a [u8] {
    let (mut place, mut end) = (0, 0);
    while place < bytes.len() {
        let byte = Some(bytes[place]);
        place += if byte == release { 2 } else { 1 };
        if !separators.contains(&byte) {
            end = place;
        }
    }
    &bytes[..end.min(bytes.len())]
}

/// Parts of bytes between separators that are not released; without bytes, one part.
struct Parts<'a> {
    rest: Option<&'a [u8]>,
    separator: Option<u8>,
    release: Option<u8>,
}

impl<'a> Parts<'a> {
    fn of(bytes: &'a [u8], separator: Option<u8>, release: Option<u8>) -> Parts<'a> {
        Parts { rest: Some(bytes), separator, release }
    }
}

impl<'a> Iterator for Parts<'a> {
    type Item = &'a [u8];

    fn next(&mut self) -> Option<&'a [u8]> {
        let rest = self.rest?;
        let separator = self.separator.map(Some);
        let separators: &[Option<u8>] = separator.as_ref().map_or(&[], std::slice::from_ref);
        let part = part_until(rest, separators, self.release);
        self.rest = rest.get(part.len() + 1..);
        Some(part)
    }
}

#[cfg(test)]
mod tests {
    use super::*;
    use crate::examples::{REPEATED, RESPELLED, X};
    use crate::{values, Kind};

    /// The values of the contents, by going through the segments.
    fn gone_through(input: &[u8]) -> Vec<(Kind, Vec<u8>)> {
        let mut list = Vec::new();
        for segment in opened(input).unwrap().segments() {
            for (element, number) in segment.elements().zip(0..) {
                for (repeat, again) in element.repeats().zip(0..) {
                    for (value, part) in repeat.components().zip(0..) {
                        let kind = match (number, again, part) {
                            (0, 0, 0) => Kind::NewSegment,
                            (_, 0, 0) => Kind::NewElement,
                            (_, _, 0) => Kind::NextRepeat,
                            _ => Kind::NextComponent,
                        };
                        list.push((kind, value.bytes().to_vec()));
                    }
                }
            }
        }
        list
    }

    fn read(input: &[u8]) -> Vec<(Kind, Vec<u8>)> {
        values(input).unwrap().iter().map(|(kind, value)| (kind, value.to_vec())).collect()
    }

    #[test]
    fn the_values_are_those_that_read_stores() {
        for input in [X, RESPELLED, REPEATED] {
            assert_eq!(gone_through(input), read(input));
        }
        let folder = concat!(env!("CARGO_MANIFEST_DIR"), "/../../tests/cases");
        let mut held = 0;
        for entry in std::fs::read_dir(folder).unwrap() {
            let input = std::fs::read(entry.unwrap().path()).unwrap();
            if judge(&input).is_ok() {
                assert_eq!(gone_through(&input), read(&input));
                held += 1;
            }
        }
        assert!(held > 30, "only {held} accepted cases");
    }

    #[test]
    fn empty_ends_are_not_there() {
        let input = b"UNB+UNOB:4+AA:*+BB:*:+:+R1'UNH+1'FTX+A::*B*:+::*+C?+:?::+:'UNT+3+1'UNZ+1+R1'";
        assert_eq!(gone_through(input), read(input));
    }

    #[test]
    fn values_are_not_copied() {
        let segment = opened(X).unwrap().segments().nth(1).unwrap();
        let value = segment.element(2).component(1);
        assert!(matches!(value.bytes(), Cow::Borrowed(b"1")));
        assert!(X.as_ptr_range().contains(&value.spelled().as_ptr()));
        assert_eq!((segment.start(), segment.spelled().len()), (32, 21));
        assert_eq!(value.to_string(), "1");
    }

    #[test]
    fn what_is_refused_is_not_opened() {
        assert_eq!(opened(b"UNA:+.? '").unwrap_err().number(), 3);
    }
}
