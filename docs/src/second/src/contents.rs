//! Segments, elements, repeats and values, and the bytes of a value.
//!
//! Paper, clause "From bytes to values": a segment is one or more elements,
//! the first being the tag. Change request 2026-10, "Syntax version 4": an
//! element is one or more repeats, one in the older versions, and a repeat is
//! one or more values, its components. A value is kept as the part of some
//! source bytes where it is spelled. All parts stand in one list; a repeat is a
//! run of parts, an element a run of repeats and a segment a run of elements.

use std::ops::Range;

/// A part of the source: where a value is spelled. Offsets in an input are
/// below 32,000 and those of a value list are 32-bit numbers; the end may
/// need more.
#[derive(Clone, Copy, Debug, PartialEq, Eq)]
pub struct Part {
    pub offset: u32,
    pub length: u32,
}

impl Part {
    pub fn range(&self) -> Range<usize> {
        let offset = self.offset as usize;
        offset..offset + self.length as usize
    }

    pub fn of<'a>(&self, source: &'a [u8]) -> &'a [u8] {
        &source[self.range()]
    }
}

/// How a value goes on from the one before it.
#[derive(Clone, Copy, Debug, PartialEq, Eq)]
pub enum ValueKind {
    NewSegment,
    NewElement,
    NextRepeat,
    NextComponent,
}

/// A run of the numbers from `first` to before `end`, never empty. A list has
/// at most 32,000 values.
#[derive(Clone, Copy, Debug, PartialEq, Eq)]
pub struct Run {
    pub first: u32,
    pub end: u32,
}

impl Run {
    pub fn of_one(number: usize) -> Run {
        Run { first: number as u32, end: number as u32 + 1 }
    }

    pub fn range(&self) -> Range<usize> {
        self.first as usize..self.end as usize
    }

    pub fn length(&self) -> usize {
        self.range().len()
    }

    pub fn last(&self) -> usize {
        self.end as usize - 1
    }
}

/// A run of components.
pub type Repeat = Run;

/// A run of repeats.
pub type Element = Run;

/// A run of elements, the tag first.
pub type Segment = Run;

/// A list of segments, the bytes they are spelled in and the release character
/// in force there (None for plain bytes, as in a value list).
#[derive(Clone, Debug)]
pub struct Contents<'a> {
    pub source: &'a [u8],
    pub release: Option<u8>,
    pub parts: Vec<Part>,
    pub repeats: Vec<Repeat>,
    pub elements: Vec<Element>,
    pub segments: Vec<Segment>,
}

impl<'a> Contents<'a> {
    /// No segments yet.
    pub fn new(source: &'a [u8], release: Option<u8>) -> Contents<'a> {
        Contents {
            source,
            release,
            parts: Vec::new(),
            repeats: Vec::new(),
            elements: Vec::new(),
            segments: Vec::new(),
        }
    }

    /// Adds a value. The first value of a list begins a segment.
    pub fn add(&mut self, kind: ValueKind, part: Part) {
        self.parts.push(part);
        if let (ValueKind::NextComponent, Some(repeat)) = (kind, self.repeats.last_mut()) {
            repeat.end += 1;
            return;
        }
        self.repeats.push(Run::of_one(self.parts.len() - 1));
        if let (ValueKind::NextRepeat, Some(element)) = (kind, self.elements.last_mut()) {
            element.end += 1;
            return;
        }
        self.elements.push(Run::of_one(self.repeats.len() - 1));
        if let (ValueKind::NewElement, Some(segment)) = (kind, self.segments.last_mut()) {
            segment.end += 1;
            return;
        }
        self.segments.push(Run::of_one(self.elements.len() - 1));
    }

    pub fn elements_of(&self, segment: &Segment) -> &[Element] {
        &self.elements[segment.range()]
    }

    pub fn repeats_of(&self, element: &Element) -> &[Repeat] {
        &self.repeats[element.range()]
    }

    pub fn components_of(&self, repeat: &Repeat) -> &[Part] {
        &self.parts[repeat.range()]
    }

    /// The first element: the tag with its repetition figures, if any.
    pub fn first_element_of(&self, segment: &Segment) -> &Element {
        &self.elements[segment.first as usize]
    }

    /// The tag without its repetition figures.
    pub fn tag_of(&self, segment: &Segment) -> &Part {
        let repeat = &self.repeats[self.first_element_of(segment).first as usize];
        &self.parts[repeat.first as usize]
    }

    /// A segment starts where its tag is spelled.
    pub fn start_of(&self, segment: &Segment) -> usize {
        self.tag_of(segment).offset as usize
    }

    /// The repeats of an element, the elements of a segment being numbered from
    /// 0 and element 0 being the tag.
    pub fn numbered(&self, segment: &Segment, element: usize) -> Option<&[Repeat]> {
        let element = self.elements_of(segment).get(element)?;
        Some(self.repeats_of(element))
    }

    /// The components of an element that is there and has one repeat.
    pub fn only_repeat(&self, segment: &Segment, element: usize) -> Option<&[Part]> {
        match self.numbered(segment, element)? {
            [repeat] => Some(self.components_of(repeat)),
            _ => None,
        }
    }

    /// The value of an element that is there and has one repeat of one
    /// component.
    pub fn only_value(&self, segment: &Segment, element: usize) -> Option<&Part> {
        match self.only_repeat(segment, element)? {
            [value] => Some(value),
            _ => None,
        }
    }

    /// The bytes of a value, without release characters, each with its offset
    /// in the value's spelled part.
    pub fn placed_bytes(&self, part: &Part) -> PlacedBytes<'a> {
        PlacedBytes { spelled: part.of(self.source), release: self.release, at: 0 }
    }

    /// The bytes of a value, without release characters.
    pub fn bytes(&self, part: &Part) -> impl Iterator<Item = u8> + 'a {
        self.placed_bytes(part).map(|(_, byte)| byte)
    }

    /// Is this value these bytes?
    pub fn value_is(&self, part: &Part, bytes: &[u8]) -> bool {
        self.bytes(part).eq(bytes.iter().copied())
    }

    /// Every value of the list, in its order.
    pub fn all_parts(&self) -> impl Iterator<Item = &Part> {
        let elements = self.segments.iter().flat_map(|segment| self.elements_of(segment));
        let repeats = elements.flat_map(|element| self.repeats_of(element));
        repeats.flat_map(|repeat| self.components_of(repeat))
    }
}

/// Goes through the bytes of one value; the release character takes the next
/// byte with it.
pub struct PlacedBytes<'a> {
    spelled: &'a [u8],
    release: Option<u8>,
    at: usize,
}

impl Iterator for PlacedBytes<'_> {
    type Item = (usize, u8);

    fn next(&mut self) -> Option<(usize, u8)> {
        let mut byte = *self.spelled.get(self.at)?;
        if Some(byte) == self.release {
            self.at += 1;
            byte = *self.spelled.get(self.at)?;
        }
        self.at += 1;
        Some((self.at - 1, byte))
    }
}
