//! Explain: what was found where something is refused, and what would do.
//!
//! The number and the place are the library's, and stay as they are: what is found here
//! only puts words to them. Nothing here reads files or the clock, or starts threads.

mod advice;
mod beginning;
mod columns;
mod control;
mod lists;
mod order;
mod segment;
mod structure;
#[cfg(test)]
mod tests;

use std::fmt;
use std::ops::Range;

use crate::judging::{judge, ServiceCharacters};
use crate::refusal::{Fault, Refusal};
use crate::segments::{after_breaks, Segment, Segments};
use crate::LONGEST;

pub use columns::explain_columns;
pub use lists::explain_list;
pub use structure::explain_by_table;

/// A refusal in words: where it is, what was found there, and what would do.
///
/// As text it is the sentence, and after it in brackets the segment, the line and the column.
#[derive(Clone, Debug, PartialEq, Eq)]
#[non_exhaustive]
pub struct Explanation {
    /// The refusal that is explained, as it was given.
    pub refusal: Refusal,
    /// The number of the segment, from 1, where the place is in one. (Locate counts from 0.)
    pub segment: Option<usize>,
    /// The segment's tag.
    pub tag: Option<String>,
    /// The line of the place, from 1, where it is a place in an input.
    pub line: Option<usize>,
    /// The byte of the place in its line, from 1.
    pub column: Option<usize>,
    /// What was found.
    pub found: String,
    /// What would do in its place.
    pub expected: String,
    /// All of it as one sentence, without a full stop.
    pub sentence: String,
    /// A change by which this fault goes, so that the next one can be looked for.
    past: Option<Change>,
}

/// Bytes of the input, and what takes their place.
type Change = (Range<usize>, Vec<u8>);

impl fmt::Display for Explanation {
    fn fmt(&self, f: &mut fmt::Formatter) -> fmt::Result {
        f.write_str(&self.sentence)?;
        let (line, column) = match (self.line, self.column) {
            (Some(line), Some(column)) => (line, column),
            _ => return Ok(()),
        };
        match (self.segment, &self.tag) {
            (Some(number), Some(tag)) => write!(f, " [segment {number} {tag}, ")?,
            (Some(number), None) => write!(f, " [segment {number}, ")?,
            _ => write!(f, " [")?,
        }
        write!(f, "line {line}, column {column}]")
    }
}

/// What is found of a refusal.
pub struct Reason {
    found: String,
    expected: String,
    sentence: String,
    past: Option<Change>,
}

impl Reason {
    fn new(found: impl Into<String>, expected: impl Into<String>, sentence: String) -> Reason {
        Reason { found: found.into(), expected: expected.into(), sentence, past: None }
    }

    fn past(self, range: Range<usize>, bytes: &[u8]) -> Reason {
        Reason { past: Some((range, bytes.to_vec())), ..self }
    }
}

/// Explains how [`judge`](crate::judge) or another operation over one interchange refused
/// this input.
///
/// ```
/// let input = b"UNB+UNOA:1+AA+BB++R1'UNH+1+ORDERS:1:901:UN'BGM+220'UNT+4+1'UNZ+1+R1'";
/// let refusal = hverolda::judge(input).unwrap_err();
/// let told = hverolda::explain(input, refusal);
/// assert_eq!((told.found.as_str(), told.expected.as_str()), ("4", "3"));
/// assert_eq!(
///     told.to_string(),
///     "UNT says 4, there are 3 segments from UNH (segment 2) \
///      [segment 4 UNT, line 1, column 52]"
/// );
/// ```
#[must_use]
pub fn explain(input: &[u8], refusal: Refusal) -> Explanation {
    let context = Context::of(input);
    let place = refusal.place;
    let reason = match (&context, refusal.fault) {
        (_, Fault::OverLength) => over_length(context.as_ref()),
        (_, Fault::Advice) => advice::reason(input),
        (_, Fault::Beginning) => beginning::reason(input, place),
        (Some(context), Fault::Release) => segment::release(context, place),
        (Some(context), Fault::InsideSegment) => segment::inside(context),
        (Some(context), Fault::Tag) => segment::tag(context, place),
        (Some(context), Fault::Level) => segment::level(context),
        (Some(context), Fault::Byte) => segment::byte(context, place),
        (Some(context), Fault::Order) => order::reason(context, place),
        (Some(context), Fault::Control) => control::malformed(context, place),
        (Some(context), Fault::Reference) => control::reference(context, place),
        (Some(context), Fault::Count) => control::count(context, place),
        (_, Fault::NormalLength) => normal_length(input, place),
        (Some(context), Fault::NoAcknowledgement) => control::no_answer(context),
        _ => None,
    };
    explained(context.as_ref(), refusal, reason)
}

/// The explanation with this reason, or with the words that the number always has.
fn explained(context: Option<&Context>, refusal: Refusal, reason: Option<Reason>) -> Explanation {
    let always = || Reason::new("", "", general(refusal));
    let Reason { found, expected, sentence, past } = reason.unwrap_or_else(always);
    let Spot { segment, tag, line, column } = match context {
        Some(context) if is_in_input(refusal.fault) => context.spot(refusal.place),
        _ => Spot::default(),
    };
    Explanation { refusal, segment, tag, line, column, found, expected, sentence, past }
}

/// Does the place of this fault count bytes of the input?
fn is_in_input(fault: Fault) -> bool {
    (2..=12).contains(&fault.number()) || fault == Fault::Body
}

/// The words of a number, with its place where that is a number of something.
fn general(refusal: Refusal) -> String {
    let Refusal { fault, place } = refusal;
    match fault {
        Fault::Buffer => format!("{fault}: {place} bytes or table numbers are needed"),
        Fault::NoRoom => format!("{fault}: {place} are needed"),
        Fault::Slot => format!("{fault}: slot {place}"),
        Fault::List | Fault::NoRelease => format!("{fault}: value {place}, from 0"),
        Fault::Table => format!("{fault}: entry {place}, from 0"),
        _ => fault.to_string(),
    }
}

fn over_length(context: Option<&Context>) -> Option<Reason> {
    let found = format!("more than {LONGEST} bytes");
    let expected = format!("at most {LONGEST} bytes");
    let sentence = match context.and_then(|context| context.after_end().map(|end| (context, end))) {
        Some((context, end)) if context.begins_again(end) => format!(
            "it has more than {LONGEST} bytes, but a first interchange ends at byte {end} and \
             another follows: part them with 'hverolda cut'"
        ),
        _ => format!("it has more than {LONGEST} bytes, which is the most for one interchange"),
    };
    Some(Reason::new(found, expected, sentence))
}

fn normal_length(input: &[u8], length: usize) -> Option<Reason> {
    let sentence = format!(
        "its normal form would have {length} bytes, {LONGEST} are the most (the input has {}; an \
         advice and release characters come to it): send it in two interchanges",
        input.len()
    );
    Some(Reason::new(format!("{length} bytes"), format!("at most {LONGEST}"), sentence))
}

/// The faults of the kind by which [`judge`] refuses an input, the answer first: each is what
/// Judge says after the ones before it are taken out of a copy, with its place in the input.
/// Of a kind are those of one number, 4 to 6, and 10 to 12. It stops where another kind is
/// next, or where it cannot go on, and after a hundred.
///
/// ```
/// let input = b"UNB+UNOA:1+AA+BB++R1'UNH+1+ORDERS:1:901:UN'BGM+22x+y'UNT+3+1'UNZ+1+R1'";
/// let places: Vec<usize> = hverolda::faults(input).iter().map(|fault| fault.place).collect();
/// assert_eq!(places, [49, 51]);
/// ```
#[must_use]
pub fn faults(input: &[u8]) -> Vec<Refusal> {
    let mut copy = input.to_vec();
    // of each byte of the copy, and of its end, where it stands in the input
    let mut origin: Vec<usize> = (0..=input.len()).collect();
    let mut found: Vec<Refusal> = Vec::new();
    while let Err(refusal) = judge(&copy) {
        let place = origin.get(refusal.place).copied().unwrap_or(refusal.place);
        let told = Refusal { fault: refusal.fault, place };
        let alike = found.first().map_or(true, |first| stage(first.fault) == stage(told.fault));
        if !alike || found.contains(&told) || found.len() == 100 {
            break;
        }
        found.push(told);
        match explain(&copy, refusal).past {
            Some((range, bytes)) => {
                let there = origin[range.start];
                origin.splice(range.clone(), bytes.iter().map(|_| there));
                copy.splice(range, bytes);
            }
            None => break,
        }
    }
    found
}

/// The lowest number of the stage that answers by this fault.
fn stage(fault: Fault) -> u32 {
    match fault.number() {
        4..=6 => 4,
        10..=12 => 10,
        number => number,
    }
}

/// An input as its segments, whether they are by the rules or not.
pub struct Context<'a> {
    input: &'a [u8],
    characters: ServiceCharacters,
    segments: Vec<Segment<'a>>,
}

#[derive(Default)]
struct Spot {
    segment: Option<usize>,
    tag: Option<String>,
    line: Option<usize>,
    column: Option<usize>,
}

impl<'a> Context<'a> {
    /// None where the input has no beginning by which its characters are known.
    fn of(input: &'a [u8]) -> Option<Context<'a>> {
        let characters = characters(input)?;
        let segments = Segments::of(input, characters).collect();
        Some(Context { input, characters, segments })
    }

    /// The number, from 0, of the segment that a place is in: the last that begins there or
    /// before it.
    fn number_at(&self, place: usize) -> Option<usize> {
        self.segments.iter().rposition(|segment| segment.start() <= place)
    }

    fn at(&self, place: usize) -> Option<Segment<'a>> {
        self.number_at(place).map(|number| self.segments[number])
    }

    fn spot(&self, place: usize) -> Spot {
        let before = &self.input[..place.min(self.input.len())];
        let line = before.iter().filter(|&&byte| byte == b'\n').count() + 1;
        let start = before.iter().rposition(|&byte| byte == b'\n').map_or(0, |end| end + 1);
        let column = before.len() - start + 1;
        let number = self.number_at(place);
        let tag = number.map(|number| self.segments[number].tag());
        let tag = tag.filter(|tag| is_tag(tag)).map(|tag| String::from_utf8_lossy(tag).to_string());
        Spot {
            segment: number.map(|number| number + 1),
            tag,
            line: Some(line),
            column: Some(column),
        }
    }

    /// Where the bytes after the first UNZ and its line breaks begin, where there are any.
    fn after_end(&self) -> Option<usize> {
        let end =
            self.segments.iter().find(|segment| segment.is_ended() && segment.tag() == b"UNZ")?;
        let after = after_breaks(self.input, end.start() + end.spelled().len() + 1);
        Some(after).filter(|&after| after < self.input.len())
    }

    fn begins_again(&self, place: usize) -> bool {
        self.input[place..].starts_with(b"UNA") || self.input[place..].starts_with(b"UNB")
    }

    /// The place of a part of the input.
    fn place_of(&self, part: &[u8]) -> usize {
        part.as_ptr() as usize - self.input.as_ptr() as usize
    }
}

/// The first segment, which is UNB in an interchange, of bytes whose beginning tells their
/// service characters. The rest is not judged, and may be refused.
///
/// ```
/// let unb = hverolda::header(b"UNB+UNOC:3+AA+BB+260105:0930+R1'UNH").unwrap();
/// assert_eq!(unb.element(2).component(0).to_string(), "AA");
/// assert!(hverolda::header(b"ISA*00*").is_none());
/// ```
#[must_use]
pub fn header(input: &[u8]) -> Option<Segment<'_>> {
    unjudged(input)?.next()
}

/// The segments of bytes whose beginning tells their service characters, whether they are an
/// interchange or not. The last one may be cut off.
///
/// ```
/// let mut segments = hverolda::unjudged(b"UNB+UNOC:3'UNH+1+CONTRL").unwrap();
/// assert!(segments.any(|segment| segment.element(2).component(0).spelled() == b"CONTRL"));
/// ```
#[must_use]
pub fn unjudged(input: &[u8]) -> Option<Segments<'_>> {
    Some(Segments::of(input, characters(input)?))
}

/// The characters by which an input's segments are parted, where its beginning tells them.
fn characters(input: &[u8]) -> Option<ServiceCharacters> {
    let or_none = |byte: u8| Some(byte).filter(|&byte| byte != b' ');
    match input {
        [b'U', b'N', b'A', component, element, mark, release, repetition, terminator, ..] => {
            Some(ServiceCharacters {
                component: *component,
                element: *element,
                mark: *mark,
                release: or_none(*release),
                repetition: or_none(*repetition),
                terminator: *terminator,
            })
        }
        [b'U', b'N', b'B', b'+', b'U', b'N', b'O', b'A' | b'B', b':', b'4', ..] => {
            Some(ServiceCharacters::VERSION_4)
        }
        [b'U', b'N', b'B', b'+', ..] => Some(ServiceCharacters::STANDARD),
        [b'U', b'N', b'B', 29, ..] => Some(ServiceCharacters {
            component: 31,
            element: 29,
            mark: b'.',
            release: None,
            repetition: None,
            terminator: 28,
        }),
        _ => None,
    }
}

fn is_tag(tag: &[u8]) -> bool {
    tag.len() == 3 && tag.iter().all(|byte| byte.is_ascii_uppercase() || byte.is_ascii_digit())
}

/// Bytes as a sentence has them: plain where they can be seen, in quotes where they are none
/// or have blanks or other bytes, and no more than forty of them.
fn shown(bytes: &[u8]) -> String {
    let mut text = String::new();
    for &byte in bytes.iter().take(40) {
        match byte {
            b' '..=b'~' => text.push(byte as char),
            _ => text.push_str(&format!("\\x{byte:02x}")),
        }
    }
    if bytes.len() > 40 {
        text.push_str("..");
    }
    match !bytes.is_empty() && bytes.iter().all(u8::is_ascii_graphic) {
        true => text,
        false => format!("\"{text}\""),
    }
}

/// One byte as a sentence has it.
fn byte_shown(byte: u8) -> String {
    let named = match byte {
        b' ' => "a space",
        0 => "a zero byte (0x00)",
        b'\t' => "a tab (0x09)",
        b'\n' => "a line feed (0x0A)",
        b'\r' => "a carriage return (0x0D)",
        0x1a => "Ctrl-Z (0x1A)",
        b'!'..=b'~' => return (byte as char).to_string(),
        _ => return format!("0x{byte:02X}"),
    };
    named.to_string()
}

fn counted(count: usize, one: &str, more: &str) -> String {
    if count == 1 {
        format!("1 {one}")
    } else {
        format!("{count} {more}")
    }
}
