//! References and counts of the service segments: stage (10 11 12).
//!
//! Paper, clause "Control elements" and refusals 10, 11 and 12; change request
//! 2026-10: control elements have one repeat. The faults of all headers with
//! their trailers are gathered, and the lowest place, then the lowest number,
//! answers.

use crate::contents::{Contents, Part, Segment};
use crate::order::{Inner, Interchange, Message};
use crate::refusal::{Answer, Refusal, CONTROL, COUNT, REFERENCE};

/// Where the reference stands in each header; a trailer has its count in
/// element 1 and its reference in element 2.
pub const UNB_REFERENCE: usize = 5;
const UNG_REFERENCE: usize = 5;
const UNH_REFERENCE: usize = 1;
const TRAILER_COUNT: usize = 1;
const TRAILER_REFERENCE: usize = 2;

/// The longest reference, in bytes without release characters.
const LONGEST_REFERENCE: usize = 14;

/// The most digits of a count.
const MOST_DIGITS: usize = 6;

/// A header, its trailer, and what the trailer must count.
struct Pair {
    header: usize,
    header_reference: usize,
    trailer: usize,
    count: usize,
}

/// Stage (10 11 12).
pub fn check_control(contents: &Contents, interchange: &Interchange) -> Answer<()> {
    let faults = pairs_of(interchange).iter().filter_map(|pair| lowest_fault(contents, pair)).min();
    match faults {
        Some(lowest) => Err(lowest),
        None => Ok(()),
    }
}

/// Every header with its trailer.
fn pairs_of(interchange: &Interchange) -> Vec<Pair> {
    let mut pairs = Vec::new();
    let inner_count = match &interchange.inner {
        Inner::Groups(groups) => {
            for group in groups {
                pairs.extend(group.messages.iter().map(message_pair));
                pairs.push(Pair {
                    header: group.header,
                    header_reference: UNG_REFERENCE,
                    trailer: group.trailer,
                    count: group.messages.len(),
                });
            }
            groups.len()
        }
        Inner::Messages(messages) => {
            pairs.extend(messages.iter().map(message_pair));
            messages.len()
        }
    };
    pairs.push(Pair {
        header: interchange.header,
        header_reference: UNB_REFERENCE,
        trailer: interchange.trailer,
        count: inner_count,
    });
    pairs
}

/// UNT counts the segments from UNH to UNT, both included.
fn message_pair(message: &Message) -> Pair {
    Pair {
        header: message.header,
        header_reference: UNH_REFERENCE,
        trailer: message.trailer,
        count: message.trailer - message.header + 1,
    }
}

/// The lowest fault of one header and its trailer: the header stands before
/// the trailer, and at the trailer the lowest number answers.
fn lowest_fault(contents: &Contents, pair: &Pair) -> Option<Refusal> {
    let header = &contents.segments[pair.header];
    let trailer = &contents.segments[pair.trailer];
    let fault = |number, segment| Some(Refusal { place: contents.start_of(segment), number });
    let header_reference = match reference_of(contents, header, pair.header_reference) {
        Some(reference) => reference,
        None => return fault(CONTROL, header),
    };
    let reference = match reference_of(contents, trailer, TRAILER_REFERENCE) {
        Some(reference) => reference,
        None => return fault(CONTROL, trailer),
    };
    let count = match count_of(contents, trailer, TRAILER_COUNT) {
        Some(count) => count,
        None => return fault(CONTROL, trailer),
    };
    if !contents.bytes(reference).eq(contents.bytes(header_reference)) {
        return fault(REFERENCE, trailer);
    }
    if count != pair.count {
        return fault(COUNT, trailer);
    }
    None
}

/// A reference: one repeat of one component of 1 to 14 bytes.
pub fn reference_of<'a>(
    contents: &'a Contents,
    segment: &Segment,
    number: usize,
) -> Option<&'a Part> {
    let value = contents.only_value(segment, number)?;
    let length = contents.bytes(value).count();
    (1..=LONGEST_REFERENCE).contains(&length).then_some(value)
}

/// A count: one repeat of one component of 1 to 6 digits, leading zeros
/// allowed.
fn count_of(contents: &Contents, segment: &Segment, number: usize) -> Option<usize> {
    let value = contents.only_value(segment, number)?;
    let length = contents.bytes(value).count();
    let digits_only = contents.bytes(value).all(|byte| byte.is_ascii_digit());
    let sum = |count: usize, digit: u8| count * 10 + usize::from(digit - b'0');
    let well_formed = (1..=MOST_DIGITS).contains(&length) && digits_only;
    well_formed.then(|| contents.bytes(value).fold(0, sum))
}
