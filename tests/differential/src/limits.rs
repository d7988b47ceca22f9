//! Interchanges and value lists at the limits, each with the answer that the
//! paper gives it: 14 bytes of a reference and 6 digits of a count, 32,000
//! bytes of input, text and normal form, as many values or line breaks as these
//! can hold, 96,000 numbers of a table; and those of [`wide`](crate::wide).
//!
//! Paper, clause "Control elements" and refusals 1, 10, 13 and 15; change
//! request 2026-01.

use hverolda::surface::{Verdict, Written};
use hverolda::{Kind, ValueList};
use second::cases::X;
use second::generator::{filled_with_breaks, Random};
use second::refusal::{CONTROL, LIST, LONGEST, LONGEST_TABLE, NORMAL_LENGTH, OVER_LENGTH};

use crate::wide;

/// An input, Judge's answer, and what it is about.
pub struct Limit {
    pub input: Vec<u8>,
    pub verdict: Verdict,
    pub name: &'static str,
}

pub fn limit(random: &mut Random) -> Limit {
    match random.below(6) {
        0 => many_values(random),
        1 => wide::input(random),
        2 => many_breaks(random),
        _ => control_elements(random),
    }
}

pub fn accepted(segments: u32, messages: u32, length: usize) -> Verdict {
    Verdict {
        segments,
        messages,
        length,
        component: b':',
        element: b'+',
        mark: b'.',
        release: b'?',
        repetition: b' ',
        terminator: b'\'',
        ..Verdict::default()
    }
}

pub fn refused(number: u32, place: usize) -> Verdict {
    Verdict { number, place, ..Verdict::default() }
}

/// A reference of 14 or 15 bytes, each released, with a count of 6 digits or 7.
fn control_elements(random: &mut Random) -> Limit {
    let (bytes, digits) = (random.between(14, 15), random.between(6, 7));
    let reference = random.pick(&["??", "?+", "?:", "?'"]).repeat(bytes);
    let header = format!("UNB+UNOA:1++++1'UNH+{reference}'");
    let trailer = format!("UNT+{:0digits$}+{reference}'", 2);
    let input = format!("{header}{trailer}UNZ+1+1'").into_bytes();
    let (verdict, name) = match (bytes, digits) {
        (14, 6) => (accepted(4, 1, input.len() + 9), "a reference of 14 and a count of 6"),
        (14, _) => (refused(CONTROL, header.len()), "a count of 7 digits"),
        _ => (refused(CONTROL, 16), "a reference of 15 bytes"),
    };
    Limit { input, verdict, name }
}

/// Empty components, or elements, up to a normal form of 32,000 bytes or some
/// more or less, with the advice and without.
fn many_values(random: &mut Random) -> Limit {
    let length = random.between(LONGEST - 1, LONGEST + 1);
    let advice = random.pick(&["UNA:+.? '", ""]);
    let (beginning, end) = ("UNB+UNOA:1++++1'UNH+1'FTX+", "A'UNT+3+1'UNZ+1+1'");
    let count = length - 9 - beginning.len() - end.len();
    let values = random.pick(&[":", "+"]).repeat(count);
    let input = format!("{advice}{beginning}{values}{end}").into_bytes();
    let (verdict, name) = match (length, advice) {
        (LONGEST, "") => (accepted(5, 1, length), "a normal form of 32000 bytes"),
        (LONGEST, _) => (accepted(5, 1, length), "an input of 32000 bytes"),
        (31_999, _) => (accepted(5, 1, length), "a normal form of 31999 bytes"),
        (_, "") => (refused(NORMAL_LENGTH, length), "a normal form of 32001 bytes"),
        _ => (refused(OVER_LENGTH, 0), "an input of 32001 bytes"),
    };
    Limit { input, verdict, name }
}

/// X and line breaks that are passed over, 32,000 bytes together or one more.
fn many_breaks(random: &mut Random) -> Limit {
    let length = random.between(LONGEST, LONGEST + 1);
    let input = filled_with_breaks(random, X.as_bytes(), length - X.len());
    let (verdict, name) = match length {
        LONGEST => (accepted(5, 1, X.len() + 9), "X and breaks of 32000 bytes"),
        _ => (refused(OVER_LENGTH, 0), "X and breaks of 32001 bytes"),
    };
    Limit { input, verdict, name }
}

/// Service bytes, a value list, Write's answer, and what it is about.
pub struct WriteLimit {
    pub service: Vec<u8>,
    pub values: Vec<u8>,
    pub table: Vec<u32>,
    pub written: Written,
    pub name: &'static str,
}

/// The bytes of a text with one empty value in the place of the long one.
pub const FRAME: usize = "UNA:+.? 'UNB+UNOA:1++++1'UNH+1'FTX+'UNT+3+1'UNZ+1+1'".len();

/// The interchange of a long value, as a list.
pub fn framed(value: &[u8]) -> ValueList {
    let segments: [&[&[u8]]; 5] = [
        &[b"UNB", b"UNOA", b"", b"", b"", b"1"],
        &[b"UNH", b"1"],
        &[b"FTX", value],
        &[b"UNT", b"3", b"1"],
        &[b"UNZ", b"1", b"1"],
    ];
    let mut list = ValueList::new();
    for segment in segments {
        for (number, value) in segment.iter().enumerate() {
            list.push(if number == 0 { Kind::NewSegment } else { Kind::NewElement }, value);
            if *value == b"UNOA" {
                list.push(Kind::NextComponent, "1");
            }
        }
    }
    list
}

pub fn stored(length: usize) -> Written {
    Written { length, ..Written::default() }
}

pub fn write_limit(random: &mut Random) -> WriteLimit {
    match random.below(5) {
        0 => long_text(random),
        1 => long_normal_form(random),
        2 => wide::service(random),
        3 => wide::values(random),
        _ => long_table(random),
    }
}

/// A text of 32,000 bytes, or of one more.
fn long_text(random: &mut Random) -> WriteLimit {
    let length = random.between(LONGEST, LONGEST + 1);
    let list = framed(&vec![b'A'; length - FRAME]);
    let (written, name) = match length {
        LONGEST => (stored(length), "a text of 32000 bytes"),
        _ => (Written { number: OVER_LENGTH, ..stored(0) }, "a text of 32001 bytes"),
    };
    let (values, table) = (list.bytes().to_vec(), list.table().to_vec());
    WriteLimit { service: b":+.? '".to_vec(), values, table, written, name }
}

/// A shorter text, the plus signs of which are released in the normal form.
fn long_normal_form(random: &mut Random) -> WriteLimit {
    let normal = random.between(LONGEST, LONGEST + 1);
    let signs = random.between(1, 15_000);
    let mut value = vec![b'+'; signs];
    value.resize(normal - FRAME - signs, b'A');
    let list = framed(&value);
    let (written, name) = match normal {
        LONGEST => (stored(normal - signs), "a text with a normal form of 32000 bytes"),
        _ => {
            let written = Written { number: NORMAL_LENGTH, place: normal, length: 0 };
            (written, "a text with a normal form of 32001 bytes")
        }
    };
    let (values, table) = (list.bytes().to_vec(), list.table().to_vec());
    WriteLimit { service: b";*.! ~".to_vec(), values, table, written, name }
}

/// A table of 96,000 numbers, most of them for empty components at the end; or
/// of one to three more, or of so many that in 16 bits it ends with the list.
fn long_table(random: &mut Random) -> WriteLimit {
    let list = framed(b"A");
    let mut table = list.table().to_vec();
    let list_alone = table.len();
    while table.len() < LONGEST_TABLE {
        table.extend([2, 0, 0]);
    }
    let more = random.pick(&[0, 0, 0, 1, 2, 3, 2 * wide::WIDE + list_alone - LONGEST_TABLE]);
    table.resize(table.len() + more, 0);
    let (written, name) = match more {
        0 => (stored(FRAME + 1), "a table of 96000 numbers"),
        1..=3 => (Written { number: LIST, ..stored(0) }, "a table over 96000 numbers"),
        _ => (Written { number: LIST, ..stored(0) }, "a list's table and 131072 numbers"),
    };
    let (service, values) = (b":+.? '".to_vec(), list.bytes().to_vec());
    WriteLimit { service, values, table, written, name }
}
