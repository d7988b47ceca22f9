//! Lines for a spreadsheet: the text of a list in columns, and the list of such a
//! text.
//!
//! Change request 2026-12, "Lines for a spreadsheet": after a heading line one
//! line for each value, tab-separated, numbers from 0 in decimal without leading
//! zeros, a line feed after each.

use crate::contents::Contents;
use crate::trimming::trim;
use crate::value_list::{
    contents_of, List, Record, NEW_ELEMENT, NEW_SEGMENT, NEXT_COMPONENT, NEXT_REPEAT,
};

/// The heading line.
pub const HEADING: &[u8] = b"segment\telement\trepeat\tcomponent\tvalue\n";

/// The text of a list.
pub fn columns_of(contents: &Contents) -> Vec<u8> {
    let mut text = HEADING.to_vec();
    for (segment_number, segment) in contents.segments.iter().enumerate() {
        for (element_number, element) in contents.elements_of(segment).iter().enumerate() {
            for (repeat_number, repeat) in contents.repeats_of(element).iter().enumerate() {
                for (component_number, part) in contents.components_of(repeat).iter().enumerate() {
                    let numbers = [segment_number, element_number, repeat_number, component_number];
                    put_line(&mut text, numbers, contents.bytes(part));
                }
            }
        }
    }
    text
}

fn put_line(text: &mut Vec<u8>, numbers: [usize; 4], value: impl Iterator<Item = u8>) {
    for number in numbers {
        text.extend(number.to_string().bytes());
        text.push(b'\t');
    }
    text.extend(value);
    text.push(b'\n');
}

/// The trimmed list whose text this is, its values holding no tab, carriage
/// return or line feed; None where there is none. The lines are read without
/// looking closely, and what they tell must have this very text.
pub fn list_of_columns(text: &[u8]) -> Option<List> {
    let lines = text.strip_prefix(HEADING)?;
    let lines = match lines.strip_suffix(b"\n") {
        Some(lines) => lines.split(|&byte| byte == b'\n').collect(),
        None => Vec::new(),
    };
    let mut values = Vec::new();
    let mut records: Vec<Record> = Vec::new();
    let mut last: Option<Line> = None;
    for line in lines {
        let line = line_of(line)?;
        let kind = kind_after(last.as_ref(), &line);
        let start = values.len() as u32;
        values.extend(line.value);
        records.push(Record { kind, start, length: line.value.len() as u32 });
        last = Some(line);
    }
    let mut contents = contents_of(&records, &values);
    trim(&mut contents);
    if columns_of(&contents) != text {
        return None;
    }
    let numbers = |record: &Record| [record.kind, record.start, record.length];
    let table = records.iter().flat_map(numbers).collect();
    Some(List { values, table })
}

/// The words of a line.
struct Line<'a> {
    segment: &'a [u8],
    element: &'a [u8],
    repeat: &'a [u8],
    value: &'a [u8],
}

/// Five words with tabs between them, the last of which may be a value.
fn line_of(line: &[u8]) -> Option<Line<'_>> {
    let words: Vec<&[u8]> = line.split(|&byte| byte == b'\t').collect();
    match words[..] {
        [segment, element, repeat, _, value] if !value.contains(&b'\r') => {
            Some(Line { segment, element, repeat, value })
        }
        _ => None,
    }
}

/// How a line goes on from the one before it: by the first number that is
/// another.
fn kind_after(last: Option<&Line>, line: &Line) -> u32 {
    match last {
        Some(last) if last.segment != line.segment => NEW_SEGMENT,
        Some(last) if last.element != line.element => NEW_ELEMENT,
        Some(last) if last.repeat != line.repeat => NEXT_REPEAT,
        Some(_) => NEXT_COMPONENT,
        None => NEW_SEGMENT,
    }
}
