//! Value lists: the records of a table, their refusals 15 and 16, and the way
//! from records to segments and back.
//!
//! Paper, clause "Operations" (Read, Write) and refusals 15 and 16; change
//! request 2026-01: no segment of a list may begin with a break; change request
//! 2026-10: kind 3, a next repeat's first value. Records are numbered from 0.

use crate::contents::{Contents, Part, ValueKind};
use crate::line_breaks::is_break;
use crate::refusal::{refuse, Answer, LIST, LONGEST_TABLE, NO_RELEASE};
use crate::service_characters::ServiceCharacters;

/// Numbers a record in the table.
pub const RECORD: usize = 3;

pub const NEW_SEGMENT: u32 = 0;
pub const NEW_ELEMENT: u32 = 1;
pub const NEXT_COMPONENT: u32 = 2;
pub const NEXT_REPEAT: u32 = 3;

const HIGHEST_KIND: u32 = NEXT_REPEAT;

/// A value list as it is lent: its bytes and its table.
#[derive(Clone, Copy, Debug, PartialEq, Eq)]
pub struct ValueList<'a> {
    pub values: &'a [u8],
    pub table: &'a [u32],
}

/// A value list that owns its bytes and its table.
#[derive(Clone, Debug, Default, PartialEq, Eq)]
pub struct List {
    pub values: Vec<u8>,
    pub table: Vec<u32>,
}

impl List {
    pub fn lent(&self) -> ValueList<'_> {
        ValueList { values: &self.values, table: &self.table }
    }

    /// Adds a value behind the others.
    pub fn add(&mut self, kind: u32, value: impl IntoIterator<Item = u8>) {
        let start = self.values.len();
        self.values.extend(value);
        self.table.extend([kind, start as u32, (self.values.len() - start) as u32]);
    }
}

#[derive(Clone, Copy, Debug, PartialEq, Eq)]
pub struct Record {
    pub kind: u32,
    pub start: u32,
    pub length: u32,
}

impl Record {
    fn part(&self) -> Part {
        Part { offset: self.start, length: self.length }
    }

    fn is_faulty(&self, number: usize, values: &[u8]) -> bool {
        let first_is_no_segment = number == 0 && self.kind != NEW_SEGMENT;
        let end = u64::from(self.start) + u64::from(self.length);
        first_is_no_segment
            || self.kind > HIGHEST_KIND
            || end > values.len() as u64
            || self.begins_segment_with_break(values)
    }

    /// A new segment's first value has a break as its first byte. Asked only of
    /// a record that ends within the bytes.
    fn begins_segment_with_break(&self, values: &[u8]) -> bool {
        let first = self.part().of(values).first();
        self.kind == NEW_SEGMENT && first.map_or(false, |&byte| is_break(byte))
    }
}

/// Refusal 15, or the records of the table.
pub fn records_of(table: &[u32], values: &[u8]) -> Answer<Vec<Record>> {
    let rows = table.chunks_exact(RECORD);
    if table.len() > LONGEST_TABLE || !rows.remainder().is_empty() {
        return refuse(LIST, 0);
    }
    let record = |row: &[u32]| Record { kind: row[0], start: row[1], length: row[2] };
    let records: Vec<Record> = rows.map(record).collect();
    let faulty =
        records.iter().enumerate().find(|(number, record)| record.is_faulty(*number, values));
    match faulty {
        Some((number, _)) => refuse(LIST, number),
        None => Ok(records),
    }
}

/// Refusal 16: a value holds a service character and there is no release, or a
/// record begins a next repeat and there is no repetition separator.
pub fn check_spellable(
    records: &[Record],
    values: &[u8],
    characters: &ServiceCharacters,
) -> Answer<()> {
    let cannot_release = |record: &Record| {
        let value = record.part().of(values);
        characters.release.is_none() && value.iter().any(|&byte| characters.is_service(byte))
    };
    let cannot_repeat =
        |record: &Record| characters.repetition.is_none() && record.kind == NEXT_REPEAT;
    let faulty = records.iter().position(|record| cannot_repeat(record) || cannot_release(record));
    match faulty {
        Some(number) => refuse(NO_RELEASE, number),
        None => Ok(()),
    }
}

/// The list of segments that the records tell. The first record, if any,
/// begins a segment.
pub fn contents_of<'a>(records: &[Record], values: &'a [u8]) -> Contents<'a> {
    let mut contents = Contents::new(values, None);
    for record in records {
        let kind = match record.kind {
            NEW_SEGMENT => ValueKind::NewSegment,
            NEW_ELEMENT => ValueKind::NewElement,
            NEXT_COMPONENT => ValueKind::NextComponent,
            _ => ValueKind::NextRepeat,
        };
        contents.add(kind, record.part());
    }
    contents
}

/// The values end to end and the table of an accepted interchange's contents.
pub fn list_of(contents: &Contents) -> List {
    let mut list = List::default();
    for (kind, part) in kinds_and_parts(contents) {
        list.add(kind, contents.bytes(part));
    }
    list
}

/// Every value of the list with the kind of its record, in the list's order.
fn kinds_and_parts<'a>(contents: &'a Contents) -> Vec<(u32, &'a Part)> {
    let mut found = Vec::new();
    for segment in &contents.segments {
        let mut kind = NEW_SEGMENT;
        for element in contents.elements_of(segment) {
            for repeat in contents.repeats_of(element) {
                for part in contents.components_of(repeat) {
                    found.push((kind, part));
                    kind = NEXT_COMPONENT;
                }
                kind = NEXT_REPEAT;
            }
            kind = NEW_ELEMENT;
        }
    }
    found
}
