//! The public operations over lent byte slices.
//!
//! Paper, clause "Operations" and the stages and exit buffers of clause
//! "Refusals by number"; change request 2026-10: Locate has a repeat number; change
//! request 2026-08, "Message structures", has the second Judge; change request
//! 2026-11: Acknowledge; change request 2026-12: Export and Import.

use crate::acknowledgement::{put_together, Lent};
use crate::columns::{columns_of, list_of_columns};
use crate::contents::{Contents, Part};
use crate::judging::{accept, accept_by, Accepted};
use crate::message_table::entries_of;
use crate::normal_form::{text, text_length};
use crate::refusal::{refuse, Answer, Refusal, ADVICE, BUFFER, LONGEST, NO_COLUMNS, OVER_LENGTH};
use crate::service_characters::{from_six, ServiceCharacters};
use crate::trimming::trim;
use crate::value_list::{check_spellable, contents_of, list_of, records_of};

/// Judge's answer for an accepted interchange.
#[derive(Clone, Copy, Debug, PartialEq, Eq)]
pub struct Verdict {
    pub characters: ServiceCharacters,
    pub segments: usize,
    pub messages: usize,
    pub groups: usize,
    pub normal_length: usize,
}

pub fn judge(input: &[u8]) -> Answer<Verdict> {
    Ok(verdict_of(&accept(input)?))
}

/// The second Judge, which is lent a table of message structures: before all
/// else 21 where the table is unsound, and 22 after 12 and before 13.
pub fn judge_by_table(table: &[u8], input: &[u8]) -> Answer<Verdict> {
    let entries = entries_of(table)?;
    Ok(verdict_of(&accept_by(Some(&entries), input)?))
}

fn verdict_of(accepted: &Accepted) -> Verdict {
    Verdict {
        characters: accepted.characters,
        segments: accepted.contents.segments.len(),
        messages: accepted.messages,
        groups: accepted.groups,
        normal_length: accepted.normal_length,
    }
}

/// The length of the normal form, which then begins the buffer; a refusal
/// leaves the buffer unchanged.
pub fn normalise(input: &[u8], buffer: &mut [u8]) -> Answer<usize> {
    let accepted = accept(input)?;
    let length = accepted.normal_length;
    if buffer.len() < length {
        return refuse(BUFFER, length);
    }
    buffer[..length].copy_from_slice(&accepted.normal_form());
    Ok(length)
}

#[derive(Clone, Copy, Debug, PartialEq, Eq)]
pub enum Which {
    First,
    Second,
}

#[derive(Clone, Copy, Debug, PartialEq, Eq)]
pub enum Comparison {
    Same,
    Different,
    Refused(Which, Refusal),
}

pub fn compare(first: &[u8], second: &[u8]) -> Comparison {
    let normal_form = |input| accept(input).map(|accepted: Accepted| accepted.normal_form());
    let first = match normal_form(first) {
        Ok(form) => form,
        Err(refusal) => return Comparison::Refused(Which::First, refusal),
    };
    let second = match normal_form(second) {
        Ok(form) => form,
        Err(refusal) => return Comparison::Refused(Which::Second, refusal),
    };
    if first == second {
        Comparison::Same
    } else {
        Comparison::Different
    }
}

/// The interchange kept: which of the two, and its bytes.
#[derive(Clone, Copy, Debug, PartialEq, Eq)]
pub struct Kept<'a> {
    pub which: Which,
    pub part: &'a [u8],
}

/// The shorter of two interchanges that are the same, the first where equally
/// long; otherwise the first zero bytes of the first.
pub fn keep<'a>(first: &'a [u8], second: &'a [u8]) -> Kept<'a> {
    if compare(first, second) != Comparison::Same {
        Kept { which: Which::First, part: &first[..0] }
    } else if second.len() < first.len() {
        Kept { which: Which::Second, part: second }
    } else {
        Kept { which: Which::First, part: first }
    }
}

/// Numbers of a segment, an element, a repeat and a component, each from 0.
#[derive(Clone, Copy, Debug, PartialEq, Eq)]
pub struct Numbers {
    pub segment: u32,
    pub element: u32,
    pub repeat: u32,
    pub component: u32,
}

/// Where a component of the contents is spelled; None where it is absent.
pub fn locate(input: &[u8], numbers: Numbers) -> Answer<Option<Part>> {
    let accepted = accept(input)?;
    Ok(located(&accepted.contents, numbers))
}

fn located(contents: &Contents, numbers: Numbers) -> Option<Part> {
    let segment = contents.segments.get(numbers.segment as usize)?;
    let repeats = contents.numbered(segment, numbers.element as usize)?;
    let components = contents.components_of(repeats.get(numbers.repeat as usize)?);
    components.get(numbers.component as usize).copied()
}

/// A part of an input as it is spelled there, and where it stands.
#[derive(Clone, Copy, Debug, PartialEq, Eq)]
pub struct Spelled<'a> {
    pub offset: usize,
    pub bytes: &'a [u8],
}

/// Locate's companion: zero bytes at the input's start where the component is
/// absent or the input refused.
pub fn spelled(input: &[u8], numbers: Numbers) -> Spelled<'_> {
    match locate(input, numbers) {
        Ok(Some(part)) => Spelled { offset: part.range().start, bytes: part.of(input) },
        _ => Spelled { offset: 0, bytes: &input[..0] },
    }
}

/// How much of the two buffers Read has used.
#[derive(Clone, Copy, Debug, PartialEq, Eq)]
pub struct ReadCounts {
    pub bytes: usize,
    pub numbers: usize,
}

/// The value list of the contents; a refusal leaves both buffers unchanged.
pub fn read(input: &[u8], bytes: &mut [u8], table: &mut [u32]) -> Answer<ReadCounts> {
    let accepted = accept(input)?;
    let list = list_of(&accepted.contents);
    let counts = ReadCounts { bytes: list.values.len(), numbers: list.table.len() };
    if bytes.len() < counts.bytes {
        return refuse(BUFFER, counts.bytes);
    }
    if table.len() < counts.numbers {
        return refuse(BUFFER, counts.numbers);
    }
    bytes[..counts.bytes].copy_from_slice(&list.values);
    table[..counts.numbers].copy_from_slice(&list.table);
    Ok(counts)
}

/// The length of the text, which then begins the output; a refusal leaves the
/// whole output zero.
pub fn write(service: &[u8], values: &[u8], table: &[u32], output: &mut [u8]) -> Answer<usize> {
    match text_of(service, values, table, output.len()) {
        Ok(text) => {
            output[..text.len()].copy_from_slice(&text);
            Ok(text.len())
        }
        Err(refusal) => {
            output.fill(0);
            Err(refusal)
        }
    }
}

/// The text of a value list: 15, 2, 16, 1, 14, then as Judge answers.
fn text_of(service: &[u8], values: &[u8], table: &[u32], room: usize) -> Answer<Vec<u8>> {
    let records = records_of(table, values)?;
    let characters = match from_six(service) {
        Some(characters) => characters,
        None => return refuse(ADVICE, 0),
    };
    check_spellable(&records, values, &characters)?;
    let mut contents = contents_of(&records, values);
    trim(&mut contents);
    let length = text_length(&contents, &characters);
    if length > LONGEST as u64 {
        return refuse(OVER_LENGTH, 0);
    }
    if length > room as u64 {
        return refuse(BUFFER, length as usize);
    }
    let text = text(&contents, &characters);
    judge(&text)?;
    Ok(text)
}

/// The length of the acknowledgement of a received interchange, which then
/// begins the output; a refusal leaves the whole output zero.
pub fn acknowledge(received: &[u8], lent: &Lent, output: &mut [u8]) -> Answer<usize> {
    match put_together(received, lent) {
        Ok(report) => write(&report.service, &report.list.values, &report.list.table, output),
        Err(refusal) => {
            output.fill(0);
            Err(refusal)
        }
    }
}

/// The length of the contents in columns, which then begin the buffer; a refusal
/// leaves the buffer unchanged.
pub fn export(input: &[u8], buffer: &mut [u8]) -> Answer<usize> {
    let text = columns_of(&accept(input)?.contents);
    if buffer.len() < text.len() {
        return refuse(BUFFER, text.len());
    }
    buffer[..text.len()].copy_from_slice(&text);
    Ok(text.len())
}

/// The length of the interchange that a text in columns tells, which then begins
/// the output; a refusal leaves the whole output zero.
pub fn import(service: &[u8], text: &[u8], output: &mut [u8]) -> Answer<usize> {
    match list_of_columns(text) {
        Some(list) => write(service, &list.values, &list.table, output),
        None => {
            output.fill(0);
            refuse(NO_COLUMNS, 0)
        }
    }
}
