//! Refusals of Write: of the value list (15, 16), or of the text that it tells.

use super::{byte_shown, explain, explained, shown, Explanation, Reason};
use crate::refusal::{Fault, Refusal};
use crate::LONGEST_TABLE;

/// Explains how [`write()`](crate::write()) refused this value list under these service bytes.
///
/// Where the text is refused, the place, the line and the column are those of the text that
/// would have been written.
///
/// ```
/// let (bytes, table) = (b"UNBUNOA1", [0, 0, 3, 1, 3, 4, 7, 7, 1]);
/// let refusal = hverolda::write(b":+.? '", bytes, &table, &mut [0; 99]).unwrap_err();
/// assert_eq!(
///     hverolda::explain_list(b":+.? '", bytes, &table, refusal).sentence,
///     "value 2, from 0, has kind 7: kinds are 0, 1, 2 and 3"
/// );
/// ```
#[must_use]
pub fn explain_list(service: &[u8], bytes: &[u8], table: &[u32], refusal: Refusal) -> Explanation {
    let list = List { bytes, table };
    match refusal.fault {
        Fault::List => explained(None, refusal, malformed(&list, refusal.place)),
        Fault::NoRelease => explained(None, refusal, unspelled(service, &list, refusal.place)),
        Fault::Buffer | Fault::OverLength => explained(None, refusal, None),
        Fault::Advice if service.len() != 6 => {
            let found = format!("{} service bytes", service.len());
            let sentence = format!("{found} are given, six must be");
            explained(None, refusal, Some(Reason::new(found, "six service bytes", sentence)))
        }
        _ => explain(&spelled(service, &list), refusal),
    }
}

struct List<'a> {
    bytes: &'a [u8],
    table: &'a [u32],
}

impl List<'_> {
    /// Kind, and the value where it lies in the bytes.
    fn record(&self, number: usize) -> Option<(u32, Option<&[u8]>)> {
        let row = self.table.chunks_exact(3).nth(number)?;
        let (start, length) = (row[1] as usize, row[2] as usize);
        let end = start.checked_add(length)?;
        Some((row[0], self.bytes.get(start..end)))
    }
}

/// 15: what of the list is malformed.
fn malformed(list: &List, place: usize) -> Option<Reason> {
    let numbers = list.table.len();
    if numbers > LONGEST_TABLE || numbers % 3 != 0 {
        let sentence = format!(
            "the table has {numbers} numbers: three for each value, and at \
            most {LONGEST_TABLE}, are taken"
        );
        return Some(Reason::new(format!("{numbers} numbers"), "a multiple of 3", sentence));
    }
    let (kind, value) = list.record(place)?;
    let (found, expected, why) = match (kind, value) {
        (1..=3, _) if place == 0 => (
            format!("kind {kind}"),
            "kind 0",
            format!("has kind {kind}: the first value begins a segment, and so has kind 0"),
        ),
        (4.., _) => (
            format!("kind {kind}"),
            "a kind from 0 to 3",
            format!("has kind {kind}: kinds are 0, 1, 2 and 3"),
        ),
        (_, None) => (
            "a place outside the bytes".to_string(),
            "a start and a length within the bytes",
            format!("reaches beyond the {} bytes of the list", list.bytes.len()),
        ),
        _ => (
            "a line break".to_string(),
            "a tag",
            "is a tag that begins with a line break".to_string(),
        ),
    };
    Some(Reason::new(found, expected, format!("value {place}, from 0, {why}")))
}

/// 16: what cannot be spelled with these service bytes.
fn unspelled(service: &[u8], list: &List, place: usize) -> Option<Reason> {
    let (kind, value) = list.record(place)?;
    let value = value?;
    let signs = [
        service.first(),
        service.get(1),
        service.get(4).filter(|&&byte| byte != b' '),
        service.get(5),
    ];
    let held = value.iter().find(|byte| signs.contains(&Some(byte)));
    let (found, expected, why) = match held {
        Some(&sign) if service.get(3) == Some(&b' ') => {
            let sign = byte_shown(sign);
            (
                sign.clone(),
                "a release character",
                format!(
                    "is {} and holds {sign}, a service \
                character, which needs a release character, and there is none",
                    shown(value)
                ),
            )
        }
        _ if kind == 3 => (
            "a next repeat".to_string(),
            "a repetition separator",
            "begins a \
            next repeat, which needs a repetition separator (the fifth service byte), and there \
            is none"
                .to_string(),
        ),
        _ => return None,
    };
    Some(Reason::new(found, expected, format!("value {place}, from 0, {why}")))
}

/// The text of a list that is not malformed: an advice, then its segments, trimmed.
fn spelled(service: &[u8], list: &List) -> Vec<u8> {
    let mut text = b"UNA".to_vec();
    text.extend_from_slice(service);
    let mut segment: Vec<Vec<Vec<Vec<u8>>>> = Vec::new();
    for number in 0..list.table.len() / 3 {
        let (kind, value) = match list.record(number) {
            Some((kind, Some(value))) => (kind, released(service, value)),
            _ => continue,
        };
        match kind {
            0 => {
                end_segment(service, &mut text, &segment);
                segment = vec![vec![vec![value]]];
            }
            1 => segment.push(vec![vec![value]]),
            3 => {
                if let Some(element) = segment.last_mut() {
                    element.push(vec![value]);
                }
            }
            _ => {
                if let Some(repeat) = segment.last_mut().and_then(|element| element.last_mut()) {
                    repeat.push(value);
                }
            }
        }
    }
    end_segment(service, &mut text, &segment);
    text
}

/// Stores a segment, where there is one.
fn end_segment(service: &[u8], text: &mut Vec<u8>, segment: &[Vec<Vec<Vec<u8>>>]) {
    let repeat = |components: &Vec<Vec<u8>>| joined(components.clone(), service[0]);
    let element =
        |repeats: &Vec<Vec<Vec<u8>>>| joined(repeats.iter().map(repeat).collect(), service[4]);
    if !segment.is_empty() {
        text.extend(joined(segment.iter().map(element).collect(), service[1]));
        text.push(service[5]);
    }
}

/// The parts with a separator between them, without the empty ones at their end but the first.
fn joined(mut parts: Vec<Vec<u8>>, separator: u8) -> Vec<u8> {
    while parts.len() > 1 && parts.last().map_or(false, Vec::is_empty) {
        parts.pop();
    }
    parts.join(&separator)
}

fn released(service: &[u8], value: &[u8]) -> Vec<u8> {
    let is_service =
        |byte: &u8| *byte != b' ' && [0, 1, 3, 4, 5].iter().any(|&sign| service[sign] == *byte);
    let mut text = Vec::new();
    for byte in value {
        if is_service(byte) {
            text.push(service[3]);
        }
        text.push(*byte);
    }
    text
}

#[cfg(test)]
mod tests {
    use super::*;
    use crate::examples::{REPEATED, X};
    use crate::{text_of, values, Kind, ServiceCharacters, ValueList};

    #[test]
    fn the_text_is_the_one_that_is_written() {
        let swapped =
            ServiceCharacters { component: b'+', element: b':', ..ServiceCharacters::VERSION_4 };
        for (input, characters) in [
            (X, ServiceCharacters::STANDARD),
            (REPEATED, ServiceCharacters::VERSION_4),
            (REPEATED, swapped),
        ] {
            let list = values(input).unwrap();
            let lent = List { bytes: list.bytes(), table: list.table() };
            assert_eq!(spelled(&characters.six(), &lent), text_of(&characters, &list).unwrap());
        }
    }

    #[test]
    fn empty_ends_are_trimmed_as_write_does() {
        let mut list = ValueList::new();
        for (kind, value) in values(REPEATED).unwrap().iter() {
            list.push(kind, value);
            if value == b"2" {
                for kind in [Kind::NextComponent, Kind::NextRepeat, Kind::NewElement] {
                    list.push(kind, "");
                    list.push(Kind::NextComponent, "");
                }
            }
        }
        let lent = List { bytes: list.bytes(), table: list.table() };
        let characters = ServiceCharacters::VERSION_4;
        assert_eq!(spelled(&characters.six(), &lent), text_of(&characters, &list).unwrap());
        assert_ne!(list, values(REPEATED).unwrap());
    }
}
