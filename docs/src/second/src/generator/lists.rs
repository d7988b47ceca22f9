//! Value lists for Write: true ones in several layouts, and faulty ones.
//!
//! Paper, clause "Operations" (Read, Write) and refusals 15 and 16; change
//! request 2026-01: no segment of a list may begin with a break; change request
//! 2026-10: kind 3.

use super::draft::{Draft, Value};
use super::random::Random;
use crate::value_list::{List, NEW_ELEMENT, NEW_SEGMENT, NEXT_COMPONENT, NEXT_REPEAT, RECORD};

impl List {
    fn push(&mut self, kind: u32, start: usize, length: usize) {
        self.table.extend([kind, start as u32, length as u32]);
    }

    pub fn record_count(&self) -> usize {
        self.table.len() / RECORD
    }
}

/// How the values lie in the bytes.
#[derive(Clone, Copy, Debug, PartialEq, Eq)]
enum Layout {
    EndToEnd,
    WithGaps,
    Backwards,
    Overlapping,
}

/// The draft as a value list in some layout.
pub fn list_of_draft(random: &mut Random, draft: &Draft) -> List {
    let layouts = [
        Layout::EndToEnd,
        Layout::EndToEnd,
        Layout::WithGaps,
        Layout::Backwards,
        Layout::Overlapping,
    ];
    let small = draft.segments.len() < 50;
    let layout = if small { random.pick(&layouts) } else { Layout::EndToEnd };
    let mut list = List::default();
    for (kind, value) in kinds_and_values(draft) {
        let start = place_value(random, &mut list, layout, value);
        list.push(kind, start, value.len());
    }
    if random.chance(20) {
        list.values.extend(random.bytes(3));
    }
    list
}

/// Every value of the draft with the kind of its record.
fn kinds_and_values(draft: &Draft) -> Vec<(u32, &Value)> {
    let mut found = Vec::new();
    for segment in &draft.segments {
        for (element_number, element) in segment.iter().enumerate() {
            for (repeat_number, repeat) in element.iter().enumerate() {
                for (component_number, value) in repeat.iter().enumerate() {
                    let kind = match (element_number, repeat_number, component_number) {
                        (0, 0, 0) => NEW_SEGMENT,
                        (_, 0, 0) => NEW_ELEMENT,
                        (_, _, 0) => NEXT_REPEAT,
                        _ => NEXT_COMPONENT,
                    };
                    found.push((kind, value));
                }
            }
        }
    }
    found
}

/// Puts a value among the bytes and gives its start.
fn place_value(random: &mut Random, list: &mut List, layout: Layout, value: &[u8]) -> usize {
    match layout {
        Layout::EndToEnd => {}
        Layout::WithGaps => {
            let gap = random.below(3);
            list.values.extend(random.bytes(gap));
        }
        Layout::Backwards => {
            list.values.splice(0..0, value.iter().copied());
            let moved = value.len() as u32;
            list.table.iter_mut().skip(1).step_by(RECORD).for_each(|start| *start += moved);
            return 0;
        }
        Layout::Overlapping => {
            let mut windows = list.values.windows(value.len().max(1));
            let found = windows.position(|window| window == value);
            if let Some(start) = found {
                return start;
            }
        }
    }
    list.values.extend(value);
    list.values.len() - value.len()
}

/// A list of few records with any kinds and parts.
pub fn random_list(random: &mut Random) -> List {
    let values = b"UNBUNOA14*+:'?R ".to_vec();
    let mut list = List { values, table: Vec::new() };
    for number in 0..random.below(8) {
        let kind = if number == 0 { 0 } else { random.below(4) as u32 };
        let start = random.below(list.values.len());
        let length = random.below(list.values.len() - start + 1);
        list.push(kind, start, length.min(3));
    }
    list
}

/// A break begins the value of some record, most often one of kind 0; or the
/// value after an empty one of kind 0.
fn put_break(random: &mut Random, list: &mut List) {
    let segments: Vec<usize> = (0..list.record_count())
        .filter(|number| list.table[number * RECORD] == NEW_SEGMENT)
        .collect();
    let number = match random.below(4) {
        0 => random.below(list.record_count()),
        _ if segments.is_empty() => return,
        _ => random.pick(&segments),
    };
    let value = random.pick(&["\n", "\r", "\r\n", "\nBGM", "\rUNB", "B\n", "\0"]);
    let start = list.values.len();
    list.values.extend(value.as_bytes());
    let record = &mut list.table[number * RECORD..][..RECORD];
    match random.below(6) {
        0 => (record[1], record[2]) = (start as u32, 0),
        1 => {
            record[2] = 0;
            let kind = random.pick(&[NEXT_COMPONENT, NEXT_COMPONENT, NEXT_REPEAT, NEW_ELEMENT]);
            let next = [kind, start as u32, value.len() as u32];
            list.table.splice((number + 1) * RECORD..(number + 1) * RECORD, next);
        }
        _ => (record[1], record[2]) = (start as u32, value.len() as u32),
    }
}

/// Puts one or two faults of refusal 15 into a list, or comes close to it.
pub fn break_list(random: &mut Random, list: &mut List) {
    for _ in 0..random.between(1, 2) {
        break_once(random, list);
    }
}

fn break_once(random: &mut Random, list: &mut List) {
    let number = random.below(list.record_count()) * RECORD;
    let byte_count = list.values.len() as u32;
    match random.below(11) {
        0 => list.table.extend(vec![0; random.between(1, 2)]),
        1 => drop(list.table.pop()),
        2 => list.values.truncate(random.below(list.values.len())),
        3 => list.table.clear(),
        _ if list.table.len() < number + RECORD => {}
        8..=10 => put_break(random, list),
        4 => list.table[0] = random.pick(&[1, 2, 3, 4, u32::MAX]),
        5 => list.table[number] = random.pick(&[3, 3, 4, 4, 5, 1 << 31, u32::MAX, 2, 1, 0]),
        6 => {
            list.table[number + 1] =
                random.pick(&[byte_count, byte_count + 1, u32::MAX, 1 << 31, 0])
        }
        _ => {
            let (start, length) = random.pick(&[
                (u32::MAX, 1),
                (u32::MAX, 2),
                (u32::MAX, u32::MAX),
                (1, u32::MAX),
                (byte_count, 0),
                (byte_count, 1),
                (byte_count + 1, 0),
                (0, byte_count),
                (0, byte_count + 1),
                (1 << 31, 1 << 31),
                (byte_count / 2, (byte_count / 2).wrapping_neg()),
            ]);
            list.table[number + 1] = start;
            list.table[number + 2] = length;
        }
    }
}

/// Adds empty values of this kind to the end until the table has so many
/// numbers.
pub fn fill_table(list: &mut List, kind: u32, numbers: usize) {
    while list.table.len() + RECORD <= numbers {
        list.push(kind, 0, 0);
    }
    while list.table.len() < numbers {
        list.table.push(0);
    }
}
