//! Interchanges to be acknowledged, and what is lent for it: whole lists in
//! several layouts, faulty ones, and reports about the limits.
//!
//! Change request 2026-11, "Acknowledgements".

use super::damage::damage_draft;
use super::draft::{single, Draft, DraftElement, Value};
use super::lists::{break_list, list_of_draft};
use super::random::Random;
use super::{any_input, any_valid, buffer, spelled};
use crate::acknowledgement::{put_together, Lent};
use crate::level::Level;
use crate::operations::acknowledge;
use crate::refusal::{BUFFER, LONGEST, LONGEST_TABLE};
use crate::request_stream::Request;
use crate::service_characters::PRINTABLE_4;
use crate::value_list::{List, NEW_ELEMENT, NEW_SEGMENT, NEXT_COMPONENT, NEXT_REPEAT, RECORD};

const SENDER: usize = 2;
const RECIPIENT: usize = 3;

/// An interchange and the three lists; most often there is a report.
pub fn acknowledge_request(random: &mut Random) -> Request {
    let received = any_received(random);
    let mut lists = any_lists(random);
    if random.chance(4) {
        lists = about_a_limit(random, &received, lists);
    }
    let [date, reference, message] = lists;
    let lent = Lent { date: date.lent(), reference: reference.lent(), message: message.lent() };
    let needed = match acknowledge(&received, &lent, &mut []) {
        Err(refusal) if refusal.number == BUFFER => refusal.place,
        _ => 20,
    };
    let output = buffer(random, needed);
    Request::Acknowledge { received, date, reference, message, output }
}

/// Accepted, refused by 10, 11 or 12, with an empty party, or any input.
fn any_received(random: &mut Random) -> Vec<u8> {
    if random.chance(15) {
        return any_input(random);
    }
    let mut draft = with_parties(random);
    match random.below(10) {
        0..=2 => {
            let aim = random.between(10, 12) as u32;
            damage_draft(random, &mut draft, aim);
        }
        3 => damage_party(random, &mut draft),
        _ => {}
    }
    spelled(random, &draft)
}

/// A valid draft whose sender and recipient are no single empty values.
pub fn with_parties(random: &mut Random) -> Draft {
    let mut draft = any_valid(random);
    for party in [SENDER, RECIPIENT] {
        let element = &mut draft.segments[0][party];
        let repeat = random.below(element.len());
        let component = random.below(element[repeat].len());
        element[repeat][component].push(b'A');
    }
    draft
}

/// A sender or a recipient that is empty, or comes close to it.
fn damage_party(random: &mut Random, draft: &mut Draft) {
    let party = random.pick(&[SENDER, RECIPIENT]);
    let empty = || Vec::new();
    let elements: [DraftElement; 6] = [
        single(""),
        vec![vec![empty(), empty()]],
        vec![vec![empty()], vec![empty(), empty()]],
        vec![vec![empty(), b"A".to_vec()]],
        vec![vec![empty()], vec![b"A".to_vec()]],
        single(" "),
    ];
    draft.segments[0][party] = random.pick(&elements);
}

/// The three lists: true ones, most often; one of them faulty otherwise.
fn any_lists(random: &mut Random) -> [List; 3] {
    let date = random.pick(&[&["261115", "0842"][..], &["20261115", "0842"], &["1"], &["", ""]]);
    let reference = any_reference(random);
    let message = random.pick(&[&["CONTRL", "4", "1", "UN"][..], &["CONTRL"], &["A+B", "?", ""]]);
    let mut lists = [
        any_layout(random, values(date)),
        any_layout(random, reference),
        any_layout(random, values(message)),
    ];
    if random.chance(30) {
        let number = random.below(lists.len());
        damage_list(random, &mut lists[number]);
    }
    lists
}

fn values(components: &[&str]) -> DraftElement {
    vec![components.iter().map(|&value| value.into()).collect()]
}

/// One value of 1 to 14 bytes, or one that is no reference.
fn any_reference(random: &mut Random) -> DraftElement {
    let length = random.pick(&[1, 2, 3, 8, 13, 14, 14]);
    let value: Value = (0..length).map(|_| random.pick(b"AB012 +?:'*")).collect();
    match random.below(20) {
        0 => single(""),
        1 => single([&value[..], b"00000000000000"].concat()),
        2 => vec![vec![value, b"1".to_vec()]],
        3 => vec![vec![value, Vec::new()]],
        4 => vec![vec![Vec::new(), value]],
        5 => vec![vec![value], vec![Vec::new()]],
        6 => single([&b"\n"[..], &value].concat()),
        _ => single(value),
    }
}

/// The element as a list in some layout.
fn any_layout(random: &mut Random, element: DraftElement) -> List {
    let segments = vec![vec![element]];
    let draft = Draft { characters: PRINTABLE_4, advice: true, level: Level::A, segments };
    list_of_draft(random, &draft)
}

/// Faults of 15, a record of a wrong kind, empty ends, a next repeat, a byte
/// outside the level, or no record at all.
fn damage_list(random: &mut Random, list: &mut List) {
    let empty_end = |list: &mut List, kind| list.table.extend([kind, 0, 0]);
    match random.below(12) {
        0 => list.table.clear(),
        1 | 2 => break_list(random, list),
        3 => list.add(NEW_SEGMENT, *b"A"),
        4 => list.add(NEW_ELEMENT, *b"A"),
        5 => empty_end(list, random.pick(&[NEW_SEGMENT, NEW_ELEMENT])),
        6 => list.add(NEXT_REPEAT, *b"B"),
        7 => (0..3).for_each(|_| empty_end(list, random.pick(&[NEXT_COMPONENT, NEXT_REPEAT]))),
        8 => list.add(NEXT_COMPONENT, [random.pick(b"a@_\n\t\x00\x80\xff")]),
        9 => list.table[0] = random.pick(&[NEW_ELEMENT, NEXT_COMPONENT, NEXT_REPEAT, 4]),
        10 => list.add(random.pick(&[4, 5, u32::MAX]), *b"A"),
        _ => list.add(NEXT_COMPONENT, vec![b'A'; random.below(40)]),
    }
}

/// A report whose table has about 96,000 numbers, or whose text has about
/// 32,000 bytes; or one that is far above both.
fn about_a_limit(random: &mut Random, received: &[u8], lists: [List; 3]) -> [List; 3] {
    let [date, reference, mut message] = lists;
    let lent = Lent { date: date.lent(), reference: reference.lent(), message: message.lent() };
    let (records, length) = match put_together(received, &lent) {
        Ok(report) => (report.list.table.len() / RECORD, report_length(received, &lent)),
        Err(_) => return [date, reference, message],
    };
    let step = random.below(3);
    match random.below(4) {
        0 => {
            let missing = (LONGEST_TABLE / RECORD + step).saturating_sub(records + 1);
            let kind = random.pick(&[NEXT_COMPONENT, NEXT_COMPONENT, NEXT_REPEAT]);
            (0..missing).for_each(|_| message.table.extend([kind, 0, 0]));
        }
        1 | 2 => {
            let missing = (LONGEST + step).saturating_sub(length + 2);
            message.add(NEXT_COMPONENT, vec![random.pick(b"A0"); missing]);
        }
        _ => {
            let all = message.values.len() as u32;
            (0..20_000).for_each(|_| message.table.extend([NEXT_COMPONENT, 0, all]));
        }
    }
    [date, reference, message]
}

/// The length of the report's text; 0 where there is none.
fn report_length(received: &[u8], lent: &Lent) -> usize {
    match acknowledge(received, lent, &mut []) {
        Err(refusal) if refusal.number == BUFFER => refusal.place,
        _ => 0,
    }
}
