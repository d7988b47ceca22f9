//! Damages: each aims at one refusal number, on the draft or on its bytes.
//!
//! Paper, clause "Refusals by number", numbers 2 to 12; the long inputs of 1
//! and 13 stand in `limits`. Change request 2026-10: repeats in tags, in control
//! elements, in UNB's and UNS's first elements, other versions and other fifth
//! bytes. Under a space as fifth byte the repeats become plain asterisks.

use super::draft::{single, tag_of, Draft, DraftElement, DraftSegment, Value};
use super::random::Random;
use crate::level::{holds, Level};
use crate::service_characters::{from_six, ServiceCharacters};

const HEADERS: [&str; 3] = ["UNB", "UNG", "UNH"];
const TRAILERS: [&str; 3] = ["UNT", "UNE", "UNZ"];

/// The numbers that a damage aims at.
pub const AIMS: [u32; 11] = [2, 3, 4, 5, 6, 7, 8, 9, 10, 11, 12];

/// Is this damage done to the draft, before it is spelled?
pub fn is_done_to_draft(aim: u32) -> bool {
    aim >= 6
}

/// Damages a draft, aiming at 6 to 12.
pub fn damage_draft(random: &mut Random, draft: &mut Draft, aim: u32) {
    match aim {
        6 => damage_tag(random, draft),
        7 => damage_level(random, draft),
        8 => damage_byte(random, draft),
        9 => damage_order(random, draft),
        10 => damage_control(random, draft),
        11 => damage_reference(random, draft),
        _ => damage_count(random, draft),
    }
}

/// Damages the spelled bytes, aiming at 2 to 5.
pub fn damage_bytes(random: &mut Random, draft: &Draft, input: &mut Vec<u8>, aim: u32) {
    match aim {
        2 => damage_advice(random, input),
        3 => damage_beginning(random, draft, input),
        4 => damage_release(random, draft, input),
        _ => damage_end(random, input),
    }
}

fn damage_tag(random: &mut Random, draft: &mut Draft) {
    let number = random.below(draft.segments.len() - 1) + 1;
    if number >= draft.segments.len() {
        return;
    }
    let mut tag = tag_of(&draft.segments[number]).clone();
    match random.below(8) {
        0 => tag.push(b'A'),
        1 => drop(tag.pop()),
        2 => tag.clear(),
        3 => tag = random.pick(&["UNA", "UNX", "UN0", "UNb", "bgm", "B M", "B+M"]).into(),
        4 => tag.make_ascii_lowercase(),
        5 => draft.segments[number][0][0].push(random.pick(&["", "1"]).into()),
        6 => put_repeat(random, &mut draft.segments[number][0]),
        _ => {
            let place = random.below(tag.len());
            tag.truncate(place);
            tag.push(random.pick(b"a_ +:?'.\x00\xff[@/"));
            tag.resize(3, b'A');
        }
    }
    draft.segments[number][0][0][0] = tag;
}

/// A repeat more, empty or not, at the end or before it.
fn put_repeat(random: &mut Random, element: &mut DraftElement) {
    let repeat = random.pick(&[&[""][..], &["1"], &["X"], &["", ""], &["", "1"], &["1", "2"]]);
    let repeat = repeat.iter().map(|&value| value.into()).collect();
    let place = if random.chance(75) { element.len() } else { random.below(element.len()) };
    element.insert(place, repeat);
}

fn damage_level(random: &mut Random, draft: &mut Draft) {
    if draft.segments[0].len() < 2 {
        return;
    }
    let header = &mut draft.segments[0];
    let names = &mut header[1][0];
    match random.below(8) {
        0 => {
            let levels = ["UNOC", "UNO", "UNOAA", "unoa", "", "UNOa", "UNO:", " UNOA", "UNOA "];
            names[0] = random.pick(&levels).into();
        }
        1 | 2 => {
            let versions = [
                "0", "3", "01", "", "12", " 1", "1 ", "+", "a", "1", "2", "4", "4", "44", "41",
                "04", "4 ", "*", "4*",
            ];
            names.resize(2, Vec::new());
            names[1] = random.pick(&versions).into();
        }
        3 => names.truncate(1),
        4 => header.truncate(random.between(1, 2)),
        5 => put_repeat(random, &mut header[1]),
        6 => {
            names.resize(2, Vec::new());
            names[0] = random.pick(&["UNOC", "UNOY", "UNO", "UNOA*"]).into();
            names[1] = b"4".to_vec();
        }
        _ => damage_repetition(random, draft),
    }
}

/// An advice with another fifth byte: a space, or one that serves.
fn damage_repetition(random: &mut Random, draft: &mut Draft) {
    draft.advice = true;
    let other = random.pick(b" **;!~\x1f");
    let repetition = (other != b' ').then_some(other);
    let characters = ServiceCharacters { repetition, ..draft.characters };
    if from_six(&characters.six()).is_some() {
        draft.characters = characters;
    }
}

fn damage_byte(random: &mut Random, draft: &mut Draft) {
    let number = random.below(draft.segments.len());
    let segment = &mut draft.segments[number];
    let least = if segment.len() > 1 { 1 } else { 0 };
    let element = random.between(least, segment.len() - 1);
    let repeat = random.below(segment[element].len());
    let component = random.below(segment[element][repeat].len());
    let value = &mut segment[element][repeat][component];
    let outside: Vec<u8> = (0..=255u8).filter(|&byte| !holds(draft.level, byte)).collect();
    let near = b"#$@[]^_`{|}~\x00\x1b\x1c\x1d\x1e\x1f\n\x7f\x80\xff";
    let service = draft.characters.six();
    let released: Vec<u8> = service.into_iter().filter(|byte| outside.contains(byte)).collect();
    let byte = match random.below(4) {
        3 if draft.characters.release.is_some() && !released.is_empty() => random.pick(&released),
        0 if draft.level == Level::A => random.pick(b"abz"),
        1 => random.pick(&outside),
        _ => random.pick(near),
    };
    value.insert(random.below(value.len() + 1), byte);
}

fn damage_order(random: &mut Random, draft: &mut Draft) {
    let segments = &mut draft.segments;
    if segments.len() < 2 {
        return;
    }
    let here = random.between(1, segments.len() - 1);
    let there = random.between(1, segments.len() - 1);
    match random.below(8) {
        0 => drop(segments.remove(here)),
        1 => segments.swap(here, there),
        2 => segments.insert(there, segments[here].clone()),
        3 => segments.push(segments[here].clone()),
        4 => segments.truncate(here),
        5 | 6 => damage_sections(random, draft),
        _ => {
            let tags = ["UNB", "UNG", "UNH", "UNS", "UNT", "UNE", "UNZ", "BGM"];
            let tag = random.pick(&tags);
            segments.insert(there, vec![single(tag), single("1"), single("1")]);
        }
    }
}

/// What stands in a UNS after its tag, more often a section than not.
fn any_marker(random: &mut Random) -> DraftSegment {
    let value = random.pick(&["D", "D", "D", "S", "S", "S", "", "X", "DS", "D ", " S", "?"]);
    match random.below(14) {
        0 => Vec::new(),
        1 => vec![vec![vec![value.into(), random.pick(&["S", "D", ""]).into()]]],
        2 => vec![single(""), single(value)],
        3 => vec![vec![vec![Vec::new(), value.into()]]],
        4 => vec![single(value), single("X")],
        5 | 6 => {
            let mut element = single(value);
            put_repeat(random, &mut element);
            vec![element]
        }
        _ => vec![single(value)],
    }
}

/// One or two UNS more, each in a message; or another section in one that is
/// there. Request 2026-03.
fn damage_sections(random: &mut Random, draft: &mut Draft) {
    let there = draft.tagged(&["UNS"]);
    if !there.is_empty() && random.chance(40) {
        let number = random.pick(&there);
        draft.segments[number].truncate(1);
        draft.segments[number].extend(any_marker(random));
        return;
    }
    for _ in 0..random.between(1, 2) {
        if let Some(before) = some_tagged(random, draft, &["UNH", "UNS", "BGM"]) {
            let mut segment = vec![single("UNS")];
            segment.extend(any_marker(random));
            draft.segments.insert(before + 1, segment);
            recount(draft);
        }
    }
}

/// Each UNT counts what stands there now, so that nothing but the sections can
/// be wrong.
pub fn recount(draft: &mut Draft) {
    let mut first = 0;
    for number in 0..draft.segments.len() {
        let segment = &mut draft.segments[number];
        if tag_of(segment) == b"UNH" {
            first = number;
        } else if tag_of(segment) == b"UNT" && segment.len() > 1 {
            segment[1] = single((number - first + 1).to_string());
        }
    }
}

/// The element number of a reference, by tag.
fn reference_number(tag: &[u8]) -> usize {
    match tag {
        b"UNB" | b"UNG" => 5,
        b"UNH" => 1,
        _ => 2,
    }
}

/// A segment with one of these tags, if there is any.
fn some_tagged(random: &mut Random, draft: &Draft, tags: &[&str]) -> Option<usize> {
    let numbers = draft.tagged(tags);
    (!numbers.is_empty()).then(|| random.pick(&numbers))
}

fn damage_control(random: &mut Random, draft: &mut Draft) {
    let of_count = random.chance(40);
    let tags = if of_count || random.chance(50) { TRAILERS } else { HEADERS };
    let number = match some_tagged(random, draft, &tags) {
        Some(number) => number,
        None => return,
    };
    let segment = &mut draft.segments[number];
    let place = if of_count { 1 } else { reference_number(tag_of(segment)) };
    if random.chance(20) || segment.len() <= place {
        segment.truncate(random.between(1, place));
        return;
    }
    if random.chance(25) {
        put_repeat(random, &mut segment[place]);
        return;
    }
    let components = &mut segment[place][0];
    match random.below(6) {
        0 => components.push(b"1".to_vec()),
        1 => components.insert(0, Vec::new()),
        2 => components[0].clear(),
        3 => components.push(Vec::new()),
        4 if of_count => {
            let counts = ["1A", "-1", "+1", " 1", "1 ", "1.0", "0000001", "1000000", "1:", "?"];
            components[0] = random.pick(&counts).into();
        }
        _ => lengthen(random, &mut components[0], if of_count { 7 } else { 15 }),
    }
}

/// Lengthens a value to this length or one below.
fn lengthen(random: &mut Random, value: &mut Value, length: usize) {
    let length = if random.chance(25) { length - 1 } else { length };
    while value.len() < length {
        value.insert(0, b'0');
    }
}

fn damage_reference(random: &mut Random, draft: &mut Draft) {
    let tags = random.pick(&[HEADERS, TRAILERS]);
    let number = match some_tagged(random, draft, &tags) {
        Some(number) => number,
        None => return,
    };
    let segment = &mut draft.segments[number];
    let place = reference_number(tag_of(segment));
    let value = match segment.get_mut(place) {
        Some(element) => &mut element[0][0],
        None => return,
    };
    match random.below(5) {
        0 => value.push(random.pick(b" A0")),
        1 => value.insert(0, b'0'),
        2 => drop(value.pop()),
        3 => *value = b"Q".to_vec(),
        _ => {
            if let Some(first) = value.first_mut() {
                *first = if *first == b'A' { b'B' } else { b'A' };
            }
        }
    }
}

fn damage_count(random: &mut Random, draft: &mut Draft) {
    let number = match some_tagged(random, draft, &TRAILERS) {
        Some(number) => number,
        None => return,
    };
    let value = match draft.segments[number].get_mut(1) {
        Some(element) => &mut element[0][0],
        None => return,
    };
    let count: i64 = String::from_utf8_lossy(value).parse().unwrap_or(1);
    let wrong = match random.below(5) {
        0 | 1 => (count + 1).to_string(),
        2 => (count - 1).max(0).to_string(),
        3 => random.pick(&["0", "00", "000000", "999999", "10", "100000"]).to_string(),
        _ => format!("{:06}", count + 1),
    };
    *value = wrong.into_bytes();
    if random.chance(20) {
        lengthen_reference(random, &mut draft.segments[number]);
    }
}

/// A second fault in the same trailer.
fn lengthen_reference(random: &mut Random, trailer: &mut DraftSegment) {
    if let Some(element) = trailer.get_mut(2) {
        let byte = random.pick(b"AB");
        element[0][0].extend(vec![byte; random.pick(&[1, 1, 1, 14])]);
    }
}

fn damage_advice(random: &mut Random, input: &mut Vec<u8>) {
    if !input.starts_with(b"UNA") {
        input.splice(0..0, *b"UNA:+.? '");
    }
    if input.len() < 9 {
        return;
    }
    let place = random.between(3, 8);
    match random.below(6) {
        0 => input.truncate(random.between(3, 8)),
        1 => input[place] = input[random.between(3, 8)],
        2 => input[place] = random.pick(b"A0z \x1b\x1e\x20\x7f\x80.,;\x00"),
        3 => drop(input.remove(place)),
        4 => input[7] = input[random.between(3, 8)],
        _ => input[7] = random.pick(b"A0z \x1b\x1d\x1e\x7f\x80.,;*\x00"),
    }
}

fn damage_beginning(random: &mut Random, draft: &Draft, input: &mut Vec<u8>) {
    let body = if draft.advice { 9 } else { 0 };
    let place = body + random.below(4);
    if place >= input.len() {
        return;
    }
    match random.below(4) {
        0 => input.truncate(place),
        1 => input[place] = random.pick(b"UNBnHA+:'?\x1d\x1c "),
        2 => drop(input.remove(place)),
        _ => input.insert(place, random.pick(b"UNB+ \n\xef")),
    }
}

fn damage_release(random: &mut Random, draft: &Draft, input: &mut Vec<u8>) {
    let release = draft.characters.release.unwrap_or(b'?');
    let body = if draft.advice { 13 } else { 4 };
    if body > input.len() {
        return;
    }
    let place = random.between(body, input.len());
    match random.below(5) {
        0 => input.insert(place, release),
        1 => drop(input.splice(place..place, [release, b'A'])),
        2 => input.push(release),
        3 => drop(input.splice(place..place, [release, b'*'])),
        _ => drop(input.splice(place..place, [release, draft.characters.mark])),
    }
}

fn damage_end(random: &mut Random, input: &mut Vec<u8>) {
    match random.below(4) {
        0 => drop(input.pop()),
        1 => input.push(random.pick(b"\n\r A+:?'\x00")),
        2 => input.extend(b"\r\n"),
        _ => input.truncate(random.between(4.min(input.len()), input.len())),
    }
}

/// A damage with no aim: cut short, a byte changed, put in or taken out.
pub fn damage_anywhere(random: &mut Random, input: &mut Vec<u8>) {
    let place = random.below(input.len());
    let byte = match random.below(3) {
        0 => random.byte(),
        _ => random.pick(b"UNABHTZGES+:'?.,;*!~ 01Ra\x1c\x1d\x1f\n"),
    };
    match random.below(5) {
        0 => input.truncate(place),
        1 | 2 if !input.is_empty() => input[place] = byte,
        3 if !input.is_empty() => drop(input.remove(place)),
        _ => input.insert(place, byte),
    }
}
