//! Texts in columns: those that export gives, those of lists that are not
//! trimmed or no interchange, and texts that are one slip away.
//!
//! Change request 2026-12, "Lines for a spreadsheet".

use super::damage::{damage_anywhere, damage_draft};
use super::draft::{any_version, usable_characters, Draft};
use super::random::Random;
use super::{any_input, any_valid, buffer, service_bytes};
use crate::columns::HEADING;
use crate::operations::{export, import};
use crate::refusal::BUFFER;
use crate::request_stream::Request;

/// An input, and a buffer about as long as its text.
pub fn export_request(random: &mut Random) -> Request {
    let input = any_input(random);
    let needed = match export(&input, &mut []) {
        Err(refusal) if refusal.number == BUFFER => refusal.place,
        _ => 20,
    };
    Request::Export { buffer: buffer(random, needed), input }
}

/// A text, six bytes that most often suit it, and an output about as long as it
/// need be.
pub fn import_request(random: &mut Random) -> Request {
    let (text, six) = match random.chance(2) {
        true => (long_columns(random), *b":+.?*'"),
        false => columns_and_six(random),
    };
    let service = service_bytes(random, &six);
    let needed = match import(&service, &text, &mut []) {
        Err(refusal) if refusal.number == BUFFER => refusal.place,
        _ => 20,
    };
    let output = buffer(random, needed);
    Request::Import { service, text, output }
}

/// A text of any sort, most of them of few lines.
pub fn any_columns(random: &mut Random) -> Vec<u8> {
    columns_and_six(random).0
}

fn columns_and_six(random: &mut Random) -> (Vec<u8>, [u8; 6]) {
    let mut draft = any_valid(random);
    if random.chance(35) {
        let aim = random.between(6, 12) as u32;
        damage_draft(random, &mut draft, aim);
    }
    let version = any_version(random);
    let six = match random.chance(80) {
        true => draft.characters.six(),
        false => usable_characters(random, version).six(),
    };
    if random.chance(85) {
        trim(&mut draft);
    }
    let mut text = columns_of_draft(&draft);
    if random.chance(35) {
        slip(random, &mut text);
    }
    (text, six)
}

/// Empty ends go, of repeats, of elements and of segments, but never the tag.
fn trim(draft: &mut Draft) {
    for segment in &mut draft.segments {
        for element in segment.iter_mut() {
            element.iter_mut().for_each(|repeat| trim_end(repeat, Vec::is_empty));
            trim_end(element, |repeat| repeat.concat().is_empty());
        }
        trim_end(segment, |element| element.concat().concat().is_empty());
    }
}

/// The last ones that are empty go, down to one.
fn trim_end<T>(list: &mut Vec<T>, is_empty: impl Fn(&T) -> bool) {
    while list.len() > 1 && list.last().map_or(false, &is_empty) {
        list.pop();
    }
}

/// The lines of a draft as it is, trimmed or not.
fn columns_of_draft(draft: &Draft) -> Vec<u8> {
    let mut text = HEADING.to_vec();
    for (segment_number, segment) in draft.segments.iter().enumerate() {
        for (element_number, element) in segment.iter().enumerate() {
            for (repeat_number, repeat) in element.iter().enumerate() {
                for (number, value) in repeat.iter().enumerate() {
                    let words =
                        format!("{segment_number}\t{element_number}\t{repeat_number}\t{number}\t");
                    text.extend(words.bytes());
                    text.extend(value);
                    text.push(b'\n');
                }
            }
        }
    }
    text
}

/// The lines of a text, each without its line feed.
fn lines_of(text: &[u8]) -> Vec<Vec<u8>> {
    let text = text.strip_suffix(b"\n").unwrap_or(text);
    text.split(|&byte| byte == b'\n').map(<[u8]>::to_vec).collect()
}

fn text_of(lines: &[Vec<u8>]) -> Vec<u8> {
    lines.iter().flat_map(|line| [&line[..], b"\n"].concat()).collect()
}

/// One slip, as a spreadsheet or a person makes it; now and then there is none.
pub fn slip(random: &mut Random, text: &mut Vec<u8>) {
    match random.below(12) {
        0 => *text = text_of(&lines_of(text)).into_iter().flat_map(with_return).collect(),
        1 => drop(text.pop()),
        2 => text.extend(random.pick(&[&b"\n"[..], b"\r\n", b" ", b"\t", b"\x1a", b"0"])),
        3 => {
            let before = random.pick(&[&b"\xef\xbb\xbf"[..], b"\n", b" ", b"\""]);
            text.splice(0..0, before.iter().copied());
        }
        4 => damage_anywhere(random, text),
        5 => slip_in_heading(random, text),
        6 | 7 => slip_of_lines(random, text),
        _ => slip_in_line(random, text),
    }
}

/// CR LF for a line feed.
fn with_return(byte: u8) -> Vec<u8> {
    match byte {
        b'\n' => b"\r\n".to_vec(),
        other => vec![other],
    }
}

fn slip_in_heading(random: &mut Random, text: &mut Vec<u8>) {
    let headings: [&[u8]; 9] = [
        b"",
        b"\n",
        b"Segment\tElement\tRepeat\tComponent\tValue\n",
        b"segment\telement\tcomponent\tvalue\n",
        b"segment\telement\trepeat\tcomponent\tvalue\t\n",
        b"segment\telement\trepeat\tcomponent\tvalue \n",
        b"segment element repeat component value\n",
        b"segment\telement\trepeat\tcomponent\tvalue\nsegment\telement\trepeat\tcomponent\tvalue\n",
        b"segment,element,repeat,component,value\n",
    ];
    let end = HEADING.len().min(text.len());
    text.splice(0..end, random.pick(&headings).iter().copied());
}

/// A line that is missing, there twice, blank, out of order, or one more with
/// an empty value, which trimming would take.
fn slip_of_lines(random: &mut Random, text: &mut Vec<u8>) {
    let mut lines = lines_of(text);
    let (one, other) = (random.below(lines.len()), random.below(lines.len()));
    match random.below(6) {
        0 => drop(lines.remove(one)),
        1 => lines.insert(other, lines[one].clone()),
        2 => lines.insert(one, Vec::new()),
        3 => lines.swap(one, other),
        4 => lines.truncate(one + 1),
        _ => {
            let place = random.between(1, 4) - 1;
            let mut words = words_of(&lines[one]);
            if words.len() == 5 && one > 0 {
                words[place] = plus_one(&words[place]);
                (place + 1..4).for_each(|number| words[number] = b"0".to_vec());
                words[4].clear();
                lines.insert(one + 1, words.join(&b'\t'));
            }
        }
    }
    *text = text_of(&lines);
}

fn words_of(line: &[u8]) -> Vec<Vec<u8>> {
    line.split(|&byte| byte == b'\t').map(<[u8]>::to_vec).collect()
}

/// The number after this one; the word itself where it is no number.
fn plus_one(word: &[u8]) -> Vec<u8> {
    let number = String::from_utf8_lossy(word).parse::<u64>();
    number.map_or(word.to_vec(), |number| (number + 1).to_string().into_bytes())
}

/// Another word in a line: a number with a zero, a sign or a blank before it, one
/// that skips, a value in quotes, or a tab more or less.
fn slip_in_line(random: &mut Random, text: &mut Vec<u8>) {
    let mut lines = lines_of(text);
    let number = random.below(lines.len());
    let mut words = words_of(&lines[number]);
    let place = random.below(words.len().min(4));
    match random.below(12) {
        0 | 1 => words[place].insert(0, b'0'),
        2 => words[place].insert(0, random.pick(b"+- 0\xa0")),
        3 | 4 => words[place] = plus_one(&words[place]),
        5 => words[place] = random.pick(&["", "a", "1.0", "0x0", "18446744073709551616"]).into(),
        6 => words[place].extend(vec![b'0'; random.pick(&[1, 20, 5_000])]),
        7 => words.insert(place, Vec::new()),
        8 => drop(words.remove(place)),
        9 => {
            if let Some(value) = words.last_mut() {
                value.insert(0, b'"');
                value.push(b'"');
            }
        }
        10 => words.iter_mut().skip(4).for_each(Vec::clear),
        _ => {
            if let Some(value) = words.last_mut() {
                let byte = random.pick(b"\t\r\x0b\x0c\x00\x80\xff a+:*'?");
                value.insert(random.below(value.len() + 1), byte);
            }
        }
    }
    lines[number] = words.join(&b'\t');
    *text = text_of(&lines);
}

/// About 32,000 lines, or a value of about 32,000 bytes or of very many; or a
/// number of very many digits.
fn long_columns(random: &mut Random) -> Vec<u8> {
    let mut text = HEADING.to_vec();
    match random.below(4) {
        0 => {
            let count = random.pick(&[31_999, 32_000, 32_001, 40_000]);
            let column = random.below(4);
            text.extend((0..count).flat_map(|number| numbered_line(number, column)));
        }
        1 => {
            let length = random.pick(&[31_986, 31_987, 31_988, 100_000]);
            text.extend(b"0\t0\t0\t0\tUNB\n0\t1\t0\t0\t");
            text.extend(vec![b'A'; length]);
            text.push(b'\n');
        }
        2 => {
            text.extend(b"0\t0\t0\t0\tUNB\n0\t");
            text.extend(vec![random.pick(b"01"); 100_000]);
            text.extend(b"\t0\t0\tA\n");
        }
        _ => {
            text.extend(b"0\t0\t0\t0\tUNB\n");
            text.extend(b"\t".repeat(100_000));
        }
    }
    text
}

/// A line whose number in this column is its own, so that they go on by it.
fn numbered_line(number: usize, column: usize) -> Vec<u8> {
    let mut words = ["0", "0", "0", "0", "A"].map(str::to_string);
    words[column] = number.to_string();
    format!("{}\n", words.join("\t")).into_bytes()
}
