//! Mailbox files: interchanges end to end, normal forms and others, with breaks,
//! damage, cut ends, long pieces, and UNZ at every place.
//!
//! Change request 2026-02, "Mailbox files and the morning figures".

use super::breaks::{filled_with_breaks, with_breaks};
use super::damage::damage_anywhere;
use super::draft::{any_version, respelled, single, usable_characters, valid_draft};
use super::limits::{long_draft, long_input, Measure};
use super::random::Random;
use super::{any_input, any_valid, damaged_after_cutting, spelled};
use crate::operations::normalise;
use crate::refusal::LONGEST;
use crate::service_characters::{PRINTABLE, PRINTABLE_4};

const LONGEST_FILE: usize = 65_536;

/// A file of a few pieces, of many, of long ones, of a size at the limit, or one
/// that has hardly any; now and then damaged as a whole.
pub fn any_file(random: &mut Random) -> Vec<u8> {
    let mut file = match random.below(100) {
        0..=69 => {
            let count = random.pick(&[1, 1, 2, 2, 3, 4, 5, 8]);
            pieces(random, count)
        }
        70..=79 => with_hidden_trailers(random),
        80..=85 => alike(random),
        86..=91 => with_long_piece(random),
        92..=94 => of_size(random),
        95 => random.pick(&[&b""[..], b"\n", b"\r\n\r\n", b"U", b"UNA", b"UNZ'", b" "]).to_vec(),
        96 => random.bytes(20),
        _ => {
            let size = random.between(30_000, 40_000);
            vec![random.pick(b"A\nU'"); size]
        }
    };
    match random.below(100) {
        0..=6 => file.truncate(random.below(file.len() + 1)),
        7..=9 => file.truncate(file.len().saturating_sub(random.between(1, 12))),
        10..=19 if !file.is_empty() => damage_anywhere(random, &mut file),
        20..=21 => file.insert(0, random.pick(b"\r\n A")),
        22..=25 => {
            file.extend(random.pick(&[&b"\n"[..], b" ", b"A", b"UNZ'", b"\r\n\x1a", b"UNB"]))
        }
        _ => {}
    }
    file
}

/// So many pieces, each of any sort.
fn pieces(random: &mut Random, count: usize) -> Vec<u8> {
    (0..count).flat_map(|_| any_piece(random)).collect()
}

/// An interchange, most often one behind which the cutting goes on.
fn any_piece(random: &mut Random) -> Vec<u8> {
    match random.below(100) {
        0..=24 => normal_form(random),
        25..=44 => {
            let draft = any_valid(random);
            spelled(random, &draft)
        }
        45..=64 => {
            let input = any_valid(random).spelled();
            with_breaks(random, &input).input
        }
        65..=84 => {
            let input = damaged_after_cutting(random);
            match random.chance(40) {
                true => with_breaks(random, &input).input,
                false => input,
            }
        }
        85..=89 => trailers(random),
        90..=93 => {
            let (input, count) = (any_valid(random).spelled(), random.between(1, 200));
            filled_with_breaks(random, &input, count)
        }
        _ => any_input(random),
    }
}

/// The normal form of a valid draft, as a shelf keeps it.
fn normal_form(random: &mut Random) -> Vec<u8> {
    let mut form = vec![0; LONGEST];
    let length = normalise(&any_valid(random).spelled(), &mut form).unwrap_or(0);
    form.truncate(length);
    form
}

/// UNZ at every place: with no elements, twice, in a message, right behind UNB,
/// with repeats. The last few stop the cutting.
fn trailers(random: &mut Random) -> Vec<u8> {
    let words = [
        "UNB+'UNZ'",
        "UNB+UNOA:1++++1'UNZ+0+1'",
        "UNB+UNOA:1++++1'UNH+1'UNZ'",
        "UNB+UNOB:2++++1'UNH+1'UNT+2+1'UNZ+1+1'",
        "UNB+UNOB:2++++1'UNH+1'UNT+2+1'UNZ+1+1'\r\n",
        "UNB+UNOA:1++++1'UNH+1'UNT+2+1'UNZ+1'",
        "UNA:+.? 'UNB+UNOA:1++++1'UNZ'",
        "UNA:+.? '\nUNB+'\nUNZ'\n",
        "UNB\x1d\x1cUNZ\x1c",
        "UNB+UNOA:4++++1'UNH+1'UNT+2+1'UNZ+1+1*'",
        "UNB+UNOB:4+A*B'UNZ+*'",
        "UNA:+.?*'UNB+UNOA:1+?*'UNZ'",
        "UNA:+.?*'UNB+UNOA:4++++1'UNH+1'UNT+2+1'UNZ*'UNZ+1+1'",
        "UNZ'",
        "UNZ:1'",
        "UNB+'UNZ:1'UNZ'",
        "UNB+UNOA:4'UNZ*'UNZ'",
        "UNB+UNOA:1+?*'UNZ'",
    ];
    let stopping = 6;
    let most = random.pick(&[1, 2, 5, 12]);
    let count = random.between(1, most);
    let last = if random.chance(85) { words.len() - stopping } else { words.len() };
    (0..count).flat_map(|_| words[random.below(last)].bytes()).collect()
}

/// Pieces whose values hold what looks like a UNZ under other characters, or is
/// released.
fn with_hidden_trailers(random: &mut Random) -> Vec<u8> {
    let mut file = Vec::new();
    for _ in 0..random.between(1, 4) {
        let mut draft = valid_draft(random);
        let value = random.pick(&["'UNZ+1+1'", "~UNZ~", "UNZ", "'UNZ'", "'", "?'UNZ'", "'UNZ"]);
        let number = random.below(draft.segments.len());
        draft.segments[number].extend([single(value), single(value)]);
        let other = respelled(random, &draft);
        file.extend(spelled(random, &other));
    }
    file
}

/// One small piece again and again, up to as often as a file can hold it.
fn alike(random: &mut Random) -> Vec<u8> {
    let small = ["UNB+'UNZ'", "UNB+'UNZ'\n", "UNB+UNOA:1++++1'UNH+1'UNT+2+1'UNZ+1+1'"];
    let piece = match random.below(4) {
        3 => any_valid(random).spelled(),
        number => small[number].as_bytes().to_vec(),
    };
    let most = LONGEST_FILE / piece.len();
    let count = random.pick(&[2, 10, 100, most, most + 1]);
    piece.repeat(count.min(most + 1))
}

/// A piece about 32,000 bytes, or over that and whole, among others.
fn with_long_piece(random: &mut Random) -> Vec<u8> {
    let before = random.below(3);
    let mut file = pieces(random, before);
    let version = any_version(random);
    let advised = usable_characters(random, version);
    let printable = random.pick(&[PRINTABLE, PRINTABLE, PRINTABLE_4]);
    let target = random.pick(&[31_990, 32_000, 32_001, 32_002, 36_000, 50_000]);
    let long = match random.below(5) {
        0 => long_input(random),
        1 => long_draft(random, printable, false, Measure::Text, target).spelled(),
        2 => long_draft(random, advised, true, Measure::Text, target).spelled(),
        3 => {
            let input = any_valid(random).spelled();
            filled_with_breaks(random, &input, target - input.len())
        }
        _ => {
            // whole, and breaks behind it, which count
            let mut input = normal_form(random);
            input.resize(target, b'\n');
            input
        }
    };
    file.extend(long);
    if random.chance(20) {
        file.extend(long_input(random));
    }
    let behind = random.below(4);
    file.extend(pieces(random, behind));
    file
}

/// A file of exactly the longest size, of one byte more or fewer, or of much
/// more: pieces, and breaks or another piece behind them.
fn of_size(random: &mut Random) -> Vec<u8> {
    let count = random.between(1, 4);
    let mut file = pieces(random, count);
    let size = random.pick(&[65_535, 65_536, 65_536, 65_537, 65_537, 70_000, 131_072 + file.len()]);
    match random.below(3) {
        0 => file.resize(size, b'\n'),
        1 => {
            let one = normal_form(random);
            while file.len() + one.len() <= size {
                file.extend(&one);
            }
            file.resize(size, b'\r');
        }
        _ => file.resize(size, b'A'),
    }
    file
}
