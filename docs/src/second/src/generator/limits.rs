//! Long interchanges that meet the limits: inputs and normal forms of exactly
//! 32,000 bytes and next to it.
//!
//! Paper, refusals 1 and 13; change request 2026-01: breaks count in an input's
//! bytes and not in the normal form's; change request 2026-10: `*` costs two
//! bytes in a version 4 normal form.

use super::breaks::filled_with_breaks;
use super::draft::{any_version, single, usable_characters, valid_draft};
use super::draft::{Draft, DraftSegment, Value};
use super::random::Random;
use crate::level::Level;
use crate::service_characters::{ServiceCharacters, ADVICE_LENGTH, PRINTABLE, PRINTABLE_4};

/// What is brought to its target: the text as spelled, or the normal form.
#[derive(Clone, Copy, Debug, PartialEq, Eq)]
pub enum Measure {
    Text,
    NormalForm,
}

fn measured(draft: &Draft, measure: Measure) -> usize {
    match measure {
        Measure::Text => spelled_length(draft, &draft.characters, draft.advice),
        Measure::NormalForm if draft.is_version_4() => spelled_length(draft, &PRINTABLE_4, true),
        Measure::NormalForm => spelled_length(draft, &PRINTABLE, true),
    }
}

/// Every value is ended by one separator or terminator.
fn spelled_length(draft: &Draft, characters: &ServiceCharacters, advice: bool) -> usize {
    let values = draft.segments.iter().flatten().flatten().flatten();
    let released = |value: &Value| value.iter().filter(|&&b| characters.is_service(b)).count();
    let body: usize = values.map(|value| value.len() + released(value) + 1).sum();
    body + if advice { ADVICE_LENGTH } else { 0 }
}

/// Bytes of values that cost two in the normal form, where they can be spelled.
fn filling_bytes(characters: &ServiceCharacters) -> Vec<u8> {
    let can = |byte: &u8| characters.release.is_some() || !characters.is_service(*byte);
    b"A+?:'*".iter().copied().filter(can).collect()
}

/// Some segments, alike, of one long value, or of many repeats where there may
/// be any; at most some 2,000 bytes.
fn block(random: &mut Random, filling: &[u8], repeats: bool) -> Vec<DraftSegment> {
    let byte = random.pick(filling);
    match random.below(5) {
        0 => vec![vec![single("LIN"), single("1")]; random.between(1, 200)],
        1 => vec![vec![single("BGM")]; random.between(1, 300)],
        2 => vec![vec![single("FTX"), vec![vec![vec![byte]; random.between(1, 500)]]]],
        3 if repeats => vec![vec![single("FTX"), vec![vec![vec![byte]]; random.between(1, 500)]]],
        _ => vec![vec![single("FTX"), single(vec![byte; random.between(1, 900)])]],
    }
}

/// A valid interchange but for its length, which is the target by the measure;
/// of version 4 where there is a repetition separator.
pub fn long_draft(
    random: &mut Random,
    characters: ServiceCharacters,
    advice: bool,
    measure: Measure,
    target: usize,
) -> Draft {
    let filling = filling_bytes(&characters);
    let repeats = characters.repetition.is_some();
    let last = vec![single("FTX"), single("A")];
    let mut draft = Draft { characters, advice, level: Level::A, segments: vec![last] };
    draft.segments.splice(0..0, opening_segments(if repeats { "4" } else { "2" }));
    draft.segments.extend(closing_segments(0));
    while measured(&draft, measure) + 3_000 < target {
        draft.segments.splice(2..2, block(random, &filling, repeats));
    }
    let missing = target - measured(&draft, measure);
    let count = draft.segments.len();
    draft.segments.truncate(count - 2);
    draft.segments[count - 3][1][0][0].extend(vec![b'A'; missing]);
    draft.segments.extend(closing_segments(count - 2));
    draft
}

fn opening_segments(version: &str) -> Vec<DraftSegment> {
    let header = vec![
        single("UNB"),
        vec![vec![b"UNOA".to_vec(), version.into()]],
        single("A"),
        single("B"),
        single("C"),
        single("R"),
    ];
    vec![header, vec![single("UNH"), single("M")]]
}

fn closing_segments(count: usize) -> Vec<DraftSegment> {
    vec![
        vec![single("UNT"), single(format!("{count:06}")), single("M")],
        vec![single("UNZ"), single("1"), single("R")],
    ]
}

/// An input about a limit.
pub fn long_input(random: &mut Random) -> Vec<u8> {
    let near = [31_990, 31_991, 31_992, 31_999, 32_000, 32_001, 32_002];
    let target = random.pick(&near);
    let version = any_version(random);
    let advised = usable_characters(random, version);
    let printable = random.pick(&[PRINTABLE, PRINTABLE, PRINTABLE_4]);
    match random.below(7) {
        0 => long_draft(random, printable, false, Measure::Text, target).spelled(),
        1 => long_draft(random, printable, true, Measure::Text, target).spelled(),
        2 => long_draft(random, advised, true, Measure::Text, target).spelled(),
        3 => long_draft(random, advised, true, Measure::NormalForm, target).spelled(),
        4 => many_messages(random.between(2_270, 2_285)),
        5 => {
            let input = valid_draft(random).spelled();
            let count = target - input.len();
            filled_with_breaks(random, &input, count)
        }
        _ => {
            let mut input = long_draft(random, advised, true, Measure::Text, target).spelled();
            let place = random.below(input.len());
            input[place] = random.byte();
            input
        }
    }
}

/// As many messages of two segments, 14 bytes each.
fn many_messages(count: usize) -> Vec<u8> {
    let messages = "UNH+1'UNT+2+1'".repeat(count);
    format!("UNB+UNOB:1++++1'{messages}UNZ+{count}+1'").into_bytes()
}
