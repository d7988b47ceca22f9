//! Properties that hold for every input, tried on generated ones.
//!
//! Paper, clauses "From bytes to values", "Normal form", "Operations" and the
//! exit buffers of "Refusals by number". The checks of a change request stand in
//! a module of its own.

use crate::acknowledgement_checks::check_acknowledgements;
use crate::break_checks::check_breaks;
use crate::carrying_checks::check_carrying;
use crate::column_checks::check_columns;
use crate::either_order::check_either_order;
use crate::generator::{any_input, any_valid, request, same_contents, Random};
use crate::level::{holds, Level, Version};
use crate::mailbox_checks::check_mailbox;
use crate::normal_form::normal_characters;
use crate::operations::{
    compare, judge, keep, locate, normalise, read, spelled, write, Comparison, Numbers, Verdict,
    Which,
};
use crate::refusal::{Answer, Refusal, BUFFER, LONGEST, LONGEST_TABLE};
use crate::request_stream::{next_request, put_request, Request};
use crate::section_checks::check_sections;
use crate::shelf_checks::check_shelf;
use crate::table_checks::check_tables;
use crate::value_list::{NEW_ELEMENT, NEW_SEGMENT, NEXT_REPEAT, RECORD};
use crate::version_checks::check_versions;

/// How many inputs of each sort are tried.
const ROUNDS: u64 = 3_000;

/// What buffers hold beforehand, so that untouched bytes can be told.
const FILL: u8 = 0xA5;
const FILL_NUMBER: u32 = 0xA5A5_A5A5;

type Check = Result<(), String>;

fn ensure(holds: bool, what: &str, input: &[u8]) -> Check {
    if holds {
        return Ok(());
    }
    Err(format!("{what}: {}", input.escape_ascii()))
}

/// Runs everything; the number of inputs tried, or the first failure.
pub fn run() -> Result<usize, String> {
    let mut tried = 0;
    check_levels()?;
    check_sections()?;
    check_versions()?;
    check_breaks()?;
    check_shelf()?;
    check_carrying()?;
    check_mailbox()?;
    check_either_order()?;
    check_tables()?;
    check_acknowledgements()?;
    check_columns()?;
    if let Some(line) = crate::cases::check_cases().pop() {
        return Err(line);
    }
    for seed in 0..ROUNDS {
        let mut random = Random::new(seed);
        check_input(&any_input(&mut random))?;
        check_same(&mut random)?;
        check_write(&mut random)?;
        check_stream(&mut random)?;
        tried += 4;
    }
    Ok(tried)
}

/// Level A has 56 bytes; level B has these and 26 more.
fn check_levels() -> Check {
    let count = |level| (0..=255u8).filter(|&byte| holds(level, byte)).count();
    let alike = (0..=255u8).all(|b| !holds(Level::A, b) || holds(Level::B, b));
    ensure(count(Level::A) == 56 && count(Level::B) == 82 && alike, "levels", b"")
}

fn check_input(input: &[u8]) -> Check {
    match judge(input) {
        Ok(verdict) => {
            check_normal_form(input, &verdict)?;
            check_read(input, &verdict)
        }
        Err(refusal) => check_refused(input, refusal),
    }
}

/// The normal form of an accepted interchange.
fn normal_form(input: &[u8]) -> Answer<Vec<u8>> {
    let mut buffer = vec![FILL; LONGEST];
    let length = normalise(input, &mut buffer)?;
    buffer.truncate(length);
    Ok(buffer)
}

/// The version that UNB names, as Locate finds it.
fn version_of(input: &[u8]) -> Version {
    let numbers = Numbers { segment: 0, element: 1, repeat: 0, component: 1 };
    match spelled(input, numbers).bytes {
        b"4" => Version::Four,
        _ => Version::One,
    }
}

fn check_normal_form(input: &[u8], verdict: &Verdict) -> Check {
    let form = normal_form(input).map_err(|_| "accepted and not normalised".to_string())?;
    let length = verdict.normal_length;
    ensure(form.len() == length && length <= 2 * input.len() + 9, "normal length", input)?;
    let again = judge(&form);
    let characters = normal_characters(verdict.characters.mark, version_of(input));
    let expected = Verdict { characters, ..*verdict };
    ensure(again == Ok(expected), "normal form is judged alike", input)?;
    ensure(normal_form(&form) == Ok(form.clone()), "normal form of itself", input)?;
    ensure(compare(input, &form) == Comparison::Same, "same as its normal form", input)?;
    let mut longer = vec![FILL; length + 5];
    let answer = normalise(input, &mut longer);
    let whole = answer == Ok(length) && longer[..length] == form[..];
    ensure(whole && longer[length..] == [FILL; 5], "bytes beyond the normal form", input)?;
    let mut short = vec![FILL; length - 1];
    let refused = normalise(input, &mut short) == Err(Refusal { number: BUFFER, place: length });
    ensure(refused && short.iter().all(|&b| b == FILL), "short buffer", input)
}

/// Every other operation refuses alike and leaves its buffers alone.
fn check_refused(input: &[u8], refusal: Refusal) -> Check {
    let (mut bytes, mut table) = (vec![FILL; 100], vec![FILL_NUMBER; 100]);
    ensure(normalise(input, &mut bytes) == Err(refusal), "normalise refuses", input)?;
    ensure(read(input, &mut bytes, &mut table) == Err(refusal), "read refuses", input)?;
    let unchanged = bytes.iter().all(|&b| b == FILL) && table.iter().all(|&n| n == FILL_NUMBER);
    ensure(unchanged, "buffers after a refusal", input)?;
    let zero = Numbers { segment: 0, element: 0, repeat: 0, component: 0 };
    ensure(locate(input, zero) == Err(refusal), "locate refuses", input)?;
    let part = spelled(input, zero);
    ensure(part.offset == 0 && part.bytes.is_empty(), "nothing spelled", input)?;
    let first = Comparison::Refused(Which::First, refusal);
    ensure(compare(input, b"") == first, "compare refuses the first", input)?;
    let second = Comparison::Refused(Which::Second, refusal);
    let x = crate::cases::X.as_bytes();
    ensure(compare(x, input) == second, "compare refuses the second", input)?;
    ensure(keep(input, x).part.is_empty() && keep(x, input).part.is_empty(), "keep", input)
}

/// A value list as Read stored it.
struct Stored {
    bytes: Vec<u8>,
    table: Vec<u32>,
}

fn stored(input: &[u8]) -> Answer<Stored> {
    let (mut bytes, mut table) = (vec![FILL; LONGEST], vec![FILL_NUMBER; LONGEST_TABLE]);
    let counts = read(input, &mut bytes, &mut table)?;
    bytes.truncate(counts.bytes);
    table.truncate(counts.numbers);
    Ok(Stored { bytes, table })
}

fn check_read(input: &[u8], verdict: &Verdict) -> Check {
    let list = stored(input).map_err(|_| "accepted and not read".to_string())?;
    let mut end = 0;
    for record in list.table.chunks(RECORD) {
        ensure(record[1] == end, "values end to end", input)?;
        end += record[2];
    }
    ensure(end as usize == list.bytes.len(), "all bytes in values", input)?;
    check_read_buffers(input, &list)?;
    check_located(input, &list, verdict)?;
    let mut output = vec![FILL; LONGEST];
    let six = normal_characters(verdict.characters.mark, version_of(input)).six();
    let length = write(&six, &list.bytes, &list.table, &mut output);
    ensure(length == Ok(verdict.normal_length), "written list's length", input)?;
    let text = &output[..verdict.normal_length];
    ensure(normal_form(input).as_deref() == Ok(text), "written list is the normal form", input)
}

fn check_read_buffers(input: &[u8], list: &Stored) -> Check {
    let (byte_count, number_count) = (list.bytes.len(), list.table.len());
    let (mut bytes, mut table) = (vec![FILL; byte_count + 3], vec![FILL_NUMBER; number_count + 3]);
    let done = read(input, &mut bytes, &mut table).is_ok();
    let same = bytes[..byte_count] == list.bytes[..] && table[..number_count] == list.table[..];
    ensure(done && same, "read into longer buffers", input)?;
    let beyond = bytes[byte_count..] == [FILL; 3] && table[number_count..] == [FILL_NUMBER; 3];
    ensure(beyond, "buffers beyond the list", input)?;
    let (mut short, mut none) = (vec![FILL; byte_count - 1], Vec::new());
    let refusal = Refusal { number: BUFFER, place: byte_count };
    ensure(read(input, &mut short, &mut none) == Err(refusal), "byte buffer first", input)?;
    let (mut exact, mut few) = (vec![FILL; byte_count], vec![FILL_NUMBER; number_count - 1]);
    let refusal = Refusal { number: BUFFER, place: number_count };
    ensure(read(input, &mut exact, &mut few) == Err(refusal), "then the table", input)?;
    let unchanged = short.iter().chain(&exact).all(|&b| b == FILL);
    ensure(unchanged && few.iter().all(|&n| n == FILL_NUMBER), "short buffers", input)
}

/// What Locate finds is spelled as Read read it; at most some 200 records.
fn check_located(input: &[u8], list: &Stored, verdict: &Verdict) -> Check {
    let mut numbers = Numbers { segment: u32::MAX, element: 0, repeat: 0, component: 0 };
    for record in list.table.chunks(RECORD).take(200) {
        numbers = numbers_after(numbers, record[0]);
        let part = spelled(input, numbers);
        let value = &list.bytes[record[1] as usize..(record[1] + record[2]) as usize];
        let found = unreleased(part.bytes, verdict.characters.release) == value;
        ensure(found, "spelled part", input)?;
        let located = locate(input, numbers).ok().flatten();
        let range = part.offset..part.offset + part.bytes.len();
        ensure(located.map(|at| at.range()) == Some(range), "companion", input)?;
    }
    let beyond = Numbers { segment: verdict.segments as u32, element: 0, repeat: 0, component: 0 };
    ensure(locate(input, beyond) == Ok(None), "absent segment", input)?;
    if list.table.len() <= 200 * RECORD {
        let next = Numbers { component: numbers.component + 1, ..numbers };
        ensure(locate(input, next) == Ok(None), "absent component", input)?;
        let next = Numbers { repeat: numbers.repeat + 1, component: 0, ..numbers };
        ensure(locate(input, next) == Ok(None), "absent repeat", input)?;
    }
    Ok(())
}

/// The numbers of the value that comes after these by a record of this kind;
/// the first record comes after the last segment number there is.
fn numbers_after(last: Numbers, kind: u32) -> Numbers {
    match kind {
        NEW_SEGMENT => {
            let segment = last.segment.wrapping_add(1);
            Numbers { segment, element: 0, repeat: 0, component: 0 }
        }
        NEW_ELEMENT => Numbers { element: last.element + 1, repeat: 0, component: 0, ..last },
        NEXT_REPEAT => Numbers { repeat: last.repeat + 1, component: 0, ..last },
        _ => Numbers { component: last.component + 1, ..last },
    }
}

fn unreleased(spelled: &[u8], release: Option<u8>) -> Vec<u8> {
    let mut value = Vec::new();
    let mut bytes = spelled.iter().copied();
    while let Some(byte) = bytes.next() {
        let taken = if Some(byte) == release { bytes.next() } else { Some(byte) };
        value.extend(taken);
    }
    value
}

/// A valid draft is accepted, and its other spellings are the same.
fn check_same(random: &mut Random) -> Check {
    let draft = any_valid(random);
    let other = same_contents(random, &draft).spelled();
    let input = draft.spelled();
    ensure(judge(&input).is_ok(), "valid draft", &input)?;
    ensure(compare(&input, &other) == Comparison::Same, "other spelling", &other)?;
    let kept = keep(&input, &other);
    let (which, part) =
        if other.len() < input.len() { (Which::Second, &other) } else { (Which::First, &input) };
    ensure(kept.which == which && kept.part == &part[..], "kept", &input)
}

/// A written text has its list; a refused Write leaves zeros.
fn check_write(random: &mut Random) -> Check {
    let (service, values, table, output) = match request(random, b'W') {
        Request::Write { service, values, table, output } => (service, values, table, output),
        _ => return Ok(()),
    };
    let mut written = output.clone();
    match write(&service, &values, &table, &mut written) {
        Err(_) => ensure(written.iter().all(|&b| b == 0), "zero output", &values),
        Ok(length) => {
            let text = &written[..length];
            ensure(written[length..] == output[length..], "bytes beyond the text", &values)?;
            let advice = text[..3] == *b"UNA" && text[3..9] == service[..];
            ensure(advice && judge(text).is_ok(), "written text is accepted", text)?;
            let list = stored(text).map_err(|_| "written and not read".to_string())?;
            let mut again = vec![FILL; length];
            let answer = write(&service, &list.bytes, &list.table, &mut again);
            ensure(answer == Ok(length) && again == text, "read and written again", text)
        }
    }
}

/// A request is read from a stream as it was put there.
fn check_stream(random: &mut Random) -> Check {
    let kind = random.pick(crate::generator::ALL_KINDS.as_bytes());
    let request = request(random, kind);
    let mut stream = Vec::new();
    let put = put_request(&request, &mut stream).is_ok();
    let got = next_request(&mut &stream[..]).ok().flatten();
    ensure(put && got == Some(request), "request stream", &stream[..stream.len().min(200)])
}
