//! The generator: seeded pseudo-random requests that aim at every rule.
//!
//! Paper, clauses "Operations" and "Refusals by number"; change requests
//! 2026-01, "Line breaks between segments", 2026-10, "Syntax version 4",
//! 2026-11, "Acknowledgements", and 2026-12, "Lines for a spreadsheet".
//! Most inputs are small; about one in a hundred is about a limit. About one in
//! three has line breaks, and one in three is of version 4.

mod acknowledgements;
mod breaks;
mod columns;
mod damage;
mod draft;
mod limits;
mod lists;
mod mailboxes;
mod orders;
mod random;
mod shelves;
mod soups;
mod tables;

use std::io;
use std::io::Write;

use crate::cases::all_cases;
use crate::operations::{self, Numbers};
use crate::refusal::BUFFER;
use crate::request_stream::{put_request, Request};
use crate::value_list::{List, NEXT_COMPONENT, NEXT_REPEAT};
use acknowledgements::acknowledge_request;
use breaks::with_misplaced_breaks;
use columns::{export_request, import_request};
use damage::{damage_anywhere, damage_bytes, damage_draft, is_done_to_draft, AIMS};
use draft::{any_version, pad, respelled, single, usable_characters, valid_draft};
use limits::{long_draft, long_input, Measure};
use lists::{break_list, fill_table, list_of_draft, random_list};

pub use acknowledgements::with_parties;
pub use breaks::{filled_with_breaks, in_lines, with_breaks, Broken};
pub use columns::{any_columns, slip};
pub use draft::{Draft, DraftElement, DraftRepeat, DraftSegment, Value};
pub use mailboxes::any_file;
pub use orders::{two_orders, TwoOrders};
pub use random::Random;
pub use shelves::{any_shelf, first_text, laid_out, sound_shelf, text_of};
pub use tables::{
    any_body, any_table, body_in, input_for, sound_entries, table_and_input, table_of, Tag,
};

/// The letters of all operations.
pub const ALL_KINDS: &str = "JNCKLPRWAEI";

/// Puts so many requests of these kinds on the stream.
pub fn generate(seed: u64, count: u64, kinds: &[u8], out: &mut impl Write) -> io::Result<()> {
    let mut random = Random::new(seed);
    for _ in 0..count {
        let kind = random.pick(kinds);
        put_request(&request(&mut random, kind), out)?;
    }
    Ok(())
}

/// A request of this kind.
pub fn request(random: &mut Random, kind: u8) -> Request {
    match kind {
        b'J' => Request::Judge { input: any_input(random) },
        b'N' => normalise_request(random),
        b'C' => {
            let (first, second) = two_inputs(random);
            Request::Compare { first, second }
        }
        b'K' => {
            let (first, second) = two_inputs(random);
            Request::Keep { first, second }
        }
        b'L' => {
            let (numbers, input) = numbers_and_input(random);
            Request::Locate { numbers, input }
        }
        b'P' => {
            let (numbers, input) = numbers_and_input(random);
            Request::Spelled { numbers, input }
        }
        b'R' => read_request(random),
        b'A' => acknowledge_request(random),
        b'E' => export_request(random),
        b'I' => import_request(random),
        _ => write_request(random),
    }
}

/// A valid draft, one time in three with extra empty ends.
pub fn any_valid(random: &mut Random) -> Draft {
    let mut draft = valid_draft(random);
    if random.chance(35) {
        pad(random, &mut draft);
    }
    draft
}

/// The same contents, spelled otherwise.
pub fn same_contents(random: &mut Random, draft: &Draft) -> Draft {
    let mut other = respelled(random, draft);
    if random.chance(60) {
        pad(random, &mut other);
    }
    other
}

/// A draft spelled after so many damages.
fn damaged(random: &mut Random, mut draft: Draft, damages: usize) -> Vec<u8> {
    let aims: Vec<u32> = (0..damages).map(|_| random.pick(&AIMS)).collect();
    for &aim in aims.iter().filter(|&&aim| is_done_to_draft(aim)) {
        damage_draft(random, &mut draft, aim);
    }
    let mut input = draft.spelled();
    for &aim in aims.iter().filter(|&&aim| !is_done_to_draft(aim)) {
        damage_bytes(random, &draft, &mut input, aim);
    }
    input
}

/// An interchange with one or two damages that aim at 7 to 12, which are judged
/// after all its segments are read.
fn damaged_after_cutting(random: &mut Random) -> Vec<u8> {
    let mut draft = any_valid(random);
    for _ in 0..random.pick(&[1, 1, 2]) {
        let aim = random.between(7, 12) as u32;
        damage_draft(random, &mut draft, aim);
    }
    draft.spelled()
}

/// Any input: valid, damaged, a soup, or about a limit; one time in three with
/// line breaks, most often where they may stand.
pub fn any_input(random: &mut Random) -> Vec<u8> {
    let input = input_in_one_line(random);
    match random.below(100) {
        0..=22 => with_breaks(random, &input).input,
        23..=33 => with_misplaced_breaks(random, &input),
        _ => input,
    }
}

/// The draft's bytes, one time in three with line breaks where they may stand.
fn spelled(random: &mut Random, draft: &Draft) -> Vec<u8> {
    let input = draft.spelled();
    match random.chance(33) {
        true => with_breaks(random, &input).input,
        false => input,
    }
}

fn input_in_one_line(random: &mut Random) -> Vec<u8> {
    match random.below(200) {
        0..=59 => any_valid(random).spelled(),
        60..=119 => {
            let draft = any_valid(random);
            damaged(random, draft, 1)
        }
        120..=149 => {
            let (draft, damages) = (any_valid(random), random.between(2, 3));
            damaged(random, draft, damages)
        }
        150..=163 => soups::word_soup(random),
        164..=179 => soups::segment_soup(random),
        180..=191 => {
            let mut input = any_valid(random).spelled();
            (0..random.between(1, 3)).for_each(|_| damage_anywhere(random, &mut input));
            input
        }
        192..=194 => soups::byte_soup(random),
        195..=197 => {
            let short: Vec<_> =
                all_cases().into_iter().filter(|case| case.input.len() < 400).collect();
            random.pick(&short).input
        }
        _ => long_input(random),
    }
}

/// A buffer with any bytes: exact, short by one, longer, empty, or any size.
fn buffer(random: &mut Random, needed: usize) -> Vec<u8> {
    let length = buffer_length(random, needed);
    random.bytes(length)
}

fn buffer_length(random: &mut Random, needed: usize) -> usize {
    match random.below(10) {
        0..=2 => needed,
        3 => needed.saturating_sub(1),
        4 => 0,
        5 => random.below(needed + 1),
        6 => needed + 1,
        _ => needed + random.below(30),
    }
}

fn normalise_request(random: &mut Random) -> Request {
    let input = any_input(random);
    let needed = operations::judge(&input).map_or(20, |verdict| verdict.normal_length);
    Request::Normalise { buffer: buffer(random, needed), input }
}

fn read_request(random: &mut Random) -> Request {
    let input = any_input(random);
    let mut all_bytes = vec![0; crate::refusal::LONGEST];
    let mut all_numbers = vec![0; crate::refusal::LONGEST_TABLE];
    let counts = operations::read(&input, &mut all_bytes, &mut all_numbers);
    let (byte_count, number_count) = counts.map_or((9, 9), |counts| (counts.bytes, counts.numbers));
    let bytes = buffer(random, byte_count);
    let table_length = buffer_length(random, number_count);
    let table = (0..table_length).map(|_| random.number() as u32).collect();
    Request::Read { bytes, table, input }
}

/// Two inputs: most often the same contents, or nearly so.
fn two_inputs(random: &mut Random) -> (Vec<u8>, Vec<u8>) {
    let draft = any_valid(random);
    let other = same_contents(random, &draft);
    match random.below(20) {
        0..=7 => (spelled(random, &draft), spelled(random, &other)),
        8..=12 => {
            let second = nearly(random, other);
            (spelled(random, &draft), spelled(random, &second))
        }
        13 => (nearly(random, other).spelled(), spelled(random, &draft)),
        14 => (draft.spelled(), draft.spelled()),
        15 => (damaged(random, draft, 1), other.spelled()),
        16 => (draft.spelled(), damaged(random, other, 1)),
        17 => (damaged(random, draft, 1), damaged(random, other, 1)),
        18 => (any_input(random), any_input(random)),
        _ => {
            let mut second = other.spelled();
            damage_anywhere(random, &mut second);
            (draft.spelled(), second)
        }
    }
}

/// One byte, space, component or mark other than before.
fn nearly(random: &mut Random, mut draft: Draft) -> Draft {
    let user = draft.tagged(&["BGM", "LIN", "TXT", "A0Z", "000", "UMN", "XUN", "NUN"]);
    let number = match random.below(10) {
        0..=6 if !user.is_empty() => random.pick(&user),
        _ => random.below(draft.segments.len()),
    };
    let segment = &mut draft.segments[number];
    let last = segment.len() - 1;
    let element = &mut segment[last];
    let repeat = random.below(element.len());
    if draft.characters.repetition.is_some() && last > 0 && random.chance(40) {
        nearly_repeats(random, element, repeat);
        return draft;
    }
    let components = &mut element[repeat];
    let component = random.below(components.len());
    match random.below(7) {
        0 => components[component].push(b' '),
        1 => components[component].push(b'0'),
        2 => components[component].insert(0, b'0'),
        3 => components.push(b"A".to_vec()),
        4 => components.insert(component, Vec::new()),
        5 => drop(components[component].pop()),
        _ => {
            draft.advice = true;
            draft.characters.mark = if draft.characters.mark == b'.' { b',' } else { b'.' };
        }
    }
    draft
}

/// A repeat more or less than before, or a repeat for a component.
fn nearly_repeats(random: &mut Random, element: &mut DraftElement, repeat: usize) {
    match random.below(5) {
        0 => element.push(vec![b"A".to_vec()]),
        1 => element.insert(repeat, vec![Vec::new()]),
        2 if element.len() > 1 => drop(element.remove(repeat)),
        3 if repeat > 0 => {
            let components = element.remove(repeat);
            element[repeat - 1].extend(components);
        }
        _ => {
            let components = element[repeat].len();
            let behind = element[repeat].split_off(random.between(1, components));
            if !behind.is_empty() {
                element.insert(repeat + 1, behind);
            }
        }
    }
}

/// Numbers in range, just out of range, or huge.
fn numbers_and_input(random: &mut Random) -> (Numbers, Vec<u8>) {
    if random.chance(15) {
        let numbers = [5, 5, 2, 4].map(|bound| random.below(bound) as u32);
        return (numbers_of(numbers), any_input(random));
    }
    let draft = any_valid(random);
    let segment = random.below(draft.segments.len());
    let element = random.below(draft.segments[segment].len());
    let repeat = random.below(draft.segments[segment][element].len());
    let component = random.below(draft.segments[segment][element][repeat].len());
    let mut numbers = [segment, element, repeat, component].map(|number| number as u32);
    let place = random.below(4);
    match random.below(8) {
        0 => numbers[place] += 1,
        1 => numbers[place] = random.pick(&[u32::MAX, 1 << 31, 1 << 16, 256, u32::MAX - 1]),
        2 => numbers[0] = draft.segments.len() as u32 - random.below(2) as u32,
        _ => {}
    }
    (numbers_of(numbers), spelled(random, &draft))
}

fn numbers_of([segment, element, repeat, component]: [u32; 4]) -> Numbers {
    Numbers { segment, element, repeat, component }
}

fn write_request(random: &mut Random) -> Request {
    let (service, list) = match random.below(200) {
        0..=1 => long_list(random),
        2..=3 => list_about_table_limit(random),
        4..=9 => {
            let version = any_version(random);
            let six = usable_characters(random, version).six();
            (service_bytes(random, &six), random_list(random))
        }
        _ => short_list(random),
    };
    let needed = match operations::write(&service, &list.values, &list.table, &mut []) {
        Err(refusal) if refusal.number == BUFFER => refusal.place,
        _ => 20,
    };
    let output = buffer(random, needed);
    Request::Write { service, values: list.values, table: list.table, output }
}

/// A small draft, valid or damaged, as a list; sometimes a broken list.
fn short_list(random: &mut Random) -> (Vec<u8>, List) {
    let mut draft = any_valid(random);
    for _ in 0..random.pick(&[0, 0, 0, 0, 1, 1, 2]) {
        let aim = random.pick(&AIMS);
        if is_done_to_draft(aim) {
            damage_draft(random, &mut draft, aim);
        } else if random.chance(40) {
            damage_first_segment(random, &mut draft);
        }
    }
    let mut list = list_of_draft(random, &draft);
    if random.chance(20) {
        break_list(random, &mut list);
    }
    (service_bytes(random, &draft.characters.six()), list)
}

/// A list whose body does not begin `UNB` and the element separator.
fn damage_first_segment(random: &mut Random, draft: &mut Draft) {
    match random.below(6) {
        0 => {
            let tag = random.pick(&["UNA", "", "UN", "UNBB", "unb", "UNH"]);
            draft.segments[0][0][0][0] = tag.into();
        }
        1 => draft.segments[0].truncate(1),
        2 => drop(draft.segments.remove(0)),
        3 => draft.segments[0][0][0].push(random.pick(&["", "1"]).into()),
        4 => draft.segments[0][0].push(vec![random.pick(&["", "1"]).into()]),
        _ => draft.segments.insert(0, vec![single("")]),
    }
    if draft.segments.is_empty() {
        draft.segments.push(vec![single("")]);
    }
}

/// These six bytes, others that are usable, or some that are not.
fn service_bytes(random: &mut Random, six: &[u8; 6]) -> Vec<u8> {
    let mut bytes = six.to_vec();
    let place = random.below(6);
    match random.below(22) {
        0..=3 => {
            let version = any_version(random);
            bytes = usable_characters(random, version).six().to_vec();
        }
        4 => bytes[3] = b' ',
        20 => bytes[4] = b' ',
        21 => bytes[4] = random.pick(b"**;!A.,"),
        5 => bytes[place] = random.pick(b"A0z \x1b\x1e\x7f\x80.,;\x00?"),
        6 => bytes[place] = bytes[random.below(6)],
        7 => bytes.truncate(random.pick(&[5, 5, 0, 3])),
        8 if random.chance(50) => bytes.push(b' '),
        _ => {}
    }
    bytes
}

/// A list whose text, or whose normal form, is about 32,000 bytes.
fn long_list(random: &mut Random) -> (Vec<u8>, List) {
    let version = any_version(random);
    let characters = usable_characters(random, version);
    let target = random.pick(&[31_999, 32_000, 32_001, 33_000]);
    let measure = random.pick(&[Measure::Text, Measure::NormalForm]);
    let draft = long_draft(random, characters, true, measure, target);
    let list = list_of_draft(random, &draft);
    (six_or_no_release(random, characters.six()), list)
}

/// These bytes, one time in three without the release character.
fn six_or_no_release(random: &mut Random, mut six: [u8; 6]) -> Vec<u8> {
    if random.chance(33) {
        six[3] = b' ';
    }
    six.to_vec()
}

/// A list whose table has about 96,000 numbers, or one of few bytes whose text
/// would be very long.
fn list_about_table_limit(random: &mut Random) -> (Vec<u8>, List) {
    let draft = valid_draft(random);
    let mut list = list_of_draft(random, &draft);
    if random.chance(50) {
        let kind = random.pick(&[NEXT_COMPONENT, NEXT_COMPONENT, NEXT_REPEAT]);
        fill_table(&mut list, kind, random.pick(&[95_999, 96_000, 96_000, 96_001, 96_003]));
    } else {
        let all = list.values.len() as u32;
        let kind = random.pick(&[1, 1, 2, 3]);
        for _ in 0..random.between(100, 3_000) {
            list.table.extend([kind, 0, all]);
        }
    }
    (six_or_no_release(random, draft.characters.six()), list)
}
