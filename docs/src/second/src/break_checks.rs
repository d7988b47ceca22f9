//! Line breaks: one at every place of an interchange, any number where they may
//! stand, and in value lists.
//!
//! Change request 2026-01, "Line breaks between segments".

use crate::generator::{any_input, any_valid, with_breaks, Broken, Random};
use crate::operations::{compare, judge, locate, read, write, Comparison, Numbers};
use crate::refusal::{
    Answer, Refusal, ADVICE, BEGINNING, BYTE, LEVEL, LIST, LONGEST, LONGEST_TABLE, NORMAL_LENGTH,
    OVER_LENGTH, RELEASE, TAG,
};
use crate::service_characters::ServiceCharacters;
use crate::value_list::{NEW_ELEMENT, NEW_SEGMENT, NEXT_COMPONENT, NEXT_REPEAT, RECORD};

type Check = Result<(), String>;

fn ensure(holds: bool, what: &str, input: &[u8]) -> Check {
    match holds {
        true => Ok(()),
        false => Err(format!("line breaks, {what}: {}", input.escape_ascii())),
    }
}

/// The first failure.
pub fn check_breaks() -> Check {
    for seed in 0..300 {
        let random = &mut Random::new(seed);
        let input = any_valid(random).spelled();
        check_every_place(&input)?;
        check_lists(random, &input)?;
    }
    for seed in 0..3_000 {
        let random = &mut Random::new(seed);
        let input = any_input(random);
        check_passed_over(&input, &with_breaks(random, &input))?;
    }
    Ok(())
}

/// How an input without an advice begins that has `*`, in bytes.
const VERSION_4_BEGINNING: usize = 10;

/// A break within this beginning takes `*` away from the service characters, so
/// that a released one is 4. The place of the first one, one break having been
/// put before it.
fn released_asterisk(input: &[u8], characters: &ServiceCharacters) -> Option<usize> {
    if input.starts_with(b"UNA") || characters.repetition.is_none() {
        return None;
    }
    let mut at = 0;
    while at + 1 < input.len() {
        match (Some(input[at]) == characters.release, input[at + 1]) {
            (true, b'*') => return Some(at + 1),
            (true, _) => at += 2,
            (false, _) => at += 1,
        }
    }
    None
}

/// What comes of one break at each place of an accepted interchange without
/// breaks: None where it is passed over.
pub fn fates(input: &[u8], characters: &ServiceCharacters) -> Vec<Option<Refusal>> {
    let refused = |number, place| Some(Refusal { place, number });
    let body = if input.starts_with(b"UNA") { 9 } else { 0 };
    let mut fates: Vec<Option<Refusal>> = (0..body)
        .map(|place| if place < 3 { refused(BEGINNING, 0) } else { refused(ADVICE, 0) })
        .collect();
    let asterisk = released_asterisk(input, characters);
    let (mut start, mut element, mut repeat, mut component) = (body, 0, 0, 0);
    let mut released = false;
    for (place, &byte) in input.iter().enumerate().skip(body) {
        let in_level = start == body && element == 1 && (repeat > 0 || component < 2);
        fates.push(match place {
            0 => refused(BEGINNING, 0),
            _ if place == start => None,
            _ if place <= start + 3 && start == body => refused(BEGINNING, body),
            _ if place <= start + 3 => refused(TAG, start),
            _ if released => refused(RELEASE, place - 1),
            _ if place < VERSION_4_BEGINNING && asterisk.is_some() => {
                asterisk.and_then(|place| refused(RELEASE, place))
            }
            _ if in_level => refused(LEVEL, body),
            _ => refused(BYTE, place),
        });
        if released {
            released = false;
        } else if Some(byte) == characters.release {
            released = true;
        } else if byte == characters.component {
            component += 1;
        } else if Some(byte) == characters.repetition {
            (repeat, component) = (repeat + 1, 0);
        } else if byte == characters.element {
            (element, repeat, component) = (element + 1, 0, 0);
        } else if byte == characters.terminator {
            (start, element, repeat, component) = (place + 1, 0, 0, 0);
        }
    }
    fates.push(None);
    fates
}

/// A break at each place is passed over, or has the refusal that any such byte
/// has there.
fn check_every_place(input: &[u8]) -> Check {
    let verdict = judge(input).map_err(|_| "a valid draft is refused".to_string())?;
    for (place, fate) in fates(input, &verdict.characters).into_iter().enumerate() {
        for breaks in [&b"\n"[..], b"\r", b"\r\n"] {
            let broken = [&input[..place], breaks, &input[place..]].concat();
            // a second break moves what stands behind the first
            let moved =
                |refused: usize| refused + (breaks.len() - 1) * usize::from(refused > place);
            let expected = match fate {
                Some(refusal) => Err(Refusal { place: moved(refusal.place), ..refusal }),
                None => Ok(verdict),
            };
            ensure(judge(&broken) == expected, &format!("a break at {place}"), &broken)?;
            let same = compare(input, &broken) == Comparison::Same;
            ensure(same == fate.is_none(), "same as without", &broken)?;
        }
    }
    Ok(())
}

/// Judge's answer after the breaks: only the places in the input move, and the
/// breaks count in its length.
fn after_breaks_put(plain: &[u8], broken: &Broken) -> Answer<crate::operations::Verdict> {
    if broken.input.len() > LONGEST {
        return Err(Refusal { place: 0, number: OVER_LENGTH });
    }
    judge(plain).map_err(|refusal| match refusal.number {
        NORMAL_LENGTH => refusal,
        number => Refusal { place: broken.moved(refusal.place), number },
    })
}

/// Breaks where they may stand change nothing but places.
fn check_passed_over(plain: &[u8], broken: &Broken) -> Check {
    let answer = judge(&broken.input);
    ensure(answer == after_breaks_put(plain, broken), "passed over", &broken.input)?;
    if answer.is_err() {
        return Ok(());
    }
    ensure(compare(plain, &broken.input) == Comparison::Same, "same", &broken.input)?;
    ensure(list_of(plain) == list_of(&broken.input), "the values", &broken.input)?;
    for number in 0..5 * 3 * 2 {
        let (segment, element, repeat) = (number / 6, number / 2 % 3, number % 2);
        let numbers = Numbers { segment, element, repeat, component: 0 };
        let at = |input| locate(input, numbers).ok().flatten();
        let moved = at(plain).map(|part| (broken.moved(part.range().start), part.length));
        let found = at(&broken.input).map(|part| (part.range().start, part.length));
        ensure(moved == found, "locate", &broken.input)?;
    }
    Ok(())
}

/// Bytes and table of a value list.
type List = (Vec<u8>, Vec<u32>);

fn list_of(input: &[u8]) -> Answer<List> {
    let (mut bytes, mut table) = (vec![0; LONGEST], vec![0; LONGEST_TABLE]);
    let counts = read(input, &mut bytes, &mut table)?;
    bytes.truncate(counts.bytes);
    table.truncate(counts.numbers);
    Ok((bytes, table))
}

/// The refusal of this list under usable service bytes, if any; they have a
/// repetition separator where the list has repeats.
fn refusal_of((bytes, table): &List) -> Option<Refusal> {
    let repeats = table.iter().step_by(RECORD).any(|&kind| kind == NEXT_REPEAT);
    let service = if repeats { b":+.?*'" } else { b":+.? '" };
    write(service, bytes, table, &mut vec![0; LONGEST]).err()
}

/// The list with this as the value of a record.
fn with_value((bytes, table): &List, record: usize, value: &[u8]) -> List {
    let (mut bytes, mut table) = (bytes.clone(), table.clone());
    table[RECORD * record + 1] = bytes.len() as u32;
    table[RECORD * record + 2] = value.len() as u32;
    bytes.extend(value);
    (bytes, table)
}

/// A record of kind 0 whose first byte is a break is 15 there, and no other
/// record is: a break elsewhere in it, in a record of another kind, or behind
/// an empty one of kind 0.
fn check_lists(random: &mut Random, input: &[u8]) -> Check {
    let list = list_of(input).map_err(|_| "a valid draft is not read".to_string())?;
    let records = list.1.len() / RECORD;
    for record in 0..records {
        let kind = list.1[RECORD * record];
        let bad = Refusal { place: record, number: LIST };
        for value in [&b"\n"[..], b"\rBGM"] {
            let found = refusal_of(&with_value(&list, record, value));
            ensure(found.is_some(), "a value that begins with a break", input)?;
            ensure((found == Some(bad)) == (kind == NEW_SEGMENT), "15 at kind 0 only", input)?;
        }
        let inside = refusal_of(&with_value(&list, record, b"A\n"));
        ensure(inside.map_or(false, |refusal| refusal.number != LIST), "not the first", input)?;
    }
    check_empty_tag(&list, input)?;
    let (one, other) = (random.below(records), random.below(records));
    let mut both = with_value(&list, one, b"\n");
    both.1[RECORD * one] = NEW_SEGMENT;
    both.1[RECORD * other] = NEXT_REPEAT + 1;
    let lowest = Refusal { place: one.min(other), number: LIST };
    ensure(refusal_of(&both) == Some(lowest), "the lowest record", input)?;
    let (bytes, table) = with_value(&list, 0, b"\n");
    let first = write(b"", &bytes, &table, &mut []);
    ensure(first == Err(Refusal { place: 0, number: LIST }), "15 before 2", input)
}

/// An empty value of kind 0 has no first byte, wherever it starts and whatever
/// comes after it.
fn check_empty_tag(list: &List, input: &[u8]) -> Check {
    let (mut bytes, mut table) = list.clone();
    let end = bytes.len() as u32;
    bytes.extend(b"\nA");
    for kind in [NEW_ELEMENT, NEXT_COMPONENT, NEXT_REPEAT] {
        let numbers = table.len();
        table.extend([NEW_SEGMENT, end, 0, kind, end, 2]);
        let found = refusal_of(&(bytes.clone(), table.clone()));
        let by_tag = found.map(|refusal| refusal.number) == Some(TAG);
        ensure(by_tag, "an empty tag before a break", input)?;
        table.truncate(numbers);
    }
    Ok(())
}
