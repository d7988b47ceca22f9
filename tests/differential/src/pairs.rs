//! Two interchanges of which it is known, by how they were made, whether they
//! are the same.
//!
//! Paper, clauses "Service characters", "From bytes to values" and "Normal
//! form": the same contents and mark under any usable characters are the same,
//! a release character that releases nothing with them; one byte, component,
//! trailing space or mark makes a difference. Change request 2026-01: line
//! breaks between segments make none. Change request 2026-10: nor does the
//! repetition separator of version 4; one repeat does.

use second::generator::{any_valid, with_breaks, Draft, Random};
use second::level::{holds, Level};
use second::service_characters::{from_six, ServiceCharacters};

/// How the second differs from the first.
#[derive(Clone, Copy, Debug, PartialEq, Eq)]
pub enum Change {
    Respelled,
    UnusedRelease,
    Breaks,
    Byte,
    Component,
    Repeat,
    TrailingSpace,
    Mark,
}

pub const CHANGES: [Change; 8] = [
    Change::Respelled,
    Change::UnusedRelease,
    Change::Breaks,
    Change::Byte,
    Change::Component,
    Change::Repeat,
    Change::TrailingSpace,
    Change::Mark,
];

impl Change {
    pub fn name(self) -> &'static str {
        match self {
            Change::Respelled => "respelled",
            Change::UnusedRelease => "only an unused release character changed",
            Change::Breaks => "line breaks put in",
            Change::Byte => "one byte changed",
            Change::Component => "one component changed",
            Change::Repeat => "one repeat changed",
            Change::TrailingSpace => "trailing space",
            Change::Mark => "the mark changed",
        }
    }

    /// Are the two the same after it?
    pub fn is_same(self) -> bool {
        matches!(self, Change::Respelled | Change::UnusedRelease | Change::Breaks)
    }
}

/// Two accepted interchanges, the second respelled after this change.
pub fn pair(random: &mut Random, change: Change) -> (Vec<u8>, Vec<u8>) {
    let mut draft = any_valid(random);
    while change == Change::Repeat && !draft.is_version_4() {
        draft = any_valid(random);
    }
    match change {
        Change::UnusedRelease => return one_byte_apart(random, draft),
        Change::Breaks => return breaks_apart(random, &draft),
        _ => {}
    }
    // the sender, which nobody judges, so that there is a byte to change
    draft.segments[0][2][0][0].push(b'A');
    let mut other = draft.clone();
    match change {
        Change::Respelled | Change::UnusedRelease | Change::Breaks => {}
        Change::Byte => change_byte(random, &mut other),
        Change::Component => change_component(random, &mut other),
        Change::Repeat => change_repeat(random, &mut other),
        Change::TrailingSpace => {
            let place = any_place(random, &other);
            value_at(&mut other, place).push(b' ');
        }
        Change::Mark => {
            other.characters.mark = if other.characters.mark == b'.' { b',' } else { b'.' };
        }
    }
    respell(random, &mut other);
    (draft.spelled(), other.spelled())
}

/// Spelled with an advice under characters of no level, so that nothing is
/// released; and again with another release character there, or with none.
fn one_byte_apart(random: &mut Random, mut draft: Draft) -> (Vec<u8>, Vec<u8>) {
    draft.advice = true;
    let may_serve = may_serve(|byte| !holds(Level::B, byte));
    draft.characters = characters_of(random, &draft, &may_serve);
    let mut other = draft.clone();
    while other.characters.release == draft.characters.release {
        let six = draft.characters.six();
        let release = if random.chance(20) { b' ' } else { random.pick(&may_serve) };
        let six = [six[0], six[1], six[2], release, six[4], six[5]];
        other.characters = from_six(&six).unwrap_or(draft.characters);
    }
    (draft.spelled(), other.spelled())
}

/// Line breaks in one of the two, or other ones in each.
fn breaks_apart(random: &mut Random, draft: &Draft) -> (Vec<u8>, Vec<u8>) {
    let plain = draft.spelled();
    let [one, other] = [0, 1].map(|_| with_breaks(random, &plain).input);
    match random.below(3) {
        0 => (plain, one),
        1 => (one, plain),
        _ => (one, other),
    }
}

/// Segment, element, repeat and component.
type Place = (usize, usize, usize, usize);

fn value_at(draft: &mut Draft, (segment, element, repeat, component): Place) -> &mut Vec<u8> {
    &mut draft.segments[segment][element][repeat][component]
}

/// Every value that nobody judges: UNB's elements 2 to 4, and all but the tag
/// of user segments.
fn places(draft: &Draft) -> Vec<Place> {
    let mut places = Vec::new();
    for (number, segment) in draft.segments.iter().enumerate() {
        let elements = match &segment[0][0][0][..] {
            b"UNB" => 2..5,
            tag if tag.starts_with(b"UN") => 0..0,
            _ => 1..segment.len(),
        };
        for element in elements {
            for (repeat, values) in segment[element].iter().enumerate() {
                places.extend((0..values.len()).map(|value| (number, element, repeat, value)));
            }
        }
    }
    places
}

fn any_place(random: &mut Random, draft: &Draft) -> Place {
    random.pick(&places(draft))
}

/// The sender is not empty, so there is one.
fn place_with_bytes(random: &mut Random, draft: &mut Draft) -> Place {
    let mut places = places(draft);
    places.retain(|&place| !value_at(draft, place).is_empty());
    random.pick(&places)
}

/// A byte becomes another one of the level.
fn change_byte(random: &mut Random, draft: &mut Draft) {
    let place = place_with_bytes(random, draft);
    let level = draft.level;
    let value = value_at(draft, place);
    let number = random.below(value.len());
    let others: Vec<u8> =
        (0..=255).filter(|&byte| byte != value[number] && holds(level, byte)).collect();
    value[number] = random.pick(&others);
}

/// A component more: behind an element, before a value, or by a separator
/// inside a value.
fn change_component(random: &mut Random, draft: &mut Draft) {
    let place = place_with_bytes(random, draft);
    let (segment, element, repeat, component) = place;
    let value = value_at(draft, place).clone();
    let components = &mut draft.segments[segment][element][repeat];
    match random.below(3) {
        0 => components.push(b"A".to_vec()),
        1 => components.insert(component, Vec::new()),
        _ => {
            let (left, right) = value.split_at(random.below(value.len()));
            components[component] = left.to_vec();
            components.insert(component + 1, right.to_vec());
        }
    }
}

/// A repeat more: behind an element, before a repeat that is not empty, or by a
/// separator inside a value.
fn change_repeat(random: &mut Random, draft: &mut Draft) {
    let place = place_with_bytes(random, draft);
    let (segment, element, repeat, component) = place;
    let value = value_at(draft, place).clone();
    let repeats = &mut draft.segments[segment][element];
    match random.below(3) {
        0 => repeats.push(vec![b"A".to_vec()]),
        1 => repeats.insert(repeat, vec![Vec::new()]),
        _ => {
            let (left, right) = value.split_at(random.below(value.len()));
            let mut behind = repeats[repeat].split_off(component);
            behind[0] = right.to_vec();
            repeats[repeat].push(left.to_vec());
            repeats.insert(repeat + 1, behind);
        }
    }
}

/// Spelled under any usable characters with the same mark, and half the time
/// with empty ends.
fn respell(random: &mut Random, draft: &mut Draft) {
    draft.advice = true;
    loop {
        draft.characters = any_characters(random, draft);
        if draft.is_spellable() {
            break;
        }
    }
    if random.chance(50) {
        put_empty_ends(random, draft);
    }
}

/// The bytes of which this holds that may separate, end or release.
fn may_serve(holds: fn(u8) -> bool) -> Vec<u8> {
    let printable = (33..=126u8).filter(|byte| !byte.is_ascii_alphanumeric());
    printable.chain([28, 29, 31]).filter(|&byte| holds(byte)).collect()
}

/// Any usable characters with this draft's mark.
fn any_characters(random: &mut Random, draft: &Draft) -> ServiceCharacters {
    characters_of(random, draft, &may_serve(|_| true))
}

/// Usable characters of these with this draft's mark, one time in five without
/// release; with a repetition separator in version 4 alone, and there too one
/// time in five without, where no element has a second repeat.
fn characters_of(random: &mut Random, draft: &Draft, may_serve: &[u8]) -> ServiceCharacters {
    let mark = draft.characters.mark;
    let repeated = draft.segments.iter().flatten().any(|repeats| repeats.len() > 1);
    loop {
        let [component, element, terminator, release, repetition] =
            [0; 5].map(|_: u8| random.pick(may_serve));
        let release = if random.chance(20) { b' ' } else { release };
        let without = !draft.is_version_4() || (!repeated && random.chance(20));
        let repetition = if without { b' ' } else { repetition };
        let six = [component, element, mark, release, repetition, terminator];
        if let Some(characters) = from_six(&six) {
            return characters;
        }
    }
}

/// Empty components, repeats and elements at ends, which trimming takes away; no
/// component separator may follow a service segment's tag, and no repetition
/// separator any tag.
fn put_empty_ends(random: &mut Random, draft: &mut Draft) {
    let repeats = draft.characters.repetition.is_some();
    for segment in &mut draft.segments {
        let service = segment[0][0][0].starts_with(b"UN");
        for (number, element) in segment.iter_mut().enumerate().skip(usize::from(service)) {
            for repeat in element.iter_mut() {
                if random.chance(20) {
                    repeat.resize(repeat.len() + random.between(1, 3), Vec::new());
                }
            }
            if repeats && number > 0 && random.chance(20) {
                let repeat = vec![Vec::new(); random.between(1, 3)];
                element.resize(element.len() + random.between(1, 3), repeat);
            }
        }
        if random.chance(20) {
            let element = vec![vec![Vec::new(); random.between(1, 3)]];
            segment.resize(segment.len() + random.between(1, 3), element);
        }
    }
}

#[cfg(test)]
mod tests {
    use super::*;
    use second::operations::{compare, Comparison};

    #[test]
    fn pairs_are_the_same_or_not_as_they_were_made() {
        for seed in 0..2_000 {
            for change in CHANGES {
                let (first, second) = pair(&mut Random::new(seed), change);
                let expected = match change.is_same() {
                    true => Comparison::Same,
                    false => Comparison::Different,
                };
                assert_eq!(compare(&first, &second), expected, "{change:?}, seed {seed}");
            }
        }
    }

    #[test]
    fn an_unused_release_character_is_one_byte() {
        for seed in 0..2_000 {
            let (first, second) = pair(&mut Random::new(seed), Change::UnusedRelease);
            let differ: Vec<usize> =
                (0..first.len()).filter(|&place| first[place] != second[place]).collect();
            assert_eq!((differ, first.len()), (vec![6], second.len()), "seed {seed}");
        }
    }
}
