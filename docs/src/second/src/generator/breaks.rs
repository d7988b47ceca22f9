//! Line breaks put into an input: where they may stand, and where they may not.
//!
//! Change request 2026-01, "Line breaks between segments". The places are found
//! by a walk of its own over the bytes.

use super::random::Random;
use crate::service_characters::{
    from_six, ServiceCharacters, ADVICE_LENGTH, INFORMATION_SEPARATORS, PRINTABLE,
};

/// The service characters of an input and where its advice ends; None where it
/// has neither a usable advice nor one of the two beginnings.
fn beginning(input: &[u8]) -> Option<(ServiceCharacters, usize)> {
    if input.starts_with(b"UNA") {
        return Some((from_six(input.get(3..ADVICE_LENGTH)?)?, ADVICE_LENGTH));
    }
    let known = [PRINTABLE, INFORMATION_SEPARATORS];
    let begins = |of: &ServiceCharacters| input.starts_with(&[b'U', b'N', b'B', of.element]);
    known.into_iter().find(begins).map(|characters| (characters, 0))
}

/// The places of an input that matter to breaks. A break put in at a place
/// stands before the byte that is there.
#[derive(Clone, Debug, Default)]
struct Places {
    /// Directly after the advice, and directly after each unreleased terminator.
    allowed: Vec<usize>,
    /// Behind each release character, before the byte that it takes.
    released: Vec<usize>,
}

fn places_of(input: &[u8]) -> Places {
    let mut places = Places::default();
    let (characters, body) = match beginning(input) {
        Some(beginning) => beginning,
        None => return places,
    };
    if body > 0 {
        places.allowed.push(body);
    }
    let mut at = body;
    while at < input.len() {
        if Some(input[at]) == characters.release {
            at += 1;
            places.released.push(at);
        } else if input[at] == characters.terminator {
            places.allowed.push(at + 1);
        }
        at += 1;
    }
    places
}

/// An input after breaks were put in, and how many at which places.
#[derive(Clone, Debug, PartialEq, Eq)]
pub struct Broken {
    pub input: Vec<u8>,
    put: Vec<(usize, usize)>,
}

impl Broken {
    /// The input with these breaks, their places rising.
    fn new(input: &[u8], breaks: &[(usize, Vec<u8>)]) -> Broken {
        let mut broken = Broken { input: Vec::new(), put: Vec::new() };
        let mut from = 0;
        for (place, bytes) in breaks {
            broken.input.extend(&input[from..*place]);
            broken.input.extend(bytes);
            broken.put.push((*place, bytes.len()));
            from = *place;
        }
        broken.input.extend(&input[from..]);
        broken
    }

    /// Where the byte that stood at this place stands now, or the end.
    pub fn moved(&self, place: usize) -> usize {
        let before = self.put.iter().filter(|(at, _)| *at <= place);
        place + before.map(|(_, count)| count).sum::<usize>()
    }

    /// Was any break put in?
    pub fn has_breaks(&self) -> bool {
        !self.put.is_empty()
    }
}

/// One break or more.
fn any_breaks(random: &mut Random) -> Vec<u8> {
    let count = match random.below(10) {
        0..=4 => return b"\r\n".to_vec(),
        5..=7 => 1,
        8 => random.between(2, 5),
        _ => random.between(2, 30),
    };
    (0..count).map(|_| random.pick(b"\r\n")).collect()
}

/// Breaks where they may stand: one segment a line, or here and there. Without
/// breaks where there is no such place.
pub fn with_breaks(random: &mut Random, input: &[u8]) -> Broken {
    let allowed = places_of(input).allowed;
    if allowed.is_empty() {
        return Broken::new(input, &[]);
    }
    let line = any_breaks(random);
    if random.chance(40) {
        let breaks: Vec<_> = allowed.iter().map(|place| (*place, line.clone())).collect();
        return Broken::new(input, &breaks);
    }
    let always = random.pick(&allowed);
    let breaks: Vec<_> = allowed
        .iter()
        .filter_map(|&place| {
            let chosen = place == always || random.chance(30);
            chosen.then(|| (place, any_breaks(random)))
        })
        .collect();
    Broken::new(input, &breaks)
}

/// CR LF after the advice and after each terminator.
pub fn in_lines(input: &[u8]) -> Vec<u8> {
    let breaks: Vec<_> =
        places_of(input).allowed.iter().map(|place| (*place, b"\r\n".to_vec())).collect();
    Broken::new(input, &breaks).input
}

/// A break at the beginning, in an advice, in a tag, right behind a tag or a
/// release character or what it released, or anywhere; mostly where it may not
/// stand.
pub fn with_misplaced_breaks(random: &mut Random, input: &[u8]) -> Vec<u8> {
    let places = places_of(input);
    let place = match random.below(10) {
        0 => 0,
        1 => random.between(1, 8),
        2..=4 if !places.allowed.is_empty() => random.pick(&places.allowed) + random.between(1, 3),
        5 | 6 if !places.released.is_empty() => random.pick(&places.released) + random.below(2),
        _ => random.below(input.len() + 1),
    };
    let breaks = any_breaks(random);
    Broken::new(input, &[(place.min(input.len()), breaks)]).input
}

/// This input with so many breaks more, all where they may stand, at one place
/// or two.
pub fn filled_with_breaks(random: &mut Random, input: &[u8], count: usize) -> Vec<u8> {
    let allowed = places_of(input).allowed;
    if allowed.is_empty() {
        return input.to_vec();
    }
    let mut places = [random.pick(&allowed), random.pick(&allowed)];
    places.sort_unstable();
    let first = random.below(count + 1);
    let breaks = [first, count - first].map(|count| vec![random.pick(b"\r\n"); count]);
    let [one, other] = breaks;
    Broken::new(input, &[(places[0], one), (places[1], other)]).input
}
