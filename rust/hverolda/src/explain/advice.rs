//! Refusal 2: which byte of a service string advice is not usable, and why.

use super::{byte_shown, Reason};

const NAMES: [&str; 6] = [
    "component separator",
    "element separator",
    "decimal mark",
    "release character",
    "repetition separator (the fifth byte)",
    "segment terminator",
];

pub fn reason(input: &[u8]) -> Option<Reason> {
    let six = input.get(3..9).map(|six| <[u8; 6]>::try_from(six).expect("six bytes"));
    let six = match six {
        Some(six) => six,
        None => {
            let found = format!("{} bytes after UNA", input.len().saturating_sub(3));
            let sentence = format!(
                "the advice is cut short: {found}, six service characters must stand there"
            );
            return Some(Reason::new(
                found,
                "UNA and six service characters, as UNA:+.? '",
                sentence,
            ));
        }
    };
    unusable(six).or_else(|| doubled(six))
}

/// The first byte that cannot be what it is to be.
fn unusable(six: [u8; 6]) -> Option<Reason> {
    let place = (0..6).find(|&place| !is_usable(place, six[place]))?;
    let (name, byte) = (NAMES[place], byte_shown(six[place]));
    let expected = match place {
        2 => "a full stop or a comma",
        3 | 4 => "a space for none, or a sign that is no letter, digit or space",
        _ => "a sign that is no letter, digit or space, or one of the bytes 28, 29, 31",
    };
    let breaks = match (place, six[place]) {
        (5, b'\n' | b'\r') => "; line breaks may follow the terminator, but not be it",
        _ => "",
    };
    let sentence = format!("the advice names {byte} as {name}: it must be {expected}{breaks}");
    Some(Reason::new(byte, expected, sentence))
}

fn is_usable(place: usize, byte: u8) -> bool {
    match place {
        2 => matches!(byte, b'.' | b','),
        3 | 4 if byte == b' ' => true,
        _ => byte.is_ascii_punctuation() || matches!(byte, 28 | 29 | 31),
    }
}

/// The first two that are the same, where a space is none.
fn doubled(six: [u8; 6]) -> Option<Reason> {
    let pairs = (0..6).flat_map(|first| (first + 1..6).map(move |second| (first, second)));
    let (first, second) = pairs
        .filter(|&(first, _)| six[first] != b' ')
        .find(|&(first, second)| six[first] == six[second])?;
    let byte = byte_shown(six[first]);
    let sentence = format!(
        "the advice names {byte} twice, as {} and as {}: they must differ",
        NAMES[first], NAMES[second]
    );
    Some(Reason::new(format!("{byte} twice"), "another byte for each", sentence))
}
