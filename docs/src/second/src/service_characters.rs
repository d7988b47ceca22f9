//! The service characters of an interchange and how it begins: stages 2 and 3.
//!
//! Paper, clause "Service characters" and refusals 2 and 3; change request
//! 2026-01: the body, and the place of refusal 3, starts after the breaks that
//! stand behind the advice; change request 2026-10, "Syntax version 4": the
//! advice's fifth byte is the repetition separator, or a space for none. It is a
//! service character from the start, whatever the version turns out to be.

use crate::line_breaks::after_breaks;
use crate::refusal::{refuse, Answer, ADVICE, BEGINNING};

/// Bytes in a service string advice: `UNA` and six.
pub const ADVICE_LENGTH: usize = 9;

#[derive(Clone, Copy, Debug, PartialEq, Eq)]
pub struct ServiceCharacters {
    pub component: u8,
    pub element: u8,
    pub mark: u8,
    /// None where the advice has a space.
    pub release: Option<u8>,
    /// None where the advice has a space.
    pub repetition: Option<u8>,
    pub terminator: u8,
}

/// The characters of an input that begins `UNB+`, of an older version.
pub const PRINTABLE: ServiceCharacters = ServiceCharacters {
    component: b':',
    element: b'+',
    mark: b'.',
    release: Some(b'?'),
    repetition: None,
    terminator: b'\'',
};

/// The characters of an input that begins `UNB+` and is of version 4.
pub const PRINTABLE_4: ServiceCharacters =
    ServiceCharacters { repetition: Some(b'*'), ..PRINTABLE };

/// The characters of an input that begins `UNB` and byte 29.
pub const INFORMATION_SEPARATORS: ServiceCharacters = ServiceCharacters {
    component: 31,
    element: 29,
    mark: b'.',
    release: None,
    repetition: None,
    terminator: 28,
};

/// How an input without an advice begins, and the characters that it then has;
/// the first that fits.
const BEGINNINGS: [(&[u8], ServiceCharacters); 4] = [
    (b"UNB+UNOA:4", PRINTABLE_4),
    (b"UNB+UNOB:4", PRINTABLE_4),
    (b"UNB+", PRINTABLE),
    (b"UNB\x1d", INFORMATION_SEPARATORS),
];

impl ServiceCharacters {
    /// A separator, the terminator or the release character; never the mark.
    pub fn is_service(&self, byte: u8) -> bool {
        (byte == self.component)
            | (byte == self.element)
            | (byte == self.terminator)
            | (Some(byte) == self.release)
            | (Some(byte) == self.repetition)
    }

    /// The six bytes in the advice's order.
    pub fn six(&self) -> [u8; 6] {
        let release = self.release.unwrap_or(b' ');
        let repetition = self.repetition.unwrap_or(b' ');
        [self.component, self.element, self.mark, release, repetition, self.terminator]
    }

    /// The whole advice: `UNA` and the six bytes.
    pub fn advice(&self) -> [u8; ADVICE_LENGTH] {
        let six = self.six();
        [b'U', b'N', b'A', six[0], six[1], six[2], six[3], six[4], six[5]]
    }
}

/// May this byte be a separator, the terminator or the release character?
fn may_serve(byte: u8) -> bool {
    let printable = (33..=126).contains(&byte) && !byte.is_ascii_alphanumeric();
    printable || byte == 28 || byte == 29 || byte == 31
}

fn all_differ(bytes: &[u8]) -> bool {
    bytes.iter().enumerate().all(|(number, byte)| !bytes[..number].contains(byte))
}

/// The service characters that six bytes name, or None when they are not six
/// or not usable.
pub fn from_six(six: &[u8]) -> Option<ServiceCharacters> {
    let [component, element, mark, release, repetition, terminator] =
        <[u8; 6]>::try_from(six).ok()?;
    let unless_space = |byte: u8| (byte != b' ').then_some(byte);
    let (release, repetition) = (unless_space(release), unless_space(repetition));
    let mut serving = vec![component, element, terminator];
    serving.extend(release);
    serving.extend(repetition);
    let each_may = serving.iter().all(|&byte| may_serve(byte));
    serving.push(mark);
    let mark_is_usable = mark == b'.' || mark == b',';
    if !mark_is_usable || !each_may || !all_differ(&serving) {
        return None;
    }
    Some(ServiceCharacters { component, element, mark, release, repetition, terminator })
}

/// The service characters in force and the offset where the body begins.
#[derive(Clone, Copy, Debug, PartialEq, Eq)]
pub struct Opening {
    pub characters: ServiceCharacters,
    pub body: usize,
}

/// Stages 2 and 3.
pub fn opening(input: &[u8]) -> Answer<Opening> {
    if input.starts_with(b"UNA") {
        opening_with_advice(input)
    } else {
        opening_without_advice(input)
    }
}

fn opening_with_advice(input: &[u8]) -> Answer<Opening> {
    let characters = match input.get(3..ADVICE_LENGTH).and_then(from_six) {
        Some(characters) => characters,
        None => return refuse(ADVICE, 0),
    };
    let body = after_breaks(input, ADVICE_LENGTH);
    let beginning = [b'U', b'N', b'B', characters.element];
    if !input[body..].starts_with(&beginning) {
        return refuse(BEGINNING, body);
    }
    Ok(Opening { characters, body })
}

fn opening_without_advice(input: &[u8]) -> Answer<Opening> {
    match BEGINNINGS.into_iter().find(|(beginning, _)| input.starts_with(beginning)) {
        Some((_, characters)) => Ok(Opening { characters, body: 0 }),
        None => refuse(BEGINNING, 0),
    }
}
