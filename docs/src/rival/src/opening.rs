//! How an interchange opens: its service characters, where its body begins,
//! and the level and version that its UNB names.
//!
//! Paper 01, "Service characters" and "Levels"; change requests 2026-01 and
//! 2026-10.

use crate::classes::{self, Table, LEVEL_A, LEVEL_B};
use crate::{refuse, Answer};

#[derive(Clone, Copy, Debug)]
pub struct Characters {
    pub component: u8,
    pub element: u8,
    pub mark: u8,
    pub release: Option<u8>,
    pub repetition: Option<u8>,
    pub terminator: u8,
}

#[derive(Clone, Copy, Debug)]
pub struct Opening {
    pub characters: Characters,
    pub body: usize,
    /// None where refusal 7 stands.
    pub syntax: Option<Syntax>,
}

#[derive(Clone, Copy, Debug)]
pub struct Syntax {
    pub level_b: bool,
    pub version_4: bool,
}

/// The separators and the terminator that the normal form spells by its own. Where
/// there is no repetition separator the component separator stands for it.
#[derive(Clone, Copy, Debug)]
pub struct Respelling {
    component: u8,
    element: u8,
    repetition: u8,
    terminator: u8,
}

impl Respelling {
    /// What the normal form has for this byte, where it does not release it.
    #[inline(always)]
    pub fn of(self, byte: u8) -> u8 {
        let mut normal = byte;
        normal = if byte == self.repetition { b'*' } else { normal };
        normal = if byte == self.component { b':' } else { normal };
        normal = if byte == self.element { b'+' } else { normal };
        if byte == self.terminator {
            b'\''
        } else {
            normal
        }
    }
}

pub fn is_break(byte: u8) -> bool {
    byte == b'\r' || byte == b'\n'
}

fn may_serve(byte: u8) -> bool {
    byte.is_ascii_punctuation() || matches!(byte, 28 | 29 | 31)
}

impl Characters {
    fn of([component, element, mark, release, repetition, terminator]: [u8; 6]) -> Characters {
        let unless_space = |byte| if byte == b' ' { None } else { Some(byte) };
        let (release, repetition) = (unless_space(release), unless_space(repetition));
        Characters { component, element, mark, release, repetition, terminator }
    }

    pub fn six(&self) -> [u8; 6] {
        let release = self.release.unwrap_or(b' ');
        let repetition = self.repetition.unwrap_or(b' ');
        [self.component, self.element, self.mark, release, repetition, self.terminator]
    }

    /// The service characters, without the mark.
    pub fn serving(&self) -> impl Iterator<Item = u8> {
        let always = [self.component, self.element, self.terminator];
        always.into_iter().chain(self.release).chain(self.repetition)
    }

    fn are_usable(&self) -> bool {
        let mut seen = 0u128;
        let mut is_new = |byte: u8| {
            let bit = 1 << byte;
            let new = seen & bit == 0;
            seen |= bit;
            new
        };
        matches!(self.mark, b'.' | b',')
            && is_new(self.mark)
            && self.serving().all(|byte| may_serve(byte) && is_new(byte))
    }

    pub fn serves(&self, byte: u8) -> bool {
        self.serving().any(|serving| serving == byte)
    }

    /// Those of the normal form.
    pub fn normal(mark: u8, version_4: bool) -> Characters {
        Characters::of([b':', b'+', mark, b'?', if version_4 { b'*' } else { b' ' }, b'\''])
    }
}

impl Opening {
    /// Stages 2 and 3, and what stage 7 asks.
    pub fn of(input: &[u8]) -> Answer<Opening> {
        let (characters, body) = match input {
            [b'U', b'N', b'A', ..] => advised(input)?,
            _ => match unadvised(input) {
                Some(characters) => (characters, 0),
                None => return refuse(3, 0),
            },
        };
        let syntax = syntax(&input[body + 4..], &characters);
        Ok(Opening { characters, body, syntax })
    }

    pub fn normal(&self) -> Characters {
        let version_4 = self.syntax.map_or(false, |syntax| syntax.version_4);
        Characters::normal(self.characters.mark, version_4)
    }

    pub fn is_level_b(&self) -> bool {
        self.syntax.map_or(false, |syntax| syntax.level_b)
    }

    /// The bytes of the level are plain, all others outside.
    pub fn level(&self) -> &'static Table {
        match self.is_level_b() {
            true => &LEVEL_B,
            false => &LEVEL_A,
        }
    }

    /// What the normal form has for the separators and the terminator.
    pub fn respelling(&self) -> Respelling {
        let Characters { component, element, repetition, terminator, .. } = self.characters;
        let repetition = repetition.unwrap_or(component);
        Respelling { component, element, repetition, terminator }
    }

    pub fn classes(&self) -> Table {
        let mut table = *self.level();
        self.normal().serving().for_each(|byte| table[usize::from(byte)] = classes::TO_RELEASE);
        let mut set = |byte: u8, class| table[usize::from(byte)] = class;
        let characters = &self.characters;
        set(characters.component, classes::COMPONENT);
        set(characters.element, classes::ELEMENT);
        set(characters.terminator, classes::TERMINATOR);
        characters.repetition.map(|byte| set(byte, classes::REPETITION));
        characters.release.map(|byte| set(byte, classes::RELEASE));
        table
    }
}

fn advised(input: &[u8]) -> Answer<(Characters, usize)> {
    let characters = match input {
        [_, _, _, a, b, c, d, e, f, ..] => Characters::of([*a, *b, *c, *d, *e, *f]),
        _ => return refuse(2, 0),
    };
    if !characters.are_usable() {
        return refuse(2, 0);
    }
    let breaks = input[9..].iter().take_while(|&&byte| is_break(byte)).count();
    let body = 9 + breaks;
    match input[body..].starts_with(&[b'U', b'N', b'B', characters.element]) {
        true => Ok((characters, body)),
        false => refuse(3, body),
    }
}

fn unadvised(input: &[u8]) -> Option<Characters> {
    let version_4 = input.starts_with(b"UNB+UNOA:4") || input.starts_with(b"UNB+UNOB:4");
    match input {
        [b'U', b'N', b'B', b'+', ..] => Some(Characters::normal(b'.', version_4)),
        [b'U', b'N', b'B', 29, ..] => Some(Characters::of([31, 29, b'.', b' ', b' ', 28])),
        _ => None,
    }
}

/// Level and version, where the first element behind UNB names ours in one
/// repeat.
fn syntax(elements: &[u8], characters: &Characters) -> Option<Syntax> {
    let (level, version, rest) = match elements {
        [b'U', b'N', b'O', level @ (b'A' | b'B'), between, version @ (b'1' | b'2' | b'4'), rest @ ..]
            if *between == characters.component =>
        {
            (level, version, rest)
        }
        _ => return None,
    };
    let version_4 = *version == b'4';
    let usable = version_4 || characters.repetition.is_none();
    match usable && ends_here(rest, characters) {
        true => Some(Syntax { level_b: *level == b'B', version_4 }),
        false => None,
    }
}

/// Does the value end here, and does no repeat behind it hold a byte?
fn ends_here(rest: &[u8], characters: &Characters) -> bool {
    let mut repeated = false;
    let mut released = false;
    for (number, &byte) in rest.iter().enumerate() {
        let separates = !released;
        released = separates && Some(byte) == characters.release;
        if separates && (byte == characters.element || byte == characters.terminator) {
            return true;
        } else if separates && Some(byte) == characters.repetition {
            repeated = true;
        } else if (!separates || byte != characters.component) && (number == 0 || repeated) {
            return false;
        }
    }
    false
}
