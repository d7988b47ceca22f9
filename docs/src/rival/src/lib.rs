//! Judge, Normalise and Compare as a Rust author would write them who is asked
//! for speed: one pass over the bytes with every check of the papers, which
//! measures or stores the normal form as it goes. Nothing but the standard
//! library, and no `unsafe`. The benchmark holds the proved operations to it;
//! the tests hold it to the second program.
//!
//! Change request 2026-09, "Speed of the check".

#![forbid(unsafe_code)]

mod classes;
mod fields;
mod marks;
mod opening;
mod order;
mod pass;
mod text;

use opening::Opening;
use pass::Pass;
use text::{Length, Text};

/// How the pass finds the next byte at which it has something to do.
#[derive(Clone, Copy, Debug, PartialEq, Eq)]
pub enum Way {
    /// By a table of classes, one byte after the other.
    Bytes,
    /// By comparisons on whole blocks of bytes: the faster way.
    Blocks,
}

/// The longest input and normal form, in bytes.
pub const LONGEST: usize = 32_000;

#[derive(Clone, Copy, Debug, PartialEq, Eq)]
pub struct Refusal {
    pub number: u32,
    pub place: usize,
}

pub type Answer<T> = Result<T, Refusal>;

pub(crate) fn refuse<T>(number: u32, place: usize) -> Answer<T> {
    Err(Refusal { number, place })
}

/// Judge's answer for an accepted interchange.
#[derive(Clone, Copy, Debug, PartialEq, Eq)]
pub struct Verdict {
    /// The service characters in the advice's order, a space for "none".
    pub characters: [u8; 6],
    pub segments: usize,
    pub messages: usize,
    pub groups: usize,
    pub normal_length: usize,
}

pub fn judge(way: Way, input: &[u8]) -> Answer<Verdict> {
    Ok(passed(way, input, Length::default())?.0)
}

/// The length of the normal form, which then begins the buffer; a refusal
/// leaves the buffer unchanged.
pub fn normalise(way: Way, input: &[u8], buffer: &mut [u8]) -> Answer<usize> {
    let form = normal_form(way, input)?;
    match buffer.get_mut(..form.len()) {
        Some(room) => room.copy_from_slice(&form),
        None => return refuse(14, form.len()),
    }
    Ok(form.len())
}

#[derive(Clone, Copy, Debug, PartialEq, Eq)]
pub enum Which {
    First,
    Second,
}

#[derive(Clone, Copy, Debug, PartialEq, Eq)]
pub enum Comparison {
    Same,
    Different,
    Refused(Which, Refusal),
}

/// Equal bytes are judged once; others by their normal forms.
pub fn compare(way: Way, first: &[u8], second: &[u8]) -> Comparison {
    if first == second {
        return match judge(way, first) {
            Ok(_) => Comparison::Same,
            Err(refusal) => Comparison::Refused(Which::First, refusal),
        };
    }
    match (normal_form(way, first), normal_form(way, second)) {
        (Err(refusal), _) => Comparison::Refused(Which::First, refusal),
        (_, Err(refusal)) => Comparison::Refused(Which::Second, refusal),
        (Ok(one), Ok(other)) if one == other => Comparison::Same,
        _ => Comparison::Different,
    }
}

fn normal_form(way: Way, input: &[u8]) -> Answer<Vec<u8>> {
    Ok(passed(way, input, Vec::with_capacity(2 * input.len() + 9))?.1)
}

/// Stages 1 to 13, and the normal form as the text keeps it.
fn passed<T: Text>(way: Way, input: &[u8], text: T) -> Answer<(Verdict, T)> {
    if input.len() > LONGEST {
        return refuse(1, 0);
    }
    let opening = Opening::of(input)?;
    let classes = opening.classes();
    let pass = Pass::new(input, &opening, &classes, text);
    match way {
        Way::Bytes => pass.by_bytes(),
        Way::Blocks => pass.by_blocks(),
    }
}
