//! What the paper says of buffers, held against a call directly: a refused
//! Write, Acknowledge or Import leaves zeros, every other refusal leaves each buffer as it was, and
//! what lies beyond what was stored keeps its values.
//!
//! Paper, clauses "Operations" and "Refusals by number".

use crate::call::{Answer, Call, Outcome};

/// The first rule that the outcome breaks.
pub fn check(call: &Call, outcome: &Outcome) -> Result<(), String> {
    match (call, outcome.answer) {
        (Call::Normalise { buffer, .. }, Answer::Normalise(written))
        | (Call::Export { buffer, .. }, Answer::Export(written)) => {
            let stored = stored(written.number, written.length);
            beyond_is_kept(buffer, &outcome.bytes, stored, "the buffer")
        }
        (Call::Read { bytes, table, .. }, Answer::Read(listing)) => {
            let (byte_count, number_count) =
                (stored(listing.number, listing.bytes), stored(listing.number, listing.numbers));
            beyond_is_kept(bytes, &outcome.bytes, byte_count, "the byte buffer")?;
            beyond_is_kept(table, &outcome.table, number_count, "the table")
        }
        (Call::Write { output, .. }, Answer::Write(written))
        | (Call::Acknowledge { output, .. }, Answer::Acknowledge(written))
        | (Call::Import { output, .. }, Answer::Import(written)) => match written.number {
            0 => beyond_is_kept(output, &outcome.bytes, written.length, "the output"),
            _ => all_zero(&outcome.bytes),
        },
        _ => Ok(()),
    }
}

/// No half text is left.
fn all_zero(output: &[u8]) -> Result<(), String> {
    match output.iter().all(|&byte| byte == 0) {
        true => Ok(()),
        false => Err("the output of a refused call is not all zero".to_string()),
    }
}

/// A refusal stores nothing.
fn stored(number: u32, length: usize) -> usize {
    match number {
        0 => length,
        _ => 0,
    }
}

fn beyond_is_kept<T: PartialEq>(
    entry: &[T],
    exit: &[T],
    stored: usize,
    name: &str,
) -> Result<(), String> {
    match (entry.get(stored..), exit.get(stored..)) {
        (Some(before), Some(after)) if before == after => Ok(()),
        (Some(_), Some(_)) => Err(format!("{name} is changed beyond what was stored")),
        _ => Err(format!("{name} is shorter than what was stored")),
    }
}
