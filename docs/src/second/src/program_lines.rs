//! The lines of the programs `compare` and `locate`: an operation's line, and
//! after it what its companion hands back; and those of `acknowledge`, `export`
//! and `import`: the text, or the line of a refusal.
//!
//! Paper, clause "Operations"; change requests 2026-11, "Acknowledgements", and
//! 2026-12, "Lines for a spreadsheet".

use crate::acknowledgement::Lent;
use crate::acknowledgement_cases::one_element;
use crate::operations::{acknowledge, compare, export, import, keep, locate, spelled};
use crate::operations::{Comparison, Numbers};
use crate::refusal::{BUFFER, LONGEST};
use crate::report_lines::{compare_line, locate_line, number_of, refusal_line};

/// Compare's line, with the number of the one to keep after `same`.
pub fn compared_line(first: &[u8], second: &[u8]) -> Vec<u8> {
    let comparison = compare(first, second);
    let mut line = compare_line(&comparison);
    if comparison == Comparison::Same {
        line.push_str(&format!(" {}", number_of(keep(first, second).which)));
    }
    line.into_bytes()
}

/// Locate's line, with the value as it is spelled after its length.
pub fn located_line(input: &[u8], numbers: Numbers) -> Vec<u8> {
    let located = locate(input, numbers);
    let mut line = locate_line(&located).into_bytes();
    if let Ok(Some(_)) = located {
        line.push(b' ');
        line.extend(spelled(input, numbers).bytes);
    }
    line
}

/// The acknowledgement of an input, or the line of its refusal. The lent lists
/// have one element each, of the components that stand between the `:`.
pub fn acknowledged_line(received: &[u8], date: &str, reference: &str, message: &str) -> Vec<u8> {
    let [date, reference, message] = [date, reference, message].map(one_element);
    let lent = Lent { date: date.lent(), reference: reference.lent(), message: message.lent() };
    let mut text = vec![0; LONGEST];
    match acknowledge(received, &lent, &mut text) {
        Ok(length) => text[..length].to_vec(),
        Err(refusal) => refusal_line(&refusal).into_bytes(),
    }
}

/// The contents of an input in columns, a line feed after each line.
pub fn exported_lines(input: &[u8]) -> Vec<u8> {
    let length = match export(input, &mut []) {
        Err(refusal) if refusal.number == BUFFER => refusal.place,
        _ => 0,
    };
    let mut text = vec![0; length];
    match export(input, &mut text) {
        Ok(_) => text,
        Err(refusal) => format!("{}\n", refusal_line(&refusal)).into_bytes(),
    }
}

/// The interchange of a text in columns.
pub fn imported_line(service: &[u8], text: &[u8]) -> Vec<u8> {
    let mut output = vec![0; LONGEST];
    match import(service, text, &mut output) {
        Ok(length) => output[..length].to_vec(),
        Err(refusal) => refusal_line(&refusal).into_bytes(),
    }
}
