//! Line breaks between segments.
//!
//! Change request 2026-01, "Line breaks between segments": carriage returns
//! and line feeds directly after a segment terminator, or directly after the
//! service string advice, are passed over, however many.

pub fn is_break(byte: u8) -> bool {
    byte == b'\r' || byte == b'\n'
}

/// The first place from here on where no break stands; perhaps the end.
pub fn after_breaks(input: &[u8], from: usize) -> usize {
    let mut at = from;
    while at < input.len() && is_break(input[at]) {
        at += 1;
    }
    at
}
