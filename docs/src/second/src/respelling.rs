//! Interchanges respelled: what Read gives for an input, written under other
//! service characters, and what Compare says of the input and the text.
//!
//! Paper, clause "Operations"; the text of X is stated in clause "The example
//! and its neighbours".

use crate::operations::{compare, read, write};
use crate::refusal::{Refusal, LONGEST};
use crate::report_lines::compare_line;

/// Every value is ended by a byte of the input, and takes three numbers.
const NUMBERS: usize = 3 * LONGEST;

/// The text; or what is refused, the input or the text, and why.
fn respelled(service: &[u8], input: &[u8]) -> Result<Vec<u8>, (&'static str, Refusal)> {
    let mut values = vec![0; LONGEST];
    let mut table = vec![0; NUMBERS];
    let counts = read(input, &mut values, &mut table).map_err(|refusal| ("input", refusal))?;
    let mut text = vec![0; LONGEST];
    let length = write(service, &values[..counts.bytes], &table[..counts.numbers], &mut text)
        .map_err(|refusal| ("text", refusal))?;
    text.truncate(length);
    Ok(text)
}

/// The text and, on the next line, how it compares with the input; or the
/// line of a refusal.
pub fn respelled_lines(service: &[u8], input: &[u8]) -> Vec<u8> {
    let mut lines = Vec::new();
    let last = match respelled(service, input) {
        Ok(text) => {
            lines.extend(&text);
            lines.push(b'\n');
            compare_line(&compare(input, &text))
        }
        Err((which, refusal)) => format!("refused {which} {} {}", refusal.number, refusal.place),
    };
    lines.extend(last.bytes());
    lines.push(b'\n');
    lines
}
