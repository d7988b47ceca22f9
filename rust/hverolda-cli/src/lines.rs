//! A value list as lines, one a value: its kind, a space and the value. In a
//! value a byte that is not printable ASCII, and the backslash, is spelled `\x`
//! and two hexadecimal digits; every other byte stands for itself.

use std::fmt::Write;

use hverolda::LONGEST;

/// So many bytes of lines are read. Lines that fill them are no interchange's: a
/// line has three bytes and at most four for each byte of its value, so there are
/// more than 32,000 values or more than 32,000 bytes.
pub const ROOM: usize = 8 * LONGEST;

pub fn escaped(value: &[u8]) -> String {
    let mut text = String::new();
    for &byte in value {
        match byte {
            b'\\' | 0..=0x1f | 0x7f..=0xff => {
                let _ = write!(text, "\\x{byte:02x}");
            }
            _ => text.push(byte as char),
        }
    }
    text
}

/// The value that a text spells, if it spells one.
pub fn unescaped(text: &[u8]) -> Option<Vec<u8>> {
    let hex = |digit: u8| (digit as char).to_digit(16).map(|number| number as u8);
    let mut value = Vec::new();
    let mut rest = text;
    while let Some((&byte, after)) = rest.split_first() {
        rest = after;
        value.push(match (byte, rest) {
            (b'\\', [b'x', high, low, after @ ..]) => {
                rest = after;
                hex(*high)? * 16 + hex(*low)?
            }
            (b'\\', _) => return None,
            _ => byte,
        });
    }
    Some(value)
}

/// The list that lines tell, its bytes and its table, or the number of the first
/// line that is none.
pub fn parsed(text: &[u8]) -> Result<(Vec<u8>, Vec<u32>), usize> {
    let (mut bytes, mut table) = (Vec::new(), Vec::new());
    for (number, line) in text.split_inclusive(|&byte| byte == b'\n').enumerate() {
        let (kind, value) = record(line.strip_suffix(b"\n").unwrap_or(line)).ok_or(number + 1)?;
        table.extend([kind, bytes.len() as u32, value.len() as u32]);
        bytes.extend(value);
    }
    Ok((bytes, table))
}

/// A digit, a space and a value; the space may be missing where the value is
/// empty, since editors take away what they think idle.
fn record(line: &[u8]) -> Option<(u32, Vec<u8>)> {
    let (&kind, rest) = line.split_first()?;
    let value = if rest.is_empty() { rest } else { rest.strip_prefix(b" ")? };
    Some(((kind as char).to_digit(10)?, unescaped(value)?))
}
