//! Tables of message structures as people write them: a text of lines.

use std::error::Error;
use std::fmt;

/// A table of message structures for [`judge_by_table`](crate::judge_by_table()), of its
/// eight bytes an entry or of a text.
///
/// A line of the text is a tag, `M` or `C`, and the most repeats, parted by spaces. Lines
/// right after it with more indentation stand under it: it is then a group's own, and its
/// first word is the group's name, which tells nothing: `SG1` to `SG9`, or any word that is
/// no tag. What follows a `#` is left out, and so are lines without words. Indentation is
/// spaces and tabs, which are never weighed against each other: of a line's and that of the
/// line above one begins with the other.
///
/// ```
/// let table = hverolda::Table::of(b"BGM M 1\nSG1 C 9\n  RFF M 1\n  DTM C 5\n")?;
/// assert_eq!(table.bytes().len(), 4 * 8);
/// assert_eq!(table.line(2), Some(3));
/// # Ok::<(), hverolda::TableFault>(())
/// ```
#[derive(Clone, Debug, PartialEq, Eq)]
pub struct Table {
    bytes: Vec<u8>,
    lines: Option<Vec<usize>>,
}

/// The first line of a text that tells no entry, and why.
#[derive(Clone, Debug, PartialEq, Eq)]
pub struct TableFault {
    /// The line, from 1.
    pub line: usize,
    /// Why, as the end of a sentence.
    pub why: String,
}

impl fmt::Display for TableFault {
    fn fmt(&self, f: &mut fmt::Formatter) -> fmt::Result {
        write!(f, "line {}: {}", self.line, self.why)
    }
}

impl Error for TableFault {}

impl Table {
    /// The table of these bytes, or of the text that they are. A sound table has numbers
    /// below 1,000 in two bytes each, and so a byte below 4 in each entry; a text has none.
    ///
    /// # Errors
    ///
    /// Where a line of a text tells no entry. Whether the table is sound is for
    /// [`judge_by_table`](crate::judge_by_table()) to say.
    pub fn of(bytes: &[u8]) -> Result<Table, TableFault> {
        if !Table::is_text(bytes) {
            return Ok(Table { bytes: bytes.to_vec(), lines: None });
        }
        match parsed(bytes) {
            Ok((bytes, lines)) => Ok(Table { bytes, lines: Some(lines) }),
            Err((line, why)) => Err(TableFault { line, why }),
        }
    }

    /// Are these bytes a text, and not the eight bytes an entry?
    #[must_use]
    pub fn is_text(bytes: &[u8]) -> bool {
        is_text(bytes)
    }

    /// Its eight bytes an entry, big-endian, as callers in C and Rust lend them.
    #[must_use]
    pub fn bytes(&self) -> &[u8] {
        &self.bytes
    }

    /// Of a text, the line, from 1, that tells the entry of this number, from 0.
    #[must_use]
    pub fn line(&self, entry: usize) -> Option<usize> {
        self.lines.as_ref().and_then(|lines| lines.get(entry)).copied()
    }
}

fn is_text(bytes: &[u8]) -> bool {
    bytes.iter().all(|byte| matches!(byte, b' '..=b'~' | b'\t' | b'\r' | b'\n' | 0x80..))
}

/// A line with words: its number from 1, its indentation, and the words.
struct Line<'a> {
    number: usize,
    indentation: &'a str,
    words: Vec<&'a str>,
}

impl Line<'_> {
    /// It has more indentation than the other: the same, and more behind it.
    fn is_under(&self, other: &Line) -> bool {
        self.indentation.len() > other.indentation.len()
            && self.indentation.starts_with(other.indentation)
    }
}

fn lines(text: &str) -> Vec<Line<'_>> {
    let is_blank = |c: char| c == ' ' || c == '\t';
    let mut lines = Vec::new();
    for (number, line) in (1..).zip(text.lines()) {
        let line = line.split('#').next().unwrap_or("");
        let words: Vec<&str> = line.split(is_blank).filter(|word| !word.is_empty()).collect();
        if !words.is_empty() {
            let indentation = &line[..line.len() - line.trim_start_matches(is_blank).len()];
            lines.push(Line { number, indentation, words });
        }
    }
    lines
}

type Fault = (usize, String);

/// The bytes of the table that lines tell, and the number of the line of each entry;
/// or the number of the first line that tells none, and why. A byte order mark in
/// front is left out.
fn parsed(text: &[u8]) -> Result<(Vec<u8>, Vec<usize>), Fault> {
    let text = String::from_utf8_lossy(text);
    let lines = lines(text.strip_prefix('\u{feff}').unwrap_or(&text));
    let mut bytes = Vec::new();
    let mut under = vec![0; lines.len()];
    // the indentation of each open level, the last one that of the line above, and the
    // group that holds it
    let mut open: Vec<(&str, Option<usize>)> = Vec::new();
    for (entry, line) in lines.iter().enumerate() {
        let fault = |why: &str| (line.number, why.to_string());
        let above = open.last().map_or("", |level| level.0);
        if !above.starts_with(line.indentation) && !line.indentation.starts_with(above) {
            return Err(fault(
                "tabs and spaces of its indentation are not those of the line above",
            ));
        }
        while open.last().map_or(false, |level| level.0.len() > line.indentation.len()) {
            open.pop();
        }
        match open.last() {
            Some(level) if level.0 == line.indentation => {}
            Some(_) if line.is_under(&lines[entry - 1]) => {
                open.push((line.indentation, Some(entry - 1)));
            }
            None if entry == 0 => open.push((line.indentation, None)),
            _ => return Err(fault("no line above it has this indentation")),
        }
        open.iter().filter_map(|level| level.1).for_each(|group| under[group] += 1);
        let group = lines.get(entry + 1).map_or(false, |next| next.is_under(line));
        bytes.extend(row(line, group).map_err(|why| fault(&why))?);
    }
    for (entry, &count) in under.iter().enumerate() {
        let count = u16::try_from(count).map_err(|_| {
            (lines[entry].number, "more than 65535 lines stand under it".to_string())
        })?;
        bytes[8 * entry + 6..8 * entry + 8].copy_from_slice(&count.to_be_bytes());
    }
    Ok((bytes, lines.iter().map(|line| line.number).collect()))
}

/// The eight bytes of a line, but for the number of entries under it.
fn row(line: &Line, group: bool) -> Result<[u8; 8], String> {
    if line.words.iter().any(|word| word.contains(char::is_whitespace)) {
        return Err("it has white space that is neither a space nor a tab".to_string());
    }
    let [tag, status, repeats] = match line.words[..] {
        [tag, status, repeats] => [tag, status, repeats],
        _ => return Err("a line is a tag, M or C, and a number".to_string()),
    };
    let tag: [u8; 3] = match group {
        true if is_tag(tag) && !is_group_name(tag) => {
            return Err(format!("'{tag}' is a tag, but the next line makes it a group's name"))
        }
        true => [0; 3],
        false if is_group_name(tag) => {
            return Err(format!(
                "'{tag}' is a group's name, but no line under it has more indentation"
            ))
        }
        false => {
            tag.as_bytes().try_into().map_err(|_| format!("'{tag}' is no tag of three bytes"))?
        }
    };
    let status = match status.as_bytes() {
        &[status] => status,
        _ => return Err(format!("'{status}' is neither M nor C")),
    };
    let number = number(repeats).ok_or_else(|| format!("'{repeats}' is no number up to 65535"))?;
    let [high, low] = number.to_be_bytes();
    Ok([tag[0], tag[1], tag[2], status, high, low, 0, 0])
}

fn is_tag(word: &str) -> bool {
    word.len() == 3 && word.bytes().all(|b| b.is_ascii_uppercase() || b.is_ascii_digit())
}

/// SG1 to SG9, as printed segment tables call groups: no segment has such a tag.
fn is_group_name(word: &str) -> bool {
    matches!(word.as_bytes(), [b'S', b'G', b'1'..=b'9'])
}

/// Digits alone, and no zero before others.
fn number(word: &str) -> Option<u16> {
    let is_plain = word.bytes().all(|byte| byte.is_ascii_digit());
    let is_short = word.len() == 1 || !word.starts_with('0');
    word.parse::<u16>().ok().filter(|_| is_plain && is_short)
}

#[cfg(test)]
mod tests {
    use super::*;

    #[test]
    fn lines_are_entries_and_indentation_is_a_group() {
        let text = b"# a table\nBGM M 1\n\ngroup C 999\r\n  LIN M 1 # its trigger\n  deeper C 2\n   TXT M 1\nUNS C 1\n";
        let (bytes, lines) = parsed(text).unwrap();
        let rows: [&[u8; 8]; 6] = [
            b"BGMM\x00\x01\x00\x00",
            b"\x00\x00\x00C\x03\xe7\x00\x03",
            b"LINM\x00\x01\x00\x00",
            b"\x00\x00\x00C\x00\x02\x00\x01",
            b"TXTM\x00\x01\x00\x00",
            b"UNSC\x00\x01\x00\x00",
        ];
        assert_eq!(bytes, rows.map(|row| *row).concat());
        assert_eq!(lines, [2, 4, 5, 6, 7, 8]);
    }

    #[test]
    fn a_line_that_tells_no_entry_is_named() {
        let cases: [(&[u8], usize); 14] = [
            (b"BGM M\n", 1),
            (b"BGM M 1\n\nLINE C 1\n", 3),
            (b"BGM MC 1\n", 1),
            (b"BGM M 65536\n", 1),
            (b"BGM M -1\n", 1),
            (b"BGM M +5\n", 1),
            (b"BGM M 007\n", 1),
            (b"a C 1\n    BGM M 1\n  LIN M 1\n", 3),
            (b"a C 1\n  LIN M 1\n\tb C 1\n\t\tTXT M 1\n", 3),
            (b"a C 1\n\tLIN M 1\n        TXT C 1\n", 3),
            (b"\tBGM M 1\n    LIN M 1\n", 2),
            (b"BGM M 1\n DTM M 1\n", 1),
            (b"a C 1\n  LIN M 1\n\xc2\xa0\xc2\xa0b C 1\n    TXT M 1\n", 3),
            (b"BGM M 1\rLIN M 1", 1),
        ];
        for (text, line) in cases {
            assert_eq!(parsed(text).unwrap_err().0, line, "{}", String::from_utf8_lossy(text));
        }
    }

    #[test]
    fn groups_may_be_called_by_their_number() {
        let (bytes, _) =
            parsed(b"SG1 C 9\n RFF M 1\n SG9 C 2\n  DTM M 1\nSG10 C 1\n LIN M 1\n").unwrap();
        let (same, _) = parsed(b"a C 9\n RFF M 1\n b C 2\n  DTM M 1\nc C 1\n LIN M 1\n").unwrap();
        assert_eq!(bytes, same);
        assert_eq!(parsed(b"SG1 C 9\nRFF M 1\n").unwrap_err().0, 1);
        assert_eq!(parsed(b"SG0 C 9\n RFF M 1\n").unwrap_err().0, 1);
    }

    #[test]
    fn tabs_and_a_byte_order_mark_are_taken() {
        let (bytes, _) = parsed(b"\xef\xbb\xbfa C 1\n\tLIN M 1\n\tb C 1\n\t  TXT M 1\n").unwrap();
        let (same, _) = parsed(b"a C 1\n LIN M 1\n b C 1\n  TXT M 1\n").unwrap();
        assert_eq!(bytes, same);
    }

    #[test]
    fn what_the_library_judges_is_passed_on() {
        let (bytes, _) = parsed(b"unt X 0\n").unwrap();
        assert_eq!(bytes, b"untX\0\0\0\0");
        assert_eq!(parsed(b"").unwrap().0, b"");
    }

    #[test]
    fn bytes_are_told_from_a_text() {
        assert!(is_text(b"BGM M 1\r\n\tLIN M 1\n"));
        assert!(!is_text(b"BGMM\x00\x01\x00\x00"));
        assert!(!is_text(b"BGMM\x03\xe7\x00\x00"));
    }
}
