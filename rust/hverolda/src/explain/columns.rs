//! Refusals of Import: the first line that is not as export writes it (24), or those of the
//! values.

use super::{explained, lists::explain_list, shown, Explanation, Reason};
use crate::refusal::{Fault, Refusal};

/// Explains how [`import`](crate::import()) refused this text in columns under these service
/// bytes.
///
/// For 24 the line is that of the text. Otherwise the value of number n stands in line n + 2.
///
/// ```
/// let text = b"segment\telement\trepeat\tcomponent\tvalue\n0\t0\t0\t0\tUNB\n00\t1\t0\t0\tUNOA\n";
/// let refusal = hverolda::import(b":+.? '", text, &mut [0; 99]).unwrap_err();
/// let told = hverolda::explain_columns(b":+.? '", text, refusal);
/// assert_eq!(told.line, Some(3));
/// assert_eq!(told.sentence, "line 3: 00 is no number as export writes it, without zeros before it");
/// ```
#[must_use]
pub fn explain_columns(service: &[u8], text: &[u8], refusal: Refusal) -> Explanation {
    if refusal.fault != Fault::NoColumns {
        let (bytes, table) = listed(text);
        return explain_list(service, &bytes, &table, refusal);
    }
    let (line, reason) = match first_fault(text) {
        Some((line, found, why)) => {
            let sentence = format!("line {line}: {why}");
            (Some(line), Some(Reason::new(found, "a line as export writes it", sentence)))
        }
        None => (None, None),
    };
    Explanation { line, ..explained(None, refusal, reason) }
}

/// The list that the lines tell, where they do.
fn listed(text: &[u8]) -> (Vec<u8>, Vec<u32>) {
    let (mut bytes, mut table) = (Vec::new(), Vec::new());
    for line in text.split(|&byte| byte == b'\n').skip(1) {
        if let Ok(Row { numbers, value }) = row(line) {
            let kind = match numbers {
                [_, 0, 0, 0] => 0,
                [_, _, 0, 0] => 1,
                [_, _, _, 0] => 3,
                _ => 2,
            };
            table.extend([kind, bytes.len() as u32, value.len() as u32]);
            bytes.extend_from_slice(value);
        }
    }
    (bytes, table)
}

struct Row<'a> {
    numbers: [usize; 4],
    value: &'a [u8],
}

const HEADING: &[u8] = b"segment\telement\trepeat\tcomponent\tvalue";

/// What was found, and why it is not as export writes it.
type Why = (String, String);

/// The first line at fault, from 1.
fn first_fault(text: &[u8]) -> Option<(usize, String, String)> {
    let at = |line: usize| move |(found, why): Why| (line, found, why);
    if text.is_empty() {
        return Some(at(1)((
            "nothing".to_string(),
            "the text is empty: the heading line is missing".to_string(),
        )));
    }
    let mut lines: Vec<&[u8]> = text.split(|&byte| byte == b'\n').collect();
    let last = lines.pop()?;
    let mut before: Option<Row> = None;
    for (number, line) in (1..).zip(&lines) {
        if let Some(why) = damage(line) {
            return Some(at(number)(why));
        }
        if number == 1 {
            if *line != HEADING {
                return Some(at(1)(heading(line)));
            }
            continue;
        }
        let row = match row(line) {
            Ok(row) => row,
            Err(why) => return Some(at(number)(why)),
        };
        if let Some(why) = order(before.as_ref(), &row) {
            return Some(at(number)(why));
        }
        if let Some(why) = empty_end(before.as_ref(), Some(&row)) {
            return Some(at(number - 1)(why));
        }
        before = Some(row);
    }
    if let Some(why) = empty_end(before.as_ref(), None) {
        return Some(at(lines.len())(why));
    }
    let unended =
        ("no line feed".to_string(), "the last line has no line feed after it".to_string());
    (!last.is_empty()).then(|| at(lines.len() + 1)(damage(last).unwrap_or(unended)))
}

fn heading(line: &[u8]) -> Why {
    let found = shown(line);
    let why = format!(
        "the heading is {found}: it must be the five names segment, element, \
        repeat, component, value with tabs between them"
    );
    (found, why)
}

/// What a spreadsheet often does to a line.
fn damage(line: &[u8]) -> Option<Why> {
    let told = |found: &str, why: &str| Some((found.to_string(), why.to_string()));
    let mut numbers = line.split(|&byte| byte == b'\t').take(4);
    match line {
        _ if line.starts_with(b"\xef\xbb\xbf") => {
            told("a byte order mark", "it begins with a byte order mark: save the file without one")
        }
        [.., b'\r'] => told(
            "a carriage return",
            "it ends in a carriage return: save the file with line feeds alone",
        ),
        [] => told("an empty line", "it is empty"),
        _ if numbers.any(|number| number.starts_with(b"\"")) => {
            told("quotes", "it has quotes around a number or a name: save the file without quotes")
        }
        _ => None,
    }
}

fn row(line: &[u8]) -> Result<Row<'_>, Why> {
    let columns: Vec<&[u8]> = line.split(|&byte| byte == b'\t').collect();
    if columns.len() != 5 {
        let found = format!("{} columns", columns.len());
        let why = format!("it has {found}: five are written, with tabs between them");
        return Err((found, why));
    }
    let mut numbers = [0; 4];
    for (number, column) in numbers.iter_mut().zip(&columns) {
        *number = plain(column).ok_or_else(|| {
            let found = shown(column);
            let why = format!("{found} is no number as export writes it, without zeros before it");
            (found, why)
        })?;
    }
    Ok(Row { numbers, value: columns[4] })
}

/// Digits alone, and no zero before others.
fn plain(column: &[u8]) -> Option<usize> {
    let digits =
        column.iter().all(u8::is_ascii_digit) && (column.len() == 1 || !column.starts_with(b"0"));
    std::str::from_utf8(column).ok().filter(|_| digits)?.parse().ok()
}

/// Numbers come one after another.
fn order(before: Option<&Row>, row: &Row) -> Option<Why> {
    let told = |numbers: [usize; 4]| numbers.map(|number| number.to_string()).join(" ");
    let next = match before.map(|row| row.numbers) {
        None => vec![[0; 4]],
        Some([segment, element, repeat, component]) => vec![
            [segment, element, repeat, component + 1],
            [segment, element, repeat + 1, 0],
            [segment, element + 1, 0, 0],
            [segment + 1, 0, 0, 0],
        ],
    };
    if next.contains(&row.numbers) {
        return None;
    }
    let found = told(row.numbers);
    let allowed: Vec<String> = next.into_iter().map(told).collect();
    let why = format!(
        "its numbers are {found}: after the line above they can be {}",
        allowed.join(", or ")
    );
    Some((found, why))
}

/// An empty value at the end of a repeat, an element or a segment, which export leaves out.
fn empty_end(before: Option<&Row>, next: Option<&Row>) -> Option<Why> {
    let Row { numbers: [_, element, repeat, component], value } = before?;
    let [_, next_element, next_repeat, next_component] = next.map_or([0; 4], |row| row.numbers);
    let goes_on = next_component > 0;
    let ends_element = next_repeat == 0 && !goes_on;
    let ends_segment = ends_element && next_element == 0;
    let idle = match (component, repeat, element) {
        (1.., _, _) => !goes_on,
        (_, 1.., _) => ends_element,
        (_, _, 1..) => ends_segment,
        _ => false,
    };
    let why = "its value is empty and stands at the end of a repeat, an element or a segment, \
        where none is written: take the line away";
    (idle && value.is_empty()).then(|| ("an empty end".to_string(), why.to_string()))
}
