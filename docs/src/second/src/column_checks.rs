//! Columns: rows by hand, every short text, there and back, slips, and what the
//! buffers then hold.
//!
//! Change request 2026-12, "Lines for a spreadsheet". Which texts are those of a
//! trimmed list is told here a second time, by the numbers alone.

use crate::cases::X;
use crate::column_cases::column_cases;
use crate::generator::{any_columns, any_input, any_valid, request, slip, Random};
use crate::operations::{compare, export, import, judge, Comparison};
use crate::program_lines::{exported_lines, imported_line};
use crate::refusal::{Answer, Refusal, ADVICE, BUFFER, LIST, LONGEST, NO_COLUMNS};
use crate::request_stream::Request;

type Check = Result<(), String>;

fn ensure(holds: bool, what: &str, input: &[u8]) -> Check {
    match holds {
        true => Ok(()),
        false => Err(format!("columns, {what}: {}", input.escape_ascii())),
    }
}

/// The first failure.
pub fn check_columns() -> Check {
    check_cases()?;
    check_rows()?;
    check_empty_list()?;
    check_short_texts()?;
    check_limits()?;
    (0..3_000).try_for_each(check_there_and_back)?;
    check_generated()
}

const HEADING: &str = "segment\telement\trepeat\tcomponent\tvalue\n";

const NO_TEXT: Refusal = Refusal { number: NO_COLUMNS, place: 0 };

/// The interchange of a text under these characters.
fn imported(service: &[u8], text: &[u8]) -> Answer<Vec<u8>> {
    let mut output = vec![0xA5; LONGEST];
    let length = import(service, text, &mut output)?;
    output.truncate(length);
    Ok(output)
}

/// The stored texts are imported again, and are those of their cases.
fn check_cases() -> Check {
    for columns in column_cases() {
        let text = columns.text.as_bytes();
        for service in [b":+.?*'", b";*.!%~", b":+,?*'"] {
            // X is of version 1
            let mut service = *service;
            if columns.name == "01-x" {
                service[4] = b' ';
            }
            let line = imported_line(&service, text);
            ensure(judge(&line).is_ok(), columns.name, &line)?;
            ensure(exported_lines(&line) == text, columns.name, &line)?;
        }
    }
    Ok(())
}

/// A text of these lines, without more.
fn with_heading(lines: &str) -> Vec<u8> {
    format!("{HEADING}{lines}").into_bytes()
}

/// What X becomes by each of these changes, and whether it is still a text that
/// export gives.
fn check_rows() -> Check {
    let x = exported_lines(X.as_bytes());
    let x = String::from_utf8_lossy(&x).to_string();
    let same = [
        x.clone(),
        x.replace("\tA+B\n", "\tA\"B\n"),
        x.replace("\tA+B\n", "\t\"A\"\n"),
        x.replace("\tA+B\n", "\t=1,2;3\n"),
        x.replace("2\t1\t0\t0\t220\n", "2\t1\t0\t0\t\n"),
        x.replace("2\t2\t0\t0\tA+B\n", ""),
        x.replace("\tAA\n", "\t \n"),
        x.replace("4\t2\t0\t0\tR1\n", "4\t2\t0\t0\tR1\n5\t0\t0\t0\t\n"),
    ];
    let other = [
        x.replace('\n', "\r\n"),
        x.replacen('\n', "\r\n", 1),
        x.replace("\tA+B\n", "\tA+B\r\n"),
        x.replace("\tA+B\n", "\tA\tB\n"),
        x.replace("\tA+B\n", "\tA+B\n\n"),
        x.trim_end().to_string(),
        format!("{x}\n"),
        format!("\n{x}"),
        format!("\u{feff}{x}"),
        x.replace('\t', ","),
        x.replace('\t', ";"),
        x.replace("segment", "\"segment\""),
        x.replacen("segment", "Segment", 1),
        x.replacen(HEADING, "", 1),
        format!("{HEADING}{x}"),
        x.replace("2\t2\t0\t0\t", "2\t02\t0\t0\t"),
        x.replace("2\t2\t0\t0\t", "2\t2\t00\t0\t"),
        x.replace("2\t2\t0\t0\t", "2\t+2\t0\t0\t"),
        x.replace("2\t2\t0\t0\t", " 2\t2\t0\t0\t"),
        x.replace("2\t2\t0\t0\t", "2\t2\t0\t\t"),
        x.replace("2\t2\t0\t0\t", "\"2\"\t2\t0\t0\t"),
        // skipped numbers
        x.replace("2\t2\t0\t0\t", "2\t3\t0\t0\t"),
        x.replace("2\t2\t0\t0\t", "2\t2\t1\t0\t"),
        x.replace("2\t2\t0\t0\t", "2\t2\t0\t1\t"),
        x.replace("\n4\t", "\n5\t"),
        x.replace("0\t0\t0\t0\tUNB\n", ""),
        // empty ends that trimming would take
        x.replace("2\t2\t0\t0\tA+B\n", "2\t2\t0\t0\t\n"),
        x.replace("2\t2\t0\t0\tA+B\n", "2\t2\t0\t0\tA+B\n2\t2\t0\t1\t\n"),
        x.replace("2\t2\t0\t0\tA+B\n", "2\t2\t0\t0\tA+B\n2\t2\t1\t0\t\n"),
        x.replace("2\t2\t0\t0\tA+B\n", "2\t2\t0\t0\tA+B\n2\t3\t0\t0\t\n"),
        x.replace("2\t1\t0\t0\t220\n", "2\t1\t0\t0\t220\n2\t1\t0\t1\t\n"),
        x.replace("5\t0", "").replace("4\t2\t0\t0\tR1\n", "4\t2\t0\t0\tR1\n4\t3\t0\t0\t\n"),
    ];
    for text in same {
        let told = imported(b":+.? '", text.as_bytes());
        ensure(told != Err(NO_TEXT), "a text of export", text.as_bytes())?;
    }
    for text in other {
        for service in [&b":+.? '"[..], b":+.?*'", b""] {
            let told = imported(service, text.as_bytes());
            ensure(told == Err(NO_TEXT), "any other text", text.as_bytes())?;
        }
    }
    Ok(())
}

/// The heading alone is the text of the empty list: the writer's answer for it.
fn check_empty_list() -> Check {
    let rows: [(&[u8], usize, Refusal); 5] = [
        (b":+.? '", 9, Refusal { number: 3, place: 9 }),
        (b":+.?*'", 100, Refusal { number: 3, place: 9 }),
        (b":+.? '", 8, Refusal { number: BUFFER, place: 9 }),
        (b":+.?+'", 100, Refusal { number: ADVICE, place: 0 }),
        (b"", 0, Refusal { number: ADVICE, place: 0 }),
    ];
    for (service, room, refusal) in rows {
        let mut output = vec![0xA5; room];
        let told = import(service, HEADING.as_bytes(), &mut output);
        ensure(told == Err(refusal) && output == vec![0; room], "the empty list", service)?;
    }
    for text in ["", "\n", "segment", &HEADING[..HEADING.len() - 1], &HEADING[1..]] {
        ensure(imported(b"", text.as_bytes()) == Err(NO_TEXT), "no heading", text.as_bytes())?;
    }
    Ok(())
}

/// The numbers of a line, and whether its value is empty.
type Row = ([usize; 4], bool);

/// How a row goes on from the one before it: 0 by a new segment, 1 by an element,
/// 2 by a repeat, 3 by a component. None where it does not.
fn step(last: Option<&Row>, row: &Row) -> Option<usize> {
    let last = match last {
        Some((last, _)) => *last,
        None => return (row.0 == [0; 4]).then_some(0),
    };
    (0..4).find(|&place| {
        let mut next = [0; 4];
        next[..place].copy_from_slice(&last[..place]);
        next[place] = last[place] + 1;
        next == row.0
    })
}

/// An empty value stands before a value of the same repeat, or is a repeat of its
/// own before another, or an element of its own before another, or a tag.
fn may_be_empty(numbers: [usize; 4], next: Option<usize>) -> bool {
    let [_, element, repeat, component] = numbers;
    match next {
        Some(3) => true,
        Some(2) => component == 0,
        Some(1) => component == 0 && repeat == 0,
        _ => component == 0 && repeat == 0 && element == 0,
    }
}

/// Is this the text of a trimmed list?
fn is_trimmed_text(rows: &[Row]) -> bool {
    let steps: Vec<Option<usize>> =
        (0..rows.len()).map(|number| step(rows[..number].last(), &rows[number])).collect();
    steps.iter().all(Option::is_some)
        && rows.iter().enumerate().all(|(number, (numbers, empty))| {
            !empty || may_be_empty(*numbers, steps.get(number + 1).copied().flatten())
        })
}

/// Every text of at most three lines with the numbers 0 and 1, and of four lines
/// that go on as they may, each value empty or not.
fn check_short_texts() -> Check {
    let row = |number: usize| {
        let bit = |place: usize| number >> place & 1;
        ([bit(0), bit(1), bit(2), bit(3)], bit(4) == 1)
    };
    for first in 0..32 {
        check_rows_of(&[row(first)])?;
        for second in 0..32 {
            check_rows_of(&[row(first), row(second)])?;
            for third in 0..32 {
                check_rows_of(&[row(first), row(second), row(third)])?;
            }
        }
    }
    check_longer(&mut vec![([0; 4], false)])
}

/// Every way to go on from these rows, up to five of them.
fn check_longer(rows: &mut Vec<Row>) -> Check {
    check_rows_of(rows)?;
    if rows.len() == 5 {
        return Ok(());
    }
    let last = rows[rows.len() - 1].0;
    for place in 0..4 {
        let mut next = [0; 4];
        next[..place].copy_from_slice(&last[..place]);
        next[place] = last[place] + 1;
        for empty in [false, true] {
            rows.push((next, empty));
            check_longer(rows)?;
            rows.pop();
        }
    }
    Ok(())
}

fn check_rows_of(rows: &[Row]) -> Check {
    let mut text = HEADING.to_string();
    for ([segment, element, repeat, component], empty) in rows {
        let value = if *empty { "" } else { "A" };
        text.push_str(&format!("{segment}\t{element}\t{repeat}\t{component}\t{value}\n"));
    }
    // the text is of no interchange, so that it is refused in any case
    let told = imported(b":+.?*'", text.as_bytes());
    let refused = told == Err(NO_TEXT);
    ensure(told.is_err() && refused != is_trimmed_text(rows), "a short text", text.as_bytes())
}

/// Many lines, long values and long numbers.
fn check_limits() -> Check {
    let lines = |count: usize| -> String {
        (0..count).map(|number| format!("0\t{number}\t0\t0\tA\n")).collect()
    };
    let told = |text: &[u8]| imported(b":+.? '", text).map(drop);
    let refused = |number, place| Err(Refusal { number, place });
    ensure(told(&with_heading(&lines(31_000))) == refused(1, 0), "31,000 lines", b"")?;
    ensure(told(&with_heading(&lines(32_000))) == refused(1, 0), "32,000 lines", b"")?;
    ensure(told(&with_heading(&lines(32_001))) == refused(LIST, 0), "32,001 lines", b"")?;
    ensure(told(&with_heading(&lines(300_000))) == refused(LIST, 0), "300,000 lines", b"")?;
    let damaged = format!("{}0\t0\t0\t0\tA\n", lines(300_000));
    ensure(told(&with_heading(&damaged)) == Err(NO_TEXT), "300,001 lines", b"")?;
    let value = |length| with_heading(&format!("0\t0\t0\t0\t{}\n", "A".repeat(length)));
    // the advice, the value and its terminator
    ensure(told(&value(31_990)) == refused(3, 9), "a text of 32,000 bytes", b"")?;
    ensure(told(&value(31_991)) == refused(1, 0), "a text of 32,001 bytes", b"")?;
    ensure(told(&value(3_000_000)) == refused(1, 0), "a long value", b"")?;
    for digit in ["0", "1"] {
        let number = format!("0\t{}\t0\t0\tA\n", digit.repeat(1_000_000));
        ensure(told(&with_heading(&number)) == Err(NO_TEXT), "a long number", b"")?;
    }
    Ok(())
}

/// Export then import gives the same contents where the writer does not refuse;
/// import then export gives the same text.
fn check_there_and_back(seed: u64) -> Check {
    let random = &mut Random::new(seed);
    let draft = any_valid(random);
    let input = draft.spelled();
    let text = exported_lines(&input);
    let service = draft.characters.six();
    let back = imported(&service, &text);
    let same = back.as_ref().map(|back| compare(&input, back)) == Ok(Comparison::Same);
    ensure(same, "there and back", &input)?;
    let mut other = text.clone();
    slip(random, &mut other);
    if let Ok(written) = imported(&service, &other) {
        ensure(exported_lines(&written) == other, "back and there", &other)?;
    }
    let columns = any_columns(random);
    if let Ok(written) = imported(b":+.?*'", &columns) {
        ensure(exported_lines(&written) == columns, "back and there", &columns)?;
    }
    check_export(&any_input(random))
}

/// Judge's refusals, then 14; the buffer stays as it was, beyond the text too.
fn check_export(input: &[u8]) -> Check {
    let told = export(input, &mut []);
    let length = match (judge(input), told) {
        (Err(refusal), told) => return ensure(told == Err(refusal), "Judge's refusal", input),
        (Ok(_), Err(Refusal { number: BUFFER, place })) => place,
        _ => return ensure(false, "no room", input),
    };
    let mut short = vec![0xA5; length - 1];
    let refused = export(input, &mut short) == Err(Refusal { number: BUFFER, place: length });
    ensure(refused && short.iter().all(|&byte| byte == 0xA5), "a short buffer", input)?;
    let mut longer = vec![0xA5; length + 3];
    let stored = export(input, &mut longer) == Ok(length) && longer[length..] == [0xA5; 3];
    ensure(stored && longer.starts_with(HEADING.as_bytes()), "a longer buffer", input)?;
    let lines = longer[..length].iter().filter(|&&byte| byte == b'\n').count();
    let words = longer[..length].iter().filter(|&&byte| byte == b'\t').count();
    ensure(words == 4 * lines, "five columns", input)
}

/// Generated requests: a refused import leaves zeros, and 24 stands before the
/// writer's. All that can occur does.
fn check_generated() -> Check {
    let mut met = [0; 25];
    for seed in 0..6_000 {
        let (service, text, output) = match request(&mut Random::new(seed), b'I') {
            Request::Import { service, text, output } => (service, text, output),
            _ => continue,
        };
        let mut written = output.clone();
        match import(&service, &text, &mut written) {
            Ok(length) => {
                met[0] += 1;
                let beyond = written[length..] == output[length..];
                ensure(beyond && judge(&written[..length]).is_ok(), "the text", &text)?;
            }
            Err(refusal) => {
                met[refusal.number as usize] += 1;
                ensure(written.iter().all(|&byte| byte == 0), "zero output", &text)?;
                let alike = (refusal == NO_TEXT) == (imported(b"", &text) == Err(NO_TEXT));
                ensure(alike, "24 by the text alone", &text)?;
            }
        }
    }
    let enough = [0, 1, 2, 3, 6, 7, 8, 9, 10, 11, 12, 14, 15, 16, 24];
    ensure(enough.iter().all(|&number| met[number] > 5), &format!("met {met:?}"), b"")
}
