//! Texts in columns with answers that are known without either side: what was exported comes
//! back, and a text that is one slip away from an export is refused by 24.
//!
//! Change request 2026-12, "Lines for a spreadsheet".

use second::generator::request;
use second::operations;
use second::refusal::{BUFFER, LONGEST};
use second::request_stream::Request;

use hverolda::surface::Written;

use crate::call::{Answer, Call, Outcome};
use crate::cases::rooms;
use crate::inputs::input;
use crate::lent::filled;
use crate::run::{Checked, Run};

/// An input into buffers of several sizes; what it gives, under its own service bytes, into
/// outputs of several sizes, and out again.
pub fn there_and_back(run: &mut Run) -> Checked<()> {
    let input = match request(&mut run.random, b'E') {
        Request::Export { input, .. } => input,
        _ => unreachable!("a request of kind E is an Export"),
    };
    let text = exported(run, &input)?;
    let service = match (&text, hverolda::judge(&input)) {
        (Some(_), Ok(told)) => told.characters.six().to_vec(),
        _ => return Ok(()),
    };
    let columns = text.unwrap_or_default();
    if let Some(interchange) = imported(run, &service, &columns)? {
        let call = Call::Export { buffer: Vec::new(), input: interchange.clone() };
        let again = exported(run, &interchange)?;
        run.known(again.as_ref() == Some(&columns), &call, "back and there is the same text")?;
        let same = hverolda::values(&interchange) == hverolda::values(&input);
        run.known(same, &call, "there and back has the same contents")?;
        run.tally.count("columns", "there and back");
    }
    any_text(run)
}

/// Export into buffers of several sizes, and by the wrapper as a text of its own.
fn exported(run: &mut Run, input: &[u8]) -> Checked<Option<Vec<u8>>> {
    let needed = match operations::export(input, &mut []) {
        Err(refusal) if refusal.number == BUFFER => refusal.place,
        _ => 0,
    };
    let mut text = None;
    for (room, name) in rooms(run, needed) {
        let call = Call::Export { buffer: filled(&mut run.random, room), input: input.to_vec() };
        let outcome = run.check(&call)?;
        run.tally.count("export buffer", name);
        let stored = outcome.stored().map(|(bytes, _)| bytes.to_vec());
        if room >= needed {
            let owned = hverolda::columns(input);
            let owned = owned.map_err(|refusal| (refusal.number(), refusal.place));
            run.known(owned == stored, &call, "the wrapper's columns are those stored")?;
        }
        text = stored.ok();
    }
    Ok(text)
}

/// Import into outputs of several sizes.
fn imported(run: &mut Run, service: &[u8], columns: &[u8]) -> Checked<Option<Vec<u8>>> {
    let needed = match operations::import(service, columns, &mut []) {
        Err(refusal) if refusal.number == BUFFER => refusal.place,
        _ => 0,
    };
    let mut text = None;
    for (room, name) in rooms(run, needed) {
        let output = filled(&mut run.random, room);
        let (service, columns) = (service.to_vec(), columns.to_vec());
        let outcome = run.check(&Call::Import { service, columns, output })?;
        run.tally.count("import output", name);
        text = outcome.stored().map(|(bytes, _)| bytes.to_vec()).ok();
    }
    Ok(text)
}

/// A text of any sort into outputs of several sizes.
fn any_text(run: &mut Run) -> Checked<()> {
    match request(&mut run.random, b'I') {
        Request::Import { service, text, .. } => imported(run, &service, &text).map(drop),
        _ => unreachable!("a request of kind I is an Import"),
    }
}

/// What is done to a text, and its name. Each makes a text that no list has.
const SLIPS: [(&str, fn(&str, usize) -> String); 11] = [
    ("a carriage return in every line", |text, _| text.replace('\n', "\r\n")),
    ("a carriage return in the last line", |text, _| format!("{}\r\n", &text[..text.len() - 1])),
    ("no last line feed", |text, _| text[..text.len() - 1].to_string()),
    ("a leading zero", |text, at| with_line(text, at, |line| format!("0{line}"))),
    ("a skipped number", |text, at| with_line(text, at, skipped)),
    ("quotes around a number", |text, at| {
        with_line(text, at, |line| format!("\"{}", line.replacen('\t', "\"\t", 1)))
    }),
    ("a tab behind a value", |text, at| with_line(text, at, |line| format!("{line}\t"))),
    ("a blank line", |text, at| with_line(text, at, |line| format!("{line}\n"))),
    ("a line twice", |text, at| with_line(text, at, |line| format!("{line}\n{line}"))),
    ("an empty end", |text, _| format!("{text}{}", after_last(text))),
    ("a number of 100000 digits", |text, at| {
        with_line(text, at, |line| format!("{}{line}", "1".repeat(100_000)))
    }),
];

/// Another line in the place of this one, from 1, the heading not counted.
fn with_line(text: &str, at: usize, change: impl Fn(&str) -> String) -> String {
    let lines = text.lines().enumerate();
    let line = |(number, line): (usize, &str)| match number == at {
        true => format!("{}\n", change(line)),
        false => format!("{line}\n"),
    };
    lines.map(line).collect()
}

/// The line with a component that is two higher, which no line before it allows.
fn skipped(line: &str) -> String {
    let mut words: Vec<String> = line.split('\t').map(str::to_string).collect();
    words[3] = (words[3].parse::<u64>().expect("a component's number") + 2).to_string();
    words.join("\t")
}

/// The line of an empty component after the last value.
fn after_last(text: &str) -> String {
    let words: Vec<&str> = text.lines().last().expect("a last line").split('\t').collect();
    let next = words[3].parse::<u64>().expect("a component's number") + 1;
    format!("{}\t{}\t{}\t{next}\t\n", words[0], words[1], words[2])
}

/// A text one slip away from an export, or at a limit.
pub fn slip(run: &mut Run) -> Checked<()> {
    if run.random.chance(4) {
        return limit(run);
    }
    let input = input(&mut run.random);
    let text = match exported(run, &input)? {
        Some(text) => String::from_utf8(text).expect("an accepted interchange is ASCII"),
        None => return Ok(()),
    };
    let line = run.random.between(1, text.lines().count() - 1);
    let (name, change) = run.random.pick(&SLIPS);
    let columns = change(&text, line).into_bytes();
    refused(run, columns, (24, 0), name)
}

/// The heading alone, and as many lines as an interchange can have and one more.
fn limit(run: &mut Run) -> Checked<()> {
    let heading = "segment\telement\trepeat\tcomponent\tvalue\n";
    let lines = |count: usize| -> Vec<u8> {
        let line = |number| format!("{number}\t0\t0\t0\tA\n");
        heading.bytes().chain((0..count).flat_map(|number| line(number).into_bytes())).collect()
    };
    match run.random.below(4) {
        0 => refused(run, lines(0), (3, 9), "the heading alone"),
        1 => refused(run, lines(32_000), (1, 0), "32000 lines"),
        2 => refused(run, lines(32_001), (15, 0), "32001 lines"),
        _ => long_normal_form(run),
    }
}

/// X with a value of so many plus signs, which its own characters do not release and the
/// normal form does.
fn long_normal_form(run: &mut Run) -> Checked<()> {
    let signs = run.random.between(15_956, 16_100);
    let text = hverolda::columns(second::cases::X.as_bytes()).unwrap_or_default();
    let line = format!("\t{}\n", "+".repeat(signs));
    let text = String::from_utf8_lossy(&text).replace("\tA+B\n", &line);
    // X's normal form has 93 bytes, four of them for `A?+B`
    let told = (13, 93 - 4 + 2 * signs);
    refused_under(b";*.! ~", run, text.into_bytes(), told, "a normal form over 32000 bytes")
}

/// Import under the standard's characters is refused so, and leaves zeros.
fn refused(run: &mut Run, columns: Vec<u8>, told: (u32, usize), name: &'static str) -> Checked<()> {
    refused_under(b":+.?*'", run, columns, told, name)
}

fn refused_under(
    service: &[u8],
    run: &mut Run,
    columns: Vec<u8>,
    (number, place): (u32, usize),
    name: &'static str,
) -> Checked<()> {
    let output = filled(&mut run.random, LONGEST);
    let bytes = vec![0; LONGEST];
    let answer = Answer::Import(Written { number, place, length: 0 });
    let known = Outcome { bytes, ..Outcome::of(answer) };
    let call = Call::Import { service: service.to_vec(), columns, output };
    run.check_known(&call, &known, name)?;
    run.tally.count("columns", name);
    Ok(())
}
