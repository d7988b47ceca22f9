//! Calls answered by the safe wrapper, laid out again as the surface's
//! structs: its types must say the same.

use hverolda::surface::{Comparison, Kept, Listing, Location, Part, Parties, Verdict, Written};
use hverolda::{ComparisonRefused, Lent, LentList, Refusal, Which};
use second::value_list::List;

use crate::call::{Answer, Call, Numbers, Outcome};

/// What the wrapper makes of a call.
pub fn outcome(call: &Call) -> Outcome {
    match call {
        Call::Judge { input } => Outcome::of(Answer::Judge(judge(input))),
        Call::Normalise { buffer, input } => {
            let mut bytes = buffer.clone();
            let written = written(hverolda::normalise(input, &mut bytes));
            Outcome { bytes, ..Outcome::of(Answer::Normalise(written)) }
        }
        Call::Compare { first, second } => Outcome::of(Answer::Compare(compare(first, second))),
        Call::Keep { first, second } => Outcome::of(Answer::Keep(keep(first, second))),
        Call::Locate { numbers, input } => Outcome::of(Answer::Locate(locate(*numbers, input))),
        Call::Part { numbers, input } => Outcome::of(Answer::Part(part(*numbers, input))),
        Call::Parties { input } => Outcome::of(Answer::Parties(parties(input))),
        Call::Read { bytes, table, input } => {
            let (mut bytes, mut table) = (bytes.clone(), table.clone());
            let listing = read(input, &mut bytes, &mut table);
            Outcome { answer: Answer::Read(listing), bytes, table }
        }
        Call::Write { service, values, table, output } => {
            let mut bytes = output.clone();
            let written = written(hverolda::write(service, values, table, &mut bytes));
            Outcome { bytes, ..Outcome::of(Answer::Write(written)) }
        }
        Call::Acknowledge { received, lists, output } => {
            let mut bytes = output.clone();
            let written = written(hverolda::acknowledge(received, &lent(lists), &mut bytes));
            Outcome { bytes, ..Outcome::of(Answer::Acknowledge(written)) }
        }
        Call::Export { buffer, input } => {
            let mut bytes = buffer.clone();
            let written = written(hverolda::export(input, &mut bytes));
            Outcome { bytes, ..Outcome::of(Answer::Export(written)) }
        }
        Call::Import { service, columns, output } => {
            let mut bytes = output.clone();
            let written = written(hverolda::import(service, columns, &mut bytes));
            Outcome { bytes, ..Outcome::of(Answer::Import(written)) }
        }
    }
}

/// What an acknowledgement is lent.
pub fn lent([date, reference, message]: &[List; 3]) -> Lent<'_> {
    Lent { date: lent_list(date), reference: lent_list(reference), message: lent_list(message) }
}

fn lent_list(list: &List) -> LentList<'_> {
    LentList { bytes: &list.values, table: &list.table }
}

fn judge(input: &[u8]) -> Verdict {
    match hverolda::judge(input) {
        Ok(told) => {
            let [component, element, mark, release, repetition, terminator] = told.characters.six();
            Verdict {
                number: 0,
                segments: told.segments,
                messages: told.messages,
                groups: told.groups,
                place: 0,
                length: told.normal_length,
                component,
                element,
                mark,
                release,
                repetition,
                terminator,
            }
        }
        Err(refusal) => {
            Verdict { number: refusal.number(), place: refusal.place, ..Verdict::default() }
        }
    }
}

fn written(answer: Result<usize, Refusal>) -> Written {
    match answer {
        Ok(length) => Written { length, ..Written::default() },
        Err(refusal) => Written { number: refusal.number(), place: refusal.place, length: 0 },
    }
}

fn compare(first: &[u8], second: &[u8]) -> Comparison {
    match hverolda::compare(first, second) {
        Ok(told) => {
            let same = told == hverolda::Comparison::Same;
            Comparison { same: same.into(), ..Comparison::default() }
        }
        Err(ComparisonRefused { input, refusal }) => {
            let input = if input == Which::First { 1 } else { 2 };
            Comparison { number: refusal.number(), input, same: 0, place: refusal.place }
        }
    }
}

/// The two inputs are apart, so that the pointer tells which of them it is.
fn keep(first: &[u8], second: &[u8]) -> Kept {
    let (first, second) = (first.to_vec(), second.to_vec());
    let kept = hverolda::keep(&first, &second);
    let input = match kept.as_ptr() == second.as_ptr() && !kept.is_empty() {
        true => 2,
        false => 1,
    };
    Kept { input, offset: 0, length: kept.len() }
}

fn locate([segment, element, repeat, component]: Numbers, input: &[u8]) -> Location {
    match hverolda::locate(input, segment, element, repeat, component) {
        Ok(Some(range)) => {
            let (offset, length) = (range.start, range.len());
            Location { present: 1, offset, length, ..Location::default() }
        }
        Ok(None) => Location::default(),
        Err(refusal) => {
            Location { number: refusal.number(), place: refusal.place, ..Location::default() }
        }
    }
}

fn part([segment, element, repeat, component]: Numbers, input: &[u8]) -> Part {
    within(input, hverolda::part(input, segment, element, repeat, component))
}

/// Where a part of the input stands in it.
fn within(input: &[u8], part: &[u8]) -> Part {
    Part { offset: part.as_ptr() as usize - input.as_ptr() as usize, length: part.len() }
}

fn parties(input: &[u8]) -> Parties {
    match hverolda::parties(input) {
        Ok(told) => Parties {
            sender: within(input, told.sender),
            recipient: within(input, told.recipient),
            reference: within(input, told.reference),
            ..Parties::default()
        },
        Err(refusal) => {
            Parties { number: refusal.number(), place: refusal.place, ..Parties::default() }
        }
    }
}

fn read(input: &[u8], bytes: &mut [u8], table: &mut [u32]) -> Listing {
    match hverolda::read(input, bytes, table) {
        Ok(told) => Listing { bytes: told.bytes, numbers: told.numbers, ..Listing::default() },
        Err(refusal) => {
            Listing { number: refusal.number(), place: refusal.place, ..Listing::default() }
        }
    }
}
