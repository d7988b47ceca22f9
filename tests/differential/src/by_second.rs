//! Calls answered by the second program, laid out as the surface's structs.

use hverolda::surface::{Comparison, Kept, Listing, Location, Part, Parties, Verdict, Written};
use second::acknowledgement::Lent;
use second::operations::{self, Which};
use second::refusal;

use crate::call::{Answer, Call, Numbers, Outcome};

/// What the second program makes of a call.
pub fn outcome(call: &Call) -> Outcome {
    match call {
        Call::Judge { input } => Outcome::of(Answer::Judge(judge(input))),
        Call::Normalise { buffer, input } => {
            let mut bytes = buffer.clone();
            let written = written(operations::normalise(input, &mut bytes));
            Outcome { bytes, ..Outcome::of(Answer::Normalise(written)) }
        }
        Call::Compare { first, second } => Outcome::of(Answer::Compare(compare(first, second))),
        Call::Keep { first, second } => Outcome::of(Answer::Keep(keep(first, second))),
        Call::Locate { numbers, input } => Outcome::of(Answer::Locate(locate(*numbers, input))),
        Call::Part { numbers, input } => Outcome::of(Answer::Part(part(*numbers, input))),
        Call::Parties { input } => Outcome::of(Answer::Parties(parties(input))),
        Call::Read { bytes, table, input } => {
            let (mut bytes, mut table) = (bytes.clone(), table.clone());
            let listing = read(input, &mut bytes, &mut table);
            Outcome { answer: Answer::Read(listing), bytes, table }
        }
        Call::Write { service, values, table, output } => {
            let mut bytes = output.clone();
            let written = written(operations::write(service, values, table, &mut bytes));
            Outcome { bytes, ..Outcome::of(Answer::Write(written)) }
        }
        Call::Acknowledge { received, lists: [date, reference, message], output } => {
            let mut bytes = output.clone();
            let (date, reference) = (date.lent(), reference.lent());
            let lent = Lent { date, reference, message: message.lent() };
            let written = written(operations::acknowledge(received, &lent, &mut bytes));
            Outcome { bytes, ..Outcome::of(Answer::Acknowledge(written)) }
        }
        Call::Export { buffer, input } => {
            let mut bytes = buffer.clone();
            let written = written(operations::export(input, &mut bytes));
            Outcome { bytes, ..Outcome::of(Answer::Export(written)) }
        }
        Call::Import { service, columns, output } => {
            let mut bytes = output.clone();
            let written = written(operations::import(service, columns, &mut bytes));
            Outcome { bytes, ..Outcome::of(Answer::Import(written)) }
        }
    }
}

fn judge(input: &[u8]) -> Verdict {
    match operations::judge(input) {
        Ok(verdict) => {
            let [component, element, mark, release, repetition, terminator] =
                verdict.characters.six();
            Verdict {
                number: 0,
                segments: verdict.segments as u32,
                messages: verdict.messages as u32,
                groups: verdict.groups as u32,
                place: 0,
                length: verdict.normal_length,
                component,
                element,
                mark,
                release,
                repetition,
                terminator,
            }
        }
        Err(refusal) => {
            Verdict { number: refusal.number, place: refusal.place, ..Verdict::default() }
        }
    }
}

fn written(answer: refusal::Answer<usize>) -> Written {
    match answer {
        Ok(length) => Written { length, ..Written::default() },
        Err(refusal) => Written { number: refusal.number, place: refusal.place, length: 0 },
    }
}

fn number_of(which: Which) -> u32 {
    match which {
        Which::First => 1,
        Which::Second => 2,
    }
}

fn compare(first: &[u8], second: &[u8]) -> Comparison {
    match operations::compare(first, second) {
        operations::Comparison::Same => Comparison { same: 1, ..Comparison::default() },
        operations::Comparison::Different => Comparison::default(),
        operations::Comparison::Refused(which, refusal) => {
            let (number, place) = (refusal.number, refusal.place);
            Comparison { number, input: number_of(which), same: 0, place }
        }
    }
}

/// What is kept begins where its interchange begins.
fn keep(first: &[u8], second: &[u8]) -> Kept {
    let kept = operations::keep(first, second);
    Kept { input: number_of(kept.which), offset: 0, length: kept.part.len() }
}

/// No interchange has as much as 2^32 - 1 of anything, so that a higher number
/// is as absent as this one.
fn narrow(numbers: Numbers) -> operations::Numbers {
    let [segment, element, repeat, component] =
        numbers.map(|number| u32::try_from(number).unwrap_or(u32::MAX));
    operations::Numbers { segment, element, repeat, component }
}

fn locate(numbers: Numbers, input: &[u8]) -> Location {
    match operations::locate(input, narrow(numbers)) {
        Ok(Some(part)) => {
            let range = part.range();
            let (offset, length) = (range.start, range.len());
            Location { present: 1, offset, length, ..Location::default() }
        }
        Ok(None) => Location::default(),
        Err(refusal) => {
            Location { number: refusal.number, place: refusal.place, ..Location::default() }
        }
    }
}

fn part(numbers: Numbers, input: &[u8]) -> Part {
    let spelled = operations::spelled(input, narrow(numbers));
    Part { offset: spelled.offset, length: spelled.bytes.len() }
}

/// UNB's elements 2, 3 and 5, one by one.
fn parties(input: &[u8]) -> Parties {
    let (number, place) =
        operations::judge(input).err().map_or((0, 0), |refusal| (refusal.number, refusal.place));
    let of = |element| part([0, element, 0, 0], input);
    Parties { number, place, sender: of(2), recipient: of(3), reference: of(5) }
}

fn read(input: &[u8], bytes: &mut [u8], table: &mut [u32]) -> Listing {
    match operations::read(input, bytes, table) {
        Ok(counts) => {
            Listing { bytes: counts.bytes, numbers: counts.numbers, ..Listing::default() }
        }
        Err(refusal) => {
            Listing { number: refusal.number, place: refusal.place, ..Listing::default() }
        }
    }
}
