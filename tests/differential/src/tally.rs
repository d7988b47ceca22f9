//! How often each thing occurred, and what must have occurred before a run
//! says anything.

use std::collections::BTreeMap;
use std::fmt;

use crate::call::{Answer, Outcome};
use crate::sections::PLANS;

/// The operations that refuse, Compare once for each of its inputs, with the
/// numbers that each can give. Normalise, Read and Export add 14 to Judge's. The text
/// that Write judges releases what is to be released and ends its last
/// segment, so that 4 and 5 cannot be met in it. An acknowledgement has the received
/// level and version and its own segments, so that of the text's refusals only that of a
/// lent byte and that of the new reference are left.
const REFUSING: [(&str, &[u32]); 11] = [
    ("judge", &[1, 2, 3, 4, 5, 6, 7, 8, 9, 10, 11, 12, 13]),
    ("normalise", &[1, 2, 3, 4, 5, 6, 7, 8, 9, 10, 11, 12, 13, 14]),
    ("compare, first", &[1, 2, 3, 4, 5, 6, 7, 8, 9, 10, 11, 12, 13]),
    ("compare, second", &[1, 2, 3, 4, 5, 6, 7, 8, 9, 10, 11, 12, 13]),
    ("locate", &[1, 2, 3, 4, 5, 6, 7, 8, 9, 10, 11, 12, 13]),
    ("parties", &[1, 2, 3, 4, 5, 6, 7, 8, 9, 10, 11, 12, 13]),
    ("read", &[1, 2, 3, 4, 5, 6, 7, 8, 9, 10, 11, 12, 13, 14]),
    ("write", &[1, 2, 3, 6, 7, 8, 9, 10, 11, 12, 13, 14, 15, 16]),
    ("acknowledge", &[1, 8, 10, 14, 15, 16, 23]),
    ("export", &[1, 2, 3, 4, 5, 6, 7, 8, 9, 10, 11, 12, 13, 14]),
    ("import", &[1, 2, 3, 6, 7, 8, 9, 10, 11, 12, 13, 14, 15, 16, 24]),
];

/// Other things that must occur: answers that are no refusals, sizes of
/// buffers, and the ways in which two interchanges differ.
const OTHERS: [(&str, &str); 115] = [
    ("acknowledge", "stored"),
    ("acknowledge output", "empty"),
    ("acknowledge output", "exact"),
    ("acknowledge output", "longer"),
    ("acknowledge output", "one short"),
    ("acknowledge of", "an accepted one"),
    ("acknowledge of", "one refused by 10"),
    ("acknowledge of", "one refused by 11"),
    ("acknowledge of", "one refused by 12"),
    ("export", "stored"),
    ("export buffer", "empty"),
    ("export buffer", "exact"),
    ("export buffer", "longer"),
    ("export buffer", "one short"),
    ("import", "stored"),
    ("import output", "empty"),
    ("import output", "exact"),
    ("import output", "longer"),
    ("import output", "one short"),
    ("columns", "32000 lines"),
    ("columns", "32001 lines"),
    ("columns", "a blank line"),
    ("columns", "a carriage return in the last line"),
    ("columns", "a carriage return in every line"),
    ("columns", "a leading zero"),
    ("columns", "a line twice"),
    ("columns", "a normal form over 32000 bytes"),
    ("columns", "a number of 100000 digits"),
    ("columns", "a skipped number"),
    ("columns", "a tab behind a value"),
    ("columns", "an empty end"),
    ("columns", "no last line feed"),
    ("columns", "quotes around a number"),
    ("columns", "the heading alone"),
    ("columns", "there and back"),
    ("judge", "accepted"),
    ("normalise", "stored"),
    ("compare", "same"),
    ("compare", "different"),
    ("keep", "the first"),
    ("keep", "the second"),
    ("keep", "nothing"),
    ("locate", "present"),
    ("locate", "present and empty"),
    ("locate", "absent"),
    ("part", "some bytes"),
    ("part", "no bytes"),
    ("parties", "found"),
    ("parties", "an empty sender"),
    ("read", "stored"),
    ("write", "stored"),
    ("normalise buffer", "empty"),
    ("normalise buffer", "exact"),
    ("normalise buffer", "longer"),
    ("normalise buffer", "one short"),
    ("normalise buffer", "65536 or more"),
    ("read bytes", "exact"),
    ("read bytes", "one short"),
    ("read bytes", "65536 or more"),
    ("read table", "exact"),
    ("read table", "one short"),
    ("read table", "65536 or more"),
    ("write output", "empty"),
    ("write output", "exact"),
    ("write output", "longer"),
    ("write output", "one short"),
    ("write output", "65536 or more"),
    ("write output", "any of 65536 or more"),
    ("input", "in one line"),
    ("input", "with line breaks"),
    ("limit", "X and 65536 bytes or twice that"),
    ("limit", "X and breaks of 32000 bytes"),
    ("limit", "X and breaks of 32001 bytes"),
    ("limit", "a count of 7 digits"),
    ("limit", "a list's table and 131072 numbers"),
    ("limit", "a normal form of 31999 bytes"),
    ("limit", "a normal form of 32000 bytes"),
    ("limit", "a normal form of 32001 bytes"),
    ("limit", "a reference of 14 and a count of 6"),
    ("limit", "a reference of 15 bytes"),
    ("limit", "a table of 96000 numbers"),
    ("limit", "a table over 96000 numbers"),
    ("limit", "a text of 32000 bytes"),
    ("limit", "a text of 32001 bytes"),
    ("limit", "a text with a normal form of 32000 bytes"),
    ("limit", "a text with a normal form of 32001 bytes"),
    ("limit", "a value beyond 65536 bytes or more"),
    ("limit", "an input of 32000 bytes"),
    ("limit", "an input of 32001 bytes"),
    ("limit", "an input over 70000 bytes"),
    ("limit", "an interchange and 65536 bytes or twice that"),
    ("limit", "more than six service bytes"),
    ("limit", "values of 65536 bytes or more"),
    ("line break", "before or in UNB"),
    ("line break", "behind a release character"),
    ("line break", "behind a released terminator"),
    ("line break", "in a tag or right behind it"),
    ("line break", "in a value"),
    ("line break", "in the advice"),
    ("line break", "in the level or the version"),
    ("line breaks", "in an input over 32000 bytes"),
    ("line breaks", "no place for one"),
    ("line breaks", "over 32000 bytes by them"),
    ("line breaks", "passed over, accepted"),
    ("line breaks", "passed over, refused"),
    ("pair", "line breaks put in"),
    ("pair", "one byte changed"),
    ("pair", "one component changed"),
    ("pair", "the mark changed"),
    ("pair", "only an unused release character changed"),
    ("pair", "respelled"),
    ("pair", "trailing space"),
    ("wrapper's text", "refused"),
    ("wrapper's text", "stored"),
    ("write list", "a segment begins with a break"),
];

#[derive(Default)]
pub struct Tally {
    pub calls: u64,
    refusals: BTreeMap<(&'static str, u32), u64>,
    others: BTreeMap<(&'static str, &'static str), u64>,
}

impl Tally {
    /// Counts something that is no refusal.
    pub fn count(&mut self, what: &'static str, how: &'static str) {
        *self.others.entry((what, how)).or_default() += 1;
    }

    fn refused(&mut self, what: &'static str, number: u32) {
        *self.refusals.entry((what, number)).or_default() += 1;
    }

    /// How often this was counted.
    pub fn of(&self, what: &str, how: &str) -> u64 {
        let found = self.others.iter().find(|(key, _)| key.0 == what && key.1 == how);
        found.map_or(0, |(_, count)| *count)
    }

    /// Counts what came of a call.
    pub fn answered(&mut self, outcome: &Outcome) {
        self.calls += 1;
        let (what, how, number) = told(&outcome.answer);
        match number {
            0 => self.count(what, how),
            number => self.refused(what, number),
        }
    }

    /// What can occur and never did.
    pub fn gaps(&self) -> Vec<String> {
        let mut gaps = Vec::new();
        for (what, numbers) in REFUSING {
            let met = |number: &u32| self.refusals.contains_key(&(what, *number));
            let never = numbers.iter().filter(|number| !met(number));
            gaps.extend(never.map(|number| format!("{what}: refusal {number} never occurred")));
        }
        let sections = PLANS.iter().map(|(name, ..)| ("sections", *name));
        let others = OTHERS.iter().copied().chain(sections);
        let never = others.filter(|key| !self.others.contains_key(key));
        gaps.extend(never.map(|(what, how)| format!("{what}: {how} never occurred")));
        gaps
    }

    /// What occurred and cannot.
    pub fn strays(&self) -> Vec<String> {
        let can = |what: &str, number: u32| {
            REFUSING.iter().any(|(name, numbers)| *name == what && numbers.contains(&number))
        };
        let strays = self.refusals.keys().filter(|(what, number)| !can(what, *number));
        strays.map(|(what, number)| format!("{what} cannot give refusal {number}")).collect()
    }

    /// The refusal that occurred least.
    pub fn rarest(&self) -> String {
        match self.refusals.iter().min_by_key(|(_, count)| **count) {
            Some(((what, number), count)) => format!("{what} {number}, {count} times"),
            None => "none".to_string(),
        }
    }
}

/// The operation, its answer in words, and the number of its refusal or 0.
fn told(answer: &Answer) -> (&'static str, &'static str, u32) {
    match answer {
        Answer::Judge(verdict) => ("judge", "accepted", verdict.number),
        Answer::Normalise(written) => ("normalise", "stored", written.number),
        Answer::Compare(comparison) => match (comparison.input, comparison.same) {
            (0, 0) => ("compare", "different", 0),
            (0, _) => ("compare", "same", 0),
            (1, _) => ("compare, first", "refused", comparison.number),
            _ => ("compare, second", "refused", comparison.number),
        },
        Answer::Keep(kept) => match (kept.length, kept.input) {
            (0, _) => ("keep", "nothing", 0),
            (_, 1) => ("keep", "the first", 0),
            _ => ("keep", "the second", 0),
        },
        Answer::Locate(location) => match (location.present, location.length) {
            (0, _) => ("locate", "absent", location.number),
            (_, 0) => ("locate", "present and empty", 0),
            _ => ("locate", "present", 0),
        },
        Answer::Part(part) if part.length == 0 => ("part", "no bytes", 0),
        Answer::Part(_) => ("part", "some bytes", 0),
        Answer::Parties(told) if told.number == 0 && told.sender.length == 0 => {
            ("parties", "an empty sender", 0)
        }
        Answer::Parties(told) => ("parties", "found", told.number),
        Answer::Read(listing) => ("read", "stored", listing.number),
        Answer::Write(written) => ("write", "stored", written.number),
        Answer::Acknowledge(written) => ("acknowledge", "stored", written.number),
        Answer::Export(written) => ("export", "stored", written.number),
        Answer::Import(written) => ("import", "stored", written.number),
    }
}

/// A line for each operation that refuses with its counts of 1 to 24, then one
/// for each other thing.
impl fmt::Display for Tally {
    fn fmt(&self, f: &mut fmt::Formatter) -> fmt::Result {
        let numbers: String = (1..=24).map(|number| format!("{number:>8}")).collect();
        writeln!(f, "{:<20}{numbers}", "refused")?;
        for (what, _) in REFUSING {
            let count = |number| self.refusals.get(&(what, number)).copied().unwrap_or(0);
            let counts: String = (1..=24).map(|number| format!("{:>8}", count(number))).collect();
            writeln!(f, "{what:<20}{counts}")?;
        }
        for ((what, how), count) in &self.others {
            writeln!(f, "{what:<20}{how:<46}{count:>8}")?;
        }
        Ok(())
    }
}
