//! What occurred in a run of histories, and what must have.

use std::collections::BTreeMap;
use std::fmt;

use super::damage::{DAMAGES, OTHER_SIZE};
use super::texts::{BREAKS, CHARACTERS, EMPTY_ENDS, NORMAL, NO_ADVICE};

/// What must occur before a run says anything.
const MUST: [(&str, &str); 67] = [
    ("start", "an empty shelf"),
    ("start", "over a sound shelf"),
    ("start", "over a damaged shelf"),
    ("start", "over any bytes"),
    ("start", "refused by 19"),
    ("put", "a new text"),
    ("put", "a new text that fills the last byte"),
    ("put", "a new text into slot 63"),
    ("put", "a new text into a slot between others"),
    ("put", "again what was removed"),
    ("put", "a copy"),
    ("put", "a copy where 64 slots are occupied"),
    ("put", "a copy where no byte is free"),
    ("put", "a copy by which the figure carries"),
    ("put", "a copy that brings the figure to its most"),
    ("put", "a copy where the figure stays"),
    ("put", "refused by Judge on a full shelf"),
    ("put", "refused by 17"),
    ("put", "refused by 17, with room for the text"),
    ("put", "refused by 18"),
    ("put", "refused by 18, for one byte"),
    ("put", "refused by 19"),
    ("copy", NORMAL),
    ("copy", NO_ADVICE),
    ("copy", CHARACTERS),
    ("copy", BREAKS),
    ("copy", EMPTY_ENDS),
    ("new text", NORMAL),
    ("new text", NO_ADVICE),
    ("new text", CHARACTERS),
    ("new text", BREAKS),
    ("new text", EMPTY_ENDS),
    ("new text", "of 200 bytes or more"),
    ("new text", "of 10000 bytes or more"),
    ("get", "a text"),
    ("get", "refused by 19"),
    ("get", "refused by 20, a free slot"),
    ("get", "refused by 20, above 63"),
    ("remove", "the only text"),
    ("remove", "the first text"),
    ("remove", "the last text"),
    ("remove", "a text between others"),
    ("remove", "one of 64 texts"),
    ("remove", "a text before one of a lower slot"),
    ("remove", "refused by 19"),
    ("remove", "refused by 20, a free slot"),
    ("remove", "refused by 20, above 63"),
    ("slots", "none occupied"),
    ("slots", "some occupied"),
    ("slots", "64 occupied"),
    ("slots", "lowest free: 0"),
    ("slots", "lowest free: below an occupied one"),
    ("slots", "lowest free: above all others"),
    ("slots", "lowest free: 64"),
    ("slots", "refused by 19"),
    ("sums", "none held"),
    ("sums", "some held"),
    ("sums", "no duplicates"),
    ("sums", "some duplicates"),
    ("sums", "4294967295 duplicates"),
    ("sums", "refused by 19"),
    ("shelf", "sound, as it was left"),
    ("shelf", "sound, after damage"),
    ("shelf", "unsound"),
    ("size", "533"),
    ("size", "532 or 65537"),
    ("size", "65536"),
];

/// What is done to shelves; each must occur on one of version 1.
const OPERATIONS: [&str; 6] = ["start", "put", "get", "remove", "slots", "sums"];

/// How a put is refused by each of Judge's numbers.
pub const BY_JUDGE: [&str; 14] = [
    "accepted",
    "refused by 1",
    "refused by 2",
    "refused by 3",
    "refused by 4",
    "refused by 5",
    "refused by 6",
    "refused by 7",
    "refused by 8",
    "refused by 9",
    "refused by 10",
    "refused by 11",
    "refused by 12",
    "refused by 13",
];

#[derive(Default)]
pub struct Counts {
    pub operations: u64,
    counts: BTreeMap<(&'static str, &'static str), u64>,
}

impl Counts {
    pub fn count(&mut self, what: &'static str, how: &'static str) {
        *self.counts.entry((what, how)).or_default() += 1;
    }

    /// An operation on a shelf of version 1, by the first word of its name.
    pub fn count_old(&mut self, name: &str) {
        for operation in OPERATIONS.iter().filter(|operation| name.starts_with(**operation)) {
            self.count("on version 1", operation);
        }
    }

    /// What must occur and never did.
    pub fn gaps(&self) -> Vec<String> {
        let damages = DAMAGES.iter().map(|(name, _)| ("damage", *name));
        let by_judge = BY_JUDGE[1..].iter().map(|name| ("put", *name));
        let old = OPERATIONS.iter().map(|name| ("on version 1", *name));
        let must = MUST.iter().copied().chain(by_judge).chain(damages).chain(old);
        self.missing(must.chain([("damage", OTHER_SIZE)]))
    }

    /// Which of these never occurred.
    pub fn missing(&self, must: impl Iterator<Item = (&'static str, &'static str)>) -> Vec<String> {
        let never = must.filter(|key| self.of(*key) == 0);
        never.map(|(what, how)| format!("{what}: {how} never occurred")).collect()
    }

    pub fn of(&self, key: (&'static str, &'static str)) -> u64 {
        self.counts.get(&key).copied().unwrap_or(0)
    }

    /// Shelves that were sound and that were not, and what was put, in a line.
    pub fn summary(&self) -> String {
        let [sound, damaged, unsound] = ["sound, as it was left", "sound, after damage", "unsound"]
            .map(|how| self.of(("shelf", how)));
        let [new, copies] = ["a new text", "a copy"].map(|how| self.of(("put", how)));
        format!(
            "{} operations on shelves ({sound} sound as they were left, {damaged} sound after \
             damage, {unsound} unsound; {new} new texts, {copies} copies): answers, bytes and \
             guards as they should be",
            self.operations
        )
    }
}

/// A line for each thing.
impl fmt::Display for Counts {
    fn fmt(&self, f: &mut fmt::Formatter) -> fmt::Result {
        for ((what, how), count) in &self.counts {
            writeln!(f, "{what:<21}{how:<43}{count:>10}")?;
        }
        Ok(())
    }
}
