//! Message structures: the surface and the wrapper judge by the same tables as the
//! second program, and must give the same answers and leave the table, the input and
//! the guards around them as they were.
//!
//! Change request 2026-08, "Message structures". The tables are sound, a slip away
//! from sound, and hostile; the bodies in the language of their table, just outside
//! it, and hostile.

use std::collections::BTreeMap;
use std::fmt;

use hverolda::surface;
use second::generator::{table_and_input, Random};
use second::operations;

use crate::lent::Lender;

/// What is told of an interchange, accepted or refused.
#[derive(Clone, Copy, Debug, Default, PartialEq, Eq)]
struct Told {
    number: u32,
    place: usize,
    segments: u32,
    messages: u32,
    groups: u32,
    length: usize,
    /// The service characters in force, as an advice has them.
    six: [u8; 6],
}

/// Who judges, by a table.
type Side = (&'static str, fn(&[u8], &[u8]) -> Told);

const SURFACE: Side = ("the surface", |table, input| {
    let verdict = surface::judge_by_table(table, input);
    Told {
        number: verdict.number,
        place: verdict.place,
        segments: verdict.segments,
        messages: verdict.messages,
        groups: verdict.groups,
        length: verdict.length,
        six: [
            verdict.component,
            verdict.element,
            verdict.mark,
            verdict.release,
            verdict.repetition,
            verdict.terminator,
        ],
    }
});

const WRAPPER: Side =
    ("the wrapper", |table, input| match hverolda::judge_by_table(table, input) {
        Ok(interchange) => Told {
            segments: interchange.segments,
            messages: interchange.messages,
            groups: interchange.groups,
            length: interchange.normal_length,
            six: interchange.characters.six(),
            ..Told::default()
        },
        Err(refusal) => Told { number: refusal.number(), place: refusal.place, ..Told::default() },
    });

const SECOND: Side =
    ("the second program", |table, input| match operations::judge_by_table(table, input) {
        Ok(verdict) => Told {
            segments: verdict.segments as u32,
            messages: verdict.messages as u32,
            groups: verdict.groups as u32,
            length: verdict.normal_length,
            six: verdict.characters.six(),
            ..Told::default()
        },
        Err(refusal) => Told { number: refusal.number, place: refusal.place, ..Told::default() },
    });

/// What occurred, by a name, and how often.
#[derive(Default)]
pub struct Counts {
    judged: u64,
    met: BTreeMap<String, u64>,
}

impl Counts {
    pub fn summary(&self) -> String {
        format!(
            "{} interchanges judged by tables: answers and guards as they should be",
            self.judged
        )
    }

    /// What must occur in a long run, and did not.
    pub fn gaps(&self) -> Vec<String> {
        let numbers = (1..=13).chain(21..=22).map(|number| format!("refused by {number}"));
        let others = ["accepted", "several messages", "a table of 999 entries", "a table of more"];
        numbers
            .chain(others.map(String::from))
            .filter(|name| !self.met.contains_key(name))
            .map(|name| format!("{name} never occurred"))
            .collect()
    }

    fn add(&mut self, table: &[u8], told: &Told) {
        self.judged += 1;
        let mut met = |name: String| *self.met.entry(name).or_default() += 1;
        match told.number {
            0 => met("accepted".to_string()),
            number => met(format!("refused by {number}")),
        }
        for (name, is) in [
            ("several messages", told.messages > 1),
            ("a table of 999 entries", table.len() == 999 * 8),
            ("a table of more", table.len() > 999 * 8),
            ("a table of no entries", table.is_empty()),
        ] {
            if is {
                met(name.to_string());
            }
        }
    }
}

impl fmt::Display for Counts {
    fn fmt(&self, f: &mut fmt::Formatter) -> fmt::Result {
        self.met.iter().try_for_each(|(name, count)| writeln!(f, "{name:<40}{count:>12}"))
    }
}

/// So many interchanges, each with a table; what occurred, or the first difference.
pub fn run(seed: u64, count: u64, tight: bool) -> Result<Counts, String> {
    run_with(&[SURFACE, WRAPPER], seed, count, tight)
}

fn run_with(sides: &[Side], seed: u64, count: u64, tight: bool) -> Result<Counts, String> {
    let mut random = Random::new(seed);
    let mut lender = Lender::new(seed, tight);
    let mut counts = Counts::default();
    for number in 1..=count {
        let (table, input) = table_and_input(&mut random);
        let expected = (SECOND.1)(&table, &input);
        for (name, judge) in sides {
            let (mut by, mut of) = (lender.lend(&table), lender.lend(&input));
            let told = judge(by.slice(), of.slice());
            let place = |what: &str| {
                format!("case {number}, {name}: {what}\n{}\n{}", shown(&table), shown(&input))
            };
            by.unchanged("the table").map_err(|what| place(&what))?;
            of.unchanged("the input").map_err(|what| place(&what))?;
            if told != expected {
                return Err(place(&format!("{told:?}\nfor {expected:?}")));
            }
        }
        counts.add(&table, &expected);
    }
    Ok(counts)
}

/// The bytes in hexadecimal.
fn shown(bytes: &[u8]) -> String {
    bytes.iter().map(|byte| format!("{byte:02x}")).collect()
}

#[cfg(test)]
mod tests {
    use super::*;

    const COUNT: u64 = 3_000;

    #[test]
    fn the_second_program_agrees_with_itself_and_everything_occurs() {
        let counts = run_with(&[SECOND], 1, COUNT, false).expect("one side is the other");
        assert_eq!(counts.gaps(), Vec::<String>::new());
    }

    #[test]
    fn a_walk_that_stops_a_segment_late_is_seen() {
        let late: Side = ("it", |table, input| {
            let told = (SECOND.1)(table, input);
            Told { place: told.place + usize::from(told.number == 22), ..told }
        });
        assert!(run_with(&[late], 1, COUNT, false).is_err());
    }

    #[test]
    fn an_unsound_table_behind_the_input_is_seen() {
        let after: Side = ("it", |table, input| match (SECOND.1)(table, input) {
            told if told.number == 21 => (SECOND.1)(&[], input),
            told => told,
        });
        assert!(run_with(&[after], 1, COUNT, false).is_err());
    }
}
