//! Mailbox files: the surface and the wrapper report on the same files as the
//! second program, and must give the same figures and leave the files and the
//! guards around them as they were.
//!
//! Change request 2026-02, "Mailbox files and the morning figures".

use std::collections::BTreeMap;
use std::fmt;

use hverolda::surface::{self, Morning};
use second::generator::{any_file, Random};
use second::mailbox;

use crate::lent::Lender;

/// Who makes the report. All answer with the surface's struct.
type Side = (&'static str, fn(&[u8]) -> Morning);

const SURFACE: Side = ("the surface", surface::report);

const WRAPPER: Side = ("the wrapper", |file| match hverolda::report(file) {
    Ok(report) => Morning {
        accepted: report.accepted,
        refused: report.refused,
        segments: report.segments,
        messages: report.messages,
        total: report.normal_total,
        longest: report.normal_longest,
        ..Morning::default()
    },
    Err(refusal) => {
        Morning { number: refusal.number(), place: refusal.place, ..Morning::default() }
    }
});

const SECOND: Side = ("the second program", |file| match mailbox::report(file) {
    Ok(report) => {
        let mut refused = [0; 14];
        for (number, &count) in (1..).zip(&report.refused) {
            refused[number] = count as u32;
        }
        Morning {
            accepted: report.accepted as u32,
            refused,
            segments: report.segments as u32,
            messages: report.messages as u32,
            total: report.total_length,
            longest: report.longest,
            ..Morning::default()
        }
    }
    Err(refusal) => Morning { number: refusal.number, place: refusal.place, ..Morning::default() },
});

/// What occurred, by a name, and how often.
#[derive(Default)]
pub struct Counts {
    files: u64,
    pieces: u64,
    met: BTreeMap<String, u64>,
}

impl Counts {
    pub fn summary(&self) -> String {
        let Counts { files, pieces, .. } = self;
        format!("{files} mailbox files, {pieces} pieces: figures and guards as they should be")
    }

    /// What must occur in a long run, and did not.
    pub fn gaps(&self) -> Vec<String> {
        let numbers = (1..=13).map(|number| format!("a piece refused by {number}"));
        let others =
            ["a file that is refused", "no pieces", "several pieces", "accepted before a rest"];
        numbers
            .chain(others.map(String::from))
            .filter(|name| !self.met.contains_key(name))
            .map(|name| format!("{name} never occurred"))
            .collect()
    }

    fn add(&mut self, file: &[u8], told: &Morning) {
        self.files += 1;
        let pieces = told.accepted + told.refused.iter().sum::<u32>();
        self.pieces += u64::from(pieces);
        let mut met = |name: String| *self.met.entry(name).or_default() += 1;
        for number in (1..14).filter(|&number| told.refused[number] > 0) {
            met(format!("a piece refused by {number}"));
        }
        let rest = told.accepted > 0 && told.refused[2..7].iter().any(|&count| count > 0);
        for (name, is) in [
            ("a file that is refused", told.number > 0),
            ("no pieces", told.number == 0 && file.is_empty()),
            ("several pieces", pieces > 1),
            ("ten pieces or more", pieces >= 10),
            ("accepted before a rest", rest),
        ] {
            if is {
                met(name.to_string());
            }
        }
    }
}

impl fmt::Display for Counts {
    fn fmt(&self, f: &mut fmt::Formatter) -> fmt::Result {
        self.met.iter().try_for_each(|(name, count)| writeln!(f, "{name:<40}{count:>12}"))
    }
}

/// So many files; what occurred, or the first difference.
pub fn run(seed: u64, count: u64, tight: bool) -> Result<Counts, String> {
    run_with(&[SURFACE, WRAPPER], seed, count, tight)
}

fn run_with(sides: &[Side], seed: u64, count: u64, tight: bool) -> Result<Counts, String> {
    let mut random = Random::new(seed);
    let mut lender = Lender::new(seed, tight);
    let mut counts = Counts::default();
    for number in 1..=count {
        let file = any_file(&mut random);
        let expected = (SECOND.1)(&file);
        for (name, report) in sides {
            let mut lent = lender.lend(&file);
            let told = report(lent.slice());
            let place = |what: &str| format!("file {number}, {name}: {what}\n{}", shown(&file));
            lent.unchanged("the file").map_err(|what| place(&what))?;
            if told != expected {
                return Err(place(&format!("{told:?}\nfor {expected:?}")));
            }
        }
        counts.add(&file, &expected);
    }
    Ok(counts)
}

/// The file in hexadecimal.
fn shown(file: &[u8]) -> String {
    file.iter().map(|byte| format!("{byte:02x}")).collect()
}

#[cfg(test)]
mod tests {
    use super::*;

    const COUNT: u64 = 3_000;

    #[test]
    fn the_second_program_agrees_with_itself_and_everything_occurs() {
        let counts = run_with(&[SECOND], 1, COUNT, false).expect("one side is the other");
        assert_eq!(counts.gaps(), Vec::<String>::new());
    }

    /// What is told of a report that is not as it should be.
    fn told(report: fn(&[u8]) -> Morning) -> String {
        run_with(&[("it", report)], 1, COUNT, false).err().expect("this is to be seen")
    }

    #[test]
    fn a_piece_that_ends_before_its_breaks_is_seen() {
        // the breaks behind the last piece are a piece of their own
        let seen = told(|file| {
            let breaks = file.iter().rev().take_while(|byte| b"\r\n".contains(byte)).count();
            let mut told = (SECOND.1)(file);
            if told.number == 0 && told.accepted > 0 && breaks > 0 {
                told.refused[3] += 1;
            }
            told
        });
        assert!(seen.contains("file"));
    }

    #[test]
    fn the_longest_of_a_refused_piece_is_seen() {
        let seen = told(|file| {
            let told = (SECOND.1)(file);
            Morning { longest: told.longest.max(told.refused[13] as usize * 32_001), ..told }
        });
        assert!(seen.contains("longest"));
    }

    #[test]
    fn figures_beside_a_refusal_are_seen() {
        let seen = told(|file| {
            let told = (SECOND.1)(file);
            Morning { accepted: told.accepted + told.number, ..told }
        });
        assert!(seen.contains("accepted"));
    }
}
