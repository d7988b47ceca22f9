//! Pieces of mailbox files: where the first piece of every rest of a file ends, and
//! why, by the surface, the wrapper and the second program, which must say the same
//! and leave the file and the guards around it as they were.
//!
//! Change request 2026-02, "Mailbox files and the morning figures".

use std::collections::BTreeMap;
use std::fmt;

use hverolda::surface::{self, PieceEnd};
use second::contents::Contents;
use second::generator::{any_file, Random};
use second::mailbox;
use second::reading::read_segment;
use second::refusal::Answer;
use second::service_characters::opening;

use crate::lent::Lender;

/// Who says how a piece ends. All answer with the surface's struct.
type Side = (&'static str, fn(&[u8]) -> PieceEnd);

const SURFACE: Side = ("the surface", surface::piece);

const WRAPPER: Side = ("the wrapper", |file| match hverolda::piece(file) {
    None => PieceEnd::default(),
    Some(piece) => {
        let told = PieceEnd { end: piece.range.end, ..PieceEnd::default() };
        match piece.end {
            hverolda::PieceEnd::Unz => PieceEnd { ended: 1, ..told },
            hverolda::PieceEnd::Stopped(refusal) => {
                PieceEnd { number: refusal.number(), place: refusal.place, ..told }
            }
            hverolda::PieceEnd::FileEnd => told,
        }
    }
});

const SECOND: Side = ("the second program", |file| match second_end(file) {
    _ if file.is_empty() => PieceEnd::default(),
    Ok(Some(end)) => PieceEnd { ended: 1, end, ..PieceEnd::default() },
    Ok(None) => PieceEnd { end: file.len(), ..PieceEnd::default() },
    Err(refusal) => {
        PieceEnd { number: refusal.number, place: refusal.place, ended: 0, end: file.len() }
    }
});

/// Where the first UNZ and the breaks behind it end, by the second program's opening and
/// segments; none where the file ends before; or the first of 2 to 6.
fn second_end(file: &[u8]) -> Answer<Option<usize>> {
    let opening = opening(file)?;
    let mut contents = Contents::new(file, opening.characters.release);
    let mut at = opening.body;
    while at < file.len() {
        at = read_segment(&mut contents, at, &opening.characters)?;
        let unz = contents.segments.last().map(|segment| contents.tag_of(segment).of(file));
        if unz == Some(b"UNZ") {
            return Ok(Some(at));
        }
    }
    Ok(None)
}

/// What occurred, by a name, and how often.
#[derive(Default)]
pub struct Counts {
    pieces: u64,
    met: BTreeMap<String, u64>,
}

impl Counts {
    pub fn summary(&self) -> String {
        format!("{} of their pieces told by where and why they end", self.pieces)
    }

    /// What must occur in a long run, and did not.
    pub fn gaps(&self) -> Vec<String> {
        let numbers = (2..=6).map(|number| format!("stopped by {number}"));
        let others = ["no bytes", "ended by UNZ", "ended by the file", "a file over 65536 bytes"];
        numbers
            .chain(others.map(String::from))
            .filter(|name| !self.met.contains_key(name))
            .map(|name| format!("a piece {name} never occurred"))
            .collect()
    }

    fn add(&mut self, rest: &[u8], told: &PieceEnd) {
        self.pieces += 1;
        let name = match (told.end, told.ended, told.number) {
            (0, _, _) => "no bytes".to_string(),
            (_, 1, _) => "ended by UNZ".to_string(),
            (_, _, 0) => "ended by the file".to_string(),
            (_, _, number) => format!("stopped by {number}"),
        };
        *self.met.entry(name).or_default() += 1;
        if rest.len() > mailbox::LONGEST_FILE {
            *self.met.entry("a file over 65536 bytes".to_string()).or_default() += 1;
        }
    }
}

impl fmt::Display for Counts {
    fn fmt(&self, f: &mut fmt::Formatter) -> fmt::Result {
        self.met.iter().try_for_each(|(name, count)| writeln!(f, "piece, {name:<33}{count:>12}"))
    }
}

/// So many files; what occurred, or the first difference.
pub fn run(seed: u64, count: u64, tight: bool) -> Result<Counts, String> {
    run_with(&[SURFACE, WRAPPER], seed, count, tight)
}

fn run_with(sides: &[Side], seed: u64, count: u64, tight: bool) -> Result<Counts, String> {
    let mut random = Random::new(seed);
    let mut lender = Lender::new(seed, tight);
    let mut counts = Counts::default();
    for number in 1..=count {
        let file = any_file(&mut random);
        walk(sides, &mut lender, &mut counts, &file)
            .map_err(|what| format!("file {number}, {what}\n{}", shown(&file)))?;
    }
    Ok(counts)
}

/// Every rest of a file, and that its pieces are those of the second program.
fn walk(
    sides: &[Side],
    lender: &mut Lender,
    counts: &mut Counts,
    file: &[u8],
) -> Result<(), String> {
    let expected = ends(file);
    for (name, piece) in sides {
        let mut lent = lender.lend(file);
        for (at, expected) in &expected {
            let told = piece(&lent.slice()[*at..]);
            if told != *expected {
                return Err(format!("{name}, from byte {at}: {told:?}\nfor {expected:?}"));
            }
        }
        lent.unchanged("the file").map_err(|what| format!("{name}: {what}"))?;
    }
    expected.iter().for_each(|(at, told)| counts.add(&file[*at..], told));
    let cut: Vec<usize> = mailbox::pieces(file).iter().map(|piece| piece.len()).collect();
    let lengths: Vec<usize> =
        expected.iter().map(|(_, told)| told.end).filter(|end| *end > 0).collect();
    let iterated: Vec<usize> = hverolda::pieces(file).map(|piece| piece.bytes.len()).collect();
    match lengths == cut && iterated == cut {
        true => Ok(()),
        false => Err(format!("pieces of {lengths:?}, and {iterated:?}\nfor {cut:?}")),
    }
}

/// Where each rest of a file begins, the last of no bytes, and how its first piece ends by
/// the second program.
fn ends(file: &[u8]) -> Vec<(usize, PieceEnd)> {
    let mut ends = vec![(0, (SECOND.1)(file))];
    let mut at = 0;
    while at < file.len() {
        at += ends[ends.len() - 1].1.end;
        ends.push((at, (SECOND.1)(&file[at..])));
    }
    ends
}

/// The file in hexadecimal.
fn shown(file: &[u8]) -> String {
    file.iter().map(|byte| format!("{byte:02x}")).collect()
}

#[cfg(test)]
mod tests {
    use super::*;

    const COUNT: u64 = 3_000;

    #[test]
    fn the_second_program_agrees_with_itself_and_everything_occurs() {
        let counts = run_with(&[SECOND], 1, COUNT, false).expect("one side is the other");
        assert_eq!(counts.gaps(), Vec::<String>::new());
    }

    /// What is told of an answer that is not as it should be.
    fn told(piece: fn(&[u8]) -> PieceEnd) -> String {
        run_with(&[("it", piece)], 1, COUNT, false).err().expect("this is to be seen")
    }

    #[test]
    fn breaks_left_to_the_next_piece_are_seen() {
        let seen = told(|file| {
            let mut told = (SECOND.1)(file);
            while told.ended == 1 && b"\r\n".contains(&file[told.end - 1]) {
                told.end -= 1;
            }
            told
        });
        assert!(seen.contains("end:"));
    }

    #[test]
    fn a_fault_behind_a_unz_is_seen() {
        let seen = told(|file| {
            let told = (SECOND.1)(file);
            match second::operations::judge(file) {
                Err(refusal) if (2..=6).contains(&refusal.number) && !file.is_empty() => {
                    PieceEnd { number: refusal.number, place: refusal.place, ..told }
                }
                _ => told,
            }
        });
        assert!(seen.contains("ended: 1"));
    }

    #[test]
    fn the_file_s_end_told_as_an_ended_piece_is_seen() {
        let seen = told(|file| {
            let told = (SECOND.1)(file);
            let is = told.number == 0 && !file.is_empty();
            PieceEnd { ended: is.into(), ..told }
        });
        assert!(seen.contains("ended: 0"));
    }
}
