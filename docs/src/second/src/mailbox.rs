//! Mailbox files and the morning figures.
//!
//! Change request 2026-02, "Mailbox files and the morning figures": a file of at
//! most 65,536 bytes has interchanges end to end. A piece ends after its first
//! UNZ segment and the breaks behind it. Where the cutting meets a fault 2 to 6
//! or the file's end before a UNZ, the rest is one refused piece.

use crate::contents::Contents;
use crate::operations::{judge, Verdict};
use crate::reading::read_segment;
use crate::refusal::{refuse, Answer, OVER_LENGTH};
use crate::service_characters::opening;

/// The longest file, in bytes.
pub const LONGEST_FILE: usize = 65_536;

/// The numbers that Judge can give: 1 to 13.
const NUMBERS: usize = 13;

/// The figures of a file; the last four are those of the accepted interchanges.
#[derive(Clone, Copy, Debug, Default, PartialEq, Eq)]
pub struct Report {
    pub accepted: usize,
    /// Refused under each number, from 1 on.
    pub refused: [usize; NUMBERS],
    pub segments: usize,
    pub messages: usize,
    /// Total of the normal lengths.
    pub total_length: usize,
    /// The longest normal length; 0 where none is accepted.
    pub longest: usize,
}

/// The figures of a file; a longer one answers 1 at 0.
pub fn report(file: &[u8]) -> Answer<Report> {
    if file.len() > LONGEST_FILE {
        return refuse(OVER_LENGTH, 0);
    }
    let judged: Vec<Answer<Verdict>> = pieces(file).into_iter().map(judge).collect();
    let accepted: Vec<Verdict> = judged.iter().filter_map(|answer| answer.ok()).collect();
    let mut refused = [0; NUMBERS];
    for refusal in judged.iter().filter_map(|answer| answer.err()) {
        refused[refusal.number as usize - 1] += 1;
    }
    Ok(Report {
        accepted: accepted.len(),
        refused,
        segments: accepted.iter().map(|verdict| verdict.segments).sum(),
        messages: accepted.iter().map(|verdict| verdict.messages).sum(),
        total_length: accepted.iter().map(|verdict| verdict.normal_length).sum(),
        longest: accepted.iter().map(|verdict| verdict.normal_length).max().unwrap_or(0),
    })
}

/// The pieces of a file, end to end. A file of no bytes has none.
pub fn pieces(file: &[u8]) -> Vec<&[u8]> {
    let mut pieces = Vec::new();
    let mut rest = file;
    while !rest.is_empty() {
        let (piece, behind) = rest.split_at(end_of_piece(rest).unwrap_or(rest.len()));
        pieces.push(piece);
        rest = behind;
    }
    pieces
}

/// Where the first piece ends: after its first UNZ segment and the breaks behind
/// it, its service characters being found from its own beginning. None where a
/// fault 2 to 6 or the end comes before that.
fn end_of_piece(rest: &[u8]) -> Option<usize> {
    let opening = opening(rest).ok()?;
    let mut contents = Contents::new(rest, opening.characters.release);
    let mut at = opening.body;
    while at < rest.len() {
        at = read_segment(&mut contents, at, &opening.characters).ok()?;
        let segment = contents.segments.last()?;
        if contents.tag_of(segment).of(rest) == b"UNZ" {
            return Some(at);
        }
    }
    None
}
