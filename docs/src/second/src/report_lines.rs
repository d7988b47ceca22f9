//! The lines that the program prints.
//!
//! Paper, clause "The example and its neighbours" (the line of Judge); the
//! other lines are those of a request stream's answers.

use crate::contents::Part;
use crate::mailbox::Report;
use crate::operations::{Comparison, Kept, ReadCounts, Spelled, Verdict, Which};
use crate::refusal::{Answer, Refusal};

/// 32-bit FNV-1a.
pub fn sum(bytes: &[u8]) -> u32 {
    sum_of(bytes.iter().copied())
}

/// The same over the big-endian bytes of a table.
pub fn table_sum(table: &[u32]) -> u32 {
    sum_of(table.iter().flat_map(|number| number.to_be_bytes()))
}

fn sum_of(bytes: impl Iterator<Item = u8>) -> u32 {
    bytes.fold(2_166_136_261, |sum: u32, byte| (sum ^ u32::from(byte)).wrapping_mul(16_777_619))
}

pub fn refusal_line(refusal: &Refusal) -> String {
    format!("refused {} {}", refusal.number, refusal.place)
}

/// `accepted`, segments, messages, groups and normal length; or the refusal.
pub fn judge_line(answer: &Answer<Verdict>) -> String {
    match answer {
        Ok(verdict) => format!(
            "accepted {} {} {} {}",
            verdict.segments, verdict.messages, verdict.groups, verdict.normal_length
        ),
        Err(refusal) => refusal_line(refusal),
    }
}

/// Judge's line with the six service characters after it.
pub fn judge_and_characters_line(answer: &Answer<Verdict>) -> String {
    let mut line = judge_line(answer);
    if let Ok(verdict) = answer {
        for byte in verdict.characters.six() {
            line.push_str(&format!(" {byte}"));
        }
    }
    line
}

/// `report` and 18 figures: interchanges accepted, refused under 1 to 13, and of
/// the accepted ones segments, messages, total of normal lengths and the longest;
/// or the refusal of the file.
pub fn report_line(answer: &Answer<Report>) -> String {
    let report = match answer {
        Ok(report) => report,
        Err(refusal) => return refusal_line(refusal),
    };
    let mut figures = vec![report.accepted];
    figures.extend(report.refused);
    figures.extend([report.segments, report.messages, report.total_length, report.longest]);
    let words: Vec<String> = figures.iter().map(usize::to_string).collect();
    format!("report {}", words.join(" "))
}

/// The line of Normalise, Write, Acknowledge, Export and Import.
pub fn length_line(answer: &Answer<usize>, buffer: &[u8]) -> String {
    match answer {
        Ok(length) => format!("length {length} {}", sum(buffer)),
        Err(refusal) => format!("{} {}", refusal_line(refusal), sum(buffer)),
    }
}

pub fn number_of(which: Which) -> u32 {
    match which {
        Which::First => 1,
        Which::Second => 2,
    }
}

pub fn compare_line(answer: &Comparison) -> String {
    match answer {
        Comparison::Same => "same".to_string(),
        Comparison::Different => "different".to_string(),
        Comparison::Refused(which, refusal) => {
            format!("refused {} {} {}", number_of(*which), refusal.number, refusal.place)
        }
    }
}

/// What is kept begins where its interchange begins.
pub fn keep_line(answer: &Kept) -> String {
    format!("kept {} 0 {}", number_of(answer.which), answer.part.len())
}

pub fn locate_line(answer: &Answer<Option<Part>>) -> String {
    match answer {
        Ok(Some(part)) => format!("at {} {}", part.offset, part.length),
        Ok(None) => "absent".to_string(),
        Err(refusal) => refusal_line(refusal),
    }
}

pub fn spelled_line(answer: &Spelled) -> String {
    format!("part {} {}", answer.offset, answer.bytes.len())
}

pub fn read_line(answer: &Answer<ReadCounts>, bytes: &[u8], table: &[u32]) -> String {
    let begin = match answer {
        Ok(counts) => format!("read {} {}", counts.bytes, counts.numbers),
        Err(refusal) => refusal_line(refusal),
    };
    format!("{begin} {} {}", sum(bytes), table_sum(table))
}
