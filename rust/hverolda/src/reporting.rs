//! Report: the morning figures of a mailbox file.

use crate::refusal::{Fault, Refusal};
use crate::surface;

/// The figures over the interchanges of a mailbox file.
#[derive(Clone, Copy, Debug, Default, PartialEq, Eq, Hash)]
#[non_exhaustive]
pub struct Report {
    /// How many are accepted.
    pub accepted: u32,
    /// How many are refused under each number, which is the index, 1 to 13; the
    /// one at 0 is 0. [`Report::refused_by`] finds it by the fault.
    pub refused: [u32; 14],
    /// Segments of the accepted ones, the service segments with them.
    pub segments: u32,
    /// Messages of the accepted ones.
    pub messages: u32,
    /// The lengths of their normal forms together, in bytes.
    pub normal_total: usize,
    /// The longest of these lengths, 0 where none is accepted.
    pub normal_longest: usize,
}

impl Report {
    /// How many are refused under this fault's number.
    #[must_use]
    pub fn refused_by(&self, fault: Fault) -> u32 {
        self.refused.get(fault.number() as usize).copied().unwrap_or(0)
    }

    /// How many pieces the file has: each is accepted, or refused under one number.
    #[must_use]
    pub fn pieces(&self) -> u32 {
        self.accepted + self.refused.iter().sum::<u32>()
    }
}

/// Cuts a mailbox file into its interchanges, judges each, and counts.
///
/// A piece ends after its first UNZ segment and the line breaks behind it. Where
/// that cannot be found (2 to 6 are met before it, or the file's end), the rest of
/// the file is one piece, which Judge refuses, and the last.
///
/// # Errors
///
/// Refusal 1 at 0 for a file of more than [`LONGEST_FILE`](crate::LONGEST_FILE) bytes.
///
/// ```
/// let order = b"UNB+UNOA:1+AA+BB+260105:0930+R1'UNH+1+ORDERS:1:901:UN'\
///     BGM+220+A?+B'UNT+3+1'UNZ+1+R1'\r\n";
/// let report = hverolda::report(&[&order[..], order, b"rest"].concat())?;
/// assert_eq!((report.accepted, report.refused[3]), (2, 1));
/// assert_eq!((report.segments, report.messages), (10, 2));
/// assert_eq!((report.normal_total, report.normal_longest), (186, 93));
/// # Ok::<(), hverolda::Refusal>(())
/// ```
pub fn report(file: &[u8]) -> Result<Report, Refusal> {
    let morning = surface::report(file);
    Refusal::told(morning.number, morning.place)?;
    Ok(Report {
        accepted: morning.accepted,
        refused: morning.refused,
        segments: morning.segments,
        messages: morning.messages,
        normal_total: morning.total,
        normal_longest: morning.longest,
    })
}

#[cfg(test)]
mod tests {
    use super::*;
    use crate::examples::{RESPELLED, WRONG_COUNT, X};
    use crate::LONGEST_FILE;

    #[test]
    fn no_bytes_have_no_pieces() {
        assert_eq!(report(b""), Ok(Report::default()));
    }

    #[test]
    fn each_piece_is_counted_under_what_judge_says() {
        let report = report(&[X, RESPELLED, b"\n\r\n", WRONG_COUNT, X].concat()).unwrap();
        assert_eq!((report.accepted, report.pieces()), (3, 4));
        assert_eq!(report.refused_by(Fault::Count), 1);
        assert_eq!((report.segments, report.messages), (15, 3));
        assert_eq!((report.normal_total, report.normal_longest), (279, 93));
        assert_eq!(report.refused_by(Fault::Slot), 0);
        assert_eq!(report.refused_by(Fault::Unknown(u32::MAX)), 0);
    }

    #[test]
    fn the_rest_is_one_piece() {
        let report = report(&[X, b"UNA", X, X].concat()).unwrap();
        assert_eq!((report.accepted, report.refused_by(Fault::Advice)), (1, 1));
        assert_eq!(report.pieces(), 2);
    }

    #[test]
    fn a_longer_file_is_refused() {
        let file = vec![b'\''; LONGEST_FILE + 1];
        let refused = Refusal { fault: Fault::OverLength, place: 0 };
        assert_eq!(report(&file), Err(refused));
        // 3 is met at once, and Judge gives the rest of over 32,000 bytes the number 1
        assert_eq!(report(&file[1..]).unwrap().refused_by(Fault::OverLength), 1);
    }
}
