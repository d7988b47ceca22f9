//! Pieces: a mailbox file, cut into its interchanges one after another.

use std::iter::FusedIterator;
use std::ops::Range;

use crate::refusal::Refusal;
use crate::surface;

/// Why a piece ends where it ends.
#[derive(Clone, Copy, Debug, PartialEq, Eq, Hash)]
pub enum PieceEnd {
    /// After its first UNZ segment and the line breaks behind it.
    Unz,
    /// With the file: the cutting met this fault, one of 2 to 6, before a UNZ. The
    /// place counts from the piece's beginning. Of a piece of at most
    /// [`LONGEST`](crate::LONGEST) bytes [`judge`](crate::judge) tells the same.
    Stopped(Refusal),
    /// With the file, which ended before a UNZ.
    FileEnd,
}

/// A piece of a mailbox file.
#[derive(Clone, Debug, PartialEq, Eq, Hash)]
#[non_exhaustive]
pub struct Piece<'a> {
    /// Its bytes, one at least.
    pub bytes: &'a [u8],
    /// Where they stand in the file.
    pub range: Range<usize>,
    /// Why it ends there. Where that is not [`PieceEnd::Unz`], the piece is the last,
    /// and [`judge`](crate::judge) refuses it.
    pub end: PieceEnd,
}

/// The first piece of a mailbox file, or `None` where the file has no bytes: such a
/// file has no pieces.
///
/// A piece ends after its first UNZ segment and the line breaks behind it; whether it
/// is an interchange is for [`judge`](crate::judge) to say. Where what is refused by
/// 2 to 6 comes before a UNZ, or the file's end, the rest of the file is one piece.
/// The file may have any length, and the call goes over the piece alone.
///
/// ```
/// use hverolda::PieceEnd;
///
/// let order = b"UNB+UNOA:1+AA+BB++R1'UNH+1+ORDERS'UNT+2+1'UNZ+1+R1'\n";
/// let file = [&order[..], b"?", order].concat();
/// let first = hverolda::piece(&file).unwrap();
/// assert_eq!((first.bytes, first.end), (&order[..], PieceEnd::Unz));
///
/// let rest = hverolda::piece(&file[first.range.end..]).unwrap();
/// assert_eq!(rest.bytes.len(), 1 + order.len());
/// match rest.end {
///     PieceEnd::Stopped(refusal) => assert_eq!((refusal.number(), refusal.place), (3, 0)),
///     _ => unreachable!(),
/// }
/// ```
#[must_use]
pub fn piece(file: &[u8]) -> Option<Piece<'_>> {
    pieces(file).next()
}

/// The pieces of a mailbox file, in order; joined they are the file. See [`piece`].
///
/// ```
/// let order = b"UNB+UNOA:1+AA+BB++R1'UNH+1+ORDERS'UNT+2+1'UNZ+1+R1'\r\n";
/// let file = [&order[..], order, b"UNB+UNOA:1+AA"].concat();
/// let ranges: Vec<_> = hverolda::pieces(&file).map(|piece| piece.range).collect();
/// assert_eq!(ranges, [0..53, 53..106, 106..119]);
/// let accepted = hverolda::pieces(&file).filter(|piece| hverolda::judge(piece.bytes).is_ok());
/// assert_eq!(accepted.count(), 2);
/// ```
pub fn pieces(file: &[u8]) -> Pieces<'_> {
    Pieces { file, at: 0 }
}

/// The pieces of a mailbox file that are left: see [`pieces`].
#[derive(Clone, Debug)]
#[must_use]
pub struct Pieces<'a> {
    file: &'a [u8],
    at: usize,
}

impl<'a> Iterator for Pieces<'a> {
    type Item = Piece<'a>;

    fn next(&mut self) -> Option<Piece<'a>> {
        let rest = &self.file[self.at..];
        let told = surface::piece(rest);
        if told.end == 0 {
            return None;
        }
        let range = self.at..self.at + told.end;
        self.at = range.end;
        let end = match (told.ended, Refusal::told(told.number, told.place)) {
            (1, _) => PieceEnd::Unz,
            (_, Err(refusal)) => PieceEnd::Stopped(refusal),
            (_, Ok(())) => PieceEnd::FileEnd,
        };
        Some(Piece { bytes: &rest[..told.end], range, end })
    }
}

impl FusedIterator for Pieces<'_> {}

#[cfg(test)]
mod tests {
    use super::*;
    use crate::examples::{RESPELLED, WRONG_COUNT, X};
    use crate::{judge, Fault, LONGEST_FILE};

    fn stopped(fault: Fault, place: usize) -> PieceEnd {
        PieceEnd::Stopped(Refusal { fault, place })
    }

    /// Where each piece of a file begins and ends, and why there.
    fn cut(parts: &[&[u8]]) -> Vec<(Range<usize>, PieceEnd)> {
        let file = parts.concat();
        let cut: Vec<Piece> = pieces(&file).collect();
        for piece in &cut {
            assert_eq!(&file[piece.range.clone()], piece.bytes);
        }
        cut.into_iter().map(|piece| (piece.range, piece.end)).collect()
    }

    #[test]
    fn no_bytes_have_no_pieces() {
        assert_eq!(piece(b""), None);
        assert_eq!(cut(&[]), []);
    }

    #[test]
    fn a_unz_and_its_breaks_end_a_piece() {
        assert_eq!(cut(&[X]), [(0..84, PieceEnd::Unz)]);
        assert_eq!(cut(&[X, X]), [(0..84, PieceEnd::Unz), (84..168, PieceEnd::Unz)]);
        let with_breaks = cut(&[X, b"\r\n\n", RESPELLED, b"\n"]);
        let second = 87 + RESPELLED.len() + 1;
        assert_eq!(with_breaks, [(0..87, PieceEnd::Unz), (87..second, PieceEnd::Unz)]);
        // what Judge says of a piece does not matter
        assert!(judge(WRONG_COUNT).is_err());
        assert_eq!(cut(&[WRONG_COUNT, X])[0], (0..84, PieceEnd::Unz));
    }

    #[test]
    fn a_fault_before_a_unz_is_told_with_its_place() {
        for (rest, fault, place) in [
            (&b"UNA:+.?A'"[..], Fault::Advice, 0),
            (b"?", Fault::Beginning, 0),
            (b"UNA:+.? '\n?", Fault::Beginning, 10),
            (b"UNB+UNOA:1+A?A'", Fault::Release, 12),
            (b"UNB+UNOA:1'bgm'", Fault::Tag, 11),
        ] {
            let end = 84 + rest.len() + X.len();
            let cut = cut(&[X, rest, X]);
            assert_eq!(cut, [(0..84, PieceEnd::Unz), (84..end, stopped(fault, place))]);
            assert_eq!(judge(&[rest, X].concat()), Err(Refusal { fault, place }));
        }
        let unended = &X[..X.len() - 1];
        assert_eq!(cut(&[X, unended])[1], (84..167, stopped(Fault::InsideSegment, 83)));
    }

    #[test]
    fn the_end_before_a_unz_is_no_fault_of_the_cutting() {
        let rest = b"UNB+UNOA:1+AA+BB++R1'\n";
        assert_eq!(cut(&[X, rest])[1], (84..106, PieceEnd::FileEnd));
        assert_eq!(judge(rest), Err(Refusal { fault: Fault::Order, place: 22 }));
    }

    #[test]
    fn a_file_may_be_longer_than_a_report_takes() {
        let file = X.repeat(LONGEST_FILE / 84 + 2);
        assert!(file.len() > LONGEST_FILE);
        assert_eq!(pieces(&file).count(), file.len() / 84);
        let one = [b"UNB+UNOA:1'", &b"BGM'".repeat(50_000)[..], b"UNZ'"].concat();
        assert_eq!(cut(&[&one, X])[0], (0..one.len(), PieceEnd::Unz));
    }
}
