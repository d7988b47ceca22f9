//! Judge: is this an interchange, and what does it hold?

use crate::refusal::Refusal;
use crate::surface;

/// The service characters in force in an interchange.
#[derive(Clone, Copy, Debug, PartialEq, Eq, Hash)]
pub struct ServiceCharacters {
    /// The component separator.
    pub component: u8,
    /// The element separator.
    pub element: u8,
    /// The decimal mark, `.` or `,`.
    pub mark: u8,
    /// The release character, where there is one. A space is none: in the six
    /// bytes `Some(b' ')` and `None` are the same, and [`judge`] answers `None`.
    pub release: Option<u8>,
    /// The repetition separator, where there is one. A space is none, as for the
    /// release character. With one, versions 1 and 2 are refused by 7; without one, a
    /// list with repeats is refused by 16.
    pub repetition: Option<u8>,
    /// The segment terminator.
    pub terminator: u8,
}

impl ServiceCharacters {
    /// Those of versions 1 and 2: of their normal form, and of an interchange of
    /// theirs that begins `UNB+`.
    pub const STANDARD: ServiceCharacters = ServiceCharacters {
        component: b':',
        element: b'+',
        mark: b'.',
        release: Some(b'?'),
        repetition: None,
        terminator: b'\'',
    };

    /// Those of version 4: of its normal form, and of an interchange that begins
    /// `UNB+UNOA:4` or `UNB+UNOB:4`.
    pub const VERSION_4: ServiceCharacters =
        ServiceCharacters { repetition: Some(b'*'), ..ServiceCharacters::STANDARD };

    /// The six bytes of a service string advice, as [`write()`](crate::write())
    /// takes them: a space for no release character, and for no repetition separator.
    ///
    /// ```
    /// assert_eq!(&hverolda::ServiceCharacters::STANDARD.six(), b":+.? '");
    /// assert_eq!(&hverolda::ServiceCharacters::VERSION_4.six(), b":+.?*'");
    /// ```
    #[must_use]
    pub fn six(&self) -> [u8; 6] {
        let or_none = |byte: Option<u8>| byte.unwrap_or(b' ');
        let (release, repetition) = (or_none(self.release), or_none(self.repetition));
        [self.component, self.element, self.mark, release, repetition, self.terminator]
    }
}

/// What Judge says of an accepted interchange.
#[derive(Clone, Copy, Debug, PartialEq, Eq, Hash)]
#[non_exhaustive]
pub struct Interchange {
    /// Its service characters.
    pub characters: ServiceCharacters,
    /// Its segments, the service segments with them.
    pub segments: u32,
    /// Its messages.
    pub messages: u32,
    /// Its groups, 0 where its messages stand in none.
    pub groups: u32,
    /// The length of its normal form in bytes.
    pub normal_length: usize,
}

/// Judges one interchange.
///
/// # Errors
///
/// Refusals 1 to 13: what of the interchange is not by the rules, and where.
///
/// ```
/// let input = b"UNB+UNOA:1+AA+BB+260105:0930+R1'UNH+1+ORDERS:1:901:UN'\
///     BGM+220+A?+B'UNT+3+1'UNZ+1+R1'";
/// let interchange = hverolda::judge(input)?;
/// assert_eq!(interchange.segments, 5);
/// assert_eq!(interchange.messages, 1);
/// assert_eq!(interchange.groups, 0);
/// assert_eq!(interchange.normal_length, 93);
///
/// let refusal = hverolda::judge(&input[..83]).unwrap_err();
/// assert_eq!(refusal.to_string(), "refused 5 at byte 83: the body ends inside a segment");
/// # Ok::<(), hverolda::Refusal>(())
/// ```
pub fn judge(input: &[u8]) -> Result<Interchange, Refusal> {
    told(&surface::judge(input))
}

/// Judges one interchange, and whether its messages have the structure that a table
/// tells: 0 to [`MOST_ENTRIES`](crate::MOST_ENTRIES) entries of eight bytes, big-endian.
///
/// - Three bytes: the tag of a segment, each of A to Z or 0 to 9, and of those that begin
///   `UN` only UNS; or three zeros for a group's own entry.
/// - One byte: `M` mandatory or `C` conditional.
/// - Two bytes: the most repeats, 1 to 999.
/// - Two bytes: how many entries stand under it, at any depth: those right behind it, 1 or
///   more for a group, and 0 for a segment.
///
/// A group's first entry is its trigger: a segment, mandatory and once. Groups stand within
/// groups at most eight deep, and end within the group or table that holds them. A table
/// of no entries allows only messages with nothing between UNH and UNT.
///
/// The segments between UNH and UNT are taken from left to right, in each message from the
/// table's beginning, and matched by their tag alone, UNS like any other. Each entry takes as
/// many segments, or repeats of its group, as it can before the next has its turn; where a
/// group's trigger stands, a repeat of it is begun, and nothing is given back. The walk
/// stops at a mandatory entry that cannot be met, or at a segment left over.
///
/// It costs what [`judge`] does, a pass over at most 999 entries, and a few steps for each
/// segment and each entry that has its turn: some 40 ms at most, for 999 entries that all
/// have their turn at each of 8,000 segments.
///
/// # Errors
///
/// Refusal 21 for an unsound table, before all else, at its lowest entry at fault, from 0:
/// that which breaks a rule, a group's own for its depth or its number, a trigger itself, a
/// last entry that is not whole, and entry 999 where there are more; then those of
/// [`judge`] up to 12; then 22 at the segment, perhaps UNT, before which the walk stopped in
/// the first message that does not match; then 13.
///
/// ```
/// let input = b"UNB+UNOA:1+AA+BB+260105:0930+R1'UNH+1+ORDERS:1:901:UN'\
///     BGM+220+A?+B'UNT+3+1'UNZ+1+R1'";
/// // one BGM, and up to 999 groups of a LIN and up to two FTX
/// let table = b"BGMM\0\x01\0\0\0\0\0C\x03\xe7\0\x02LINM\0\x01\0\0FTXC\0\x02\0\0";
/// assert_eq!(hverolda::judge_by_table(table, input), hverolda::judge(input));
///
/// let refusal = hverolda::judge_by_table(&table[8..], input).unwrap_err();
/// assert_eq!((refusal.number(), refusal.place), (22, 54));
/// let refusal = hverolda::judge_by_table(&table[..16], input).unwrap_err();
/// assert_eq!((refusal.number(), refusal.place), (21, 1));
/// # Ok::<(), hverolda::Refusal>(())
/// ```
pub fn judge_by_table(table: &[u8], input: &[u8]) -> Result<Interchange, Refusal> {
    told(&surface::judge_by_table(table, input))
}

/// What the surface's struct tells.
fn told(verdict: &surface::Verdict) -> Result<Interchange, Refusal> {
    Refusal::told(verdict.number, verdict.place)?;
    let present = |byte| Some(byte).filter(|&byte| byte != b' ');
    Ok(Interchange {
        characters: ServiceCharacters {
            component: verdict.component,
            element: verdict.element,
            mark: verdict.mark,
            release: present(verdict.release),
            repetition: present(verdict.repetition),
            terminator: verdict.terminator,
        },
        segments: verdict.segments,
        messages: verdict.messages,
        groups: verdict.groups,
        normal_length: verdict.length,
    })
}

#[cfg(test)]
mod tests {
    use super::*;
    use crate::examples::{REPEATED, RESPELLED, WRONG_COUNT, X};
    use crate::Fault;

    #[test]
    fn service_characters_are_those_in_force() {
        assert_eq!(judge(X).unwrap().characters, ServiceCharacters::STANDARD);
        assert_eq!(&judge(RESPELLED).unwrap().characters.six(), b";*.! ~");
        assert_eq!(judge(REPEATED).unwrap().characters, ServiceCharacters::VERSION_4);
    }

    #[test]
    fn separators_without_release() {
        let text = |byte| match byte {
            b'+' => 29,
            b':' => 31,
            b'\'' => 28,
            other => other,
        };
        let plain = b"UNB+UNOA:1++++1'UNH+1'UNT+2+1'UNZ+1+1'";
        let input: Vec<u8> = plain.iter().copied().map(text).collect();
        let interchange = judge(&input).unwrap();
        assert_eq!(interchange.characters.release, None);
        assert_eq!(interchange.characters.six(), [31, 29, b'.', b' ', b' ', 28]);
    }

    #[test]
    fn line_breaks_between_segments_are_passed_over() {
        let segments: Vec<&[u8]> = X.split_inclusive(|&byte| byte == b'\'').collect();
        assert_eq!(judge(&segments.join(&b"\r\n"[..])), judge(X));
        let advised = judge(b"UNA:+.? '\r\n\nUNZ").unwrap_err();
        assert_eq!(advised, Refusal { fault: Fault::Beginning, place: 12 });
    }

    #[test]
    fn a_refusal_has_its_place() {
        assert_eq!(judge(WRONG_COUNT), Err(Refusal { fault: Fault::Count, place: 67 }));
        assert_eq!(judge(b""), Err(Refusal { fault: Fault::Beginning, place: 0 }));
    }
}
