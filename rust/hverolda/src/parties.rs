//! Parties: sender, recipient and control reference of an interchange.

use crate::refusal::Refusal;
use crate::surface;

/// Who sent an interchange, to whom, and its control reference, as they are spelled in
/// the input, release characters and all. Of each it is the first component.
#[derive(Clone, Copy, Debug, PartialEq, Eq, Hash)]
#[non_exhaustive]
pub struct Parties<'a> {
    /// The sender's identification, in UNB's element 2.
    pub sender: &'a [u8],
    /// The recipient's identification, in UNB's element 3.
    pub recipient: &'a [u8],
    /// The interchange control reference, UNB's element 5.
    pub reference: &'a [u8],
}

/// The sender, the recipient and the control reference of an interchange: what
/// [`part`](crate::part) hands back for UNB's elements 2, 3 and 5, at the cost of one
/// [`judge`](crate::judge).
///
/// # Errors
///
/// Where the input is refused, as [`judge`](crate::judge) refuses it.
///
/// ```
/// let input = b"UNB+UNOA:1+O?'HARA:14+BB+260105:0930+R1'UNH+1'UNT+2+1'UNZ+1+R1'";
/// let parties = hverolda::parties(input)?;
/// assert_eq!(parties.sender, b"O?'HARA");
/// assert_eq!((parties.recipient, parties.reference), (&b"BB"[..], &b"R1"[..]));
/// # Ok::<(), hverolda::Refusal>(())
/// ```
pub fn parties(input: &[u8]) -> Result<Parties<'_>, Refusal> {
    let told = surface::parties(input);
    Refusal::told(told.number, told.place)?;
    let of = |part: surface::Part| &input[part.offset..][..part.length];
    Ok(Parties {
        sender: of(told.sender),
        recipient: of(told.recipient),
        reference: of(told.reference),
    })
}

#[cfg(test)]
mod tests {
    use super::*;
    use crate::examples::{REPEATED, RESPELLED, WRONG_COUNT, X};
    use crate::{part, Fault};

    #[test]
    fn they_are_the_three_parts() {
        let with_breaks = [&b"UNA:+.? '\r\n"[..], X].concat();
        for input in [X, RESPELLED, REPEATED, &with_breaks] {
            let found = parties(input).unwrap();
            assert_eq!((found.sender, found.recipient), (&b"AA"[..], &b"BB"[..]));
            assert_eq!(found.reference, b"R1");
            for (element, value) in [(2, found.sender), (3, found.recipient), (5, found.reference)]
            {
                assert_eq!(part(input, 0, element, 0, 0).as_ptr(), value.as_ptr());
            }
        }
    }

    #[test]
    fn an_empty_sender_has_its_place() {
        let input = b"UNB+UNOA:1+:14+++R'UNH+1'UNT+2+1'UNZ+1+R'";
        let found = parties(input).unwrap();
        assert_eq!((found.sender, found.recipient), (&b""[..], &b""[..]));
        assert_eq!(found.sender.as_ptr(), input[11..].as_ptr());
        assert_eq!(found.recipient.as_ptr(), input[15..].as_ptr());
        assert_eq!(found.reference, b"R");
    }

    #[test]
    fn what_is_refused_has_none() {
        assert_eq!(parties(WRONG_COUNT), Err(Refusal { fault: Fault::Count, place: 67 }));
        assert_eq!(parties(b""), Err(Refusal { fault: Fault::Beginning, place: 0 }));
        let told = crate::surface::parties(WRONG_COUNT);
        assert_eq!((told.sender, told.reference), Default::default());
    }
}
