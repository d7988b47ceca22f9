//! Locate and its companion: where a component is spelled.

use std::ops::Range;

use crate::refusal::Refusal;
use crate::surface;

/// Where a component of the contents is spelled in the input, or `None` where
/// there is none. Segments, elements, repeats and components are numbered from 0;
/// element 0 is the tag, and in versions 1 and 2 an element has repeat 0 alone.
/// What trimming takes away is not there.
///
/// # Errors
///
/// Where the input is refused, as [`judge`](crate::judge) refuses it.
///
/// ```
/// let input = b"UNB+UNOA:1+SENDER+RECIPIENT++1'UNH+1'UNT+2+1'UNZ+1+1'";
/// assert_eq!(hverolda::locate(input, 0, 2, 0, 0)?, Some(11..17));
/// assert_eq!(hverolda::locate(input, 0, 4, 0, 0)?, Some(28..28));
/// assert_eq!(hverolda::locate(input, 0, 6, 0, 0)?, None);
///
/// let input = b"UNB+UNOB:4+AA+BB++1'UNH+1'RFF+ON:1*ON:2'UNT+3+1'UNZ+1+1'";
/// assert_eq!(hverolda::locate(input, 2, 1, 1, 1)?, Some(38..39));
/// # Ok::<(), hverolda::Refusal>(())
/// ```
pub fn locate(
    input: &[u8],
    segment: usize,
    element: usize,
    repeat: usize,
    component: usize,
) -> Result<Option<Range<usize>>, Refusal> {
    let location = surface::locate(input, segment, element, repeat, component);
    Refusal::told(location.number, location.place)?;
    Ok(match location.present {
        0 => None,
        _ => Some(location.offset..location.offset + location.length),
    })
}

/// The component as it is spelled in the input, release characters and all; no
/// bytes, at the input's beginning, where it is absent or the input refused.
///
/// ```
/// let input = b"UNB+UNOA:1+O?'HARA+RECIPIENT++1'UNH+1'UNT+2+1'UNZ+1+1'";
/// assert_eq!(hverolda::part(input, 0, 2, 0, 0), b"O?'HARA");
/// assert_eq!(hverolda::part(input, 9, 0, 0, 0), b"");
/// ```
#[must_use]
pub fn part(
    input: &[u8],
    segment: usize,
    element: usize,
    repeat: usize,
    component: usize,
) -> &[u8] {
    let part = surface::part(input, segment, element, repeat, component);
    &input[part.offset..][..part.length]
}

#[cfg(test)]
mod tests {
    use super::*;
    use crate::examples::{REPEATED, WRONG_COUNT, X};
    use crate::Fault;

    #[test]
    fn a_component_has_its_place() {
        assert_eq!(locate(X, 0, 0, 0, 0), Ok(Some(0..3)));
        assert_eq!(locate(X, 2, 2, 0, 0), Ok(Some(62..66)));
        assert_eq!(part(X, 2, 2, 0, 0), b"A?+B");
        assert_eq!(part(X, 1, 2, 0, 3), b"UN");
    }

    #[test]
    fn a_repeat_has_its_number() {
        let at = REPEATED.windows(4).position(|window| window == b"ON:2").unwrap();
        assert_eq!(locate(REPEATED, 2, 1, 1, 0), Ok(Some(at..at + 2)));
        assert_eq!(part(REPEATED, 2, 1, 0, 1), b"1");
        assert_eq!(part(REPEATED, 2, 1, 1, 1), b"2");
        assert_eq!(locate(REPEATED, 2, 1, 2, 0), Ok(None));
        assert_eq!(locate(REPEATED, 0, 1, 1, 0), Ok(None));
    }

    #[test]
    fn numbers_beyond_are_absent() {
        const MOST: usize = usize::MAX;
        for (segment, element, repeat, component) in [
            (5, 0, 0, 0),
            (0, 6, 0, 0),
            (0, 1, 1, 0),
            (0, 1, 0, 2),
            (MOST, MOST, MOST, MOST),
            (0, 1 << 32, 0, 0),
            (0, 1, 1 << 32, 0),
        ] {
            assert_eq!(locate(X, segment, element, repeat, component), Ok(None));
            assert_eq!(part(X, segment, element, repeat, component), b"");
        }
    }

    #[test]
    fn what_is_refused_has_no_parts() {
        let refusal = Refusal { fault: Fault::Count, place: 67 };
        assert_eq!(locate(WRONG_COUNT, 0, 0, 0, 0), Err(refusal));
        assert_eq!(part(WRONG_COUNT, 0, 0, 0, 0).as_ptr(), WRONG_COUNT.as_ptr());
        assert!(part(WRONG_COUNT, 0, 0, 0, 0).is_empty());
        assert!(part(b"", 0, 0, 0, 0).is_empty());
    }
}
