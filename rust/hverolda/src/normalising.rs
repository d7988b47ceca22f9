//! Normalise: the one spelling by which interchanges are compared.

use crate::refusal::Refusal;
use crate::{surface, LONGEST};

/// Stores the normal form of an interchange at the beginning of the buffer and
/// answers its length. The bytes beyond it, and all of them where it is
/// refused, keep their values.
///
/// # Errors
///
/// Where the input is refused, as [`judge`](crate::judge) refuses it; and 14,
/// with the bytes needed, where the buffer is too short.
///
/// ```
/// let input = b"UNB+UNOA:1++++1'UNH+1'UNT+2+1'UNZ+1+1'";
/// let mut buffer = [0; 64];
/// let length = hverolda::normalise(input, &mut buffer)?;
/// assert_eq!(&buffer[..length], b"UNA:+.? 'UNB+UNOA:1++++1'UNH+1'UNT+2+1'UNZ+1+1'");
/// # Ok::<(), hverolda::Refusal>(())
/// ```
pub fn normalise(input: &[u8], buffer: &mut [u8]) -> Result<usize, Refusal> {
    let written = surface::normalise(input, buffer);
    Refusal::told(written.number, written.place)?;
    Ok(written.length)
}

/// The normal form of an interchange.
///
/// # Errors
///
/// Where the input is refused, as [`judge`](crate::judge) refuses it.
///
/// ```
/// let input = b"UNB+UNOA:1++++1+::+'UNH+1'UNT+2+1'UNZ+1+1'";
/// let form = hverolda::normal_form(input)?;
/// assert_eq!(form, b"UNA:+.? 'UNB+UNOA:1++++1'UNH+1'UNT+2+1'UNZ+1+1'");
/// # Ok::<(), hverolda::Refusal>(())
/// ```
pub fn normal_form(input: &[u8]) -> Result<Vec<u8>, Refusal> {
    let mut form = vec![0; most(input.len())];
    let length = normalise(input, &mut form)?;
    form.truncate(length);
    Ok(form)
}

/// The most bytes that the normal form of so many bytes has.
fn most(length: usize) -> usize {
    (2 * length.min(LONGEST) + 9).min(LONGEST)
}

#[cfg(test)]
mod tests {
    use super::*;
    use crate::examples::{NORMAL, RESPELLED, WRONG_COUNT, X};
    use crate::Fault;

    #[test]
    fn bytes_beyond_keep_their_values() {
        let mut buffer = [7; 95];
        assert_eq!(normalise(X, &mut buffer), Ok(93));
        assert_eq!(&buffer[..93], NORMAL);
        assert_eq!(buffer[93..], [7, 7]);
    }

    #[test]
    fn a_short_buffer_is_left_alone() {
        let mut buffer = [7; 92];
        assert_eq!(normalise(X, &mut buffer), Err(Refusal { fault: Fault::Buffer, place: 93 }));
        assert_eq!(buffer, [7; 92]);
        assert_eq!(normalise(X, &mut []), Err(Refusal { fault: Fault::Buffer, place: 93 }));
    }

    #[test]
    fn the_same_has_the_same_normal_form() {
        assert_eq!(normal_form(X).as_deref(), Ok(NORMAL));
        assert_eq!(normal_form(RESPELLED).as_deref(), Ok(NORMAL));
        assert_eq!(normal_form(NORMAL).as_deref(), Ok(NORMAL));
    }

    #[test]
    fn what_is_refused_has_none() {
        let refused = |fault, place| Err(Refusal { fault, place });
        assert_eq!(normal_form(WRONG_COUNT), refused(Fault::Count, 67));
        assert_eq!(normal_form(&[b'A'; 32_001]), refused(Fault::OverLength, 0));
        let filler = "A".repeat(31_995 - X.len());
        let long = String::from_utf8_lossy(X).replacen("220+", &format!("220+{filler}"), 1);
        assert_eq!(normal_form(long.as_bytes()), refused(Fault::NormalLength, 32_004));
    }
}
