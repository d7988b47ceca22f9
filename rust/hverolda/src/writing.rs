//! Write: the interchange of a value list.

use crate::judging::ServiceCharacters;
use crate::refusal::Refusal;
use crate::value_list::ValueList;
use crate::{surface, LONGEST};

/// Stores the interchange that a value list tells, under six service bytes and
/// with an advice that names them, at the beginning of `output`, and answers
/// its length. The bytes beyond it keep their values; where it is refused all
/// of `output` becomes zero, so that no half text is sent.
///
/// The list is `bytes` and a table of three numbers a value, as
/// [`read`](crate::read) stores them; the values may stand anywhere in the
/// bytes.
///
/// It costs a few steps for each record of the table and for each byte of the
/// text, and stops where the text is over 32,000 bytes. Without a release
/// character it first looks for service characters in all values (16), which may
/// be of any length and overlap: some 1 ns for each byte lent, 10 ms for
/// 10,000,000, and a few times that for a list that was made to be slow.
///
/// # Errors
///
/// In this order: 15 where the table is malformed or a segment begins with a
/// line break, 2 where the service bytes are not six usable ones, 16 where a
/// value needs a release character or a repetition separator and there is none, 1
/// where the text has more than 32,000 bytes,
/// 14 with the bytes needed where `output` is too short; then as
/// [`judge`](crate::judge) would refuse the text.
///
/// ```
/// let input = b"UNB+UNOA:1++++1'UNH+1'UNT+2+1'UNZ+1+1'";
/// let list = hverolda::values(input)?;
/// let mut output = [0; 64];
/// let length = hverolda::write(b";*.! ~", list.bytes(), list.table(), &mut output)?;
/// assert_eq!(&output[..length], b"UNA;*.! ~UNB*UNOA;1****1~UNH*1~UNT*2*1~UNZ*1*1~");
/// # Ok::<(), hverolda::Refusal>(())
/// ```
pub fn write(
    service: &[u8],
    bytes: &[u8],
    table: &[u32],
    output: &mut [u8],
) -> Result<usize, Refusal> {
    let written = surface::write(service, bytes, table, output);
    Refusal::told(written.number, written.place)?;
    Ok(written.length)
}

/// The interchange that a value list tells, under these service characters.
///
/// # Errors
///
/// As [`write()`] refuses, but for 14.
///
/// ```
/// use hverolda::{text_of, values, ServiceCharacters};
///
/// let list = values(b"UNB+UNOA:1++++1'UNH+1'UNT+2+1'UNZ+1+1'")?;
/// let comma = ServiceCharacters { mark: b',', ..ServiceCharacters::STANDARD };
/// assert_eq!(text_of(&comma, &list)?, b"UNA:+,? 'UNB+UNOA:1++++1'UNH+1'UNT+2+1'UNZ+1+1'");
/// # Ok::<(), hverolda::Refusal>(())
/// ```
pub fn text_of(characters: &ServiceCharacters, list: &ValueList) -> Result<Vec<u8>, Refusal> {
    let mut text = vec![0; LONGEST];
    let length = write(&characters.six(), list.bytes(), list.table(), &mut text)?;
    text.truncate(length);
    text.shrink_to_fit();
    Ok(text)
}

#[cfg(test)]
mod tests {
    use super::*;
    use crate::examples::{NORMAL, REPEATED, X};
    use crate::{judge, values, Fault, Kind};

    #[test]
    fn a_list_that_was_read_is_written_as_the_normal_form() {
        let list = values(X).unwrap();
        assert_eq!(text_of(&ServiceCharacters::STANDARD, &list).as_deref(), Ok(NORMAL));
    }

    #[test]
    fn repeats_need_a_repetition_separator() {
        let list = values(REPEATED).unwrap();
        let text = text_of(&ServiceCharacters::VERSION_4, &list).unwrap();
        assert_eq!(values(&text), Ok(list.clone()));
        let refusal = text_of(&ServiceCharacters::STANDARD, &list).unwrap_err();
        let repeat = list.iter().position(|(kind, _)| kind == Kind::NextRepeat).unwrap();
        assert_eq!(refusal, Refusal { fault: Fault::NoRelease, place: repeat });
    }

    #[test]
    fn bytes_beyond_keep_their_values() {
        let list = values(X).unwrap();
        let mut output = [7; 95];
        assert_eq!(write(b":+.? '", list.bytes(), list.table(), &mut output), Ok(93));
        assert_eq!(&output[..93], NORMAL);
        assert_eq!(output[93..], [7, 7]);
    }

    #[test]
    fn a_refusal_leaves_zeros() {
        let list = values(X).unwrap();
        let refused = |fault, place| Err(Refusal { fault, place });
        for (service, table, room, answer) in [
            (&b":+.? '"[..], list.table(), 92, refused(Fault::Buffer, 93)),
            (b":+.?  ", list.table(), 93, refused(Fault::Advice, 0)),
            (b":+.  '", list.table(), 93, refused(Fault::NoRelease, 16)),
            (b":+.? '", &list.table()[1..], 93, refused(Fault::List, 0)),
            (b":+.? '", &[0, 0, 1, 0, u32::MAX, 2], 93, refused(Fault::List, 1)),
            (b":+.? '", &[], 9, refused(Fault::Beginning, 9)),
        ] {
            let mut output = vec![7; room];
            assert_eq!(write(service, list.bytes(), table, &mut output), answer);
            assert!(output.iter().all(|&byte| byte == 0));
        }
    }

    #[test]
    fn an_interchange_of_ones_own() {
        let mut list = ValueList::new();
        let segments: [&[&str]; 4] = [
            &["UNB", "UNOA", "O'HARA", "", "", "R1"],
            &["UNH", "1"],
            &["UNT", "2", "1"],
            &["UNZ", "1", "R1"],
        ];
        for segment in segments {
            for (number, value) in segment.iter().enumerate() {
                let kind = if number == 0 { Kind::NewSegment } else { Kind::NewElement };
                list.push(kind, value);
                if *value == "UNOA" {
                    list.push(Kind::NextComponent, "2");
                }
            }
        }
        let text = text_of(&ServiceCharacters::STANDARD, &list).unwrap();
        assert_eq!(text, b"UNA:+.? 'UNB+UNOA:2+O?'HARA+++R1'UNH+1'UNT+2+1'UNZ+1+R1'");
        assert_eq!(judge(&text).unwrap().segments, 4);
        assert_eq!(values(&text), Ok(list));
    }
}
