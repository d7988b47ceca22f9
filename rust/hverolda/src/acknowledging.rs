//! Acknowledge: the syntax report CONTRL for a received interchange.

use crate::refusal::Refusal;
use crate::value_list::ValueList;
use crate::{surface, LONGEST};

/// A value list that is lent: its bytes, and a table of three numbers a value.
#[derive(Clone, Copy, Debug, PartialEq, Eq, Hash)]
pub struct LentList<'a> {
    /// The bytes of the values, in any order.
    pub bytes: &'a [u8],
    /// Three numbers a value: its kind, where it starts, how long it is.
    pub table: &'a [u32],
}

impl<'a> From<&'a ValueList> for LentList<'a> {
    fn from(list: &'a ValueList) -> LentList<'a> {
        LentList { bytes: list.bytes(), table: list.table() }
    }
}

/// What an acknowledgement has of its own: three value lists of one element each, the
/// first record of kind 0 and all others of kind 2 or 3. [`ValueList::element`] makes
/// such a list.
#[derive(Clone, Copy, Debug, PartialEq, Eq, Hash)]
pub struct Lent<'a> {
    /// The date and time.
    pub date: LentList<'a>,
    /// The new control reference.
    pub reference: LentList<'a>,
    /// The message identification.
    pub message: LentList<'a>,
}

/// Stores the syntax report CONTRL (ISO 9735-4) for a received interchange at the
/// beginning of `output`, and answers its length. The bytes beyond it keep their values;
/// where it is refused all of `output` becomes zero.
///
/// The text is an interchange with the received one's level, version and mark, spelled as
/// a normal form is. UNB has sender and recipient exchanged, then the date and time and the
/// new control reference. Its one message has the reference `1`: UNH with the message
/// identification; UCI with the received control reference, sender, recipient and an action
/// code, `7` where the received one is accepted and `4` where it is refused by 10, 11 or 12;
/// UNT with the count 3.
///
/// # Errors
///
/// In this order: 23 where the received one is refused by any other number, UNB's reference
/// is malformed, or its sender or recipient is one empty value; 15 at 0 where a lent list is
/// empty, malformed, or of more than one element; then those of [`write()`](crate::write())
/// for the list put together, whose records are numbered in the order of the text.
///
/// ```
/// use hverolda::{acknowledge, Lent, ValueList};
///
/// let received = b"UNB+UNOA:1+AA+BB+260105:0930+R1'UNH+1+ORDERS:1:901:UN'\
///     BGM+220+A?+B'UNT+3+1'UNZ+1+R1'";
/// let date = ValueList::element(["261115", "0842"]);
/// let reference = ValueList::element(["A1"]);
/// let message = ValueList::element(["CONTRL", "2", "2", "UN"]);
/// let lent =
///     Lent { date: (&date).into(), reference: (&reference).into(), message: (&message).into() };
/// let mut output = [0; 200];
/// let length = acknowledge(received, &lent, &mut output)?;
/// assert_eq!(
///     &output[..length],
///     b"UNA:+.? 'UNB+UNOA:1+BB+AA+261115:0842+A1'UNH+1+CONTRL:2:2:UN'\
///     UCI+R1+AA+BB+7'UNT+3+1'UNZ+1+A1'"
/// );
/// # Ok::<(), hverolda::Refusal>(())
/// ```
pub fn acknowledge(received: &[u8], lent: &Lent, output: &mut [u8]) -> Result<usize, Refusal> {
    let [date, reference, message] =
        [lent.date, lent.reference, lent.message].map(|list| (list.bytes, list.table));
    let written = surface::acknowledge(received, date, reference, message, output);
    Refusal::told(written.number, written.place)?;
    Ok(written.length)
}

/// The syntax report CONTRL for a received interchange.
///
/// # Errors
///
/// As [`acknowledge`] refuses, but for 14.
pub fn acknowledgement(received: &[u8], lent: &Lent) -> Result<Vec<u8>, Refusal> {
    let mut text = vec![0; LONGEST];
    let length = acknowledge(received, lent, &mut text)?;
    text.truncate(length);
    text.shrink_to_fit();
    Ok(text)
}

#[cfg(test)]
mod tests {
    use super::*;
    use crate::examples::{REPEATED, WRONG_COUNT, X};
    use crate::{judge, values, Fault, Kind};

    /// The lists of the stored cases, with another date.
    fn with<T>(date: &ValueList, answer: impl FnOnce(&Lent) -> T) -> T {
        let reference = ValueList::element(["A1"]);
        let message = ValueList::element(["CONTRL", "4", "1", "UN"]);
        answer(&Lent {
            date: date.into(),
            reference: (&reference).into(),
            message: (&message).into(),
        })
    }

    fn date() -> ValueList {
        ValueList::element(["261115", "0842"])
    }

    const ACCEPTED: &[u8] = b"UNA:+.? 'UNB+UNOA:1+BB+AA+261115:0842+A1'UNH+1+CONTRL:4:1:UN'\
        UCI+R1+AA+BB+7'UNT+3+1'UNZ+1+A1'";

    #[test]
    fn a_wrong_count_is_acknowledged_by_four() {
        assert_eq!(with(&date(), |lent| acknowledgement(X, lent)).as_deref(), Ok(ACCEPTED));
        let text = with(&date(), |lent| acknowledgement(WRONG_COUNT, lent)).unwrap();
        let four: Vec<u8> = String::from_utf8_lossy(ACCEPTED).replace("+7'", "+4'").into_bytes();
        assert_eq!(text, four);
        assert_eq!(judge(&text).unwrap().segments, 5);
    }

    #[test]
    fn version_4_keeps_its_repeats() {
        let parties = String::from_utf8_lossy(REPEATED).replace("+AA+BB+", "+AA:Z*A:Y+BB+");
        let text = with(&date(), |lent| acknowledgement(parties.as_bytes(), lent)).unwrap();
        let text = String::from_utf8_lossy(&text);
        assert!(text.starts_with("UNA:+.?*'UNB+UNOB:4+BB+AA:Z*A:Y+"));
        assert!(text.contains("UCI+R1+AA:Z*A:Y+BB+7'"));
    }

    #[test]
    fn bytes_beyond_keep_their_values() {
        let mut output = [7; 120];
        let length = with(&date(), |lent| acknowledge(X, lent, &mut output[..])).unwrap();
        assert_eq!(length, ACCEPTED.len());
        assert_eq!(&output[..length], ACCEPTED);
        assert!(output[length..].iter().all(|&byte| byte == 7));
    }

    #[test]
    fn a_refusal_leaves_zeros() {
        let mut second = date();
        second.push(Kind::NewElement, "1");
        let mut repeated = date();
        repeated.push(Kind::NextRepeat, "1");
        let lower = ValueList::element(["a"]);
        let no_sender = String::from_utf8_lossy(X).replace("+AA+", "++");
        let refused = |fault, place| Err(Refusal { fault, place });
        for (received, date, room, answer) in [
            (&X[..75], date(), 120, refused(Fault::NoAcknowledgement, 0)),
            (no_sender.as_bytes(), date(), 120, refused(Fault::NoAcknowledgement, 0)),
            (X, ValueList::new(), 120, refused(Fault::List, 0)),
            (X, second, 120, refused(Fault::List, 0)),
            (X, repeated, 120, refused(Fault::NoRelease, 7)),
            (X, date(), 90, refused(Fault::Buffer, ACCEPTED.len())),
            (X, lower, 120, refused(Fault::Byte, 26)),
        ] {
            let mut output = vec![7; room];
            assert_eq!(with(&date, |lent| acknowledge(received, lent, &mut output[..])), answer);
            assert!(output.iter().all(|&byte| byte == 0));
        }
    }

    #[test]
    fn the_values_are_read_back() {
        let text = with(&date(), |lent| acknowledgement(X, lent)).unwrap();
        let list = values(&text).unwrap();
        let report: Vec<&[u8]> = list.iter().map(|(_, value)| value).skip(14).take(5).collect();
        assert_eq!(report, [&b"UCI"[..], b"R1", b"AA", b"BB", b"7"]);
    }
}
