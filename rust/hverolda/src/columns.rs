//! Export and Import: an interchange in columns for a spreadsheet, and back.

use crate::judging::ServiceCharacters;
use crate::refusal::{Fault, Refusal};
use crate::{surface, LONGEST};

/// Stores the contents of an interchange in columns at the beginning of `buffer`, and
/// answers how many bytes that are. The bytes beyond keep their values; where it is refused
/// all of them do.
///
/// The text is a heading line of segment, element, repeat, component, value, then one line
/// for each value of the trimmed contents, with its numbers from 0 in decimal. Columns are
/// separated by tabs, and a line feed stands after each line.
///
/// # Errors
///
/// As [`judge`](crate::judge) refuses; then 14 with the bytes needed.
///
/// ```
/// let input = b"UNB+UNOA:1++++1'UNH+1'UNT+2+1'UNZ+1+1'";
/// let mut buffer = [0; 400];
/// let length = hverolda::export(input, &mut buffer)?;
/// assert!(buffer[..length].starts_with(
///     b"segment\telement\trepeat\tcomponent\tvalue\n0\t0\t0\t0\tUNB\n0\t1\t0\t0\tUNOA\n0\t1\t0\t1\t1\n"
/// ));
/// # Ok::<(), hverolda::Refusal>(())
/// ```
pub fn export(input: &[u8], buffer: &mut [u8]) -> Result<usize, Refusal> {
    let written = surface::export(input, buffer);
    Refusal::told(written.number, written.place)?;
    Ok(written.length)
}

/// The contents of an interchange in columns.
///
/// # Errors
///
/// As [`export`] refuses, but for 14.
pub fn columns(input: &[u8]) -> Result<Vec<u8>, Refusal> {
    let mut text = match export(input, &mut []) {
        Err(Refusal { fault: Fault::Buffer, place }) => vec![0; place],
        other => return other.map(|_| Vec::new()),
    };
    export(input, &mut text)?;
    Ok(text)
}

/// Stores the interchange that a text in columns tells, under six service bytes and with an
/// advice that names them, at the beginning of `output`, and answers its length. The bytes
/// beyond it keep their values; where it is refused all of `output` becomes zero.
///
/// It takes exactly the texts that [`export`] gives for some trimmed list of values that
/// hold no tab, carriage return or line feed. A text may have any length, and costs a few
/// steps a byte, whatever it is.
///
/// # Errors
///
/// 24 for any other text; then as [`write()`](crate::write()) refuses the list of values,
/// whose records are the lines after the heading.
///
/// ```
/// let input = b"UNB+UNOA:1++++1'UNH+1'UNT+2+1'UNZ+1+1'";
/// let text = hverolda::columns(input)?;
/// let mut output = [0; 64];
/// let length = hverolda::import(b";*.! ~", &text, &mut output)?;
/// assert_eq!(&output[..length], b"UNA;*.! ~UNB*UNOA;1****1~UNH*1~UNT*2*1~UNZ*1*1~");
///
/// let saved: Vec<u8> = String::from_utf8_lossy(&text).replace('\n', "\r\n").into_bytes();
/// let refusal = hverolda::import(b";*.! ~", &saved, &mut output).unwrap_err();
/// assert_eq!((refusal.number(), refusal.place), (24, 0));
/// # Ok::<(), hverolda::Refusal>(())
/// ```
pub fn import(service: &[u8], columns: &[u8], output: &mut [u8]) -> Result<usize, Refusal> {
    let written = surface::import(service, columns, output);
    Refusal::told(written.number, written.place)?;
    Ok(written.length)
}

/// The interchange that a text in columns tells, under these service characters.
///
/// # Errors
///
/// As [`import`] refuses, but for 14.
pub fn imported(characters: &ServiceCharacters, columns: &[u8]) -> Result<Vec<u8>, Refusal> {
    let mut text = vec![0; LONGEST];
    let length = import(&characters.six(), columns, &mut text)?;
    text.truncate(length);
    text.shrink_to_fit();
    Ok(text)
}

#[cfg(test)]
mod tests {
    use super::*;
    use crate::examples::{NORMAL, REPEATED, WRONG_COUNT, X};
    use crate::values;

    const STANDARD: ServiceCharacters = ServiceCharacters::STANDARD;

    /// X in columns, with one thing changed.
    fn with(from: &str, to: &str) -> Vec<u8> {
        let text = String::from_utf8(columns(X).unwrap()).unwrap();
        assert!(text.contains(from));
        text.replacen(from, to, 1).into_bytes()
    }

    #[test]
    fn there_and_back_is_the_normal_form() {
        let text = columns(X).unwrap();
        assert_eq!(text.iter().filter(|&&byte| byte == b'\n').count(), 24);
        assert_eq!(imported(&STANDARD, &text).as_deref(), Ok(NORMAL));
    }

    #[test]
    fn repeats_have_a_column() {
        let text = columns(REPEATED).unwrap();
        let lines = String::from_utf8_lossy(&text);
        assert!(lines.contains("2\t1\t0\t1\t1\n2\t1\t1\t0\tON\n2\t1\t1\t1\t2\n"));
        let back = imported(&ServiceCharacters::VERSION_4, &text).unwrap();
        assert_eq!(values(&back), values(REPEATED));
        assert_eq!(imported(&STANDARD, &text).unwrap_err().number(), 16);
    }

    #[test]
    fn a_slip_is_no_columns() {
        let (crlf, quotes) = (with("UNB\n", "UNB\r\n"), with("0\t0\t0\t0\t", "\"0\"\t0\t0\t0\t"));
        let mut unended = columns(X).unwrap();
        unended.pop();
        for text in [
            crlf,
            quotes,
            unended,
            with("0\t1\t", "00\t1\t"),
            with("0\t1\t0\t0\t", "0\t2\t0\t0\t"),
            with("\tUNH\n", "\tUNH\n\n"),
            with("\tUNH\n", "\tUNH\n1\t1\t0\t0\t\n"),
            with("segment", "Segment"),
            Vec::new(),
        ] {
            let mut output = [7; 100];
            let refusal = import(&STANDARD.six(), &text, &mut output).unwrap_err();
            assert_eq!(refusal, Refusal { fault: Fault::NoColumns, place: 0 });
            assert!(output.iter().all(|&byte| byte == 0));
        }
    }

    #[test]
    fn what_no_interchange_has_the_writer_refuses() {
        let refused = |fault, place| Err(Refusal { fault, place });
        let heading =
            with("0\t0\t0\t0\tUNB\n", "\0").split(|&byte| byte == 0).next().unwrap().to_vec();
        assert_eq!(imported(&STANDARD, &heading), refused(Fault::Beginning, 9));
        assert_eq!(
            imported(&STANDARD, &with("\tUNB\n", "\t\"UNB\"\n")),
            refused(Fault::Beginning, 9)
        );
        let unusable = ServiceCharacters { terminator: b' ', ..STANDARD };
        assert_eq!(imported(&unusable, &columns(X).unwrap()), refused(Fault::Advice, 0));
        assert_eq!(imported(&unusable, b""), refused(Fault::NoColumns, 0));
    }

    #[test]
    fn a_refused_export_leaves_the_buffer() {
        let needed = columns(X).unwrap().len();
        for (input, room, fault) in
            [(X, needed - 1, Fault::Buffer), (WRONG_COUNT, needed, Fault::Count)]
        {
            let mut buffer = vec![7; room];
            assert_eq!(export(input, &mut buffer).unwrap_err().fault, fault);
            assert!(buffer.iter().all(|&byte| byte == 7));
        }
        let mut buffer = vec![7; needed + 2];
        assert_eq!(export(X, &mut buffer), Ok(needed));
        assert_eq!(buffer[needed..], [7, 7]);
    }
}
