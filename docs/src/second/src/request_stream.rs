//! The request stream: one request after the other, each an operation's letter
//! and its fields; and the answer line of a request.
//!
//! A field is a 4-byte big-endian byte count and that many bytes; numbers are
//! 4-byte big-endian. The operations are those of the paper's clause
//! "Operations" and those of change requests 2026-11, "Acknowledgements", and
//! 2026-12, "Lines for a spreadsheet".

use std::io::{self, Read, Write};

use crate::acknowledgement::Lent;
use crate::operations::{self, Numbers};
use crate::report_lines as lines;
use crate::value_list::List;

#[derive(Clone, Debug, PartialEq, Eq)]
pub enum Request {
    Judge { input: Vec<u8> },
    Normalise { buffer: Vec<u8>, input: Vec<u8> },
    Compare { first: Vec<u8>, second: Vec<u8> },
    Keep { first: Vec<u8>, second: Vec<u8> },
    Locate { numbers: Numbers, input: Vec<u8> },
    Spelled { numbers: Numbers, input: Vec<u8> },
    Read { bytes: Vec<u8>, table: Vec<u32>, input: Vec<u8> },
    Write { service: Vec<u8>, values: Vec<u8>, table: Vec<u32>, output: Vec<u8> },
    Acknowledge { received: Vec<u8>, date: List, reference: List, message: List, output: Vec<u8> },
    Export { buffer: Vec<u8>, input: Vec<u8> },
    Import { service: Vec<u8>, text: Vec<u8>, output: Vec<u8> },
}

fn malformed(what: &str) -> io::Error {
    io::Error::new(io::ErrorKind::InvalidData, what.to_string())
}

/// The next request; None at the end of the stream.
pub fn next_request(stream: &mut impl Read) -> io::Result<Option<Request>> {
    let mut letter = [0u8];
    if stream.read(&mut letter)? == 0 {
        return Ok(None);
    }
    request_of(letter[0], stream).map(Some)
}

/// The fields of an initialiser are read in the order in which they stand.
fn request_of(letter: u8, stream: &mut impl Read) -> io::Result<Request> {
    Ok(match letter {
        b'J' => Request::Judge { input: field(stream)? },
        b'N' => Request::Normalise { buffer: field(stream)?, input: field(stream)? },
        b'C' => Request::Compare { first: field(stream)?, second: field(stream)? },
        b'K' => Request::Keep { first: field(stream)?, second: field(stream)? },
        b'L' => Request::Locate { numbers: numbers(stream)?, input: field(stream)? },
        b'P' => Request::Spelled { numbers: numbers(stream)?, input: field(stream)? },
        b'R' => {
            Request::Read { bytes: field(stream)?, table: table(stream)?, input: field(stream)? }
        }
        b'W' => Request::Write {
            service: field(stream)?,
            values: field(stream)?,
            table: table(stream)?,
            output: field(stream)?,
        },
        b'A' => Request::Acknowledge {
            received: field(stream)?,
            date: list(stream)?,
            reference: list(stream)?,
            message: list(stream)?,
            output: field(stream)?,
        },
        b'E' => Request::Export { buffer: field(stream)?, input: field(stream)? },
        b'I' => Request::Import {
            service: field(stream)?,
            text: field(stream)?,
            output: field(stream)?,
        },
        _ => return Err(malformed("a request begins with none of J N C K L P R W A E I")),
    })
}

fn field(stream: &mut impl Read) -> io::Result<Vec<u8>> {
    let mut count = [0u8; 4];
    stream.read_exact(&mut count)?;
    let count = u32::from_be_bytes(count);
    let mut bytes = Vec::new();
    stream.take(u64::from(count)).read_to_end(&mut bytes)?;
    if bytes.len() as u64 != u64::from(count) {
        return Err(malformed("the stream ends inside a field"));
    }
    Ok(bytes)
}

fn table(stream: &mut impl Read) -> io::Result<Vec<u32>> {
    let bytes = field(stream)?;
    if bytes.len() % 4 != 0 {
        return Err(malformed("a table is not whole numbers of 4 bytes"));
    }
    let number = |four: &[u8]| u32::from_be_bytes([four[0], four[1], four[2], four[3]]);
    Ok(bytes.chunks_exact(4).map(number).collect())
}

fn list(stream: &mut impl Read) -> io::Result<List> {
    Ok(List { values: field(stream)?, table: table(stream)? })
}

fn numbers(stream: &mut impl Read) -> io::Result<Numbers> {
    match table(stream)?[..] {
        [segment, element, repeat, component] => {
            Ok(Numbers { segment, element, repeat, component })
        }
        _ => Err(malformed("not four numbers")),
    }
}

/// The answer line of a request.
pub fn answer(request: Request) -> String {
    match request {
        Request::Judge { input } => lines::judge_and_characters_line(&operations::judge(&input)),
        Request::Normalise { mut buffer, input } => {
            let answer = operations::normalise(&input, &mut buffer);
            lines::length_line(&answer, &buffer)
        }
        Request::Compare { first, second } => {
            lines::compare_line(&operations::compare(&first, &second))
        }
        Request::Keep { first, second } => lines::keep_line(&operations::keep(&first, &second)),
        Request::Locate { numbers, input } => {
            lines::locate_line(&operations::locate(&input, numbers))
        }
        Request::Spelled { numbers, input } => {
            lines::spelled_line(&operations::spelled(&input, numbers))
        }
        Request::Read { mut bytes, mut table, input } => {
            let answer = operations::read(&input, &mut bytes, &mut table);
            lines::read_line(&answer, &bytes, &table)
        }
        Request::Write { service, values, table, mut output } => {
            let answer = operations::write(&service, &values, &table, &mut output);
            lines::length_line(&answer, &output)
        }
        Request::Acknowledge { received, date, reference, message, mut output } => {
            let (date, reference) = (date.lent(), reference.lent());
            let lent = Lent { date, reference, message: message.lent() };
            let answer = operations::acknowledge(&received, &lent, &mut output);
            lines::length_line(&answer, &output)
        }
        Request::Export { mut buffer, input } => {
            let answer = operations::export(&input, &mut buffer);
            lines::length_line(&answer, &buffer)
        }
        Request::Import { service, text, mut output } => {
            let answer = operations::import(&service, &text, &mut output);
            lines::length_line(&answer, &output)
        }
    }
}

/// Answers a whole stream, one line a request.
pub fn answer_all(stream: &mut impl Read, out: &mut impl Write) -> io::Result<()> {
    while let Some(request) = next_request(stream)? {
        writeln!(out, "{}", answer(request))?;
    }
    Ok(())
}

/// Puts a request on a stream.
pub fn put_request(request: &Request, out: &mut impl Write) -> io::Result<()> {
    let (letter, fields) = letter_and_fields(request);
    out.write_all(&[letter])?;
    for field in fields {
        let count = u32::try_from(field.len()).map_err(|_| malformed("a field is too long"))?;
        out.write_all(&count.to_be_bytes())?;
        out.write_all(&field)?;
    }
    Ok(())
}

fn letter_and_fields(request: &Request) -> (u8, Vec<Vec<u8>>) {
    match request.clone() {
        Request::Judge { input } => (b'J', vec![input]),
        Request::Normalise { buffer, input } => (b'N', vec![buffer, input]),
        Request::Compare { first, second } => (b'C', vec![first, second]),
        Request::Keep { first, second } => (b'K', vec![first, second]),
        Request::Locate { numbers, input } => (b'L', vec![number_bytes(numbers), input]),
        Request::Spelled { numbers, input } => (b'P', vec![number_bytes(numbers), input]),
        Request::Read { bytes, table, input } => (b'R', vec![bytes, table_bytes(&table), input]),
        Request::Write { service, values, table, output } => {
            (b'W', vec![service, values, table_bytes(&table), output])
        }
        Request::Acknowledge { received, date, reference, message, output } => {
            let mut fields = vec![received];
            for list in [date, reference, message] {
                fields.extend([list.values, table_bytes(&list.table)]);
            }
            fields.push(output);
            (b'A', fields)
        }
        Request::Export { buffer, input } => (b'E', vec![buffer, input]),
        Request::Import { service, text, output } => (b'I', vec![service, text, output]),
    }
}

fn table_bytes(table: &[u32]) -> Vec<u8> {
    table.iter().flat_map(|number| number.to_be_bytes()).collect()
}

fn number_bytes(numbers: Numbers) -> Vec<u8> {
    table_bytes(&[numbers.segment, numbers.element, numbers.repeat, numbers.component])
}
