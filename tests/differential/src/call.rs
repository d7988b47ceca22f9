//! A call of one operation with all that it is lent, and what comes of it.

use std::fmt;

use hverolda::surface::{Comparison, Kept, Listing, Location, Part, Parties, Verdict, Written};
use second::request_stream::Request;
use second::value_list::List;

/// Numbers of a segment, an element, a repeat and a component.
pub type Numbers = [usize; 4];

/// The lists of an acknowledgement are the date and time, the new control reference and
/// the message identification.
#[derive(Clone)]
pub enum Call {
    Judge { input: Vec<u8> },
    Normalise { buffer: Vec<u8>, input: Vec<u8> },
    Compare { first: Vec<u8>, second: Vec<u8> },
    Keep { first: Vec<u8>, second: Vec<u8> },
    Locate { numbers: Numbers, input: Vec<u8> },
    Part { numbers: Numbers, input: Vec<u8> },
    Parties { input: Vec<u8> },
    Read { bytes: Vec<u8>, table: Vec<u32>, input: Vec<u8> },
    Write { service: Vec<u8>, values: Vec<u8>, table: Vec<u32>, output: Vec<u8> },
    Acknowledge { received: Vec<u8>, lists: [List; 3], output: Vec<u8> },
    Export { buffer: Vec<u8>, input: Vec<u8> },
    Import { service: Vec<u8>, columns: Vec<u8>, output: Vec<u8> },
}

impl From<Request> for Call {
    fn from(request: Request) -> Call {
        let wide = |numbers: second::operations::Numbers| {
            [numbers.segment, numbers.element, numbers.repeat, numbers.component]
                .map(|number| number as usize)
        };
        match request {
            Request::Judge { input } => Call::Judge { input },
            Request::Normalise { buffer, input } => Call::Normalise { buffer, input },
            Request::Compare { first, second } => Call::Compare { first, second },
            Request::Keep { first, second } => Call::Keep { first, second },
            Request::Locate { numbers, input } => Call::Locate { numbers: wide(numbers), input },
            Request::Spelled { numbers, input } => Call::Part { numbers: wide(numbers), input },
            Request::Read { bytes, table, input } => Call::Read { bytes, table, input },
            Request::Write { service, values, table, output } => {
                Call::Write { service, values, table, output }
            }
            Request::Acknowledge { received, date, reference, message, output } => {
                Call::Acknowledge { received, lists: [date, reference, message], output }
            }
            Request::Export { buffer, input } => Call::Export { buffer, input },
            Request::Import { service, text, output } => {
                Call::Import { service, columns: text, output }
            }
        }
    }
}

/// The operation and, a line each, what is lent to it.
impl fmt::Display for Call {
    fn fmt(&self, f: &mut fmt::Formatter) -> fmt::Result {
        let (name, numbers, lent) = self.parts();
        writeln!(f, "{name}")?;
        if let Some(numbers) = numbers {
            writeln!(f, "  numbers: {numbers:?}")?;
        }
        for (name, bytes) in lent {
            writeln!(f, "  {name}: {}", Hex(bytes))?;
        }
        match self {
            Call::Read { table, .. } | Call::Write { table, .. } => {
                writeln!(f, "  table, hexadecimal: {table:x?}")
            }
            Call::Acknowledge { lists, .. } => lists
                .iter()
                .try_for_each(|list| writeln!(f, "  table, hexadecimal: {:x?}", list.table)),
            _ => Ok(()),
        }
    }
}

type Named<'a> = Vec<(&'static str, &'a [u8])>;

impl Call {
    /// The operation's name, its numbers and its byte slices.
    fn parts(&self) -> (&'static str, Option<Numbers>, Named<'_>) {
        match self {
            Call::Judge { input } => ("judge", None, vec![("input", input)]),
            Call::Normalise { buffer, input } => {
                ("normalise", None, vec![("buffer", buffer), ("input", input)])
            }
            Call::Compare { first, second } => {
                ("compare", None, vec![("first", first), ("second", second)])
            }
            Call::Keep { first, second } => {
                ("keep", None, vec![("first", first), ("second", second)])
            }
            Call::Locate { numbers, input } => ("locate", Some(*numbers), vec![("input", input)]),
            Call::Part { numbers, input } => ("part", Some(*numbers), vec![("input", input)]),
            Call::Parties { input } => ("parties", None, vec![("input", input)]),
            Call::Read { bytes, input, .. } => {
                ("read", None, vec![("bytes", bytes), ("input", input)])
            }
            Call::Write { service, values, output, .. } => {
                ("write", None, vec![("service", service), ("values", values), ("output", output)])
            }
            Call::Acknowledge { received, lists: [date, reference, message], output } => {
                let lists = [("date", date), ("reference", reference), ("message", message)];
                let mut lent: Named = vec![("received", received), ("output", output)];
                lent.extend(lists.map(|(name, list)| (name, &list.values[..])));
                ("acknowledge", None, lent)
            }
            Call::Export { buffer, input } => {
                ("export", None, vec![("buffer", buffer), ("input", input)])
            }
            Call::Import { service, columns, output } => {
                let lent: Named =
                    vec![("service", service), ("columns", columns), ("output", output)];
                ("import", None, lent)
            }
        }
    }
}

struct Hex<'a>(&'a [u8]);

impl fmt::Display for Hex<'_> {
    fn fmt(&self, f: &mut fmt::Formatter) -> fmt::Result {
        self.0.iter().try_for_each(|byte| write!(f, "{byte:02x}"))
    }
}

/// The struct that an operation answers with.
#[derive(Clone, Copy, Debug, PartialEq, Eq)]
pub enum Answer {
    Judge(Verdict),
    Normalise(Written),
    Compare(Comparison),
    Keep(Kept),
    Locate(Location),
    Part(Part),
    Parties(Parties),
    Read(Listing),
    Write(Written),
    Acknowledge(Written),
    Export(Written),
    Import(Written),
}

/// What comes of a call: the answer, and the buffers at exit where it has any.
#[derive(Clone, PartialEq, Eq)]
pub struct Outcome {
    pub answer: Answer,
    pub bytes: Vec<u8>,
    pub table: Vec<u32>,
}

/// What an operation stored, or its refusal's number and place.
pub type Told<T> = Result<T, (u32, usize)>;

impl Outcome {
    /// Of an operation that stores nothing.
    pub fn of(answer: Answer) -> Outcome {
        Outcome { answer, bytes: Vec::new(), table: Vec::new() }
    }

    /// The bytes and the table numbers that were stored.
    pub fn stored(&self) -> Told<(&[u8], &[u32])> {
        let (number, place, bytes, numbers) = match self.answer {
            Answer::Normalise(told)
            | Answer::Write(told)
            | Answer::Acknowledge(told)
            | Answer::Export(told)
            | Answer::Import(told) => (told.number, told.place, told.length, 0),
            Answer::Read(told) => (told.number, told.place, told.bytes, told.numbers),
            _ => (0, 0, 0, 0),
        };
        match number {
            0 => Ok((&self.bytes[..bytes], &self.table[..numbers])),
            _ => Err((number, place)),
        }
    }
}

/// The answer and, a line each, the buffers at exit.
impl fmt::Display for Outcome {
    fn fmt(&self, f: &mut fmt::Formatter) -> fmt::Result {
        writeln!(f, "{:?}", self.answer)?;
        if !self.bytes.is_empty() {
            writeln!(f, "  bytes at exit: {}", Hex(&self.bytes))?;
        }
        if !self.table.is_empty() {
            writeln!(f, "  table at exit, hexadecimal: {:x?}", self.table)?;
        }
        Ok(())
    }
}
