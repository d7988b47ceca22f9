//! Calls answered by the C functions of the surface, over guarded memory.

use hverolda::surface::{
    hverolda_acknowledge, hverolda_compare, hverolda_export, hverolda_import, hverolda_judge,
    hverolda_keep, hverolda_locate_value, hverolda_normalise, hverolda_parties, hverolda_read,
    hverolda_value_part, hverolda_write, Written,
};
use second::value_list::List;

use crate::call::{Answer, Call, Numbers, Outcome};
use crate::lent::{Lender, Lent};

/// What the surface makes of a call, or what it did beyond its buffers.
///
/// Each function below lends the surface pointers into memory that lives until
/// after the call, with the lengths that stand behind them.
pub fn outcome(lender: &mut Lender, call: &Call) -> Result<Outcome, String> {
    match call {
        Call::Judge { input } => judge(lender, input),
        Call::Normalise { buffer, input } => {
            into_buffer(lender, buffer, input, hverolda_normalise, Answer::Normalise)
        }
        Call::Export { buffer, input } => {
            into_buffer(lender, buffer, input, hverolda_export, Answer::Export)
        }
        Call::Compare { first, second } => two(lender, first, second, compare),
        Call::Keep { first, second } => two(lender, first, second, keep),
        Call::Locate { numbers, input } => numbered(lender, *numbers, input, locate),
        Call::Part { numbers, input } => numbered(lender, *numbers, input, part),
        Call::Parties { input } => parties(lender, input),
        Call::Read { bytes, table, input } => read(lender, bytes, table, input),
        Call::Write { service, values, table, output } => {
            write(lender, service, values, table, output)
        }
        Call::Acknowledge { received, lists, output } => {
            acknowledge(lender, received, lists, output)
        }
        Call::Import { service, columns, output } => import(lender, service, columns, output),
    }
}

fn judge(lender: &mut Lender, input: &[u8]) -> Result<Outcome, String> {
    let mut input = lender.lend(input);
    // SAFETY: a pointer into living memory and the length behind it.
    let verdict = unsafe { hverolda_judge(input.pointer(), input.length()) };
    input.unchanged("the input")?;
    Ok(Outcome::of(Answer::Judge(verdict)))
}

fn parties(lender: &mut Lender, input: &[u8]) -> Result<Outcome, String> {
    let mut input = lender.lend(input);
    // SAFETY: as in `judge`.
    let told = unsafe { hverolda_parties(input.pointer(), input.length()) };
    input.unchanged("the input")?;
    Ok(Outcome::of(Answer::Parties(told)))
}

type IntoBuffer = unsafe extern "C" fn(*mut u8, usize, *const u8, usize) -> Written;

/// Normalise and Export: both store what they make of an input in a buffer.
fn into_buffer(
    lender: &mut Lender,
    buffer: &[u8],
    input: &[u8],
    operation: IntoBuffer,
    answer: fn(Written) -> Answer,
) -> Result<Outcome, String> {
    let (mut buffer, mut input) = (lender.lend(buffer), lender.lend(input));
    let (room, length) = (buffer.length(), input.length());
    // SAFETY: as in `judge`, and the two are apart.
    let written = unsafe { operation(buffer.pointer(), room, input.pointer(), length) };
    input.unchanged("the input")?;
    let bytes = buffer.exit("the buffer")?.to_vec();
    Ok(Outcome { bytes, ..Outcome::of(answer(written)) })
}

type OfTwo = fn((*const u8, usize), (*const u8, usize)) -> Answer;

fn compare(first: (*const u8, usize), second: (*const u8, usize)) -> Answer {
    // SAFETY: as in `judge`; both are only read, so they may be one.
    Answer::Compare(unsafe { hverolda_compare(first.0, first.1, second.0, second.1) })
}

fn keep(first: (*const u8, usize), second: (*const u8, usize)) -> Answer {
    // SAFETY: as in `compare`.
    Answer::Keep(unsafe { hverolda_keep(first.0, first.1, second.0, second.1) })
}

/// Inputs with equal bytes are one slice lent twice, every other time.
fn two(
    lender: &mut Lender,
    first: &[u8],
    second: &[u8],
    operation: OfTwo,
) -> Result<Outcome, String> {
    let once = first == second && lender.twice();
    let (mut first, mut second) = (lender.lend(first), lender.lend(second));
    let lent = |input: &mut Lent<u8>| (input.pointer() as *const u8, input.length());
    let one = lent(&mut first);
    let other = if once { one } else { lent(&mut second) };
    let answer = operation(one, other);
    first.unchanged("the first input")?;
    second.unchanged("the second input")?;
    Ok(Outcome::of(answer))
}

type Numbered = fn(&mut Lent<u8>, Numbers) -> Answer;

fn locate(input: &mut Lent<u8>, [segment, element, repeat, component]: Numbers) -> Answer {
    let length = input.length();
    // SAFETY: as in `judge`.
    let told = unsafe {
        hverolda_locate_value(input.pointer(), length, segment, element, repeat, component)
    };
    Answer::Locate(told)
}

fn part(input: &mut Lent<u8>, [segment, element, repeat, component]: Numbers) -> Answer {
    let length = input.length();
    // SAFETY: as in `judge`.
    let told = unsafe {
        hverolda_value_part(input.pointer(), length, segment, element, repeat, component)
    };
    Answer::Part(told)
}

fn numbered(
    lender: &mut Lender,
    numbers: Numbers,
    input: &[u8],
    operation: Numbered,
) -> Result<Outcome, String> {
    let mut input = lender.lend(input);
    let answer = operation(&mut input, numbers);
    input.unchanged("the input")?;
    Ok(Outcome::of(answer))
}

fn read(lender: &mut Lender, bytes: &[u8], table: &[u32], input: &[u8]) -> Result<Outcome, String> {
    let (mut bytes, mut table) = (lender.lend(bytes), lender.lend(table));
    let mut input = lender.lend(input);
    let (room, numbers, length) = (bytes.length(), table.length(), input.length());
    // SAFETY: as in `judge`, and the three are apart.
    let listing = unsafe {
        hverolda_read(bytes.pointer(), room, table.pointer(), numbers, input.pointer(), length)
    };
    input.unchanged("the input")?;
    let bytes = bytes.exit("the byte buffer")?.to_vec();
    let table = table.exit("the table")?.to_vec();
    Ok(Outcome { answer: Answer::Read(listing), bytes, table })
}

fn write(
    lender: &mut Lender,
    service: &[u8],
    values: &[u8],
    table: &[u32],
    output: &[u8],
) -> Result<Outcome, String> {
    let (mut service, mut values) = (lender.lend(service), lender.lend(values));
    let (mut table, mut output) = (lender.lend(table), lender.lend(output));
    let lengths = (service.length(), values.length(), table.length(), output.length());
    // SAFETY: as in `judge`, and the four are apart.
    let written = unsafe {
        hverolda_write(
            service.pointer(),
            lengths.0,
            values.pointer(),
            lengths.1,
            table.pointer(),
            lengths.2,
            output.pointer(),
            lengths.3,
        )
    };
    service.unchanged("the service bytes")?;
    values.unchanged("the values")?;
    table.unchanged("the table")?;
    let bytes = output.exit("the output")?.to_vec();
    Ok(Outcome { bytes, ..Outcome::of(Answer::Write(written)) })
}

fn acknowledge(
    lender: &mut Lender,
    received: &[u8],
    lists: &[List; 3],
    output: &[u8],
) -> Result<Outcome, String> {
    let (mut received, mut output) = (lender.lend(received), lender.lend(output));
    let [mut date, mut reference, mut message] =
        [0, 1, 2].map(|n: usize| (lender.lend(&lists[n].values), lender.lend(&lists[n].table)));
    let (length, room) = (received.length(), output.length());
    let lengths = |list: &(Lent<u8>, Lent<u32>)| (list.0.length(), list.1.length());
    let (dates, references, messages) = (lengths(&date), lengths(&reference), lengths(&message));
    // SAFETY: as in `judge`, and the eight are apart.
    let written = unsafe {
        hverolda_acknowledge(
            received.pointer(),
            length,
            date.0.pointer(),
            dates.0,
            date.1.pointer(),
            dates.1,
            reference.0.pointer(),
            references.0,
            reference.1.pointer(),
            references.1,
            message.0.pointer(),
            messages.0,
            message.1.pointer(),
            messages.1,
            output.pointer(),
            room,
        )
    };
    received.unchanged("the received bytes")?;
    for (values, table) in [&date, &reference, &message] {
        values.unchanged("a lent list's values")?;
        table.unchanged("a lent list's table")?;
    }
    let bytes = output.exit("the output")?.to_vec();
    Ok(Outcome { bytes, ..Outcome::of(Answer::Acknowledge(written)) })
}

fn import(
    lender: &mut Lender,
    service: &[u8],
    columns: &[u8],
    output: &[u8],
) -> Result<Outcome, String> {
    let (mut service, mut columns) = (lender.lend(service), lender.lend(columns));
    let mut output = lender.lend(output);
    let lengths = (service.length(), columns.length(), output.length());
    // SAFETY: as in `judge`, and the three are apart.
    let written = unsafe {
        hverolda_import(
            service.pointer(),
            lengths.0,
            columns.pointer(),
            lengths.1,
            output.pointer(),
            lengths.2,
        )
    };
    service.unchanged("the service bytes")?;
    columns.unchanged("the columns")?;
    let bytes = output.exit("the output")?.to_vec();
    Ok(Outcome { bytes, ..Outcome::of(Answer::Import(written)) })
}
