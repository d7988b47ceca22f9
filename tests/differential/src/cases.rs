//! The cases of a run. Each is a few calls that belong together.

use second::acknowledgement::Lent;
use second::acknowledgement_cases::{acknowledged, one_element, DATE, MESSAGE, REFERENCE};
use second::cases::{all_cases, all_pairs, Case};
use second::generator::{request, with_breaks, Random, ALL_KINDS};
use second::line_breaks::is_break;
use second::operations;
use second::refusal::{BUFFER, LONGEST, LONGEST_TABLE};
use second::request_stream::Request;

use hverolda::surface::{Comparison, Kept, Verdict};

use crate::breaks::{after_breaks, misplaced};
use crate::by_wrapper;
use crate::call::{Answer, Call, Outcome, Told};
use crate::columns;
use crate::inputs;
use crate::lent::filled;
use crate::limits::{limit, write_limit, Limit, WriteLimit};
use crate::owned::{self, Parts};
use crate::pairs::{pair, Change, CHANGES};
use crate::run::{Checked, Run};
use crate::sections::section;
use crate::tables::make_wild;
use crate::wide;

/// The paper's cases and the standard's examples, with the answers that are
/// stated for them, and with every operation.
pub fn stated(run: &mut Run) -> Checked<()> {
    let cases = all_cases();
    for case in &cases {
        let call = Call::Judge { input: case.input.clone() };
        let line = line(&run.check(&call)?.answer);
        run.known(line == case.expected, &call, &case.expected)?;
        every_operation(run, case.input.clone())?;
        acknowledged_as_stated(run, case)?;
    }
    for stated in all_pairs() {
        let input = |name: &str| {
            let case = cases.iter().find(|case| case.name == name);
            case.expect("a pair names two cases").input.clone()
        };
        let (first, second) = (input(&stated.first), input(&stated.second));
        let call = Call::Compare { first: first.clone(), second: second.clone() };
        let line = line(&run.check(&call)?.answer);
        run.known(line == stated.expected, &call, &stated.expected)?;
        two(run, first, second)?;
    }
    Ok(())
}

/// The stored text or refusal of the case's acknowledgement.
fn acknowledged_as_stated(run: &mut Run, case: &Case) -> Checked<()> {
    let call = Call::Acknowledge {
        received: case.input.clone(),
        lists: [DATE, REFERENCE, MESSAGE].map(one_element),
        output: filled(&mut run.random, LONGEST),
    };
    let told = match run.check(&call)?.stored() {
        Ok((text, _)) => String::from_utf8_lossy(text).into_owned(),
        Err((number, place)) => format!("refused {number} {place}"),
    };
    let stated = acknowledged(case);
    run.known(told == stated, &call, &stated)
}

/// The line that is stated for an answer of Judge or Compare.
fn line(answer: &Answer) -> String {
    match answer {
        Answer::Judge(Verdict { number: 0, segments, messages, groups, length, .. }) => {
            format!("accepted {segments} {messages} {groups} {length}")
        }
        Answer::Judge(verdict) => format!("refused {} {}", verdict.number, verdict.place),
        Answer::Compare(Comparison { number: 0, same: 1, .. }) => "same".to_string(),
        Answer::Compare(Comparison { number: 0, .. }) => "different".to_string(),
        other => format!("{other:?}"),
    }
}

/// A case at random.
pub fn any(run: &mut Run) -> Checked<()> {
    match run.random.below(28) {
        0..=5 => {
            let kind = run.random.pick(ALL_KINDS.as_bytes());
            let call = request(&mut run.random, kind).into();
            run.check(&call).map(drop)
        }
        6..=10 => {
            let input = inputs::input(&mut run.random);
            let broken = input.iter().copied().any(is_break);
            run.tally.count("input", if broken { "with line breaks" } else { "in one line" });
            every_operation(run, input)
        }
        11 if run.random.chance(75) => known(run, "limit", limit),
        11 => known_write_limit(run),
        12 => known(run, "sections", section),
        13..=16 => {
            let change = run.random.pick(&CHANGES);
            known_pair(run, change)
        }
        23 | 24 => acknowledgement(run),
        25 => columns::there_and_back(run),
        26 | 27 => columns::slip(run),
        17 | 18 => known_breaks(run),
        19 => known_misplaced(run),
        _ => list(run),
    }
}

/// Every operation that reads an interchange, with buffers of several sizes.
fn every_operation(run: &mut Run, input: Vec<u8>) -> Checked<()> {
    run.check(&Call::Judge { input: input.clone() })?;
    run.check(&Call::Parties { input: input.clone() })?;
    let form = normalised(run, &input)?;
    let list = read(run, &input)?;
    owned::of_input(run, &input, &form, &list)?;
    let table = list.map_or(Vec::new(), |(_, table)| table);
    for _ in 0..3 {
        let numbers = inputs::numbers(&mut run.random, &table);
        run.check(&Call::Locate { numbers, input: input.clone() })?;
        run.check(&Call::Part { numbers, input: input.clone() })?;
    }
    let x = second::cases::X.as_bytes().to_vec();
    two(run, input.clone(), x.clone())?;
    two(run, x, input.clone())?;
    two(run, input.clone(), input)
}

fn two(run: &mut Run, first: Vec<u8>, second: Vec<u8>) -> Checked<()> {
    run.check(&Call::Compare { first: first.clone(), second: second.clone() })?;
    run.check(&Call::Keep { first, second }).map(drop)
}

/// The sizes of a buffer, each with its name, where so much is needed. The
/// last one is enough; now and then 16 bits do not hold it.
pub fn rooms(run: &mut Run, needed: usize) -> Vec<(usize, &'static str)> {
    let longer = needed + run.random.between(1, 40);
    let mut rooms = match needed {
        0 => vec![(0, "empty"), (longer, "any")],
        _ => vec![(0, "empty"), (needed - 1, "one short"), (needed, "exact"), (longer, "longer")],
    };
    if run.random.chance(2) {
        let name = if needed == 0 { "any of 65536 or more" } else { "65536 or more" };
        rooms.push((wide::room(&mut run.random, needed), name));
    }
    rooms
}

/// The normal form, or why there is none.
fn normalised(run: &mut Run, input: &[u8]) -> Checked<Told<Vec<u8>>> {
    let needed = operations::judge(input).map_or(0, |verdict| verdict.normal_length);
    let mut form = Ok(Vec::new());
    for (room, name) in rooms(run, needed) {
        let buffer = filled(&mut run.random, room);
        let outcome = run.check(&Call::Normalise { buffer, input: input.to_vec() })?;
        run.tally.count("normalise buffer", name);
        // the last room is enough
        form = outcome.stored().map(|(bytes, _)| bytes.to_vec());
    }
    Ok(form)
}

/// The values, or why there are none.
fn read(run: &mut Run, input: &[u8]) -> Checked<Told<Parts>> {
    let (mut bytes, mut table) = (vec![0; LONGEST], vec![0; LONGEST_TABLE]);
    let needed = operations::read(input, &mut bytes, &mut table);
    let (byte_count, number_count) = needed.map_or((0, 0), |counts| (counts.bytes, counts.numbers));
    let (byte_rooms, table_rooms) = (rooms(run, byte_count), rooms(run, number_count));
    let mut list = Ok(Parts::default());
    for turn in 0..5 {
        // the byte buffer must do for the table to be looked at
        let byte_room = match turn {
            0 | 1 => byte_rooms[byte_rooms.len() / 2],
            2 | 3 => run.random.pick(&byte_rooms),
            _ => byte_rooms[byte_rooms.len() - 1],
        };
        // the last rooms are enough
        let table_room = match turn {
            0..=3 => run.random.pick(&table_rooms),
            _ => table_rooms[table_rooms.len() - 1],
        };
        let outcome = read_into(run, input, byte_room, table_room)?;
        list = outcome.stored().map(|(bytes, table)| (bytes.to_vec(), table.to_vec()));
    }
    Ok(list)
}

/// Read into buffers of two sizes with their names.
fn read_into(
    run: &mut Run,
    input: &[u8],
    (room, byte_name): (usize, &'static str),
    (numbers, table_name): (usize, &'static str),
) -> Checked<Outcome> {
    let call = Call::Read {
        bytes: filled(&mut run.random, room),
        table: filled(&mut run.random, numbers),
        input: input.to_vec(),
    };
    run.tally.count("read bytes", byte_name);
    run.tally.count("read table", table_name);
    run.check(&call)
}

/// An interchange at a limit, or with sections, with the answer that the paper
/// gives it.
fn known(run: &mut Run, what: &'static str, make: fn(&mut Random) -> Limit) -> Checked<()> {
    let Limit { input, verdict, name } = make(&mut run.random);
    let known = Outcome::of(Answer::Judge(verdict));
    run.check_known(&Call::Judge { input: input.clone() }, &known, name)?;
    run.tally.count(what, name);
    every_operation(run, input)
}

/// An input, now and then at a limit, and the same with line breaks that are
/// passed over.
fn known_breaks(run: &mut Run) -> Checked<()> {
    let input = match run.random.chance(8) {
        true => limit(&mut run.random).input,
        false => inputs::input(&mut run.random),
    };
    let broken = with_breaks(&mut run.random, &input);
    let before = match run.check(&Call::Judge { input })?.answer {
        Answer::Judge(verdict) => verdict,
        other => unreachable!("Judge answers {other:?}"),
    };
    let (after, name) = after_breaks(before, &broken);
    let known = Outcome::of(Answer::Judge(after));
    run.check_known(&Call::Judge { input: broken.input.clone() }, &known, name)?;
    run.tally.count("line breaks", name);
    every_operation(run, broken.input)
}

/// An interchange with a line break where it may not stand.
fn known_misplaced(run: &mut Run) -> Checked<()> {
    let (input, verdict, name) = misplaced(&mut run.random);
    let known = Outcome::of(Answer::Judge(verdict));
    run.check_known(&Call::Judge { input: input.clone() }, &known, name)?;
    run.tally.count("line break", name);
    every_operation(run, input)
}

/// A value list at a limit, with the answer that the paper gives it.
fn known_write_limit(run: &mut Run) -> Checked<()> {
    let WriteLimit { service, values, table, written, name } = write_limit(&mut run.random);
    let room = match run.random.chance(50) {
        true => LONGEST + run.random.below(3),
        false => wide::room(&mut run.random, LONGEST),
    };
    let output = filled(&mut run.random, room);
    let call = Call::Write { service, values, table, output };
    let outcome = run.check(&call)?;
    run.known(outcome.answer == Answer::Write(written), &call, name)?;
    run.tally.count("limit", name);
    Ok(())
}

/// Two interchanges that are known to be the same or not.
fn known_pair(run: &mut Run, change: Change) -> Checked<()> {
    let (first, second) = pair(&mut run.random, change);
    let same = change.is_same();
    let comparison = Comparison { same: same.into(), ..Comparison::default() };
    let kept = match (same, second.len() < first.len()) {
        (false, _) => Kept { input: 1, offset: 0, length: 0 },
        (true, false) => Kept { input: 1, offset: 0, length: first.len() },
        (true, true) => Kept { input: 2, offset: 0, length: second.len() },
    };
    let (one, other) = (first.clone(), second.clone());
    let call = Call::Keep { first: one, second: other };
    run.check_known(&call, &Outcome::of(Answer::Keep(kept)), change.name())?;
    let (one, other) = (first.clone(), second.clone());
    let call = Call::Compare { first: one, second: other };
    run.check_known(&call, &Outcome::of(Answer::Compare(comparison)), change.name())?;
    let equal = normalised(run, &first)? == normalised(run, &second)?;
    run.known(equal == same, &call, "equal normal forms are to say the same")?;
    run.tally.count("pair", change.name());
    Ok(())
}

/// A value list, now and then with wild numbers, written to outputs of several
/// sizes.
fn list(run: &mut Run) -> Checked<()> {
    let (service, values, mut table) = match request(&mut run.random, b'W') {
        Request::Write { service, values, table, .. } => (service, values, table),
        _ => unreachable!("a request of kind W is a Write"),
    };
    if run.random.chance(30) {
        make_wild(&mut run.random, &mut table, values.len() as u32);
    }
    if begins_with_break(&values, &table) {
        run.tally.count("write list", "a segment begins with a break");
    }
    let needed = match operations::write(&service, &values, &table, &mut []) {
        Err(refusal) if refusal.number == BUFFER => refusal.place,
        _ => 0,
    };
    for (room, name) in rooms(run, needed) {
        let output = filled(&mut run.random, room);
        let (service, values, table) = (service.clone(), values.clone(), table.clone());
        run.check(&Call::Write { service, values, table, output })?;
        run.tally.count("write output", name);
    }
    owned::of_list(run, &service, &values, &table)
}

/// An interchange and three lists, acknowledged into outputs of several sizes, and by the
/// wrapper as a text of its own.
fn acknowledgement(run: &mut Run) -> Checked<()> {
    let call = Call::from(request(&mut run.random, b'A'));
    let (received, lists) = match &call {
        Call::Acknowledge { received, lists, .. } => (received.clone(), lists.clone()),
        _ => unreachable!("a request of kind A is an Acknowledge"),
    };
    let [date, reference, message] = [0, 1, 2].map(|number| lists[number].lent());
    let lent = Lent { date, reference, message };
    let needed = match operations::acknowledge(&received, &lent, &mut []) {
        Err(refusal) if refusal.number == BUFFER => refusal.place,
        _ => 0,
    };
    let of = match operations::judge(&received) {
        Ok(_) => "an accepted one",
        Err(refusal) if refusal.number == 10 => "one refused by 10",
        Err(refusal) if refusal.number == 11 => "one refused by 11",
        Err(refusal) if refusal.number == 12 => "one refused by 12",
        Err(_) => "one refused by another number",
    };
    for (room, name) in rooms(run, needed) {
        let output = filled(&mut run.random, room);
        let (received, lists) = (received.clone(), lists.clone());
        let call = Call::Acknowledge { received, lists, output };
        let outcome = run.check(&call)?;
        run.tally.count("acknowledge output", name);
        let stored = outcome.stored().map(|(text, _)| text.to_vec());
        if stored.is_ok() {
            run.tally.count("acknowledge of", of);
        }
        if room >= needed {
            let owned = acknowledged_by_wrapper(&call);
            run.known(owned == stored, &call, "the wrapper's text is the one stored")?;
        }
    }
    Ok(())
}

/// The wrapper's acknowledgement that owns its text.
fn acknowledged_by_wrapper(call: &Call) -> Told<Vec<u8>> {
    match call {
        Call::Acknowledge { received, lists, .. } => {
            hverolda::acknowledgement(received, &by_wrapper::lent(lists))
                .map_err(|refusal| (refusal.number(), refusal.place))
        }
        _ => unreachable!("the call is an Acknowledge"),
    }
}

/// Has the list a record of kind 0 whose value begins with a break?
fn begins_with_break(values: &[u8], table: &[u32]) -> bool {
    table.chunks_exact(3).any(|record| {
        let first = values.get(record[1] as usize).copied();
        record[0] == 0 && record[2] > 0 && first.map_or(false, is_break)
    })
}
