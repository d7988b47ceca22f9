//! Acknowledgements: rows by hand, generated interchanges beside a report that is
//! made of their draft, the order of refusals, and what the output then holds.
//!
//! Change request 2026-11, "Acknowledgements".

use crate::acknowledgement::Lent;
use crate::acknowledgement_cases::one_element;
use crate::cases::{x_with, X};
use crate::generator::{request, with_parties, Draft, DraftElement, DraftSegment, Random};
use crate::level::{Level, Version};
use crate::normal_form::normal_characters;
use crate::operations::{acknowledge, judge, normalise, read};
use crate::program_lines::acknowledged_line;
use crate::refusal::{Answer, Refusal, BUFFER, LIST, LONGEST, NO_RELEASE, NO_REPORT};
use crate::request_stream::Request;
use crate::value_list::{List, NEW_ELEMENT, NEW_SEGMENT, NEXT_COMPONENT, NEXT_REPEAT};

type Check = Result<(), String>;

fn ensure(holds: bool, what: &str, input: &[u8]) -> Check {
    match holds {
        true => Ok(()),
        false => Err(format!("acknowledgements, {what}: {}", input.escape_ascii())),
    }
}

/// The first failure.
pub fn check_acknowledgements() -> Check {
    check_rows()?;
    check_lent_lists()?;
    check_order()?;
    (0..3_000).try_for_each(check_of_draft)?;
    check_generated()
}

/// What X's acknowledgement is, with the code 7.
const OF_X: &str = "UNA:+.? 'UNB+UNOA:1+BB+AA+D:T+N'UNH+1+M'UCI+R1+AA+BB+7'UNT+3+1'UNZ+1+N'";

/// X and its neighbours, under the lists `D:T`, `N` and `M`.
fn check_rows() -> Check {
    let rejected = OF_X.replace("+7'", "+4'");
    let four = |text: &str| text.replacen("UNOA:1", "UNOA:4", 1).replacen("? '", "?*'", 1);
    let x4 = X.replacen("UNOA:1", "UNOA:4", 1);
    let refused = "refused 23 0";
    let none = String::new();
    let rows: [(String, String); 24] = [
        (X.into(), OF_X.into()),
        (format!("UNA:+,? '\n{X}\r\n"), OF_X.replacen('.', ",", 1)),
        (x_with("UNOA", "UNOB"), OF_X.replacen("UNOA", "UNOB", 1)),
        (x_with("UNOA:1", "UNOB:2"), OF_X.replacen("UNOA:1", "UNOB:2", 1)),
        // level and version alone, also where more was received
        (x_with("UNOA:1", "UNOA:1:X"), OF_X.into()),
        (x4.clone(), four(OF_X)),
        (format!("UNA:+.? '{x4}"), four(OF_X)),
        // 10, 11 and 12
        (x_with("UNT+3+1", "UNT+3"), rejected.clone()),
        (x_with("UNT+3+1", "UNT+3+2"), rejected.clone()),
        (x_with("UNT+3+1", "UNT+4+1"), rejected.clone()),
        (x_with("UNZ+1+R1", "UNZ+1+R2"), rejected.clone()),
        (x_with("UNZ+1+R1", "UNZ"), rejected.clone()),
        // whole trimmed elements
        (x_with("+AA+BB+", "+A?+:?:::+:?'+"), OF_X.replace("AA", "A?+:?:").replace("BB", ":?'")),
        (
            x4.replacen("+AA+BB+", "+AA*:B:**+**?*:C*+", 1),
            four(OF_X).replace("AA", "AA*:B").replace("BB", "**?*:C"),
        ),
        (x_with("+AA+BB+", "+ +*+"), OF_X.replace("AA", " ").replace("BB", "*")),
        // an empty party
        (x_with("+AA+", "++"), refused.into()),
        (x_with("+BB+", "+::+"), refused.into()),
        (x4.replacen("+BB+", "+*:*+", 1), refused.into()),
        // UNB's reference: 10 of Judge, and no report
        (x_with("+R1'", "'"), refused.into()),
        (x_with("+R1'", "+R1:1'"), refused.into()),
        (x_with("+R1'", "+123456789012345'"), refused.into()),
        (x4.replacen("+R1'", "+R1*1'", 1), refused.into()),
        // another refusal
        (x_with("BGM", "UNG"), refused.into()),
        (none, refused.into()),
    ];
    rows.iter().try_for_each(|(received, expected)| {
        let line = acknowledged_line(received.as_bytes(), "D:T", "N", "M");
        let what = format!("expected {expected}, answered {}", line.escape_ascii());
        ensure(line == expected.as_bytes(), &what, received.as_bytes())
    })
}

/// A list of records, each of its kind and value.
fn list(records: &[(u32, &str)]) -> List {
    let mut list = List::default();
    records.iter().for_each(|(kind, value)| list.add(*kind, value.bytes()));
    list
}

/// The answer for three lists, the output being as long as it need be; and
/// whether it is all zero.
fn answer(received: &[u8], [date, reference, message]: &[List; 3]) -> (Answer<Vec<u8>>, bool) {
    let lent = Lent { date: date.lent(), reference: reference.lent(), message: message.lent() };
    let mut output = vec![0xA5; LONGEST];
    let told = acknowledge(received, &lent, &mut output);
    let zero = output.iter().all(|&byte| byte == 0);
    (told.map(|length| output[..length].to_vec()), zero)
}

/// Each of the three lists with each of these faults: the lists are looked at
/// after 23 and before the writer, and the place is 0.
fn check_lent_lists() -> Check {
    let (s, e, c, r) = (NEW_SEGMENT, NEW_ELEMENT, NEXT_COMPONENT, NEXT_REPEAT);
    let outside = List { values: b"A".to_vec(), table: vec![0, 1, 1] };
    let over = List { values: b"A".to_vec(), table: vec![0, u32::MAX, 2] };
    let not_whole = List { values: b"A".to_vec(), table: vec![0, 0, 1, 2] };
    let long = List { values: b"A".to_vec(), table: [0, 0, 0].repeat(32_001) };
    let faulty = [
        list(&[]),
        list(&[(e, "A")]),
        list(&[(c, "A")]),
        list(&[(r, "A")]),
        list(&[(4, "A")]),
        list(&[(s, "A"), (4, "")]),
        list(&[(s, "A"), (s, "")]),
        list(&[(s, "A"), (e, "")]),
        list(&[(s, "A"), (c, "B"), (e, "C")]),
        list(&[(s, "\nA")]),
        list(&[(s, "\r")]),
        outside,
        over,
        not_whole,
        long,
    ];
    let whole = ["D:T", "N", "M"].map(one_element);
    for fault in faulty {
        for number in 0..3 {
            let mut lists = whole.clone();
            lists[number] = fault.clone();
            let told = answer(X.as_bytes(), &lists);
            let refused = (Err(Refusal { number: LIST, place: 0 }), true);
            ensure(told == refused, &format!("list {number} {fault:?}"), b"")?;
            let told = answer(b"UNA", &lists);
            let refused = (Err(Refusal { number: NO_REPORT, place: 0 }), true);
            ensure(told == refused, "23 before 15", b"UNA")?;
        }
    }
    Ok(())
}

/// The writer's refusals, with the record numbers and the places of the text.
/// X's report has UNB, level, version, BB, AA, the date, the reference, UNH, 1,
/// the message, UCI, R1, AA, BB, 7, UNT, 3, 1, UNZ, 1 and the reference.
fn check_order() -> Check {
    let whole = ["D:T", "N", "M"].map(one_element);
    let with = |number: usize, records: &[(u32, &str)]| {
        let mut lists = whole.clone();
        lists[number] = list(records);
        lists
    };
    let x4 = X.replacen("UNOA:1", "UNOA:4", 1);
    let repeat = [(0, "A"), (3, "B")];
    let rows: [(&str, [List; 3], u32, usize); 12] = [
        // a next repeat under a space: 16 at its record, also where it would be trimmed
        (X, with(0, &repeat), NO_RELEASE, 6),
        (X, with(1, &repeat), NO_RELEASE, 8),
        (X, with(2, &repeat), NO_RELEASE, 11),
        (X, with(2, &[(0, "A"), (2, ""), (3, "")]), NO_RELEASE, 12),
        // no reference: the text's UNB stands at 9
        (X, with(1, &[(0, "")]), 10, 9),
        (X, with(1, &[(0, "N"), (2, "N")]), 10, 9),
        (X, with(1, &[(0, "123456789012345")]), 10, 9),
        (&x4, with(1, &repeat), 10, 9),
        // bytes outside the level: D stands at 26, M at 38
        (X, with(0, &[(0, "d"), (2, "T")]), 8, 26),
        (X, with(2, &[(0, "m")]), 8, 38),
        (X, with(2, &[(0, "M"), (2, "\n")]), 8, 40),
        (X, with(0, &[(0, "A"), (2, &"A".repeat(32_000))]), 1, 0),
    ];
    for (received, lists, number, place) in rows {
        let told = answer(received.as_bytes(), &lists);
        let refused = (Err(Refusal { number, place }), true);
        ensure(told == refused, &format!("{lists:?}: {told:?}"), received.as_bytes())?;
    }
    let padded = with(1, &[(0, "N"), (2, ""), (2, "")]);
    let told = answer(X.as_bytes(), &padded);
    ensure(told == (Ok(OF_X.as_bytes().to_vec()), false), "empty ends are trimmed", b"")?;
    check_short_output()
}

/// One byte short is 14, and all zero; more keeps what lies beyond.
fn check_short_output() -> Check {
    let [date, reference, message] = ["D:T", "N", "M"].map(one_element);
    let lent = Lent { date: date.lent(), reference: reference.lent(), message: message.lent() };
    for room in [0, 1, OF_X.len() - 1, OF_X.len(), OF_X.len() + 3] {
        let mut output = vec![0xA5; room];
        let told = acknowledge(X.as_bytes(), &lent, &mut output);
        let (expected, bytes) = match room < OF_X.len() {
            true => (Err(Refusal { number: BUFFER, place: OF_X.len() }), vec![0; room]),
            false => {
                let beyond = vec![0xA5; room - OF_X.len()];
                (Ok(OF_X.len()), [OF_X.as_bytes(), &beyond].concat())
            }
        };
        ensure(told == expected && output == bytes, &format!("room {room}"), X.as_bytes())?;
    }
    Ok(())
}

fn single(value: &str) -> DraftElement {
    vec![vec![value.into()]]
}

/// The report as a draft, of what the received draft has.
fn report_of(received: &Draft, action: &str) -> Draft {
    let header = &received.segments[0];
    let syntax = vec![header[1][0][..2].to_vec()];
    let (sender, recipient) = (header[2].clone(), header[3].clone());
    let date: DraftElement = vec![vec![b"261115".to_vec(), b"0842".to_vec()]];
    let to = [single("UNB"), syntax, recipient.clone(), sender.clone(), date, single("A1")];
    let report = [single("UCI"), header[5].clone(), sender, recipient, single(action)];
    let segments: Vec<DraftSegment> = vec![
        to.to_vec(),
        vec![single("UNH"), single("1"), single("CONTRL")],
        report.to_vec(),
        vec![single("UNT"), single("3"), single("1")],
        vec![single("UNZ"), single("1"), single("A1")],
    ];
    let version = if received.is_version_4() { Version::Four } else { Version::One };
    let characters = normal_characters(received.characters.mark, version);
    Draft { characters, advice: true, level: Level::A, segments }
}

/// A generated interchange, and the same with a trailer that is wrong: the
/// report is the normal form of a draft that is made of the received one.
fn check_of_draft(seed: u64) -> Check {
    let random = &mut Random::new(seed);
    let mut draft = with_parties(random);
    let wrong = random.chance(50);
    if wrong {
        let trailers = draft.tagged(&["UNT", "UNE", "UNZ"]);
        let trailer = random.pick(&trailers);
        let element = random.between(1, 2);
        draft.segments[trailer][element] = single(random.pick(&["9", "", "A", "1234567"]));
    }
    let input = draft.spelled();
    let action = match judge(&input) {
        Ok(_) => "7",
        Err(refusal) if wrong && (10..=12).contains(&refusal.number) => "4",
        Err(_) => return ensure(false, "a draft", &input),
    };
    let lists = ["261115:0842", "A1", "CONTRL"].map(one_element);
    let report = report_of(&draft, action).spelled();
    let mut form = vec![0; LONGEST];
    let length = normalise(&report, &mut form).map_err(|_| "a report is refused".to_string())?;
    ensure(answer(&input, &lists).0 == Ok(form[..length].to_vec()), "the report", &input)
}

/// Generated requests: a text is accepted, is its own normal form and has the
/// right shape; a refusal leaves zeros. All that can occur does.
fn check_generated() -> Check {
    let mut met = [0; 24];
    for seed in 0..6_000 {
        let (received, lists, output) = match request(&mut Random::new(seed), b'A') {
            Request::Acknowledge { received, date, reference, message, output } => {
                (received, [date, reference, message], output)
            }
            _ => continue,
        };
        let [date, reference, message] = &lists;
        let lent = Lent { date: date.lent(), reference: reference.lent(), message: message.lent() };
        let mut written = output.clone();
        match acknowledge(&received, &lent, &mut written) {
            Ok(length) => {
                met[0] += 1;
                let beyond = written[length..] == output[length..];
                ensure(beyond, "bytes beyond the text", &received)?;
                check_text(&received, &written[..length])?;
            }
            Err(refusal) => {
                met[refusal.number as usize] += 1;
                ensure(written.iter().all(|&byte| byte == 0), "zero output", &received)?;
                ensure(refusal.number != NO_REPORT || refusal.place == 0, "23 at 0", &received)?;
            }
        }
    }
    let enough = [0, 1, 8, 10, 14, 15, 16, 23].iter().all(|&number| met[number] > 20);
    ensure(enough, &format!("met {met:?}"), b"")
}

/// Accepted, of five segments and one message, its own normal form; UNT counts
/// 3, and the code says what Judge says.
fn check_text(received: &[u8], text: &[u8]) -> Check {
    let mut form = vec![0; LONGEST];
    let normal = normalise(text, &mut form).map(|length| form[..length] == *text);
    ensure(normal == Ok(true), "its own normal form", text)?;
    let shape = judge(text).map(|verdict| (verdict.segments, verdict.messages, verdict.groups));
    ensure(shape == Ok((5, 1, 0)), "five segments and one message", text)?;
    let (mut bytes, mut table) = (vec![0; LONGEST], vec![0; 3 * LONGEST]);
    let counts = read(text, &mut bytes, &mut table).map_err(|_| "not read".to_string())?;
    let value = |record: &[u32]| bytes[record[1] as usize..][..record[2] as usize].to_vec();
    let all: Vec<Vec<u8>> = table[..counts.numbers].chunks(3).map(value).collect();
    let trailer = all.iter().rposition(|value| value == b"UNT").unwrap_or(0);
    let action: &[u8] = if judge(received).is_ok() { b"7" } else { b"4" };
    let right = all[trailer - 1] == action && all[trailer + 1] == b"3" && all[trailer + 2] == b"1";
    ensure(right, "the code and UNT", text)
}
