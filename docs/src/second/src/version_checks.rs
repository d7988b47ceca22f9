//! Syntax version 4: the request's words as rows, every fifth byte, every short
//! element at every place, every short value list, and what the generator makes.
//!
//! Change request 2026-10, "Syntax version 4". Trimming is told here a second
//! time, as a change of the text.

use crate::cases::X;
use crate::generator::{any_valid, Draft, Random};
use crate::operations::{compare, judge, normalise, read, write, Comparison};
use crate::refusal::{Answer, Refusal, ADVICE, BUFFER, LEVEL, LIST, LONGEST, NO_RELEASE};
use crate::report_lines::judge_line;

type Check = Result<(), String>;

fn ensure(holds: bool, what: &str, input: &[u8]) -> Check {
    match holds {
        true => Ok(()),
        false => Err(format!("version 4, {what}: {}", input.escape_ascii())),
    }
}

/// The first failure.
pub fn check_versions() -> Check {
    check_rows()?;
    check_fifth_bytes()?;
    check_short_elements()?;
    check_short_lists()?;
    check_generated()
}

fn check_rows() -> Check {
    let rows: [(&[u8], &str); 36] = [
        // "The case now answers 3 at 9."
        (b"UNA:+.?*'", "refused 3 9"),
        (b"UNA:+.?*'\n", "refused 3 10"),
        (b"UNA:+.?*'UNB*UNOA:4'", "refused 3 9"),
        (b"UNA:+.?+'UNB+UNOA:4'", "refused 2 0"),
        (b"UNA:+.?.'UNB+UNOA:4'", "refused 2 0"),
        (b"UNA:+,?.'UNB+UNOA:4'", "refused 9 20"),
        // a service character from the start, whatever the version turns out to be
        (b"UNA:+.?*'UNB+UNOA:1+?*'", "refused 7 9"),
        (b"UNA:+.?*'UNB+UNOA:2'", "refused 7 9"),
        (b"UNA:+.?*'UNB+UNOA:4+?*'", "refused 9 23"),
        (b"UNA:+.?*'UNB+UNOA:1'BGM*+1'", "refused 6 20"),
        // a space for none
        (b"UNA:+.? 'UNB+UNOA:4+?*'", "refused 4 20"),
        (b"UNA:+.? 'UNB+UNOA:4+*'", "refused 9 22"),
        // the ten bytes of a beginning without an advice
        (b"UNB+UNOA:4'", "refused 9 11"),
        (b"UNB+UNOB:4+?*'", "refused 9 14"),
        (b"UNB+UNOA:41+?*'", "refused 7 0"),
        (b"UNB+UNOA:1+?*'", "refused 4 11"),
        (b"UNB+UNOC:4+?*'", "refused 4 11"),
        (b"UNB+UNOA:04+?*'", "refused 4 12"),
        (b"UNB+UNOA:3'", "refused 7 0"),
        (b"UNB+UNOC:4'", "refused 7 0"),
        // no repetition separator with byte 29
        (b"UNB\x1dUNOA\x1f4\x1d*\x1c", "refused 9 13"),
        (b"UNB\x1dUNOB\x1f4\x1cBGM\x1d*\x1c", "refused 9 11"),
        // UNB's first element has one repeat, trimmed
        (b"UNB+UNOA:4*'", "refused 9 12"),
        (b"UNB+UNOA:4::*:*'", "refused 9 16"),
        (b"UNB+UNOA:4*X'", "refused 7 0"),
        (b"UNB+UNOA:4:X*'", "refused 9 14"),
        (b"UNB+*UNOA:4'", "refused 7 0"),
        (b"UNA:+.?*'UNB+*UNOA:4'", "refused 7 9"),
        (b"UNA:+.?*'UNB+UNOA*:4'", "refused 7 9"),
        // no repetition separator within a tag element, as it is spelled
        (b"UNB+UNOA:4'BGM*'", "refused 6 11"),
        (b"UNB+UNOA:4'BGM*+1'", "refused 6 11"),
        (b"UNB+UNOA:4'BGM:1*2+'", "refused 6 11"),
        (b"UNB+UNOA:4'UNH*+1'", "refused 6 11"),
        (b"UNB+UNOA:1'BGM*+1'", "refused 6 11"),
        (b"UNB+UNOA:1'BGM:1*2+'", "refused 9 11"),
        (b"UNA*+.? 'UNB+UNOA*4'BGM*1*2+'", "refused 9 20"),
    ];
    rows.iter().try_for_each(|(input, expected)| {
        let answer = judge_line(&judge(input));
        ensure(answer == *expected, &format!("expected {expected}, answered {answer}"), input)
    })
}

/// X with version 4.
fn x4() -> String {
    X.replacen("UNOA:1", "UNOA:4", 1)
}

/// "It is a space (none), or a service character under the same rules as the
/// other separators": each byte as the fifth, in both versions and in the writer.
fn check_fifth_bytes() -> Check {
    let others = b":+.?'";
    for byte in 0..=255u8 {
        let serves =
            matches!(byte, 28 | 29 | 31 | b'!'..=b'/' | b':'..=b'@' | b'['..=b'`' | b'{'..=b'~');
        let usable = byte == b' ' || serves && !others.contains(&byte);
        let advised = |body: &str| [b"UNA:+.?", &[byte, b'\''][..], body.as_bytes()].concat();
        let unusable = Some(Refusal { number: ADVICE, place: 0 });
        let (old, new) = (advised(X), advised(&x4()));
        let level = Some(Refusal { number: LEVEL, place: 9 });
        let of_old = match byte {
            b' ' => None,
            _ if usable => level,
            _ => unusable,
        };
        ensure(judge(&old).err() == of_old, "an older version's fifth byte", &old)?;
        let of_new = if usable { None } else { unusable };
        ensure(judge(&new).err() == of_new, "the fifth byte", &new)?;
        let written = write(&new[3..9], b"UNB", &[0, 0, 3], &mut [0; 100]);
        let refused = written.err() == unusable;
        ensure(refused != usable, "the writer's fifth byte", &new)?;
        if usable {
            let same = compare(&new, x4().as_bytes()) == Comparison::Same;
            let told = judge(&new).map(|verdict| verdict.characters.six()[4]);
            ensure(same && told == Ok(byte), "the same under any fifth byte", &new)?;
        }
    }
    let different = compare(X.as_bytes(), x4().as_bytes()) == Comparison::Different;
    ensure(different, "another version is another interchange", X.as_bytes())
}

/// The trimmed element as text: no component separator before a repetition
/// separator or at the end, then no repetition separator at the end.
fn trimmed(element: &str) -> String {
    let mut text = element.to_string();
    while text.contains(":*") {
        text = text.replace(":*", "*");
    }
    let repeats = text.trim_end_matches(':');
    // a last repeat that was empty components is empty
    repeats.trim_end_matches('*').to_string()
}

/// All texts of at most so many of these letters.
fn all_texts(letters: &str, most: usize) -> Vec<String> {
    let mut texts = vec![String::new()];
    let mut from = 0;
    for _ in 0..most {
        let longer: Vec<String> = texts[from..]
            .iter()
            .flat_map(|text| letters.chars().map(move |letter| format!("{text}{letter}")))
            .collect();
        from = texts.len();
        texts.extend(longer);
    }
    texts
}

/// Every element of at most six of `A`, `:` and `*`, at every place.
fn check_short_elements() -> Check {
    for element in all_texts("A:*", 6) {
        check_user_element(&element)?;
        check_judged_elements(&element)?;
        check_tag_element(&element)?;
        check_first_element(&element)?;
    }
    Ok(())
}

fn normal_form(input: &[u8]) -> Answer<Vec<u8>> {
    let mut form = vec![0; LONGEST];
    let length = normalise(input, &mut form)?;
    form.truncate(length);
    Ok(form)
}

/// Kind and value of each record.
fn records(input: &[u8]) -> Answer<Vec<(u32, Vec<u8>)>> {
    let (mut bytes, mut table) = (vec![0; 1_000], vec![0; 1_000]);
    let counts = read(input, &mut bytes, &mut table)?;
    let record = |row: &[u32]| (row[0], bytes[row[1] as usize..][..row[2] as usize].to_vec());
    Ok(table[..counts.numbers].chunks(3).map(record).collect())
}

/// In a user segment, with another element behind it or as the last one.
fn check_user_element(element: &str) -> Check {
    for behind in ["", "+Z"] {
        let around =
            |text: &str| format!("UNB+UNOA:4++++1'UNH+1'BGM{text}'UNT+3+1'UNZ+1+1'").into_bytes();
        let input = around(&format!("+{element}{behind}"));
        let kept = match (trimmed(element), behind) {
            (text, "") if text.is_empty() => String::new(),
            (text, _) => format!("+{text}{behind}"),
        };
        let form = [b"UNA:+.?*'", &around(&kept)[..]].concat();
        ensure(normal_form(&input) == Ok(form), "the normal form", &input)?;
        // UNB has six elements, the first of two values; UNH has two
        let told = records(&input).map(|list| list[7 + 2..][..values(&kept).len()].to_vec());
        ensure(told == Ok(values(&kept)), "the values", &input)?;
        check_older(element, behind)?;
    }
    Ok(())
}

/// The records of a BGM with these elements, as the text has them.
fn values(elements: &str) -> Vec<(u32, Vec<u8>)> {
    let mut list = Vec::new();
    let mut last = (0, b"BGM".to_vec());
    for letter in elements.chars() {
        let kind = match letter {
            '+' => 1,
            ':' => 2,
            '*' => 3,
            _ => {
                last.1.push(letter as u8);
                continue;
            }
        };
        list.push(std::mem::replace(&mut last, (kind, Vec::new())));
    }
    list.push(last);
    list
}

/// In an older version, and under a space, an asterisk is a byte like another;
/// the normal form of version 4 alone releases it.
fn check_older(element: &str, behind: &str) -> Check {
    let around = |version: char, text: &str| {
        format!("UNB+UNOA:{version}++++1'UNH+1'BGM{text}'UNT+3+1'UNZ+1+1'")
    };
    let kept = match (element.trim_end_matches(':'), behind) {
        ("", "") => String::new(),
        (text, _) => format!("+{text}{behind}"),
    };
    for (advice, version) in [("", '2'), ("UNA:+.? '", '1'), ("UNA:+.? '", '4')] {
        let input = format!("{advice}{}", around(version, &format!("+{element}{behind}")));
        let form = match version {
            '4' => format!("UNA:+.?*'{}", around(version, &kept.replace('*', "?*"))),
            _ => format!("UNA:+.? '{}", around(version, &kept)),
        };
        let told = normal_form(input.as_bytes());
        ensure(told == Ok(form.into_bytes()), "a plain asterisk", input.as_bytes())?;
    }
    Ok(())
}

/// As both references of a message, as its count, and as a section: one repeat
/// of one component, trimmed.
fn check_judged_elements(element: &str) -> Check {
    let kept = trimmed(element);
    let single = !kept.contains([':', '*']) && !kept.is_empty();
    let rows = [
        (format!("UNH+{element}'UNT+2+{element}'"), single, 10, 16),
        (format!("UNH+1'UNT+{}+1'", element.replace('A', "2")), kept == "A", 10, 22),
        (format!("UNH+1'UNS+{}'UNT+3+1'", element.replace('A', "D")), kept == "A", 9, 22),
    ];
    for (message, accepted, number, place) in rows {
        let input = format!("UNB+UNOA:4++++1'{message}UNZ+1+1'").into_bytes();
        let answer = judge(&input).map(drop);
        // another count of digits only is 12, not 10
        let number = if number == 10 && single && !accepted { 12 } else { number };
        let expected = match accepted {
            true => Ok(()),
            false => Err(Refusal { number, place }),
        };
        ensure(answer == expected, "a judged element", &input)?;
    }
    Ok(())
}

/// Behind a tag: a component separator may stand there, a repetition separator
/// may not.
fn check_tag_element(element: &str) -> Check {
    let input = format!("UNB+UNOA:4++++1'UNH+1'BGM{element}'UNT+3+1'UNZ+1+1'").into_bytes();
    let broken = element.starts_with('A') || element.contains('*');
    let expected = match broken {
        true => Err(Refusal { number: 6, place: 22 }),
        false => Ok(()),
    };
    ensure(judge(&input).map(drop) == expected, "a tag element", &input)
}

/// Behind the version in UNB, with an advice and without.
fn check_first_element(element: &str) -> Check {
    for (advice, place) in [("", 0), ("UNA:+.?*'", 9)] {
        let input = format!("{advice}UNB+UNOA:4{element}++++1'UNH+1'UNT+2+1'UNZ+1+1'").into_bytes();
        let more = element.starts_with('A') || trimmed(&format!("4{element}")).contains('*');
        let expected = match more {
            true => Err(Refusal { number: LEVEL, place }),
            false => Ok(()),
        };
        ensure(judge(&input).map(drop) == expected, "UNB's first element", &input)?;
    }
    Ok(())
}

/// Every list of at most three records of the kinds 0 to 4 and of the values
/// none, `A`, `*` and `+`, with and without release and repetition separator.
fn check_short_lists() -> Check {
    let values = ["", "A", "*", "+"];
    let services: [&[u8; 6]; 4] = [b":+.? '", b":+.?*'", b":+.  '", b":+. *'"];
    for number in 0..20usize.pow(3) {
        let all = [number % 20, number / 20 % 20, number / 400];
        for count in 1..=3 {
            let records: Vec<(u32, &str)> =
                all[..count].iter().map(|row| ((row / 4) as u32, values[row % 4])).collect();
            services.iter().try_for_each(|service| check_short_list(&records, service))?;
        }
    }
    Ok(())
}

/// 15 at the lowest record, then 16 at the lowest; then 14, with the length of
/// the text where there is nothing to trim.
fn check_short_list(records: &[(u32, &str)], service: &[u8; 6]) -> Check {
    let bytes: String = records.iter().map(|(_, value)| *value).collect();
    let mut table = Vec::new();
    let mut start = 0;
    for (kind, value) in records {
        table.extend([*kind, start, value.len() as u32]);
        start += value.len() as u32;
    }
    let told = write(service, bytes.as_bytes(), &table, &mut []);
    let faulty =
        (0..records.len()).find(|&row| records[row].0 > 3 || row == 0 && records[row].0 > 0);
    let serves = |value: &str| value == "+" || value == "*" && service[4] == b'*';
    let unspellable = |row: &usize| {
        let (kind, value) = records[*row];
        kind == 3 && service[4] == b' ' || service[3] == b' ' && serves(value)
    };
    let expected = match (faulty, (0..records.len()).find(unspellable)) {
        (Some(record), _) => Refusal { number: LIST, place: record },
        (None, Some(record)) => Refusal { number: NO_RELEASE, place: record },
        _ if records.iter().any(|(_, value)| value.is_empty()) => {
            return ensure(told.is_err(), "no room", bytes.as_bytes());
        }
        _ => {
            let lengths = records.iter().map(|(_, value)| 2 + usize::from(serves(value)));
            Refusal { number: BUFFER, place: 9 + lengths.sum::<usize>() }
        }
    };
    ensure(told == Err(expected), &format!("{records:?} under {service:?}"), bytes.as_bytes())
}

/// What a generated version 4 interchange can have, and whether this one does.
fn features(draft: &Draft) -> [bool; 8] {
    let elements: Vec<_> = draft.segments.iter().flatten().collect();
    let empty = |repeat: &Vec<Vec<u8>>| repeat.iter().all(Vec::is_empty);
    let inside = |element: &Vec<Vec<Vec<u8>>>| {
        let last = element.iter().rposition(|repeat| !empty(repeat)).unwrap_or(0);
        element[..last].iter().any(empty)
    };
    let asterisk = elements.iter().flat_map(|element| element.iter().flatten().flatten());
    let asterisk = asterisk.into_iter().any(|&byte| byte == b'*');
    let separator = draft.characters.repetition;
    [
        elements.iter().any(|element| element.len() > 1),
        elements.iter().any(|element| inside(element)),
        elements.iter().any(|element| element.len() > 1 && element.last().map_or(false, empty)),
        asterisk && separator.map_or(false, |byte| byte != b'*'),
        asterisk && separator.is_none(),
        asterisk && separator == Some(b'*'),
        separator.is_none() && draft.advice,
        separator.is_none() && !draft.advice,
    ]
}

/// One generated interchange in three is of version 4, and all that such a one
/// can have does occur.
fn check_generated() -> Check {
    let mut of_version_4 = 0;
    let mut met = [0; 8];
    for seed in 0..3_000 {
        let draft = any_valid(&mut Random::new(seed));
        if draft.is_version_4() {
            of_version_4 += 1;
            let found = features(&draft);
            met.iter_mut().zip(found).for_each(|(count, found)| *count += u32::from(found));
        }
    }
    let enough = (900..=1_100).contains(&of_version_4) && met.iter().all(|&count| count > 50);
    ensure(enough, &format!("{of_version_4} generated, met {met:?}"), b"")
}
