//! Mailbox files: figures computed by hand, pieces found by trying every
//! beginning, and generated files.
//!
//! Change request 2026-02, "Mailbox files and the morning figures".

use crate::cases::{x_with, X};
use crate::contents::Contents;
use crate::generator::{any_file, Random};
use crate::line_breaks::after_breaks;
use crate::mailbox::{pieces, report, Report, LONGEST_FILE};
use crate::operations::judge;
use crate::reading::read_body;
use crate::refusal::{Answer, Refusal, OVER_LENGTH};
use crate::report_lines::report_line;
use crate::service_characters::opening;

type Check = Result<(), String>;

fn ensure(holds: bool, what: &str) -> Check {
    match holds {
        true => Ok(()),
        false => Err(format!("mailbox files: {what}")),
    }
}

/// The first failure.
pub fn check_mailbox() -> Check {
    check_lines()?;
    check_pieces()?;
    check_figures()?;
    check_lengths()?;
    check_generated()
}

/// The line has the figures in the order in which the request names them.
fn check_lines() -> Check {
    let line = |file: &[u8]| report_line(&report(file));
    let (none, two) = (line(b""), line(format!("{X}{X}").as_bytes()));
    ensure(none == "report 0 0 0 0 0 0 0 0 0 0 0 0 0 0 0 0 0 0", "no bytes, no pieces")?;
    ensure(two == "report 2 0 0 0 0 0 0 0 0 0 0 0 0 0 10 2 186 93", "X twice")?;
    let eight = line(x_with("A?+B", "A?+b").as_bytes());
    ensure(eight == "report 0 0 0 0 0 0 0 0 1 0 0 0 0 0 0 0 0 0", "a small letter")?;
    ensure(line(&[b'\n'; LONGEST_FILE + 1]) == "refused 1 0", "a longer file")
}

/// "A piece ends after its first UNZ segment and the breaks behind it." X has 84
/// bytes, 75 of them before its UNZ; the other spelling has 92.
fn check_pieces() -> Check {
    let other = "UNA;*.! ~UNB*UNOA;1*AA*BB*260105;0930*R1~UNH*1*ORDERS;1;901;UN~\
                 BGM*220*A+B~UNT*3*1~UNZ*1*R1~";
    let open = &X[..75];
    let rows: [(String, &[usize]); 33] = [
        (String::new(), &[]),
        (X.into(), &[84]),
        (format!("{X}{X}{X}"), &[84, 84, 84]),
        (format!("{X}\r\n\n{X}\n"), &[87, 85]),
        // each piece has its own service characters
        (format!("{X}{other}{X}"), &[84, 92, 84]),
        (format!("{other}\n{X}"), &[93, 84]),
        // breaks at the beginning are fault 3, so that the rest is one piece
        ("\r\n".into(), &[2]),
        (format!("\n{X}{X}"), &[169]),
        (format!("{X} {X}"), &[84, 85]),
        // the file's end before a UNZ, and inside a segment
        (format!("{X}{open}"), &[84, 75]),
        (format!("{X}{open}\n"), &[84, 76]),
        (format!("{X}{}", &X[..83]), &[84, 83]),
        // no UNZ of its own: it has that of the next one
        (format!("{open}{X}{X}"), &[159, 84]),
        // faults 2 to 6: the rest is one piece
        (format!("{X}UNA{X}"), &[84, 87]),
        (format!("{X}UNA:+.?A'{X}{X}"), &[84, 177]),
        (format!("{X}UNZ+1+R1'{X}"), &[84, 93]),
        (format!("{}{X}", x_with("A?+B", "A?B")), &[167]),
        (format!("{}{X}", x_with("BGM", "bgm")), &[168]),
        // 7 to 13 never stop the cutting
        (format!("{}{X}", x_with("UNOA", "UNOC")), &[84, 84]),
        (format!("{X}UNA:+.?*'{X}{X}"), &[84, 93, 84]),
        (format!("{}{X}", x_with("A?+B", "A?+b")), &[84, 84]),
        (format!("{}{X}", x_with("UNT+3+1'", "UNT+4+1'")), &[84, 84]),
        // the first UNZ, wherever it stands and whatever it has
        ("UNB+'UNZ'UNB+'UNZ'".into(), &[9, 9]),
        (x_with("BGM", "UNZ"), &[67, 17]),
        // a tag that breaks the rule is no UNZ, and stops the cutting
        (format!("UNB+'UNZ:1'{X}"), &[95]),
        // a released terminator ends no segment, and a value is no tag
        ("UNB+?'UNZ'UNZ'UNB+'UNZ'".into(), &[14, 9]),
        ("UNB+UNZ'UNB+UNZ+UNZ'".into(), &[20]),
        ("UNA:+.? ~UNB+'UNZ'~UNZ~UNB+'UNZ'".into(), &[23, 9]),
        // version 4: each piece has a repetition separator by its own beginning
        ("UNB+UNOA:4+?*'UNZ'UNB+UNOA:1+*'UNZ'".into(), &[18, 17]),
        ("UNB+UNOA:4+?*'UNZ'UNB+UNOA:1+?*'UNZ'".into(), &[18, 18]),
        ("UNB+UNOA:1+?*'UNZ'UNB+UNOA:4+?*'UNZ'".into(), &[36]),
        ("UNB+UNOA:4'UNZ+1*2'UNB+'UNZ'".into(), &[19, 9]),
        // a repeat in a tag element is fault 6
        ("UNB+UNOA:4'BGM*'UNZ'UNB+'UNZ'".into(), &[29]),
    ];
    rows.iter().try_for_each(|(file, lengths)| {
        let found: Vec<usize> = pieces(file.as_bytes()).iter().map(|piece| piece.len()).collect();
        ensure(found == *lengths, &format!("the pieces of {file:?} have {found:?} bytes"))
    })
}

/// No piece yet.
const NOTHING: Report =
    Report { accepted: 0, refused: [0; 13], segments: 0, messages: 0, total_length: 0, longest: 0 };

/// So many times X, and one piece under each of these numbers.
fn figures(of_x: usize, refused: &[usize]) -> Report {
    let longest = if of_x > 0 { 93 } else { 0 };
    let mut report = Report { longest, ..NOTHING };
    report.accepted = of_x;
    report.segments = 5 * of_x;
    report.messages = of_x;
    report.total_length = 93 * of_x;
    refused.iter().for_each(|number| report.refused[number - 1] += 1);
    report
}

/// The figures of files of X and of refused pieces. A rest is counted under the
/// number that Judge gives it as a whole.
fn check_figures() -> Check {
    let open = &X[..75];
    let rows: [(String, Report); 20] = [
        (String::new(), NOTHING),
        (format!("{X}\n{X}\r\n{X}"), figures(3, &[])),
        ("\n\n".into(), figures(0, &[3])),
        (format!("\n{X}"), figures(0, &[3])),
        (format!("{X}{X}UNA"), figures(2, &[2])),
        (format!("{X}A{X}"), figures(1, &[3])),
        (format!("{X}{}{X}", x_with("A?+B", "A?B")), figures(1, &[4])),
        (format!("{X}{}", &X[..83]), figures(1, &[5])),
        (format!("{X}{}{X}", x_with("BGM", "bgm")), figures(1, &[6])),
        (format!("{X}{}{X}", x_with("UNOA", "UNOC")), figures(2, &[7])),
        (format!("{}{X}", x_with("A?+B", "A?+b")), figures(1, &[8])),
        (format!("{X}{}{X}", x_with("BGM", "UNG")), figures(2, &[9])),
        (format!("{}{X}", x_with("UNT+3+1'", "UNT+3'")), figures(1, &[10])),
        (format!("{}{X}", x_with("UNT+3+1'", "UNT+3+2'")), figures(1, &[11])),
        (format!("{}{X}", x_with("UNT+3+1'", "UNT+4+1'")), figures(1, &[12])),
        // 9 at 67; then 3, UNT being no beginning
        (format!("{}{X}", x_with("BGM", "UNZ")), figures(0, &[9, 3])),
        // the file's end came first, and Judge says 9, 7 or 8
        (format!("{X}{open}"), figures(1, &[9])),
        (format!("{X}{}", open.replace("UNOA", "UNOC")), figures(1, &[7])),
        (format!("{X}{}", open.replace("A?+B", "A?+b")), figures(1, &[8])),
        // a fault 4 in the rest, which has another level too: stage (4 5 6) comes first
        (format!("{X}{}{X}", x_with("UNOA", "UNOC").replace("A?+B", "A?B")), figures(1, &[4])),
    ];
    rows.iter().try_for_each(|(file, expected)| {
        let told = report(file.as_bytes());
        ensure(told == Ok(*expected), &format!("the figures of {file:?}: {told:?}"))
    })?;
    let grouped = "UNB+UNOA:1++++1'UNG+++++1'UNH+1'UNT+2+1'UNH+1'UNT+2+1'UNE+2+1'UNZ+1+1'";
    let expected = Report {
        accepted: 2,
        segments: 5 + 8,
        messages: 1 + 2,
        total_length: 93 + 9 + grouped.len(),
        longest: 93,
        ..NOTHING
    };
    ensure(report(format!("{grouped}{X}").as_bytes()) == Ok(expected), "a group of two")
}

/// Files and pieces at the limits. X's BGM with n bytes more has 84 + n bytes.
fn check_lengths() -> Check {
    let long = |bytes: usize| x_with("220", &"A".repeat(3 + bytes - 84)).into_bytes();
    let told = |parts: &[&[u8]]| report(&parts.concat());
    let x = X.as_bytes();
    let over = Err(Refusal { number: OVER_LENGTH, place: 0 });
    let breaks = |count: usize| vec![b'\n'; count];
    let rows: [(&str, Answer<Report>, Answer<Report>); 13] = [
        ("32,000 bytes of nothing", told(&[x, &[b'A'; 32_000]]), Ok(figures(1, &[3]))),
        ("32,001 bytes of nothing", told(&[x, &[b'A'; 32_001]]), Ok(figures(1, &[1]))),
        ("a long rest that is cut off", told(&[&long(32_001)[..32_000]]), Ok(figures(0, &[5]))),
        ("a longer one", told(&[&long(32_002)[..32_001]]), Ok(figures(0, &[1]))),
        // "a piece over 32,000 bytes that reaches its UNZ .. counts under 1"
        ("a piece of 32,001", told(&[&long(32_001), x]), Ok(figures(1, &[1]))),
        ("a piece of 32,000", told(&[&long(32_000), x]), Ok(figures(1, &[13]))),
        ("two of 32,001", told(&[x, &long(32_001), &long(32_001), x]), Ok(figures(2, &[1, 1]))),
        // the breaks behind it count
        ("X and 31,916 breaks", told(&[x, &breaks(31_916), x]), Ok(figures(2, &[]))),
        ("X and 31,917 breaks", told(&[x, &breaks(31_917), x]), Ok(figures(1, &[1]))),
        ("65,536 bytes", told(&[x, x, &breaks(65_536 - 168)]), Ok(figures(1, &[1]))),
        ("65,537 bytes", told(&[x, x, &breaks(65_537 - 168)]), over),
        ("780 times X", told(&[&x.repeat(780)]), Ok(figures(780, &[]))),
        ("781 times X", told(&[&x.repeat(781)]), over),
    ];
    rows.iter()
        .try_for_each(|(name, told, known)| ensure(told == known, &format!("{name}: {told:?}")))?;
    let most = report(&b"UNB+'UNZ'".repeat(7_281));
    let sevens = most.map(|report| report.refused[6]);
    ensure(sevens == Ok(7_281), "as many pieces as there can be")
}

/// The first piece by trying every beginning of the rest, the shortest first:
/// one that is read without a fault 2 to 6 and has UNZ as its last segment.
fn first_piece(rest: &[u8]) -> usize {
    let ends_with_trailer = |end: &usize| {
        let part = &rest[..*end];
        let read =
            opening(part).and_then(|opening| read_body(part, opening.body, &opening.characters));
        let tag = |read: &Contents| read.tag_of(read.segments.last().unwrap()).of(part) == b"UNZ";
        read.map_or(false, |read| tag(&read))
    };
    match (1..=rest.len()).find(ends_with_trailer) {
        Some(end) => after_breaks(rest, end),
        None => rest.len(),
    }
}

/// Generated files: the pieces are the file, each is what trying finds, and the
/// figures are those of the pieces. All that can occur does.
fn check_generated() -> Check {
    let mut met = [0; 14];
    let mut most = 0;
    for seed in 0..6_000 {
        let name = |what: &str| format!("{what}, seed {seed}");
        let file = any_file(&mut Random::new(seed));
        let told = report(&file);
        if file.len() > LONGEST_FILE {
            let refused = told == Err(Refusal { number: 1, place: 0 });
            ensure(refused, &name("a longer file"))?;
            continue;
        }
        let pieces = pieces(&file);
        ensure(pieces.concat() == file, &name("pieces end to end"))?;
        ensure(pieces.iter().all(|piece| !piece.is_empty()), &name("no empty piece"))?;
        if file.len() < 700 {
            let mut rest = &file[..];
            for piece in &pieces {
                ensure(first_piece(rest) == piece.len(), &name("a piece"))?;
                rest = &rest[piece.len()..];
            }
        }
        let mut known = NOTHING;
        for (number, piece) in pieces.iter().enumerate() {
            match judge(piece) {
                Ok(verdict) => {
                    met[0] += 1;
                    known.accepted += 1;
                    known.segments += verdict.segments;
                    known.messages += verdict.messages;
                    known.total_length += verdict.normal_length;
                    known.longest = known.longest.max(verdict.normal_length);
                }
                Err(refusal) => {
                    met[refusal.number as usize] += 1;
                    known.refused[refusal.number as usize - 1] += 1;
                    let fault = (2..=6).contains(&refusal.number);
                    let last = number + 1 == pieces.len();
                    ensure(last || !fault, &name("a fault 2 to 6 before the last piece"))?;
                }
            }
        }
        most = most.max(known.accepted);
        ensure(told == Ok(known), &name("figures"))?;
    }
    ensure(met.iter().all(|&count| count > 20) && most > 500, &format!("met {met:?} {most}"))
}
