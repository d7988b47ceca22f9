//! Refusal 3: what it is that does not begin as an interchange does.

use super::{byte_shown, shown, Reason};

const EXPECTED: &str = "UNB and +, or UNA, six service characters and UNB";

pub fn reason(input: &[u8], place: usize) -> Option<Reason> {
    if input.starts_with(b"UNA") {
        return Some(after_advice(input, place));
    }
    let (found, sentence) = nothing(input)
        .or_else(|| coded(input))
        .or_else(|| other_format(input))
        .or_else(|| other_segment(input))
        .or_else(|| before_it(input))
        .unwrap_or_else(|| {
            let begins = shown(&input[..input.len().min(12)]);
            let sentence = format!(
                "it begins with {begins}: no EDIFACT interchange, which begins with UNB+ or UNA"
            );
            (begins, sentence)
        });
    let reason = Reason::new(found, EXPECTED, sentence);
    Some(match start(input) {
        Some(start) => reason.past(0..start, b""),
        None => reason,
    })
}

type Found = (String, String);

fn found(what: &str, mend: &str) -> Option<Found> {
    Some((what.to_string(), format!("it is {what}, no EDIFACT interchange: {mend}")))
}

fn nothing(input: &[u8]) -> Option<Found> {
    if input.is_empty() {
        return Some((
            "an empty file".to_string(),
            "the file is empty: there is no interchange in it".to_string(),
        ));
    }
    let blank = input.iter().all(|byte| matches!(byte, b' ' | b'\t' | b'\r' | b'\n' | 0));
    let what = format!("{} blanks, line breaks or zero bytes and nothing else", input.len());
    blank.then(|| (what.clone(), format!("it has {what}: there is no interchange in it")))
}

/// Another coding of characters than ASCII, or a packed file.
fn coded(input: &[u8]) -> Option<Found> {
    const MARK: &[u8] = b"\xef\xbb\xbf";
    let begins = |with: &[u8]| input.starts_with(with);
    if begins(MARK) {
        let sentence = "a byte order mark (EF BB BF) stands before it: save the file without \
            one, as plain ASCII";
        return Some(("a byte order mark".to_string(), sentence.to_string()));
    }
    if begins(b"\xff\xfe") || begins(b"\xfe\xff") || begins(b"U\0N\0") || begins(b"\0U\0N") {
        return found("in UTF-16", "turn it into ASCII, as with iconv -f UTF-16 -t ASCII");
    }
    if begins(b"\xe4\xd5\xc1") || begins(b"\xe4\xd5\xc2") {
        return found(
            "in EBCDIC",
            "turn it into ASCII, as with iconv -f CP037 -t ASCII, or let the transfer do so",
        );
    }
    match input {
        [0x1f, 0x8b, ..] => found("packed by gzip", "unpack it first, as with gzip -d"),
        [b'P', b'K', 3, 4, ..] => found("a ZIP archive", "unpack it first"),
        [b'B', b'Z', b'h', ..] => found("packed by bzip2", "unpack it first"),
        [b'%', b'P', b'D', b'F', ..] => found("a PDF", "ask for the EDIFACT file"),
        _ => None,
    }
}

fn other_format(input: &[u8]) -> Option<Found> {
    let text = input.trim_start();
    let begins = |with: &[u8]| text.starts_with(with);
    match () {
        () if begins(b"ISA") => found("ANSI X12 (it begins with ISA)", "X12 is not judged here"),
        () if begins(b"STX") => {
            found("TRADACOMS (it begins with STX)", "TRADACOMS is not judged here")
        }
        () if begins(b"UIB") => found(
            "interactive EDIFACT (it begins with UIB)",
            "only batch interchanges are judged, which begin with UNB",
        ),
        () if begins(b"MSH") => found("HL7 (it begins with MSH)", "HL7 is not judged here"),
        () if begins(b"<") => found("XML or HTML", "ask for the EDIFACT file"),
        () if begins(b"{") || begins(b"[") => found("JSON", "ask for the EDIFACT file"),
        () => None,
    }
}

/// A segment that is not UNB, or UNB in another spelling.
fn other_segment(input: &[u8]) -> Option<Found> {
    let head = input.get(..3)?;
    let next = input.get(3);
    match (head, next) {
        (b"UNB", Some(&byte)) => {
            let byte = byte_shown(byte);
            let sentence = format!(
                "UNB is followed by {byte}: without a service string advice \
                it must be +; put UNA and the six service characters before UNB"
            );
            Some((format!("UNB and {byte}"), sentence))
        }
        (b"UNB" | b"UNA", None) => {
            Some((shown(head), format!("it ends after {}: the rest is missing", shown(head))))
        }
        _ if head.eq_ignore_ascii_case(b"UNB") || head.eq_ignore_ascii_case(b"UNA") => {
            Some((shown(head), format!("it begins with {}: tags are capitals", shown(head))))
        }
        (b"UNG" | b"UNH" | b"UNT" | b"UNZ" | b"BGM", _) => {
            let tag = shown(head);
            Some((
                tag.clone(),
                format!(
                    "it begins with {tag}: UNB, the interchange's own header, is missing before it"
                ),
            ))
        }
        _ => None,
    }
}

/// What stands before an interchange that begins later.
fn before_it(input: &[u8]) -> Option<Found> {
    let start = start(input)?;
    let before = &input[..start];
    let (what, stand) = match before {
        _ if before.iter().all(|byte| matches!(byte, b'\r' | b'\n')) => {
            ("a line break".to_string(), "stands")
        }
        _ if before.iter().all(u8::is_ascii_whitespace) => ("blanks".to_string(), "stand"),
        _ if is_header(before) => ("a header of a mail or a transfer".to_string(), "stands"),
        _ => (shown(&before[..before.len().min(20)]), "stands"),
    };
    let sentence = format!(
        "{what} {stand} before the interchange, which begins at byte {start}: take the first \
         {start} bytes away"
    );
    Some((what, sentence))
}

/// Where UNA or UNB stands first, as an interchange's beginning, but not at the start.
fn start(input: &[u8]) -> Option<usize> {
    let begins = |rest: &[u8]| {
        let advice = rest.starts_with(b"UNA")
            && rest.get(9..).map_or(false, |after| after.trim_start().starts_with(b"UNB"));
        advice || rest.starts_with(b"UNB+UNO")
    };
    (1..input.len()).find(|&place| begins(&input[place..]))
}

/// Does it begin with lines of a name and a colon, or with mail's `From`?
fn is_header(before: &[u8]) -> bool {
    let line = before.split(|&byte| byte == b'\n').next().unwrap_or(before);
    let name = line.split(|&byte| byte == b':').next().unwrap_or(line);
    let is_name = |byte: &u8| byte.is_ascii_alphanumeric() || *byte == b'-';
    before.starts_with(b"From ")
        || before.starts_with(b"HTTP/")
        || (name.len() < line.len() && !name.is_empty() && name.iter().all(is_name))
}

fn after_advice(input: &[u8], place: usize) -> Reason {
    let element = input.get(4).copied().unwrap_or(b'+');
    let expected = format!("UNB and {}", byte_shown(element));
    let rest = &input[place.min(input.len())..];
    let found = shown(&rest[..rest.len().min(12)]);
    let sentence = match rest {
        [] => "nothing follows the service string advice".to_string(),
        [b'U', b'N', b'B', byte, ..] => format!(
            "UNB is followed by {}, but the advice names {} as element separator",
            byte_shown(*byte),
            byte_shown(element)
        ),
        _ if rest.trim_start().starts_with(b"UNB") => {
            "blanks stand between the advice and UNB: only line breaks may".to_string()
        }
        _ => format!("after the advice stands {found}, where {expected} must stand"),
    };
    Reason::new(found, expected, sentence)
}

/// Rust 1.63 has none of its own for bytes.
trait TrimStart {
    fn trim_start(&self) -> &[u8];
}

impl TrimStart for [u8] {
    fn trim_start(&self) -> &[u8] {
        let blanks = self.iter().take_while(|byte| byte.is_ascii_whitespace()).count();
        &self[blanks..]
    }
}
