use std::cell::Cell;
use std::ffi::OsString;
use std::os::unix::ffi::OsStrExt;
use std::time::{SystemTime, UNIX_EPOCH};

use clap::Args;
use hverolda::{acknowledgement, explain, header, unjudged, Fault, Kind, Lent, ValueList};

use crate::input::{try_each_of, Files, ROOM};
use crate::lines::unescaped;
use crate::output::{Output, Said};
use crate::{usage, Status, Trouble};

#[derive(Args)]
#[command(about = "Writes the syntax report CONTRL for interchanges.", long_about = LONG)]
pub struct Acknowledge {
    /// The date and time of the acknowledgement; now, in UTC, where none is given.
    #[arg(long)]
    date: Option<OsString>,
    /// Its control reference; of several files, that of the first, counted up.
    #[arg(long, required = true)]
    reference: OsString,
    /// Its message identification; CONTRL:2:2:UN for versions 1 and 2, CONTRL:4:1:UN for 4.
    #[arg(long)]
    message: Option<OsString>,
    /// Acknowledge also what holds a CONTRL.
    #[arg(long)]
    force: bool,
    #[command(flatten)]
    files: Files,
}

const LONG: &str = "\
Writes the syntax report CONTRL for interchanges.

The text goes back to the sender: sender and recipient are exchanged, and UCI has the
received reference, sender, recipient and 7, or 4 where the interchange is refused by 10,
11 or 12. DATE is the date and time, REFERENCE the new control reference, MESSAGE the
message identification. Components stand between :, repeats (in version 4) between *:

    hverolda acknowledge FILE --reference A1
    hverolda acknowledge FILE --date 261115:0842 --reference A1 --message CONTRL:2:2:UN
    hverolda acknowledge FILE --date 20261115:0842 --reference A1 --message CONTRL:4:1:UN

The second is for syntax versions 1 and 2 (some partners want CONTRL:D:3:UN), the third for
version 4. In a component \\x and two hexadecimal digits stand for a byte, so that \\x3a is a
colon, \\x2a an asterisk and \\x5c a backslash. What the text has to release it releases.

Each acknowledgement has a reference of its own: of several FILEs the digits at REFERENCE's
end are counted up, A1, A2 and so on, also past a FILE that is refused. The texts stand one
directly after the other, with no byte besides. What is refused standard error says:
refused input 23 0 and why; or refused text NUMBER PLACE and why, where the place of 16
counts values of the text from 0.

What it is not: UCI has no syntax error code (data element 0085), which would name the
fault; say it to the sender otherwise. The test indicator (0035) and the request for an
acknowledgement (0031) of UNB are neither looked at nor copied. An interchange that holds a
CONTRL is not acknowledged, since acknowledgements would go to and fro for ever, unless
--force is given.";

impl Acknowledge {
    pub fn run(&self, output: &mut Output) -> Result<Status, Trouble> {
        let names = self.files.names()?;
        let reference = self.reference.as_bytes();
        if names.len() > 1 && counted_up(reference, names.len() - 1).is_none() {
            return usage("of several files the digits at --reference's end are counted up, and \
                there are none, or too few");
        }
        let number = Cell::new(0);
        try_each_of(output, &self.files, &names, ROOM, |input| {
            let reference = counted_up(reference, number.get()).unwrap_or_else(|| reference.to_vec());
            number.set(number.get() + 1);
            self.said(&input.bytes, &reference)
        })
    }

    fn said(&self, received: &[u8], reference: &[u8]) -> Result<Said, Trouble> {
        let unb = header(received);
        let is_four = unb.map_or(false, |unb| unb.element(1).component(1).spelled() == b"4");
        let message = if is_four { "CONTRL:4:1:UN" } else { "CONTRL:2:2:UN" };
        let given = |word: &Option<OsString>, default: &str| match word {
            Some(word) => element(word.as_bytes()),
            None => element(default.as_bytes()),
        };
        let date = given(&self.date, &now(is_four))?;
        let (reference, message) = (element(reference)?, given(&self.message, message)?);
        if !self.force && holds_contrl(received) {
            let why = "it holds a CONTRL, which is not acknowledged; --force does so";
            return Ok(Said::NoAnswer(why.to_string()));
        }
        let lent = Lent { date: (&date).into(), reference: (&reference).into(), message: (&message).into() };
        Ok(match acknowledgement(received, &lent) {
            Ok(text) => Said::Text(text),
            Err(refusal) => {
                let is_input = refusal.fault == Fault::NoAcknowledgement;
                let words = if is_input { "refused input" } else { "refused text" };
                // the text that was to be written is not there to be looked at
                let bytes = if is_input { received } else { b"" };
                Said::NoTextExplained(words, explain(bytes, refusal))
            }
        })
    }
}

/// Does a message of it say that it is a CONTRL?
fn holds_contrl(received: &[u8]) -> bool {
    let segments = unjudged(received);
    segments.into_iter().flatten().any(|segment| {
        segment.tag() == b"UNH" && segment.element(2).component(0).spelled() == b"CONTRL"
    })
}

/// The reference with the number at its end raised by so much, in as many digits; none
/// where it has no digits at its end, or too few.
fn counted_up(reference: &[u8], more: usize) -> Option<Vec<u8>> {
    if more == 0 {
        return Some(reference.to_vec());
    }
    let digits = reference.iter().rev().take_while(|byte| byte.is_ascii_digit()).count();
    let (beginning, end) = reference.split_at(reference.len() - digits);
    let number: usize = std::str::from_utf8(end).ok()?.parse().ok()?;
    let raised = format!("{:0digits$}", number.checked_add(more)?);
    let fits = raised.len() == digits || beginning.len() + raised.len() <= 14;
    fits.then(|| [beginning, raised.as_bytes()].concat())
}

/// Date and time in UTC, as version 4 or the older ones have them.
fn now(is_four: bool) -> String {
    let since = SystemTime::now().duration_since(UNIX_EPOCH).unwrap_or_default().as_secs();
    let (days, minutes) = (since / 86_400, since % 86_400 / 60);
    let (year, month, day) = date(days);
    let time = format!("{:02}{:02}", minutes / 60, minutes % 60);
    match is_four {
        true => format!("{year:04}{month:02}{day:02}:{time}"),
        false => format!("{:02}{month:02}{day:02}:{time}", year % 100),
    }
}

/// Year, month and day of a number of days after the first of January 1970.
fn date(mut days: u64) -> (u64, u64, u64) {
    let leap = |year: u64| year % 4 == 0 && (year % 100 != 0 || year % 400 == 0);
    let mut year = 1970;
    while days >= 365 + u64::from(leap(year)) {
        days -= 365 + u64::from(leap(year));
        year += 1;
    }
    let lengths = [31, 28 + u64::from(leap(year)), 31, 30, 31, 30, 31, 31, 30, 31, 30, 31];
    let mut month = 0;
    while days >= lengths[month] {
        days -= lengths[month];
        month += 1;
    }
    (year, month as u64 + 1, days + 1)
}

/// The element that a word tells: repeats between `*`, components between `:`.
fn element(word: &[u8]) -> Result<ValueList, Trouble> {
    let mut list = ValueList::new();
    for repeat in word.split(|&byte| byte == b'*') {
        for (number, component) in repeat.split(|&byte| byte == b':').enumerate() {
            let kind = match (list.is_empty(), number) {
                (true, _) => Kind::NewSegment,
                (false, 0) => Kind::NextRepeat,
                _ => Kind::NextComponent,
            };
            match unescaped(component) {
                Some(value) => list.push(kind, value),
                None => return usage("a backslash is \\x5c in a component"),
            }
        }
    }
    Ok(list)
}

#[cfg(test)]
mod tests {
    use super::*;

    #[test]
    fn days_are_dates() {
        assert_eq!(date(0), (1970, 1, 1));
        assert_eq!(date(11_016), (2000, 2, 29));
        assert_eq!(date(11_017), (2000, 3, 1));
        assert_eq!(date(20_772), (2026, 11, 15));
        assert_eq!(date(47_540), (2100, 2, 28));
        assert_eq!(date(47_541), (2100, 3, 1));
    }

    #[test]
    fn references_are_counted_up() {
        let up = |word: &str, more| counted_up(word.as_bytes(), more);
        assert_eq!(up("A1", 0).as_deref(), Some(&b"A1"[..]));
        assert_eq!(up("A1", 9).as_deref(), Some(&b"A10"[..]));
        assert_eq!(up("A009", 1).as_deref(), Some(&b"A010"[..]));
        assert_eq!(up("A", 1), None);
        assert_eq!(up("ABCDEFGHIJKLM9", 1), None);
    }
}
