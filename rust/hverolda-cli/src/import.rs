use std::ffi::{OsStr, OsString};
use std::os::unix::ffi::OsStrExt;

use clap::Args;
use hverolda::{explain_columns, judge, values, Fault, Kind, ValueList, LONGEST};

use crate::input::{once_each, read, try_each_of, Files, Input};
use crate::lines::escaped;
use crate::output::{complain, shown, Output, Said};
use crate::write::service;
use crate::{usage, Status, Trouble};

#[derive(Args)]
#[command(about = "Writes interchanges from lines in columns.", long_about = LONG)]
pub struct Import {
    /// Six bytes as an advice has them: ';*.! ~'; with --like, those of ORIGINAL if none are given.
    #[arg(long, value_parser = service(), required_unless_present = "like")]
    service: Option<OsString>,
    /// Say which values differ from those of this interchange.
    #[arg(long, value_name = "ORIGINAL")]
    like: Option<OsString>,
    #[command(flatten)]
    files: Files,
}

const LONG: &str = "\
Writes interchanges from lines in columns.

SERVICE is six bytes as an advice has them: component separator, element separator,
decimal mark, release character or a space, repetition separator or a space, segment
terminator: ';*.! ~'. With a repetition separator versions 1 and 2 are refused (7),
without one repeats are (16).
FILE has the lines that export prints, changed or not: the heading, then lines whose
numbers come one after another, with no empty value at the end of a repeat, an element or a
segment, and a line feed after each. The texts stand one directly after the other, with no
byte besides. What is refused standard error says: refused input 24 0 and which line is not
as export writes it; or refused text NUMBER PLACE and why, where the places of 15 and 16
count lines after the heading from 0, and all others bytes of the text.

A spreadsheet changes values in silence when it opens them as numbers: 0930 becomes 930,
12.50 becomes 12.5, and a value that begins with = is run as a formula. Open every column
as text, or open what 'export --ods' writes. --like ORIGINAL names on standard error each
value that is not as it was in ORIGINAL, and says where a spreadsheet may have done so; the
text is written all the same.";

/// So many bytes of lines are read: the columns of an interchange have at most 800,039.
const ROOM: usize = 1 << 20;

impl Import {
    pub fn run(&self, output: &mut Output) -> Result<Status, Trouble> {
        let names = self.files.names()?;
        let like = match &self.like {
            None => None,
            Some(name) => {
                once_each(name, &names)?;
                match original(name)? {
                    Some(original) => Some(original),
                    None => return Ok(Status::Trouble),
                }
            }
        };
        let service = match (&self.service, &like) {
            (Some(service), _) => service.as_bytes().to_vec(),
            (None, Some(original)) => original.service.to_vec(),
            (None, None) => return usage("missing: --service <SERVICE>"),
        };
        try_each_of(output, &self.files, &names, ROOM, |input| {
            let said = said(&service, input);
            if let (Said::Text(text), Some(original)) = (&said, &like) {
                original.tell(&input.name, text);
            }
            Ok(said)
        })
    }
}

/// The interchange that lines are compared with.
struct Original {
    name: String,
    service: [u8; 6],
    values: ValueList,
}

/// None where it cannot be read or is refused, which is said.
fn original(name: &OsStr) -> Result<Option<Original>, Trouble> {
    let input = match read(name, crate::input::ROOM, false) {
        Some(input) => input,
        None => return Ok(None),
    };
    let name = shown(name);
    match (judge(&input.bytes), values(&input.bytes)) {
        (Ok(judged), Ok(values)) => {
            Ok(Some(Original { name, service: judged.characters.six(), values }))
        }
        (Err(refusal), _) | (_, Err(refusal)) => {
            let told = hverolda::explain(&input.bytes, refusal);
            complain(&format!("{name}: refused {} {}: {told}", refusal.number(), refusal.place));
            Ok(None)
        }
    }
}

impl Original {
    /// Names the values that differ from those of a text that was written.
    fn tell(&self, file: &str, text: &[u8]) {
        let written = match values(text) {
            Ok(written) => written,
            Err(_) => return,
        };
        let (before, after): (Vec<_>, Vec<_>) = (self.values.iter().collect(), written.iter().collect());
        let kinds = |list: &[(Kind, &[u8])]| list.iter().map(|value| value.0).collect::<Vec<_>>();
        if kinds(&before) != kinds(&after) {
            let counts = format!("{} values for {}", after.len(), before.len());
            complain(&format!("{file}: other segments, elements or components than {}: {counts}", self.name));
        }
        for (number, (before, after)) in before.iter().zip(&after).enumerate() {
            if before.1 != after.1 {
                let (was, is) = (escaped(before.1), escaped(after.1));
                let why = suspicion(&was, &is);
                complain(&format!("{file}: line {}: {is}, where {} has {was}{why}", number + 2, self.name));
            }
        }
    }
}

/// What a spreadsheet may have done, as the end of a sentence.
fn suspicion(was: &str, is: &str) -> &'static str {
    let same = matches!((was.parse::<f64>(), is.parse::<f64>()), (Ok(was), Ok(is)) if was == is);
    match was.as_bytes().first() {
        _ if same => " (the same number: a spreadsheet may have rewritten it)",
        Some(b'=' | b'+' | b'-' | b'@') => " (a spreadsheet may have run it as a formula)",
        _ => "",
    }
}

fn said(service: &[u8], input: &Input) -> Said {
    if input.bytes.len() == ROOM {
        return Said::Trouble("more bytes than the columns of an interchange have".to_string());
    }
    let mut text = vec![0; LONGEST];
    match hverolda::import(service, &input.bytes, &mut text) {
        Ok(length) => {
            text.truncate(length);
            Said::Text(text)
        }
        Err(refusal) => {
            let of = if refusal.fault == Fault::NoColumns { "refused input" } else { "refused text" };
            Said::NoTextExplained(of, explain_columns(service, &input.bytes, refusal))
        }
    }
}
