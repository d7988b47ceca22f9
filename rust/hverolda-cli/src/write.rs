use std::ffi::OsString;
use std::os::unix::ffi::OsStrExt;

use clap::builder::{OsStringValueParser, TypedValueParser};
use clap::Args;
use hverolda::{explain_list, Fault, Refusal, LONGEST};

use crate::input::{each, Files};
use crate::lines::{parsed, ROOM};
use crate::output::{Output, Said};
use crate::{Status, Trouble};

#[derive(Args)]
#[command(about = "Writes interchanges from values, one a line.", long_about = LONG)]
pub struct Write {
    /// Six bytes as an advice has them.
    #[arg(value_name = "SERVICE", value_parser = service())]
    service: OsString,
    #[command(flatten)]
    files: Files,
}

const LONG: &str = "\
Writes interchanges from values, one a line.

SERVICE is six bytes as an advice has them: component separator, element separator,
decimal mark, release character or a space, repetition separator or a space, segment
terminator: ';*.! ~'. With a repetition separator versions 1 and 2 are refused (7),
without one repeats are (16).
FILE has the lines that read prints. The texts stand one directly after the other, with
no byte besides. Of a text that is refused, standard error says so: refused text NUMBER
PLACE and why, where the places of 15 and 16 count lines from 0. A line is a digit, a
space and a value in which \\x and two hexadecimal digits stand for a byte; any other line
is trouble, and so are more lines than an interchange can have.";

impl Write {
    pub fn run(&self, output: &mut Output) -> Result<Status, Trouble> {
        let service = self.service.as_bytes();
        each(output, &self.files, ROOM, |input| match parsed(&input.bytes) {
            _ if input.bytes.len() == ROOM => {
                Said::Trouble("more lines than an interchange can have".to_string())
            }
            Ok((bytes, table)) => said(service, &bytes, &table),
            Err(number) => Said::Trouble(format!("line {number} is no kind and value")),
        })
    }
}

/// What takes the service characters. That a word is none is said before anything is
/// read: where they were forgotten, a file's name stands in their place.
pub fn service() -> impl TypedValueParser<Value = OsString> {
    OsStringValueParser::new().try_map(|word| match is_usable(word.as_bytes()) {
        true => Ok(word),
        false => Err("it must be six usable bytes, as ';*.! ~'"),
    })
}

/// Are these six service bytes that Write can use?
fn is_usable(service: &[u8]) -> bool {
    !matches!(text(service, &[], &[]), Err(refusal) if refusal.fault == Fault::Advice)
}

/// What is said of a value list: its text, or why there is none.
pub fn said(service: &[u8], bytes: &[u8], table: &[u32]) -> Said {
    match text(service, bytes, table) {
        Ok(text) => Said::Text(text),
        Err(refusal) => {
            let told = explain_list(service, bytes, table, refusal);
            Said::NoTextExplained("refused text", told)
        }
    }
}

/// The text of a value list.
fn text(service: &[u8], bytes: &[u8], table: &[u32]) -> Result<Vec<u8>, Refusal> {
    let mut text = vec![0; LONGEST];
    let length = hverolda::write(service, bytes, table, &mut text)?;
    text.truncate(length);
    Ok(text)
}
