use std::ffi::OsString;
use std::os::unix::ffi::OsStrExt;

use clap::Args;

use crate::input::{each, Files, ROOM};
use crate::output::{Output, Said};
use crate::write::{said, service};
use crate::{Status, Trouble};

#[derive(Args)]
#[command(about = "Writes the values of interchanges under other service characters.", long_about = LONG)]
pub struct Respell {
    /// Six bytes as an advice has them.
    #[arg(value_name = "SERVICE", value_parser = service())]
    service: OsString,
    #[command(flatten)]
    files: Files,
}

const LONG: &str = "\
Writes the values of interchanges under other service characters.

SERVICE is six bytes as an advice has them: component separator, element separator,
decimal mark, release character or a space, repetition separator or a space, segment
terminator: ';*.! ~'. With a repetition separator versions 1 and 2 are refused (7),
without one repeats are (16).
The texts stand one directly after the other, with no byte besides. What is refused
standard error says: refused input NUMBER PLACE and why, or refused text where the input
is accepted and cannot be written so.";

impl Respell {
    pub fn run(&self, output: &mut Output) -> Result<Status, Trouble> {
        let service = self.service.as_bytes();
        each(output, &self.files, ROOM, |input| match hverolda::values(&input.bytes) {
            Ok(list) => said(service, list.bytes(), list.table()),
            Err(refusal) => Said::NoText("refused input", refusal),
        })
    }
}
