use std::ffi::OsString;

use clap::Args;
use hverolda::{explain_by_table, judge_by_table, Fault};

use crate::output::{complain, fields, Output, Said};
use crate::table_file::TableFile;
use crate::{Status, Trouble};

#[derive(Args)]
#[command(about = "Prints the bytes of a table of message structures.", long_about = LONG)]
pub struct Table {
    /// The table's text, or its bytes; - is standard input.
    #[arg(value_name = "FILE")]
    file: OsString,
}

const LONG: &str = "\
Prints the bytes of a table of message structures.

FILE is a text of lines: a tag, M or C, and the most repeats. Lines right after it with more
indentation stand under it: it is then a group's own line, and its first word the group's
name, as SG1. What follows a # is left out. docs/TABLES.md tells how a printed segment table
becomes such a text. The bytes are what hverolda_judge_by_table in C and judge_by_table in
Rust are lent: eight for each entry. A table that is not sound is refused by 21, and its line
is named.";

impl Table {
    pub fn run(&self, output: &mut Output) -> Result<Status, Trouble> {
        let file = TableFile::read(&self.file)?;
        let bytes = file.table.bytes();
        // no input is needed to see that a table is not sound
        if let Some(refusal) = judge_by_table(bytes, b"").err().filter(|it| it.fault == Fault::Table) {
            let mut told = explain_by_table(bytes, b"", refusal);
            told.line = file.table.line(refusal.place);
            told.sentence = format!("{}, {}", told.sentence, file.place(refusal.place));
            return output.say(&file.input(), Said::NoTextExplained("refused", told));
        }
        if output.is_terminal() && !output.is_json() {
            complain("the bytes are no text: put them into a file, as with >table.bin");
            return Ok(Status::Trouble);
        }
        let hex: String = bytes.iter().map(|byte| format!("{byte:02x}")).collect();
        let object = fields([
            ("verdict", "accepted".into()),
            ("entries", (bytes.len() / 8).into()),
            ("bytes", hex.into()),
        ]);
        output.say(&file.input(), Said::TextFields(bytes.to_vec(), object))
    }
}
