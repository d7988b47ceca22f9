use std::ffi::{OsStr, OsString};
use std::path::{Path, PathBuf};

use clap::Args;
use hverolda::{
    explain, explain_by_table, faults, judge, judge_by_table, opened, Fault, Interchange, Refusal,
};

use crate::input::{each, once_each, try_each_of, Files, ROOM};
use crate::output::{fields, shown, Output, Said};
use crate::table_file::TableFile;
use crate::{Status, Trouble};

#[derive(Args)]
#[command(about = "Judges interchanges.", long_about = LONG)]
pub struct Judge {
    /// Hold the messages to the table of their structure in this file.
    #[arg(long, value_name = "TABLE", conflicts_with = "tables")]
    table: Option<OsString>,
    /// Hold the messages to the table in this folder that is called as their type is.
    #[arg(long, value_name = "FOLDER")]
    tables: Option<PathBuf>,
    /// List more faults of the kind that is the answer, which stands first.
    #[arg(long)]
    all: bool,
    #[command(flatten)]
    files: Files,
}

const LONG: &str = "\
Judges interchanges: UNOA and UNOB, syntax versions 1, 2 and 4, at most 32000 bytes each.

Prints a line for each FILE: accepted SEGMENTS MESSAGES GROUPS LENGTH, where LENGTH is
that of the normal form; or refused NUMBER PLACE: what was found, what would do, and in
brackets the segment, counted from 1, its tag, the line and the column. PLACE counts bytes
from 0. 'hverolda explain NUMBER' says more of a number. --all goes on after the answer and
lists further faults of its kind, each after the word and.

--table holds the messages to a table of their structure as well, which is read from the
file TABLE, or from standard input where it is - and a FILE is named: its eight bytes an
entry, or a text of lines of a tag, M or C, and the most repeats, where indentation makes
groups; docs/TABLES.md tells more, and 'hverolda table' prints its bytes. --tables chooses
the table by the message type in UNH, as ORDERS:D:96A:UN: of FOLDER, the file
ORDERS.D.96A.UN.txt, or ORDERS.D.96A.txt, ORDERS.D.txt or ORDERS.txt, the first that is
there. An interchange whose messages have no table, or more than one, is trouble.

Refused 21 is of the table, and says which line or entry is at fault. Refused 22 is of a
message, at the segment that the table does not allow there, or at UNT where one is
missing.";

impl Judge {
    pub fn run(&self, output: &mut Output) -> Result<Status, Trouble> {
        match (&self.table, &self.tables) {
            (Some(table), _) => self.by_table(output, table),
            (_, Some(folder)) => {
                each(output, &self.files, ROOM, |input| match of_folder(folder, &input.bytes) {
                    Ok(Some(table)) => self.said(Some(&table), &input.bytes),
                    Ok(None) => self.said(None, &input.bytes),
                    Err(why) => Said::Trouble(why),
                })
            }
            _ => each(output, &self.files, ROOM, |input| self.said(None, &input.bytes)),
        }
    }

    /// Judges by the table of this name.
    fn by_table(&self, output: &mut Output, table: &OsStr) -> Result<Status, Trouble> {
        let names = self.files.names()?;
        once_each(table, &names)?;
        let table = TableFile::read(table)?;
        try_each_of(output, &self.files, &names, ROOM, |input| {
            Ok(self.said(Some(&table), &input.bytes))
        })
    }

    fn said(&self, table: Option<&TableFile>, input: &[u8]) -> Said {
        let answer = match table {
            None => judge(input),
            Some(table) => judge_by_table(table.table.bytes(), input),
        };
        match (answer, table) {
            (Ok(interchange), _) => accepted(&interchange),
            (Err(refusal), Some(table)) if matches!(refusal.fault, Fault::Table | Fault::Body) => {
                let mut told = explain_by_table(table.table.bytes(), input, refusal);
                if refusal.fault == Fault::Table {
                    told.line = table.table.line(refusal.place);
                    told.sentence = format!("{}, {}", told.sentence, table.place(refusal.place));
                }
                Said::Explained("refused", told, Vec::new())
            }
            (Err(refusal), _) => self.refused(input, refusal),
        }
    }

    fn refused(&self, input: &[u8], refusal: Refusal) -> Said {
        let more = if self.all { faults(input) } else { Vec::new() };
        let others = more.into_iter().skip(1).map(|other| explain(input, other)).collect();
        Said::Explained("refused", explain(input, refusal), others)
    }
}

fn accepted(interchange: &Interchange) -> Said {
    let Interchange { segments, messages, groups, normal_length, .. } = interchange;
    let line = format!("accepted {segments} {messages} {groups} {normal_length}");
    let object = fields([
        ("verdict", "accepted".into()),
        ("segments", (*segments).into()),
        ("messages", (*messages).into()),
        ("groups", (*groups).into()),
        ("normal_length", (*normal_length).into()),
    ]);
    Said::Fields(Status::Yes, line, object)
}

/// The table of a folder that is called as the messages' type is; none where the
/// interchange is refused without one.
fn of_folder(folder: &Path, input: &[u8]) -> Result<Option<TableFile>, String> {
    let interchange = match opened(input) {
        Ok(interchange) => interchange,
        Err(_) => return Ok(None),
    };
    let headers = interchange.segments().filter(|segment| segment.tag() == b"UNH");
    let mut types: Vec<Vec<String>> = headers
        .map(|unh| unh.element(2).repeat(0).components().map(|part| part.to_string()).collect())
        .collect();
    types.sort_unstable();
    types.dedup();
    let parts = match &types[..] {
        [parts] => parts,
        _ => return Err(format!("its messages are of {} types: --tables wants one", types.len())),
    };
    let is_plain = |part: &String| part.chars().all(|c| c.is_ascii_alphanumeric());
    if !parts.iter().all(is_plain) || parts[0].is_empty() {
        return Err("UNH names no message type that could be a file's name".to_string());
    }
    let names = (1..=parts.len()).rev().map(|count| format!("{}.txt", parts[..count].join(".")));
    let found = names.map(|name| folder.join(name)).find(|path| path.is_file());
    let path = found.ok_or_else(|| {
        format!("{} has no table {}.txt", shown(folder.as_os_str()), parts.join("."))
    })?;
    match TableFile::read(path.as_os_str()) {
        Ok(table) => Ok(Some(table)),
        Err(Trouble::File(name, error)) => Err(format!("{name}: {error}")),
        Err(_) => Err("its table cannot be read".to_string()),
    }
}
