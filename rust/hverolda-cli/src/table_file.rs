//! The file of a table of message structures.

use std::ffi::{OsStr, OsString};
use std::fs::File;
use std::io::{self, Read};

use hverolda::Table;

use crate::input::Input;
use crate::output::{own, shown};
use crate::Trouble;

/// So many bytes are read of a table: with more, a group of an entry below 999 ends
/// no later, and the answer is the same. A text has fewer.
const ROOM: usize = 8 * (65_535 + 1_001);

pub struct TableFile {
    pub table: Table,
    file: OsString,
}

impl TableFile {
    /// The table of a file, or of standard input, or why there is none.
    pub fn read(name: &OsStr) -> Result<TableFile, Trouble> {
        let mut bytes = Vec::new();
        let trouble = |error| Trouble::File(shown(name), error);
        let no_table = |why: String| trouble(io::Error::new(io::ErrorKind::InvalidData, why));
        let file = if name == "-" { own(&io::stdin()) } else { File::open(name) };
        let file = file.map_err(trouble)?;
        file.take(ROOM as u64).read_to_end(&mut bytes).map_err(trouble)?;
        if bytes.len() == ROOM && Table::is_text(&bytes) {
            return Err(no_table(format!("the text of a table has fewer than {ROOM} bytes")));
        }
        let table = Table::of(&bytes).map_err(|fault| no_table(fault.to_string()))?;
        Ok(TableFile { table, file: name.to_os_string() })
    }

    /// Where an entry stands, as the end of a sentence.
    pub fn place(&self, entry: usize) -> String {
        let name = shown(&self.file);
        match self.table.line(entry) {
            Some(line) => format!("line {line} of {name}"),
            None => format!("entry {entry} of {name}"),
        }
    }

    /// It as something of which something is said; no bytes of it are shown.
    pub fn input(&self) -> Input {
        let name = shown(&self.file);
        Input { file: self.file.clone(), name, label: String::new(), bytes: Vec::new() }
    }
}
