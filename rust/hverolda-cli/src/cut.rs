use std::ffi::{OsStr, OsString};
use std::fs::{self, OpenOptions};
use std::io::{self, Write};
use std::path::{Path, PathBuf};

use clap::Args;
use serde_json::json;

use crate::input::{whole, Files, Whole, ROOM};
use crate::output::{fields, shown, Output, Said};
use crate::{Status, Trouble};

#[derive(Args)]
#[command(about = "Cuts files into the interchanges that stand in them end to end.", long_about = LONG)]
pub struct Cut {
    #[command(flatten)]
    files: Files,
    /// Write each piece into a file of its own in this folder.
    #[arg(long, value_name = "FOLDER")]
    to: Option<PathBuf>,
}

const LONG: &str = "\
Cuts files into the interchanges that stand in them end to end, whatever their length.

A piece ends after its first UNZ segment and the line breaks after it. Where the bytes before a
UNZ cannot be read as segments (2 to 6), or there is none, the rest of the file is one piece,
which is refused, and the last: nothing after the fault is looked at.

Prints a line for each piece, its fields parted by tabs: offset and length in bytes; accepted,
or refused NUMBER PLACE, the place counting from the piece's beginning; and of an accepted one
sender, recipient and control reference.

With --to the pieces are written into files of FOLDER, which is made where it is not there:
the name of FILE, a point and the number of the piece from 00000. A file that is there is not
overwritten: that is trouble.";

impl Cut {
    pub fn run(&self, output: &mut Output) -> Result<Status, Trouble> {
        if let Some(folder) = &self.to {
            fs::create_dir_all(folder).map_err(trouble(folder))?;
        }
        let names = self.files.names()?;
        let mut worst = Status::Yes;
        for name in &names {
            let status = match whole(name, self.files.are_labelled(names.len())) {
                Some(input) => self.cut(output, &input)?,
                None => Status::Trouble,
            };
            worst = worst.max(status);
        }
        Ok(worst)
    }

    fn cut(&self, output: &mut Output, input: &Whole) -> Result<Status, Trouble> {
        let mut worst = Status::Yes;
        for (number, piece) in hverolda::pieces(input.bytes()).enumerate() {
            if let Some(folder) = &self.to {
                write(&folder.join(name_of(&input.name, number)), piece.bytes)?;
            }
            let judged = &piece.bytes[..piece.bytes.len().min(ROOM)];
            worst = worst.max(output.say(&input.part(judged), told(&piece, judged))?);
        }
        Ok(worst)
    }
}

/// The line of a piece.
fn told(piece: &hverolda::Piece, input: &[u8]) -> Said {
    let (offset, length) = (piece.range.start, piece.bytes.len());
    let at = |mut object: crate::json::Object| {
        object.insert("offset".to_string(), json!(offset));
        object.insert("length".to_string(), json!(length));
        object
    };
    match hverolda::parties(input) {
        Ok(parties) => {
            let text = |bytes: &[u8]| String::from_utf8_lossy(bytes).into_owned();
            let [sender, recipient, reference] =
                [parties.sender, parties.recipient, parties.reference].map(text);
            let line = format!("{offset}\t{length}\taccepted\t{sender}\t{recipient}\t{reference}");
            Said::Fields(Status::Yes, line, at(fields([("verdict", json!("accepted"))])))
        }
        Err(refusal) => {
            let (number, place) = (refusal.number(), refusal.place);
            let line = format!("{offset}\t{length}\trefused {number} {place}");
            let verdict = ("verdict", json!("refused"));
            let fields = fields([verdict, ("number", json!(number)), ("place", json!(place))]);
            Said::Fields(Status::No, line, at(fields))
        }
    }
}

/// The name of a piece's file: that of the file without its folders, and the piece's number.
fn name_of(file: &OsStr, number: usize) -> OsString {
    let mut name = Path::new(file).file_name().unwrap_or(file).to_os_string();
    name.push(format!(".{number:05}"));
    name
}

fn write(path: &Path, bytes: &[u8]) -> Result<(), Trouble> {
    let file = OpenOptions::new().write(true).create_new(true).open(path);
    file.and_then(|mut file| file.write_all(bytes)).map_err(trouble(path))
}

fn trouble(path: &Path) -> impl Fn(io::Error) -> Trouble + '_ {
    move |error| Trouble::File(shown(path.as_os_str()), error)
}
