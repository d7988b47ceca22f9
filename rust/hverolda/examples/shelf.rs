//! A mailbox that keeps each interchange once.
//!
//! `cargo run --example shelf FILE..` puts the interchange of each file on a
//! shelf and says whether it is new or the copy of one that is there, perhaps
//! spelled otherwise; then says how many are kept, in how many bytes, and how
//! many duplicates were found, and delivers what is kept: prints each text and
//! takes it away. The exit status is 0 where all are new, 1 where one is a copy
//! or refused, and 2 where that cannot be said: no file is named, one cannot be
//! read, or standard output cannot be written.

use std::env;
use std::error::Error;
use std::fs::File;
use std::io::{self, Read, Write};
use std::path::{Path, PathBuf};
use std::process::ExitCode;

use hverolda::{Refusal, Shelf, Shelved, Sums, LARGEST_SHELF, LONGEST, SLOTS};

fn main() -> ExitCode {
    let names: Vec<PathBuf> = env::args_os().skip(1).map(PathBuf::from).collect();
    match mailbox(&names) {
        Ok(true) => ExitCode::SUCCESS,
        Ok(false) => ExitCode::from(1),
        Err(error) => {
            eprintln!("{error}");
            ExitCode::from(2)
        }
    }
}

/// Says what becomes of each file's interchange, and delivers what is kept; are
/// all new?
fn mailbox(names: &[PathBuf]) -> Result<bool, Box<dyn Error>> {
    if names.is_empty() {
        return Err("usage: shelf FILE..".into());
    }
    let mut shelf = Shelf::start(vec![0; LARGEST_SHELF])?;
    let mut said = Vec::new();
    let mut all_new = true;
    for name in names {
        let answer = shelf.put(&load(name)?);
        all_new &= matches!(answer, Ok(Shelved::New(_)));
        match answer {
            Ok(Shelved::New(slot)) => writeln!(said, "{}: new, in slot {slot}", name.display())?,
            Ok(Shelved::Copy(slot)) => {
                writeln!(said, "{}: a copy of slot {slot}", name.display())?;
            }
            Err(refusal) => writeln!(said, "{}: {refusal}", name.display())?,
        }
    }
    deliver(&mut shelf, &mut said)?;
    let mut out = io::stdout();
    let written = out.write_all(&said).and_then(|()| out.flush());
    written.map_err(|error| format!("shelf: standard output: {error}"))?;
    Ok(all_new)
}

/// One byte more than the most that is allowed is read, so that a longer file
/// is refused.
fn load(name: &Path) -> Result<Vec<u8>, String> {
    let mut bytes = Vec::new();
    let read =
        File::open(name).and_then(|file| file.take(LONGEST as u64 + 1).read_to_end(&mut bytes));
    match read {
        Ok(_) => Ok(bytes),
        Err(error) => Err(format!("shelf: {}: {error}", name.display())),
    }
}

/// Says what is kept and what was found, and each text, and takes it from the shelf.
fn deliver(shelf: &mut Shelf<Vec<u8>>, said: &mut Vec<u8>) -> Result<(), Refusal> {
    let (occupied, Sums { held, duplicates }) = (shelf.slots()?.occupied, shelf.sums()?);
    let figures = format!("{occupied} kept in {held} bytes; duplicates found: {duplicates}\n");
    said.extend(figures.bytes());
    for slot in 0..SLOTS {
        if let Ok(text) = shelf.get(slot) {
            said.extend(text);
            said.push(b'\n');
            shelf.remove(slot)?;
        }
    }
    Ok(())
}
