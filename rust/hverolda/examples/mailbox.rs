//! A mailbox in small: has this interchange come already, perhaps spelled
//! otherwise?
//!
//! `cargo run --example mailbox FIRST SECOND` judges the interchanges in two
//! files, says from whom each one is and whether they are the same, which of
//! the two stays, and prints the normal form that they share. The exit status
//! is 0 where they are the same, 1 where they differ or one is refused, and 2
//! where that cannot be said: other than two files are named, one cannot be
//! read, or standard output cannot be written.

use std::env;
use std::error::Error;
use std::fs::File;
use std::io::{self, Read, Write};
use std::path::{Path, PathBuf};
use std::process::ExitCode;

use hverolda::{compare, judge, keep, normal_form, part, Comparison, LONGEST};

fn main() -> ExitCode {
    let names: Vec<PathBuf> = env::args_os().skip(1).map(PathBuf::from).collect();
    match mailbox(&names) {
        Ok(true) => ExitCode::SUCCESS,
        Ok(false) => ExitCode::from(1),
        Err(error) => {
            eprintln!("{error}");
            ExitCode::from(2)
        }
    }
}

/// Says what is to be said of two files; are they the same?
fn mailbox(names: &[PathBuf]) -> Result<bool, Box<dyn Error>> {
    let (first, second) = match names {
        [first, second] => (Message::load(first)?, Message::load(second)?),
        _ => return Err("usage: mailbox FIRST SECOND".into()),
    };
    let mut said = Vec::new();
    let same = check(&first, &second, &mut said)?;
    let mut out = io::stdout();
    let written = out.write_all(&said).and_then(|()| out.flush());
    written.map_err(|error| format!("mailbox: standard output: {error}"))?;
    Ok(same)
}

struct Message<'a> {
    name: &'a Path,
    bytes: Vec<u8>,
}

impl Message<'_> {
    /// One byte more than the most that is allowed is read, so that a longer
    /// file is refused.
    fn load(name: &Path) -> Result<Message<'_>, String> {
        let mut bytes = Vec::new();
        let read =
            File::open(name).and_then(|file| file.take(LONGEST as u64 + 1).read_to_end(&mut bytes));
        match read {
            Ok(_) => Ok(Message { name, bytes }),
            Err(error) => Err(format!("mailbox: {}: {error}", name.display())),
        }
    }
}

/// Says what Judge says of each, and which to keep of two that are the same;
/// are they?
fn check(first: &Message, second: &Message, said: &mut Vec<u8>) -> Result<bool, Box<dyn Error>> {
    let accepted = [say_judged(first, said)?, say_judged(second, said)?];
    if accepted != [true, true] {
        return Ok(false);
    }
    match compare(&first.bytes, &second.bytes)? {
        Comparison::Different => {
            writeln!(said, "different: both stay")?;
            Ok(false)
        }
        Comparison::Same => {
            let kept = keep(&first.bytes, &second.bytes);
            let stays = if kept.as_ptr() == first.bytes.as_ptr() { first } else { second };
            writeln!(said, "the same: {} stays", stays.name.display())?;
            said.extend(normal_form(&first.bytes)?);
            writeln!(said)?;
            Ok(true)
        }
    }
}

/// Says what Judge says of a message, and who sent it: UNB is segment 0, and
/// its element 2 is the sender. Is it accepted?
fn say_judged(message: &Message, said: &mut Vec<u8>) -> io::Result<bool> {
    let name = message.name.display();
    let interchange = match judge(&message.bytes) {
        Ok(interchange) => interchange,
        Err(refusal) => {
            writeln!(said, "{name}: {refusal}")?;
            return Ok(false);
        }
    };
    let sender = part(&message.bytes, 0, 2, 0, 0).escape_ascii();
    writeln!(
        said,
        "{name}: accepted, {} segments, {} messages, {} groups, from {sender}",
        interchange.segments, interchange.messages, interchange.groups
    )?;
    Ok(true)
}
