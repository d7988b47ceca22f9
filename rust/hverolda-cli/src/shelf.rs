use std::ffi::{OsStr, OsString};
use std::io;
use std::time::Duration;

use clap::{Args, Subcommand};
use hverolda::shelf_file::{Removed, Salvaged, ShelfFile, ShelfTrouble};
use hverolda::{
    explain, Fault, Refusal, Shelf as Kept, Shelved, Slots, Sums, SLOTS, SMALLEST_SHELF,
};

use crate::input::{read, try_each, Files, Input, ROOM};
use crate::json::Object;
use crate::locate::number;
use crate::output::{fields, shown, told, Output, Said};
use crate::{Status, Trouble};

#[derive(Args)]
#[command(about = "Keeps interchanges in a file, each once.", long_about = LONG)]
#[command(subcommand_value_name = "ACTION", subcommand_help_heading = "Actions")]
#[command(disable_help_subcommand = true)]
pub struct Shelf {
    /// How long to wait for other runs, at most: seconds. Without it there is no end.
    #[arg(long, value_name = "SECONDS", value_parser = number, global = true)]
    wait: Option<usize>,
    /// The shelf's file. One that is called as an action is: ./list.
    shelf: OsString,
    #[command(subcommand)]
    action: Action,
}

/// What is done with a shelf.
#[derive(Subcommand)]
enum Action {
    /// Makes a file that is not there yet an empty shelf.
    Start {
        /// Its bytes, 533 to 65536.
        #[arg(value_parser = number, default_value = "65536")]
        size: usize,
    },
    /// Keeps the interchange of each file.
    Put {
        #[command(flatten)]
        files: Files,
    },
    /// Says which slot keeps the interchange of each file.
    Find {
        #[command(flatten)]
        files: Files,
    },
    /// Writes the text that a slot keeps.
    Get {
        /// The slot, 0 to 63.
        #[arg(value_parser = number)]
        slot: usize,
    },
    /// Takes the text away that a slot keeps.
    Remove {
        /// The slot, 0 to 63.
        #[arg(value_parser = number)]
        slot: usize,
        /// Only where the slot keeps the interchange of this file; - is standard input.
        #[arg(value_name = "FILE")]
        text: Option<OsString>,
    },
    /// Says how many texts are kept, their bytes, and how many duplicates were caught.
    List,
    /// Gives a shelf another name, and puts an empty one in its place.
    Move {
        /// Its name then, which is not there yet.
        new: OsString,
    },
    /// Writes out what a shelf that is not sound still names.
    Salvage {
        /// Where to: a folder, which is made where it is not there.
        folder: OsString,
    },
    /// Turns a shelf of version 1 into version 2.
    Carry,
    /// Turns a shelf of version 2 into version 1.
    CarryBack,
}

const LONG: &str = "\
Keeps interchanges in a file, SHELF, each once.

start    makes SHELF, a file that is not there yet, an empty shelf of SIZE bytes: 533 to
         65536, which it is where no SIZE is given. Prints started SIZE.
put      keeps the interchange of each FILE. Prints new SLOT; or copy SLOT where the same
         interchange is kept already, under whatever spelling, and counts a duplicate; or
         refused NUMBER PLACE and why.
find     prints kept SLOT where a slot keeps the interchange of FILE, under whatever
         spelling; else absent. It keeps nothing and counts nothing.
get      writes the text that a slot keeps, a normal form, with no byte besides.
remove   takes it away. Prints removed LENGTH. With a FILE, only where the slot keeps that
         interchange; else prints absent SLOT and why. A slot is used again at once: who
         repeats a remove, since its answer was lost, names the FILE.
list     prints lines of a name and a number: occupied, how many of the 64 slots are;
         held, the bytes of all texts; free, the bytes that are left; duplicates, how many
         copies were put since start or carry, up to 4294967295; and for each occupied
         slot its number and the length of its text.
move     gives SHELF, full or damaged, the name NEW, and puts an empty shelf of the same
         size, owner and permissions in its place, at once. NEW is in the same file system,
         and is not there yet. Prints moved SIZE.
salvage  writes what the pairs of a shelf that is not sound name into FOLDER, whatever the
         rules say: SLOT.edi for each. Prints SLOT LENGTH, then occupied or free, as the
         map says, whole or cut, and what judge says of it.
carry    turns SHELF from version 1, which counted no duplicates, into version 2. Slots
         and texts stay, and duplicates begin at 0. Prints carried; or says refused 18 8
         where fewer than 8 bytes are free: remove a text with the program of version 1, or
         append 8 zero bytes where SHELF then has at most 65536.
carry-back
         turns SHELF into version 1 again, for a site that has no version 2 yet. Slots
         and texts stay, and duplicates are lost. Prints carried back.

A shelf that is not sound, so that no text of it can be trusted, is refused by 19 and left
as it is; so is one of the other version: carry asks for version 1, all else for version
2. Slots are 0 to 63.

SHELF is replaced as a whole: whatever stops a run, it holds the old shelf or the new one.
What was done is printed when it is on the disk. The new one has the owner, permissions,
access control list and extended attributes of the old one; where they cannot be kept
nothing is changed. Runs that change one SHELF wait for each other, but not for one that was
killed; with --wait, so many seconds at most for each FILE. A file that a killed run left
beside SHELF, called .SHELF.hverolda- and a number, goes with a later change.";

pub const STATUSES: &str = "\
Exit status: by what was asked
                0              1                        3                2
  start         started                                                  trouble
  put           new            copy                     refused          trouble
  find          kept           absent                   refused          trouble
  get           the text       no text in the slot                       trouble
  remove        removed        no text in the slot,     FILE refused     trouble
                               or not that of FILE
  list          the figures                                              trouble
  move          moved                                                    trouble
  salvage       all whole and  some cut or refused by                    trouble
                accepted       judge, or none there
  carry, carry-back
                carried                                                  trouble
After 0 and 1 of put the interchange is on the shelf; after 3 it is refused by judge, and
not kept; after 2 it may be kept or not: put it again. Trouble is all else, as a shelf
that is full (17, 18) or not sound (19), a file that cannot be read, a lock that another
run kept. Of several files the gravest counts: 2 before 3 before 1. Trouble is said on
standard error and never on standard output, so that it never looks like an answer. A pipe
that nobody reads ends the command by its signal.";

/// What to do where a shelf is full.
const FULL: &str = "it is not kept: remove texts that were delivered, or move the shelf away by \
    hverolda shelf SHELF move NEW, and put it again";

impl Shelf {
    pub fn run(&self, output: &mut Output) -> Result<Status, Trouble> {
        let mut file = ShelfFile::new(&self.shelf);
        if let Some(seconds) = self.wait {
            file = file.waiting(Duration::from_secs(seconds as u64));
        }
        let shelf = OnShelf { name: &self.shelf, file };
        match &self.action {
            Action::Start { size } => shelf.start(output, *size),
            Action::Put { files } => shelf.put(output, files),
            Action::Find { files } => shelf.find(output, files),
            Action::Get { slot } => shelf.get(output, *slot),
            Action::Remove { slot, text: None } => shelf.remove(output, *slot),
            Action::Remove { slot, text: Some(text) } => shelf.remove_text(output, *slot, text),
            Action::List => shelf.list(output),
            Action::Move { new } => shelf.move_to(output, new),
            Action::Salvage { folder } => shelf.salvage(output, folder),
            Action::Carry => shelf.carry(output, Kept::carry, "carried"),
            Action::CarryBack => shelf.carry(output, Kept::carry_back, "carried back"),
        }
    }
}

/// The shelf that the command is about.
struct OnShelf<'a> {
    name: &'a OsStr,
    file: ShelfFile,
}

impl OnShelf<'_> {
    fn start(&self, output: &mut Output, size: usize) -> Result<Status, Trouble> {
        self.file.start(size).map_err(|trouble| self.trouble(trouble))?;
        self.done(output, format!("started {size}"))
    }

    /// An input is read before the shelf is locked: others need not wait for it.
    fn put(&self, output: &mut Output, files: &Files) -> Result<Status, Trouble> {
        // a shelf that is not there is said before an input is asked for
        self.file.read().map_err(|trouble| self.trouble(trouble))?;
        try_each(output, files, ROOM, |input| {
            Ok(match self.judged(self.file.put(&input.bytes))? {
                Ok(Shelved::New(slot)) => in_slot(Status::Yes, "new", slot),
                Ok(Shelved::Copy(slot)) => in_slot(Status::No, "copy", slot),
                Err(refusal @ Refusal { fault: Fault::NoSlot | Fault::NoRoom, .. }) => {
                    Said::Trouble(format!("{}; {FULL}", refused(refusal)))
                }
                Err(refusal) => Said::NotKept(refusal),
            })
        })
    }

    fn find(&self, output: &mut Output, files: &Files) -> Result<Status, Trouble> {
        self.file.read().map_err(|trouble| self.trouble(trouble))?;
        try_each(output, files, ROOM, |input| {
            Ok(match self.judged(self.file.find(&input.bytes))? {
                Ok(Some(slot)) => in_slot(Status::Yes, "kept", slot),
                Ok(None) => Said::Line(Status::No, "absent".to_string()),
                Err(refusal) => Said::NotKept(refusal),
            })
        })
    }

    fn get(&self, output: &mut Output, slot: usize) -> Result<Status, Trouble> {
        let shelf = self.file.read().map_err(|trouble| self.trouble(trouble))?;
        let said = match self.judged(shelf.get(slot).map_err(ShelfTrouble::from))? {
            Ok(text) => Said::Text(text.to_vec()),
            Err(refusal) => Said::NoText("refused", refusal),
        };
        output.say(&self.alone(), said)
    }

    fn remove(&self, output: &mut Output, slot: usize) -> Result<Status, Trouble> {
        let said = match self.judged(self.file.remove(slot))? {
            Ok(length) => Said::Line(Status::Yes, format!("removed {length}")),
            Err(refusal) => Said::Refused("refused", refusal),
        };
        output.say(&self.alone(), said)
    }

    fn remove_text(
        &self,
        output: &mut Output,
        slot: usize,
        text: &OsStr,
    ) -> Result<Status, Trouble> {
        let input = match read(text, ROOM, false) {
            Some(input) => input,
            None => return Ok(Status::Trouble),
        };
        let absent = |why: String| Said::Line(Status::No, format!("absent {slot} {why}"));
        let said = match self.judged(self.file.remove_text(slot, &input.bytes))? {
            Ok(Removed::Gone(length)) => Said::Line(Status::Yes, format!("removed {length}")),
            Ok(Removed::NotThere(None)) => absent("no slot keeps this interchange".to_string()),
            Ok(Removed::NotThere(Some(other))) => absent(format!("slot {other} keeps it")),
            Err(refusal) => Said::NotKept(refusal),
        };
        output.say(&input, said)
    }

    fn list(&self, output: &mut Output) -> Result<Status, Trouble> {
        let shelf = self.file.read().map_err(|trouble| self.trouble(trouble))?;
        let (lines, object) = figures(&shelf).map_err(|refusal| self.trouble(refusal.into()))?;
        output.say(&self.alone(), Said::TextFields(lines.into_bytes(), object))
    }

    fn move_to(&self, output: &mut Output, new: &OsStr) -> Result<Status, Trouble> {
        let size = self.file.move_to(new).map_err(|trouble| self.trouble(trouble))?;
        self.done(output, format!("moved {size}"))
    }

    fn salvage(&self, output: &mut Output, folder: &OsStr) -> Result<Status, Trouble> {
        let all = self.file.salvage(folder).map_err(|trouble| self.trouble(trouble))?;
        let is_well = |one: &Salvaged| one.judged.is_ok() && one.length == one.pair.length;
        let lines: String = all.iter().map(salvaged).collect();
        output.say(&self.alone(), Said::Text(lines.into_bytes()))?;
        Ok(if !all.is_empty() && all.iter().all(is_well) { Status::Yes } else { Status::No })
    }

    /// Into the other version, in either direction.
    fn carry(
        &self,
        output: &mut Output,
        carry: fn(&mut Kept<Vec<u8>>) -> Result<(), Refusal>,
        done: &str,
    ) -> Result<Status, Trouble> {
        self.file.change(carry).map_err(|trouble| self.trouble(trouble))?;
        self.done(output, done.to_string())
    }

    fn done(&self, output: &mut Output, line: String) -> Result<Status, Trouble> {
        output.say(&self.alone(), Said::Line(Status::Yes, line))
    }

    /// A refusal that is an answer; one of the shelf itself is trouble, as all else.
    fn judged<T>(&self, done: Result<T, ShelfTrouble>) -> Result<Result<T, Refusal>, Trouble> {
        match done {
            Ok(done) => Ok(Ok(done)),
            Err(ShelfTrouble::Refused(refusal)) if refusal.fault != Fault::Shelf => {
                Ok(Err(refusal))
            }
            Err(trouble) => Err(self.trouble(trouble)),
        }
    }

    fn trouble(&self, trouble: ShelfTrouble) -> Trouble {
        match trouble {
            ShelfTrouble::File(path, error) => Trouble::File(shown(path.as_os_str()), error),
            ShelfTrouble::Refused(refusal) => {
                let why = io::Error::new(io::ErrorKind::Other, refused(refusal));
                Trouble::File(shown(self.name), why)
            }
        }
    }

    /// A shelf as something of which one line is said; no bytes of it are shown.
    fn alone(&self) -> Input {
        let file = self.name.to_os_string();
        Input { file, name: shown(self.name), label: String::new(), bytes: Vec::new() }
    }
}

/// A slot as an answer.
fn in_slot(status: Status, verdict: &str, slot: usize) -> Said {
    let object = fields([("verdict", verdict.into()), ("slot", slot.into())]);
    Said::Fields(status, format!("{verdict} {slot}"), object)
}

/// A refusal of the shelf, of which no byte is shown.
fn refused(refusal: Refusal) -> String {
    format!("refused {}", told(&explain(&[], refusal)))
}

/// The line of a text that was written out.
fn salvaged(one: &Salvaged) -> String {
    let map = if one.pair.occupied { "occupied" } else { "free" };
    let whole = if one.length == one.pair.length { "whole" } else { "cut" };
    let judged = match &one.judged {
        Ok(_) => "accepted".to_string(),
        Err(refusal) => format!("refused {} {}", refusal.number(), refusal.place),
    };
    format!("{} {} {map} {whole} {judged}\n", one.pair.slot, one.length)
}

/// The lines of a name and a number, and those of the texts; the same as an object.
fn figures(shelf: &Kept<Vec<u8>>) -> Result<(String, Object), Refusal> {
    let (Slots { occupied, .. }, Sums { held, duplicates }) = (shelf.slots()?, shelf.sums()?);
    let free = shelf.as_bytes().len() - SMALLEST_SHELF - held;
    let mut lines =
        format!("occupied {occupied}\nheld {held}\nfree {free}\nduplicates {duplicates}\n");
    let mut lengths = Object::new();
    for slot in 0..SLOTS {
        if let Ok(text) = shelf.get(slot) {
            lines += &format!("{slot} {}\n", text.len());
            lengths.insert(slot.to_string(), text.len().into());
        }
    }
    let object = fields([
        ("verdict", "listed".into()),
        ("occupied", occupied.into()),
        ("held", held.into()),
        ("free", free.into()),
        ("duplicates", duplicates.into()),
        ("slots", lengths.into()),
    ]);
    Ok((lines, object))
}
