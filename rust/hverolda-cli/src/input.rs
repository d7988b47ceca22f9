//! What is read: files by name, or standard input.

use std::ffi::{OsStr, OsString};
use std::fs::{self, File};
use std::io::{self, Read};
use std::os::unix::ffi::OsStringExt;
use std::os::unix::fs::{FileTypeExt, MetadataExt};
use std::path::Path;
use std::time::{Duration, Instant};

use clap::Args;
use indicatif::ProgressBar;
use memmap2::Mmap;

use crate::output::{complain, own, shown, Output, Said};
use crate::{usage, Status, Trouble};

/// The files that a sub-command goes through.
#[derive(Args)]
pub struct Files {
    /// Files to go through; - is standard input, which is also read where none is named.
    #[arg(value_name = "FILE")]
    files: Vec<OsString>,
    /// Begin each line with the file's name, also where there is one file.
    #[arg(short = 'H', long, conflicts_with = "no_filename", help_heading = "Files")]
    with_filename: bool,
    /// Begin no line with the file's name.
    #[arg(long, help_heading = "Files")]
    no_filename: bool,
    /// Go through the files that this file names, one a line; - is standard input.
    #[arg(long, value_name = "LIST", help_heading = "Files")]
    files_from: Option<OsString>,
    /// The names in LIST end with a zero byte, as find -print0 writes them.
    #[arg(short = '0', long, requires = "files_from", help_heading = "Files")]
    null: bool,
    /// Go through all files of folders, and of the folders in them.
    #[arg(short, long, help_heading = "Files")]
    recursive: bool,
}

impl Files {
    /// Their names, that of standard input where none is given.
    pub fn names(&self) -> Result<Vec<OsString>, Trouble> {
        let mut names = self.files.clone();
        if let Some(list) = &self.files_from {
            once_each(list, &names)?;
            names.extend(listed(list, self.null)?);
        } else if names.is_empty() {
            names.push(OsString::from("-"));
        }
        if !self.recursive {
            return Ok(names);
        }
        let mut found = Vec::new();
        for name in names {
            gather(name, &mut found)?;
        }
        Ok(found)
    }

    /// Does each line begin with the file's name, where there are so many?
    pub fn are_labelled(&self, count: usize) -> bool {
        let several = count > 1 || self.files_from.is_some() || self.recursive;
        self.with_filename || (several && !self.no_filename)
    }
}

/// The names in a file.
fn listed(list: &OsStr, null: bool) -> Result<Vec<OsString>, Trouble> {
    let mut bytes = Vec::new();
    let file = if list == "-" { own(&io::stdin()) } else { File::open(list) };
    let done = file.and_then(|mut file| file.read_to_end(&mut bytes));
    done.map_err(|error| Trouble::File(shown(list), error))?;
    let end = if null { 0 } else { b'\n' };
    let names = bytes.split(|&byte| byte == end).filter(|name| !name.is_empty());
    Ok(names.map(|name| OsString::from_vec(name.to_vec())).collect())
}

/// A file's name, or those of all files in a folder, by their names' order. What is neither,
/// as a link to a folder, is passed over inside a folder.
fn gather(name: OsString, found: &mut Vec<OsString>) -> Result<(), Trouble> {
    let path = Path::new(&name);
    if name == "-" || !path.is_dir() {
        found.push(name);
        return Ok(());
    }
    let trouble = |error| Trouble::File(shown(&name), error);
    let entries: io::Result<Vec<_>> = fs::read_dir(path).map_err(trouble)?.collect();
    let mut entries = entries.map_err(trouble)?;
    entries.sort_by_key(|entry| entry.file_name());
    for entry in entries {
        let kind = entry.file_type().map_err(trouble)?;
        let is_file = kind.is_file() || (kind.is_symlink() && entry.path().is_file());
        if is_file || kind.is_dir() {
            gather(entry.path().into_os_string(), found)?;
        }
    }
    Ok(())
}

/// A byte more than the longest interchange: enough to see that an input is
/// longer, and all that is held of it.
pub const ROOM: usize = hverolda::LONGEST + 1;

/// An input and what it is called.
pub struct Input {
    /// Its name, as it was given.
    pub file: OsString,
    /// Its name, as it is said.
    pub name: String,
    /// What its lines begin with: its name and a colon where there are several.
    pub label: String,
    pub bytes: Vec<u8>,
}

/// Says of each input in turn what there is to say; one that cannot be read is
/// trouble, and the others are still answered.
pub fn each(
    output: &mut Output,
    files: &Files,
    room: usize,
    say: impl Fn(&Input) -> Said,
) -> Result<Status, Trouble> {
    try_each(output, files, room, |input| Ok(say(input)))
}

/// The same, where what there is to say may end the command.
pub fn try_each(
    output: &mut Output,
    files: &Files,
    room: usize,
    say: impl Fn(&Input) -> Result<Said, Trouble>,
) -> Result<Status, Trouble> {
    try_each_of(output, files, &files.names()?, room, say)
}

/// The same of files of which the names are known already.
pub fn try_each_of(
    output: &mut Output,
    files: &Files,
    names: &[OsString],
    room: usize,
    say: impl Fn(&Input) -> Result<Said, Trouble>,
) -> Result<Status, Trouble> {
    once(names)?;
    let mut worst = Status::Yes;
    let mut progress = Progress::new(output, names.len());
    for name in names {
        let status = match read(name, room, files.are_labelled(names.len())) {
            Some(input) => output.say(&input, say(&input)?)?,
            None => Status::Trouble,
        };
        worst = worst.max(status);
        progress.step();
    }
    Ok(worst)
}

/// A bar on standard error that is drawn where the work takes longer than a second,
/// standard error is a terminal and standard output is none. It is gone at the end.
pub struct Progress {
    count: usize,
    done: usize,
    begun: Instant,
    wanted: bool,
    bar: Option<ProgressBar>,
}

impl Progress {
    pub fn new(output: &Output, count: usize) -> Progress {
        let wanted = count > 1 && !output.is_terminal();
        Progress { count, done: 0, begun: Instant::now(), wanted, bar: None }
    }

    pub fn step(&mut self) {
        self.done += 1;
        if self.wanted && self.bar.is_none() && self.begun.elapsed() > Duration::from_secs(1) {
            self.bar = Some(ProgressBar::new(self.count as u64));
        }
        if let Some(bar) = &self.bar {
            bar.set_position(self.done as u64);
        }
    }
}

impl Drop for Progress {
    fn drop(&mut self) {
        if let Some(bar) = &self.bar {
            bar.finish_and_clear();
        }
    }
}

/// Two inputs, where both can be read.
pub fn two(first: &OsStr, second: &OsStr) -> Result<Option<(Input, Input)>, Trouble> {
    once(&[first.to_os_string(), second.to_os_string()])?;
    let (first, second) = (read(first, ROOM, false), read(second, ROOM, false));
    Ok(first.zip(second))
}

/// Standard input is there once, and so is a pipe under whatever names: a second
/// reading would find it empty, and that would look like an answer.
fn once(names: &[OsString]) -> Result<(), Trouble> {
    let standard = OsStr::new("/dev/stdin");
    let mut pipes = Vec::new();
    for name in names {
        let path = if name == "-" { standard } else { name.as_os_str() };
        let pipe = fs::metadata(path).ok().filter(|file| file.file_type().is_fifo());
        pipes.extend(pipe.map(|file| (file.dev(), file.ino())));
    }
    let before = pipes.len();
    pipes.sort_unstable();
    pipes.dedup();
    if names.iter().filter(|name| *name == "-").count() > 1 || pipes.len() < before {
        return usage("standard input, or a pipe, can be read only once");
    }
    Ok(())
}

/// The same of the inputs and of what is read before them.
pub fn once_each(first: &OsStr, names: &[OsString]) -> Result<(), Trouble> {
    let mut names = names.to_vec();
    names.push(first.to_os_string());
    once(&names)
}

/// Both names are of one file.
pub fn is_one(first: &OsStr, second: &OsStr) -> bool {
    let identity = |name| fs::metadata(name).ok().map(|file| (file.dev(), file.ino()));
    identity(first).is_some() && identity(first) == identity(second)
}

/// All bytes of an input, whatever their number, and what it is called.
pub struct Whole {
    pub name: OsString,
    label: String,
    bytes: Contents,
}

/// What is read, or a file that is mapped, whose size costs no memory.
enum Contents {
    Read(Vec<u8>),
    Mapped(Mmap),
}

impl Whole {
    pub fn bytes(&self) -> &[u8] {
        match &self.bytes {
            Contents::Read(bytes) => bytes,
            Contents::Mapped(bytes) => bytes,
        }
    }

    /// Some of its bytes, as an input.
    pub fn part(&self, bytes: &[u8]) -> Input {
        let (file, name) = (self.name.clone(), shown(&self.name));
        Input { file, name, label: self.label.clone(), bytes: bytes.to_vec() }
    }
}

/// All of an input. Why it cannot be read is said.
pub fn whole(name: &OsStr, labelled: bool) -> Option<Whole> {
    let file = if name == "-" { own(&io::stdin()) } else { File::open(name) };
    match file.and_then(contents) {
        Ok(bytes) => {
            let label = if labelled { format!("{}: ", shown(name)) } else { String::new() };
            Some(Whole { name: name.to_os_string(), label, bytes })
        }
        Err(error) => {
            complain(&format!("{}: {error}{}", shown(name), hint(name)));
            None
        }
    }
}

#[allow(unsafe_code)]
fn contents(mut file: File) -> io::Result<Contents> {
    const MAPPED: u64 = 1 << 20;
    let about = file.metadata()?;
    if about.is_file() && about.len() > MAPPED {
        // SAFETY: the bytes are only read. Whoever cuts the file short in the meantime ends this
        // command by a signal.
        return unsafe { Mmap::map(&file) }.map(Contents::Mapped);
    }
    let mut bytes = Vec::new();
    file.read_to_end(&mut bytes)?;
    Ok(Contents::Read(bytes))
}

/// What would do where a folder is named in place of a file.
fn hint(name: &OsStr) -> &'static str {
    let folder = Path::new(name).is_dir();
    if folder {
        "; -r goes through the files of a folder"
    } else {
        ""
    }
}

/// So many bytes of an input, or all where it has fewer. Why it cannot be read
/// is said.
pub fn read(name: &OsStr, room: usize, labelled: bool) -> Option<Input> {
    let mut bytes = Vec::new();
    let file = if name == "-" { own(&io::stdin()) } else { File::open(name) };
    let done = file.and_then(|file| file.take(room as u64).read_to_end(&mut bytes));
    let file = name.to_os_string();
    let name = shown(name);
    match done {
        Ok(_) => {
            let label = if labelled { format!("{name}: ") } else { String::new() };
            Some(Input { file, name, label, bytes })
        }
        Err(error) => {
            complain(&format!("{name}: {error}{}", hint(&file)));
            None
        }
    }
}
