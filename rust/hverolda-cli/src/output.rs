//! What is said: answers on standard output, trouble on standard error.

use std::env;
use std::ffi::OsStr;
use std::fs::File;
use std::io::{self, Write};
use std::os::unix::ffi::OsStrExt;
use std::os::unix::io::{AsFd, AsRawFd, IntoRawFd};

use clap::{Args, ValueEnum};
use hverolda::{explain, Explanation, Refusal};
use serde_json::Value;

use crate::input::Input;
use crate::json::{self, Object};
use crate::{Status, Trouble};

/// How it is said: options of every sub-command.
#[derive(Args, Clone)]
#[command(next_help_heading = "Output")]
pub struct Manner {
    /// Print an object of JSON for each answer, one a line.
    #[arg(long, global = true)]
    json: bool,
    /// Print no answer: the status tells it.
    #[arg(short, long, global = true)]
    quiet: bool,
    /// Print the bytes around a refusal's place, also where standard output is no terminal.
    #[arg(long, global = true)]
    show: bool,
    /// When to print in colours.
    #[arg(long, alias = "color", global = true, value_name = "WHEN", default_value = "auto")]
    colour: When,
}

#[derive(Clone, Copy, PartialEq, ValueEnum)]
enum When {
    /// On a terminal, unless the environment has NO_COLOR.
    Auto,
    /// Always.
    Always,
    /// Never.
    Never,
}

/// What is said of an input.
pub enum Said {
    /// An answer in one line.
    Line(Status, String),
    /// An answer in one line, and what it says as the fields of an object.
    Fields(Status, String, Object),
    /// An answer that is a text or has a line a value, as it is.
    Text(Vec<u8>),
    /// The same, and what it says as the fields of an object.
    TextFields(Vec<u8>, Object),
    /// A refusal as an answer in one line, after these words.
    Refused(&'static str, Refusal),
    /// The same, explained, with those that are found after it.
    Explained(&'static str, Explanation, Vec<Explanation>),
    /// A refusal by Judge as an answer in one line, where status 1 is another answer.
    NotKept(Refusal),
    /// A refusal of the input in place of a text, after these words. Standard
    /// output has only texts then, so that this goes to standard error.
    NoText(&'static str, Refusal),
    /// The same, explained.
    NoTextExplained(&'static str, Explanation),
    /// There is no text, though nothing is refused, and why.
    NoAnswer(String),
    /// The input cannot be taken.
    Trouble(String),
}

/// Standard output. Each write goes out at once, so that what was answered
/// before some trouble is there.
pub struct Output {
    file: File,
    manner: Option<Manner>,
}

impl Output {
    /// Fails where standard output is closed.
    pub fn open() -> Result<Output, Trouble> {
        own(&io::stdout()).map(|file| Output { file, manner: None }).map_err(Trouble::Output)
    }

    /// Says all from here on in this manner.
    pub fn set(&mut self, manner: &Manner) {
        self.manner = Some(manner.clone());
    }

    /// Writes these bytes, whatever the manner.
    pub fn write(&mut self, bytes: &[u8]) -> Result<Status, Trouble> {
        self.file.write_all(bytes).map_err(Trouble::Output)?;
        Ok(Status::Yes)
    }

    /// Closes it: some file systems say only then that what was written is lost.
    #[allow(unsafe_code)]
    pub fn close(self) -> Result<(), Trouble> {
        // SAFETY: the descriptor is our own, and nothing uses it afterwards.
        match unsafe { close(self.file.into_raw_fd()) } {
            0 => Ok(()),
            _ => Err(Trouble::Output(io::Error::last_os_error())),
        }
    }

    fn is(&self, option: fn(&Manner) -> bool) -> bool {
        self.manner.as_ref().map_or(false, option)
    }

    /// Are answers objects of JSON?
    pub fn is_json(&self) -> bool {
        self.is(|manner| manner.json)
    }

    /// Is standard output a terminal, on which a bar of progress would stand in the way?
    pub fn is_terminal(&self) -> bool {
        is_terminal(1)
    }

    /// Says it of an input; a line begins with the input's label.
    pub fn say(&mut self, input: &Input, said: Said) -> Result<Status, Trouble> {
        if let Said::Trouble(why) = said {
            complain(&format!("{}: {why}", input.name));
            return Ok(Status::Trouble);
        }
        let status = status(&said);
        if self.is(|manner| manner.quiet) {
            return Ok(status);
        }
        if self.is_json() {
            self.write(json::line(input, said).as_bytes())?;
            return Ok(status);
        }
        match said {
            Said::Line(_, line) | Said::Fields(_, line, _) => {
                self.write(self.line(input, status, &line, 1).as_bytes())?;
            }
            Said::Text(text) | Said::TextFields(text, _) => {
                self.write(&text)?;
            }
            Said::Refused(words, refusal) => {
                self.refused(input, words, &explain(&input.bytes, refusal), &[])?;
            }
            Said::NotKept(refusal) => {
                self.refused(input, "refused", &explain(&input.bytes, refusal), &[])?;
            }
            Said::Explained(words, first, others) => self.refused(input, words, &first, &others)?,
            Said::NoText(words, refusal) => {
                self.no_text(input, words, &explain(&input.bytes, refusal));
            }
            Said::NoTextExplained(words, explanation) => self.no_text(input, words, &explanation),
            Said::NoAnswer(why) | Said::Trouble(why) => complain(&format!("{}: {why}", input.name)),
        }
        Ok(status)
    }

    /// A line of an answer: the label, then its first word in the status' colour.
    fn line(&self, input: &Input, status: Status, line: &str, descriptor: i32) -> String {
        let (word, rest) = line.split_at(line.find(' ').unwrap_or(line.len()));
        let colour = if status == Status::Yes { "32" } else { "31" };
        match self.is_coloured(descriptor) {
            true => format!("{}\x1b[{colour}m{word}\x1b[0m{rest}\n", input.label),
            false => format!("{}{word}{rest}\n", input.label),
        }
    }

    fn refused(
        &mut self,
        input: &Input,
        words: &str,
        first: &Explanation,
        others: &[Explanation],
    ) -> Result<(), Trouble> {
        let mut text = self.line(input, Status::No, &format!("{words} {}", told(first)), 1);
        text += &self.excerpt(1, &input.bytes, &first.refusal);
        for other in others {
            text += &format!("{}  and {}\n", input.label, told(other));
            text += &self.excerpt(1, &input.bytes, &other.refusal);
        }
        self.write(text.as_bytes()).map(|_| ())
    }

    fn no_text(&self, input: &Input, words: &str, explanation: &Explanation) {
        let line = format!("{}: {words} {}\n", input.name, told(explanation));
        // the place of a refused text is none in the input
        let is_text = words.ends_with("text");
        let bytes: &[u8] = if is_text { &[] } else { &input.bytes };
        let text = line + &self.excerpt(2, bytes, &explanation.refusal);
        complain(text.trim_end_matches('\n'));
    }

    fn is_coloured(&self, descriptor: i32) -> bool {
        match self.manner.as_ref().map_or(When::Auto, |manner| manner.colour) {
            When::Always => true,
            When::Never => false,
            When::Auto => {
                let refused = env::var_os("NO_COLOR").map_or(false, |value| !value.is_empty());
                !refused && is_terminal(descriptor)
            }
        }
    }

    /// The bytes around a refusal's place, each in one column, and a mark under it, on a
    /// terminal or where they are asked for; nothing where the place does not count in
    /// these bytes.
    fn excerpt(&self, descriptor: i32, bytes: &[u8], refusal: &Refusal) -> String {
        let place = refusal.place;
        let in_bytes = (2..=12).contains(&refusal.number()) || refusal.number() == 22;
        let counts = in_bytes && place <= bytes.len() && !bytes.is_empty();
        if !counts || !(self.is(|manner| manner.show) || is_terminal(descriptor)) {
            return String::new();
        }
        let (start, end) = (place.saturating_sub(30), bytes.len().min(place + 30));
        let visible = |&byte: &u8| if (b' '..=b'~').contains(&byte) { byte as char } else { '.' };
        let line: String = bytes[start..end].iter().map(visible).collect();
        format!("    {line}\n    {:>1$}\n", '^', place - start + 1)
    }
}

/// The status that goes with it.
fn status(said: &Said) -> Status {
    match said {
        Said::Line(status, _) | Said::Fields(status, _, _) => *status,
        Said::Text(_) | Said::TextFields(_, _) => Status::Yes,
        Said::Trouble(_) => Status::Trouble,
        Said::NotKept(_) => Status::Refused,
        _ => Status::No,
    }
}

/// Number, place and what is said of them.
pub fn told(explanation: &Explanation) -> String {
    let refusal = explanation.refusal;
    format!("{} {}: {explanation}", refusal.number(), refusal.place)
}

/// Fields of an object.
pub fn fields<const N: usize>(fields: [(&str, Value); N]) -> Object {
    fields.into_iter().map(|(name, value)| (name.to_string(), value)).collect()
}

/// Where standard error cannot be written either, the status is all that is left;
/// one whose reader is gone ends the command.
pub fn complain(message: &str) {
    let _ = io::stderr().write_all(format!("hverolda: {message}\n").as_bytes());
}

/// A name as it is said, so that a shell takes it again: as it is where it has nothing
/// but letters and digits of any script and the signs of file names; otherwise between
/// quotes, and with `$` before them where a byte of it is told by its number.
pub fn shown(name: &OsStr) -> String {
    let plain = |c: char| c.is_alphanumeric() || "_./-+,@%=".contains(c);
    let quotable = |c: char| plain(c) || (c == ' ' || c.is_ascii_graphic()) && c != '\'';
    match name.to_str() {
        Some(text) if !text.is_empty() && text.chars().all(plain) => text.to_string(),
        Some(text) if text.chars().all(quotable) => format!("'{text}'"),
        _ => format!("$'{}'", escaped(name.as_bytes())),
    }
}

/// The bytes between `$'` and `'`, where a shell takes a backslash and three octal digits
/// for a byte.
fn escaped(bytes: &[u8]) -> String {
    let mut text = String::new();
    let mut rest = bytes;
    while !rest.is_empty() {
        let valid = match std::str::from_utf8(rest) {
            Ok(valid) => valid,
            Err(error) => std::str::from_utf8(&rest[..error.valid_up_to()]).unwrap_or(""),
        };
        for c in valid.chars() {
            match c {
                '\'' | '\\' => text.extend(['\\', c]),
                '\n' => text.push_str("\\n"),
                '\t' => text.push_str("\\t"),
                _ if c == ' ' || c.is_ascii_graphic() || c.is_alphanumeric() => text.push(c),
                _ => text.push_str(&octal(c.to_string().as_bytes())),
            }
        }
        rest = &rest[valid.len()..];
        if let Some((byte, after)) = rest.split_first() {
            text.push_str(&octal(&[*byte]));
            rest = after;
        }
    }
    text
}

fn octal(bytes: &[u8]) -> String {
    bytes.iter().map(|byte| format!("\\{byte:03o}")).collect()
}

/// A standard stream under a descriptor of our own, unlike Rust's `Stdin` and
/// `Stdout`, which take a closed one for one that is empty or takes all. It is
/// none of the first three: in the place of a closed standard error, standard
/// output would have the complaints.
pub fn own(stream: &impl AsFd) -> io::Result<File> {
    let copy = stream.as_fd().try_clone_to_owned()?;
    if copy.as_raw_fd() > 2 {
        return Ok(File::from(copy));
    }
    own(stream)
}

extern "C" {
    fn close(descriptor: i32) -> i32;
    fn isatty(descriptor: i32) -> i32;
}

#[allow(unsafe_code)]
fn is_terminal(descriptor: i32) -> bool {
    // SAFETY: isatty takes any number, and reads and writes no memory of ours.
    unsafe { isatty(descriptor) == 1 }
}

#[cfg(test)]
mod tests {
    use super::*;

    #[test]
    fn names_can_be_used_again() {
        let said = |name: &[u8]| shown(OsStr::from_bytes(name));
        assert_eq!(said(b"a/b-1.edi"), "a/b-1.edi");
        assert_eq!(said("für.edi".as_bytes()), "für.edi");
        assert_eq!(said(b"a b: accepted"), "'a b: accepted'");
        assert_eq!(said(b""), "''");
        assert_eq!(said(b"it's"), "$'it\\'s'");
        assert_eq!(said(b"a\nb\\"), "$'a\\nb\\\\'");
        assert_eq!(said(b"caf\xe9.edi"), "$'caf\\351.edi'");
        assert_eq!(said("a\u{202e}b".as_bytes()), "$'a\\342\\200\\256b'");
    }
}
