//! The command `hverolda`: EDIFACT interchanges in files, for people and
//! scripts. What it answers is the proved library's; this package reads files
//! and prints. A sub-command is a file of its own, in which its options are
//! declared, and a name in the list below. [`command`] hands out the
//! declarations, from which completions and manual pages are made.

#![deny(unsafe_code)]

#[cfg(not(target_env = "gnu"))]
compile_error!("the command is for Linux with the GNU C library");

mod answer;
mod input;
mod json;
mod lines;
mod misuse;
mod output;
mod table_file;

use std::ffi::OsString;

use clap::error::ErrorKind;
use clap::{CommandFactory, FromArgMatches, Parser, Subcommand};

use answer::{usage, Status, Trouble};
use output::{complain, Manner, Output};

/// Declares the sub-commands: a module each, and in it the struct of its options.
macro_rules! commands {
    ($($(#[$when:meta])? $module:ident $Name:ident,)*) => {
        $($(#[$when])? mod $module;)*

        #[derive(Subcommand)]
        enum Command {
            $($(#[$when])? $Name($module::$Name),)*
        }

        impl Command {
            fn run(&self, output: &mut Output) -> Result<Status, Trouble> {
                match self {
                    $($(#[$when])? Command::$Name(options) => options.run(output),)*
                }
            }
        }
    };
}

commands! {
    judge Judge,
    normalise Normalise,
    compare Compare,
    keep Keep,
    locate Locate,
    read Read,
    write Write,
    respell Respell,
    acknowledge Acknowledge,
    export Export,
    import Import,
    report Report,
    cut Cut,
    digest Digest,
    #[cfg(feature = "mailbox")] mailbox Mailbox,
    shelf Shelf,
    table Table,
    explain Explain,
    help Help,
}

/// What the words of a run say.
#[derive(Parser)]
#[command(
    name = "hverolda",
    version,
    about = ABOUT,
    long_about = LONG_ABOUT,
    disable_help_subcommand = true,
    subcommand_required = true,
    subcommand_value_name = "COMMAND",
    subcommand_help_heading = "Commands"
)]
struct Hverolda {
    #[command(subcommand)]
    command: Command,
    #[command(flatten)]
    manner: Manner,
}

const ABOUT: &str = "\
Judges, reads, writes, compares and keeps EDIFACT interchanges: levels UNOA and UNOB, syntax
versions 1, 2 and 4, at most 32000 bytes each.";

const LONG_ABOUT: &str = "\
Judges, reads, writes, compares and keeps EDIFACT interchanges by the rules of ISO 9735.

What is taken: an interchange of at most 32000 bytes whose UNB names UNOA or UNOB and the
syntax version 1, 2 or 4, with or without a service string advice (UNA), with or without line
breaks between its segments. Anything else is refused by a number, with its place and what
would do.";

const STATUSES: &str = "\
Exit status: 0 accepted, same, present or new; 1 refused, different, absent or a copy; 2
trouble, as a file that cannot be read or standard output that cannot be written; 3, of
shelf alone, refused where 1 means a copy: hverolda shelf --help has a table. Trouble is
said on standard error and never on standard output, so that it never looks like an
answer. A pipe that nobody reads ends the command by its signal.";

const FILES: &str = "\
FILE is - for standard input, which is also read where no FILE is named. -- ends the
options, for an operand that begins with -: a script puts it before names that it does
not choose. Where several files are named, or -H is given, each line begins with the file's
name and a colon. A name with a blank or another unusual sign stands in quotes, as a shell
takes it.

";

/// The declarations of all sub-commands and options, as completions and manual pages
/// want them.
///
/// ```
/// assert!(hverolda_cli::command().find_subcommand("judge").is_some());
/// ```
#[must_use]
pub fn command() -> clap::Command {
    let mut whole = Hverolda::command().after_long_help(format!("{FILES}{STATUSES}"));
    let names: Vec<String> =
        whole.get_subcommands().map(|command| command.get_name().to_string()).collect();
    for name in names {
        let statuses = if name == "shelf" { shelf::STATUSES } else { STATUSES };
        whole = whole.mut_subcommand(name, |command| {
            let takes_files = command.get_positionals().any(|operand| operand.get_id() == "files");
            let files = if takes_files { FILES } else { "" };
            command.after_long_help(format!("{files}{statuses}"))
        });
    }
    whole
}

/// Does what the words say, of which the first is the command's own name, and answers
/// the status.
#[must_use]
pub fn run(words: Vec<OsString>) -> i32 {
    let answer = Output::open().and_then(|mut output| {
        answered(&mut output, &words).and_then(|status| output.close().map(|()| status))
    });
    match answer {
        Ok(status) => return status.number(),
        Err(Trouble::Output(error)) => complain(&format!("standard output: {error}")),
        Err(Trouble::File(name, error)) => complain(&format!("{name}: {error}")),
        #[cfg(feature = "mailbox")]
        Err(Trouble::Store(message)) => complain(&message),
        Err(Trouble::Usage(message)) => {
            complain(&format!("{message}\nTry 'hverolda{} --help'.", named(&words)));
        }
    }
    Status::Trouble.number()
}

/// A space and the sub-command that the words name, if they name one.
fn named(words: &[OsString]) -> String {
    let known = command();
    let names = words.iter().skip(1).filter_map(|word| word.to_str());
    let found = names.filter(|name| known.find_subcommand(name).is_some()).next();
    found.map_or(String::new(), |name| format!(" {name}"))
}

fn answered(output: &mut Output, words: &[OsString]) -> Result<Status, Trouble> {
    let parsed = command().try_get_matches_from(words);
    match parsed.and_then(|matches| Hverolda::from_arg_matches(&matches)) {
        Ok(asked) => {
            output.set(&asked.manner);
            asked.command.run(output)
        }
        Err(error) if error.kind() == ErrorKind::DisplayVersion => {
            let (version, rules) = (env!("CARGO_PKG_VERSION"), hverolda::rules());
            output.write(format!("hverolda {version} rules {rules}\n").as_bytes())
        }
        Err(error) if !error.use_stderr() => output.write(error.to_string().as_bytes()),
        Err(error) => usage(&misuse::told(&error)),
    }
}

#[cfg(test)]
mod tests {
    #[test]
    fn the_declarations_hold_together() {
        super::command().debug_assert();
    }
}
