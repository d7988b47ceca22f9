use std::ffi::{OsStr, OsString};

use clap::Args;
use hverolda::{Comparison, Which};

use crate::input::{two, Input};
use crate::json::Object;
use crate::output::{fields, Output, Said};
use crate::{Status, Trouble};

#[derive(Args)]
#[command(about = "Says whether two interchanges are the same.", long_about = LONG)]
pub struct Compare {
    /// The first interchange; - is standard input.
    first: OsString,
    /// The second.
    second: OsString,
}

const LONG: &str = "\
Says whether two interchanges are the same.

Prints same, different, or refused INPUT NUMBER PLACE and why, where INPUT is 1 or 2.";

impl Compare {
    pub fn run(&self, output: &mut Output) -> Result<Status, Trouble> {
        compare(output, &self.first, &self.second, |_, _| ("same".to_string(), fields([("verdict", "same".into())])))
    }
}

/// Compares two files; `same` is what is said of two that are the same.
pub fn compare(
    output: &mut Output,
    first: &OsStr,
    second: &OsStr,
    same: fn(&Input, &Input) -> (String, Object),
) -> Result<Status, Trouble> {
    let (first, second) = match two(first, second)? {
        Some(both) => both,
        None => return Ok(Status::Trouble),
    };
    match hverolda::compare(&first.bytes, &second.bytes) {
        Ok(Comparison::Same) => {
            let (line, mut object) = same(&first, &second);
            object.insert("second".to_string(), second.file.to_string_lossy().into());
            output.say(&first, Said::Fields(Status::Yes, line, object))
        }
        Ok(Comparison::Different) => {
            let second = second.file.to_string_lossy().into();
            let object = fields([("verdict", "different".into()), ("second", second)]);
            output.say(&first, Said::Fields(Status::No, "different".to_string(), object))
        }
        Err(refused) => match refused.input {
            Which::First => output.say(&first, Said::Refused("refused 1", refused.refusal)),
            Which::Second => output.say(&second, Said::Refused("refused 2", refused.refusal)),
        },
    }
}
