use clap::Args;

use crate::input::{each, Files, ROOM};
use crate::lines::escaped;
use crate::output::{fields, Output, Said};
use crate::{Status, Trouble};

#[derive(Args)]
#[command(about = "Finds the value with these numbers.", long_about = LONG)]
pub struct Locate {
    /// The segment's number.
    #[arg(value_parser = number)]
    segment: usize,
    /// The element's number.
    #[arg(value_parser = number)]
    element: usize,
    /// The repeat's number.
    #[arg(value_parser = number)]
    repeat: usize,
    /// The component's number.
    #[arg(value_parser = number)]
    component: usize,
    #[command(flatten)]
    files: Files,
}

const LONG: &str = "\
Finds the value with these numbers.

Each number counts from 0; element 0 is the tag, and REPEAT is 0 in versions 1 and 2.

Prints a line for each FILE: at OFFSET LENGTH VALUE, with the value as it is spelled
there; absent; or refused NUMBER PLACE and why.";

impl Locate {
    pub fn run(&self, output: &mut Output) -> Result<Status, Trouble> {
        let Locate { segment, element, repeat, component, files } = self;
        each(output, files, ROOM, |input| {
            match hverolda::locate(&input.bytes, *segment, *element, *repeat, *component) {
                Ok(Some(place)) => {
                    let value = escaped(&input.bytes[place.clone()]);
                    let line = format!("at {} {} {value}", place.start, place.len());
                    let object = fields([
                        ("verdict", "at".into()),
                        ("offset", place.start.into()),
                        ("length", place.len().into()),
                        ("spelled", value.into()),
                    ]);
                    Said::Fields(Status::Yes, line, object)
                }
                Ok(None) => Said::Line(Status::No, "absent".to_string()),
                Err(refusal) => Said::Refused("refused", refusal),
            }
        })
    }
}

/// Digits only: no sign, no space.
pub fn number(word: &str) -> Result<usize, &'static str> {
    let digits = word.bytes().all(|byte| byte.is_ascii_digit());
    word.parse().ok().filter(|_| digits).ok_or("it must be digits alone")
}
