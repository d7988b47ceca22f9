use std::ffi::OsString;

use clap::Args;

use crate::compare::compare;
use crate::input::is_one;
use crate::output::{fields, Output};
use crate::{usage, Status, Trouble};

#[derive(Args)]
#[command(about = "Says which of two interchanges that are the same to keep.", long_about = LONG)]
pub struct Keep {
    /// The first interchange; - is standard input.
    first: OsString,
    /// The second.
    second: OsString,
}

const LONG: &str = "\
Says which of two interchanges that are the same to keep.

Prints keep INPUT NAME for the shorter, the first where they are equally long; or, where
they are not the same, what compare prints. Two names of one file are trouble: neither
can go.";

impl Keep {
    pub fn run(&self, output: &mut Output) -> Result<Status, Trouble> {
        let Keep { first, second } = self;
        if is_one(first, second) {
            return usage("both names are of one file");
        }
        compare(output, first, second, |first, second| {
            let kept = hverolda::keep(&first.bytes, &second.bytes);
            let (number, kept) = match kept.as_ptr() == first.bytes.as_ptr() {
                true => (1, first),
                false => (2, second),
            };
            let file = kept.file.to_string_lossy().into();
            let object =
                fields([("verdict", "keep".into()), ("input", number.into()), ("kept", file)]);
            (format!("keep {number} {}", kept.name), object)
        })
    }
}
