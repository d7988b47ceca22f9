use clap::Args;

use crate::input::{each, Files, ROOM};
use crate::output::{Output, Said};
use crate::{Status, Trouble};

#[derive(Args)]
#[command(about = "Prints the normal form of interchanges.", long_about = LONG)]
pub struct Normalise {
    #[command(flatten)]
    files: Files,
}

const LONG: &str = "\
Prints the normal form of interchanges.

The normal forms stand one directly after the other, with no byte besides. Of a FILE that
is refused, standard error says so: refused NUMBER PLACE and why.";

impl Normalise {
    pub fn run(&self, output: &mut Output) -> Result<Status, Trouble> {
        each(output, &self.files, ROOM, |input| match hverolda::normal_form(&input.bytes) {
            Ok(form) => Said::Text(form),
            Err(refusal) => Said::NoText("refused", refusal),
        })
    }
}
