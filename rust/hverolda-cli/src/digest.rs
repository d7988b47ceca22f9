use clap::Args;
use serde_json::json;
use sha2::{Digest as _, Sha256};

use crate::input::{each, Files, ROOM};
use crate::output::{fields, Output, Said};
use crate::{Status, Trouble};

#[derive(Args)]
#[command(about = "Prints the SHA-256 of the normal form of interchanges.", long_about = LONG)]
pub struct Digest {
    #[command(flatten)]
    files: Files,
}

const LONG: &str = "\
Prints the SHA-256 of the normal form of interchanges.

A line for each FILE, as sha256sum prints it: 64 hexadecimal digits, two spaces and the name.
Interchanges that are the same have the same digest, however they are spelled, so that

    hverolda digest -r FOLDER | sort | uniq -w64 -D

lists those that stand there more than once. Of a FILE that is refused, standard error says so:
refused NUMBER PLACE and why. A FILE of several interchanges is cut first, by hverolda cut.";

impl Digest {
    pub fn run(&self, output: &mut Output) -> Result<Status, Trouble> {
        each(output, &self.files, ROOM, |input| match hverolda::normal_form(&input.bytes) {
            Ok(form) => {
                let digest = hexadecimal(&Sha256::digest(&form));
                let line = format!("{digest}  {}\n", input.name);
                let fields = fields([("verdict", json!("accepted")), ("digest", json!(digest))]);
                Said::TextFields(line.into_bytes(), fields)
            }
            Err(refusal) => Said::NoText("refused", refusal),
        })
    }
}

fn hexadecimal(bytes: &[u8]) -> String {
    bytes.iter().map(|byte| format!("{byte:02x}")).collect()
}
