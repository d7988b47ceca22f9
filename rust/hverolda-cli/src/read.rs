use clap::Args;
use serde_json::json;

use crate::input::{each, Files, ROOM};
use crate::lines::escaped;
use crate::output::{fields, Output, Said};
use crate::{Status, Trouble};

#[derive(Args)]
#[command(about = "Prints the values of interchanges, one a line.", long_about = LONG)]
pub struct Read {
    #[command(flatten)]
    files: Files,
}

const LONG: &str = "\
Prints the values of interchanges, one a line.

Prints KIND VALUE for each value: KIND is 0 for a new segment (VALUE is its tag), 1 for a
new element, 3 for the next repeat of an element, 2 for the next component. VALUE is without
release characters; in it a byte that is not printable ASCII, and the backslash, is \\x and
two hexadecimal digits. write takes the lines of one FILE. Of a FILE that is refused,
standard error says so: refused NUMBER PLACE and why.";

impl Read {
    pub fn run(&self, output: &mut Output) -> Result<Status, Trouble> {
        each(output, &self.files, ROOM, |input| match hverolda::values(&input.bytes) {
            Ok(list) => {
                let line =
                    |(kind, value)| format!("{}{} {}\n", input.label, u32::from(kind), escaped(value));
                let text = list.iter().map(line).collect::<String>().into_bytes();
                let pair = |(kind, value)| json!([u32::from(kind), String::from_utf8_lossy(value)]);
                let values = list.iter().map(pair).collect::<Vec<_>>().into();
                Said::TextFields(text, fields([("verdict", "accepted".into()), ("values", values)]))
            }
            Err(refusal) => Said::NoText("refused", refusal),
        })
    }
}
