use clap::Args;

use crate::output::Output;
use crate::{answered, explain, Status, Trouble};

#[derive(Args)]
#[command(about = "Says how the command, or a sub-command, is used.", long_about = LONG)]
pub struct Help {
    /// A sub-command, as judge, or shelf put; or refusals.
    #[arg(value_name = "COMMAND")]
    words: Vec<String>,
}

const LONG: &str = "\
Says how the command, or a sub-command, is used.

'hverolda help judge' is 'hverolda judge --help'; 'hverolda help refusals' lists the numbers
by which something is refused.";

impl Help {
    pub fn run(&self, output: &mut Output) -> Result<Status, Trouble> {
        if self.words == ["refusals"] {
            return output.write(explain::list().as_bytes());
        }
        let mut words = vec!["hverolda".into()];
        words.extend(self.words.iter().map(Into::into));
        words.push("--help".into());
        answered(output, &words)
    }
}
