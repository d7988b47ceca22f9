use clap::Args;
use hverolda::{words, Words};
use serde_json::json;

use crate::output::Output;
use crate::{usage, Status, Trouble};

#[derive(Args)]
#[command(about = "Says what a refusal's number means, and what to look at.", long_about = LONG)]
pub struct Explain {
    /// The numbers, 1 to 24; all where none is named.
    #[arg(value_name = "NUMBER")]
    numbers: Vec<u32>,
}

const LONG: &str = "\
Says what a refusal's number means, and what to look at.

Of each NUMBER it prints what is wrong, what that means, what to look at, an example, and what
the place counts. 'hverolda help refusals' lists all numbers, a line each.";

impl Explain {
    pub fn run(&self, output: &mut Output) -> Result<Status, Trouble> {
        let of = |number: &u32| words().iter().find(|words| words.number == *number);
        if let Some(unknown) = self.numbers.iter().find(|number| of(number).is_none()) {
            return usage(&format!("there is no refusal {unknown}: they are 1 to {}", words().len()));
        }
        let asked: Vec<&Words> = match &self.numbers[..] {
            [] => words().iter().collect(),
            numbers => numbers.iter().filter_map(of).collect(),
        };
        let text: Vec<String> = match output.is_json() {
            true => asked.into_iter().map(object).collect(),
            false => asked.into_iter().map(told).collect(),
        };
        output.write(text.join(if output.is_json() { "" } else { "\n" }).as_bytes())
    }
}

fn told(words: &Words) -> String {
    let Words { number, title, meaning, look, example, place, .. } = words;
    let parts = [("Means", meaning), ("Look at", look), ("Example", example), ("Place", place)];
    let lines: String =
        parts.iter().map(|(name, text)| format!("{}\n", wrapped(name, text))).collect();
    format!("{number}: {title}\n{lines}")
}

/// A text in lines of at most ninety bytes, after its name.
fn wrapped(name: &str, text: &str) -> String {
    let mut lines = vec![format!("  {name:<8}")];
    for word in text.split(' ') {
        let line = lines.last_mut().expect("there is a line");
        if line.len() + word.len() < 90 {
            line.push(' ');
            line.push_str(word);
        } else {
            lines.push(format!("{:11}{word}", ""));
        }
    }
    lines.join("\n")
}

fn object(words: &Words) -> String {
    let Words { number, title, meaning, look, example, place, .. } = words;
    let object = json!({
        "number": number,
        "title": title,
        "meaning": meaning,
        "look": look,
        "example": example,
        "place": place,
    });
    format!("{object}\n")
}

/// All numbers, a line each.
pub fn list() -> String {
    let lines: String =
        words().iter().map(|words| format!("{:>4}  {}\n", words.number, words.title)).collect();
    format!(
        "A refusal is a number and a place. 'hverolda explain NUMBER' says more of a \
            number.\n\n{lines}"
    )
}
