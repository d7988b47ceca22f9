use std::cell::RefCell;
use std::ffi::OsString;

use clap::Args;

use crate::input::{try_each_of, Files, Input};
use crate::json::Object;
use crate::output::{fields, Output, Said};
use crate::{Status, Trouble};

#[derive(Args)]
#[command(about = "Counts the interchanges of mailbox files, which have them end to end.", long_about = LONG)]
pub struct Report {
    #[command(flatten)]
    files: Files,
}

const LONG: &str = "\
Counts the interchanges of mailbox files, which have them end to end.

A file is cut after each UNZ segment and the line breaks behind it, and each piece is
judged. Where the bytes before a UNZ cannot be read as segments (2 to 6), or there is
none, the rest of the file is one piece that is refused: nothing behind is counted.

Prints lines of a name, a tab and a figure for each FILE: interchanges accepted; refused
by each number from 1 to 13; and of the accepted ones segments, messages, the total of
the lengths of their normal forms and the longest of them. A file of more than 65536
bytes has one line in their place: refused 1 0: and why. Where several files are named,
lines that begin with \"all files:\" follow: the sums, the longest of all, and how many
files these are; a file that is refused or cannot be read counts in none of them.

The status is 1 where a file is refused as a whole, and 0 otherwise, also where
interchanges in it are refused.";

/// The name of each figure, and the figure.
type Figures = Vec<(String, u64)>;

/// A byte more than the longest file: enough to see that it is longer.
const ROOM: usize = hverolda::LONGEST_FILE + 1;

const LONGEST: &str = "longest normal length";

impl Report {
    pub fn run(&self, output: &mut Output) -> Result<Status, Trouble> {
        let names = self.files.names()?;
        let all = RefCell::new(Vec::new());
        let status = try_each_of(output, &self.files, &names, ROOM, |input| {
            Ok(match hverolda::report(&input.bytes) {
                Ok(report) => {
                    let figures = figures_of(&report);
                    let said = Said::TextFields(lines(&input.label, &figures), object(&figures));
                    all.borrow_mut().push(figures);
                    said
                }
                Err(refusal) => {
                    let (number, place) = (refusal.number(), refusal.place);
                    let why = format!("the file has more than {} bytes", hverolda::LONGEST_FILE);
                    Said::Line(Status::No, format!("refused {number} {place}: {why}"))
                }
            })
        })?;
        if names.len() > 1 {
            // no file's name stands before a colon with a space in it and without quotes
            let (file, figures) = (OsString::from("all files"), sum(&all.into_inner()));
            let text = lines("all files: ", &figures);
            let input = Input { file, name: String::new(), label: String::new(), bytes: Vec::new() };
            output.say(&input, Said::TextFields(text, object(&figures)))?;
        }
        Ok(status)
    }
}

/// The figures as an object, whose verdict is that the file was counted.
fn object(figures: &Figures) -> Object {
    let mut object = fields([("verdict", "counted".into())]);
    object.extend(figures.iter().map(|(name, figure)| (name.replace(' ', "_"), (*figure).into())));
    object
}

fn figures_of(report: &hverolda::Report) -> Figures {
    let refused = (1..report.refused.len()).map(|number| {
        (format!("refused by {number}"), u64::from(report.refused[number]))
    });
    let named = |name: &str, figure: u64| (name.to_string(), figure);
    let mut figures = vec![named("accepted", report.accepted.into())];
    figures.extend(refused);
    figures.extend([
        named("segments", report.segments.into()),
        named("messages", report.messages.into()),
        named("total of normal lengths", report.normal_total as u64),
        named(LONGEST, report.normal_longest as u64),
    ]);
    figures
}

/// The figures of all of them, and how many they are.
fn sum(all: &[Figures]) -> Figures {
    let mut figures = figures_of(&hverolda::Report::default());
    for (at, (name, figure)) in figures.iter_mut().enumerate() {
        let each = all.iter().map(|figures| figures[at].1);
        *figure = if name == LONGEST { each.max().unwrap_or(0) } else { each.sum() };
    }
    figures.push(("files".to_string(), all.len() as u64));
    figures
}

fn lines(label: &str, figures: &Figures) -> Vec<u8> {
    let line = |(name, figure): &(String, u64)| format!("{label}{name}\t{figure}\n");
    figures.iter().map(line).collect::<String>().into_bytes()
}
