//! Runs the surface of the proved library and the second program on the same
//! calls, made at random from a seed, and compares the answers and every byte
//! of every buffer. Each slice lies between guards, which are looked at too.
//!
//! `differential SEED COUNT` makes so many cases and says in a line what was
//! met; `--quiet` leaves the line out and `--counts` adds a table to it. The
//! first disagreement is printed, with the call in hexadecimal, and ends the
//! run with status 1. So does a refusal that an operation can give and that
//! never occurred, unless `--partial` says that the run is a short one.
//! `--tight` leaves the guards out, for a run under a tool that watches memory.
//! `--shelf` does so many operations on shelves in place of the cases, `--mailbox`
//! reports on so many mailbox files and cuts them, `--orders` puts so many lists in two orders,
//! `--carry` carries so many shelves into their other version and back,
//! `--structures` judges so many interchanges by tables.

mod breaks;
mod by_second;
mod by_surface;
mod by_wrapper;
mod call;
mod cases;
mod columns;
mod inputs;
mod lent;
mod limits;
mod mailbox;
mod orders;
mod owned;
mod pairs;
mod pieces;
mod rules;
mod run;
mod sections;
mod shelf;
mod structures;
mod tables;
mod tally;
mod wide;

use std::process::ExitCode;

use run::{Checked, Run};
use tally::Tally;

const USAGE: &str =
    "usage: differential SEED COUNT [--shelf | --mailbox | --orders | --carry | --structures] [--quiet] \
     [--counts] [--partial] [--tight]";

#[derive(Default)]
struct Options {
    quiet: bool,
    counts: bool,
    partial: bool,
    tight: bool,
    shelf: bool,
    mailbox: bool,
    orders: bool,
    carry: bool,
    structures: bool,
}

/// The seed, the count and the options that the words of the command name.
fn command() -> Option<(u64, u64, Options)> {
    let mut options = Options::default();
    let mut numbers = Vec::new();
    for word in std::env::args().skip(1) {
        match &word[..] {
            "--quiet" => options.quiet = true,
            "--counts" => options.counts = true,
            "--partial" => options.partial = true,
            "--tight" => options.tight = true,
            "--shelf" => options.shelf = true,
            "--mailbox" => options.mailbox = true,
            "--orders" => options.orders = true,
            "--carry" => options.carry = true,
            "--structures" => options.structures = true,
            _ => numbers.push(word.parse().ok()?),
        }
    }
    match numbers[..] {
        [seed, count] => Some((seed, count, options)),
        _ => None,
    }
}

fn main() -> ExitCode {
    let (seed, count, options) = match command() {
        Some(command) => command,
        None => {
            eprintln!("{USAGE}");
            return ExitCode::from(2);
        }
    };
    let told = match (options.shelf, options.mailbox, options.orders, options.carry) {
        (true, _, _, _) => on_shelves(seed, count, &options),
        (_, true, _, _) => on_mailboxes(seed, count, &options),
        (_, _, true, _) => on_orders(seed, count),
        (_, _, _, true) => on_carrying(seed, count, &options),
        _ if options.structures => on_structures(seed, count, &options),
        _ => on_cases(seed, count, &options),
    };
    match told {
        Ok((summary, counts)) => {
            if !options.quiet {
                println!("seed {seed}, {summary}");
            }
            if options.counts {
                print!("{counts}");
            }
            ExitCode::SUCCESS
        }
        Err(what) => {
            eprintln!("differential: seed {seed}, {what}");
            ExitCode::FAILURE
        }
    }
}

/// A line and a table of what was met, or what is wrong.
type Told = Result<(String, String), String>;

fn on_cases(seed: u64, count: u64, options: &Options) -> Told {
    let mut run = Run::new(seed, options.tight);
    all(&mut run, count).map_err(|(case, disagreement)| format!("case {case}: {disagreement}"))?;
    let mut faults = run.tally.strays();
    if !options.partial {
        faults.extend(run.tally.gaps());
    }
    match faults.is_empty() {
        true => Ok((summary(count, &run.tally), run.tally.to_string())),
        false => Err(format!("{count} cases: {}", faults.join("; "))),
    }
}

fn on_shelves(seed: u64, count: u64, options: &Options) -> Told {
    let counts = shelf::run(seed, count, options.tight)?;
    let gaps = if options.partial { Vec::new() } else { counts.gaps() };
    match gaps.is_empty() {
        true => Ok((counts.summary(), counts.to_string())),
        false => Err(format!("{count} operations: {}", gaps.join("; "))),
    }
}

fn on_mailboxes(seed: u64, count: u64, options: &Options) -> Told {
    let figures = mailbox::run(seed, count, options.tight)?;
    let ends = pieces::run(seed, count, options.tight)?;
    let gaps = if options.partial { Vec::new() } else { [figures.gaps(), ends.gaps()].concat() };
    match gaps.is_empty() {
        true => {
            let summary = format!("{}; {}", figures.summary(), ends.summary());
            Ok((summary, format!("{figures}{ends}")))
        }
        false => Err(format!("{count} files: {}", gaps.join("; "))),
    }
}

fn on_orders(seed: u64, count: u64) -> Told {
    let counts = orders::run(seed, count)?;
    Ok((counts.summary(), String::new()))
}

fn on_carrying(seed: u64, count: u64, options: &Options) -> Told {
    let counts = shelf::carrying::run(seed, count)?;
    let gaps = if options.partial { Vec::new() } else { shelf::carrying::gaps(&counts) };
    match gaps.is_empty() {
        true => Ok((shelf::carrying::summary(&counts), counts.to_string())),
        false => Err(format!("{count} shelves: {}", gaps.join("; "))),
    }
}

fn on_structures(seed: u64, count: u64, options: &Options) -> Told {
    let counts = structures::run(seed, count, options.tight)?;
    let gaps = if options.partial { Vec::new() } else { counts.gaps() };
    match gaps.is_empty() {
        true => Ok((counts.summary(), counts.to_string())),
        false => Err(format!("{count} interchanges: {}", gaps.join("; "))),
    }
}

/// The stated cases, which are case 0, and so many at random.
fn all(run: &mut Run, count: u64) -> Result<(), (u64, Box<run::Disagreement>)> {
    let numbered = |case: u64, checked: Checked<()>| checked.map_err(|wrong| (case, wrong));
    numbered(0, cases::stated(run))?;
    (1..=count).try_for_each(|case| numbered(case, cases::any(run)))
}

fn summary(count: u64, tally: &Tally) -> String {
    let pairs: Vec<String> = pairs::CHANGES
        .iter()
        .map(|change| format!("{} {}", tally.of("pair", change.name()), change.name()))
        .collect();
    format!(
        "{count} cases, {} calls: answers, buffers and guards as they should be; \
         pairs: {}; rarest refusal: {}",
        tally.calls,
        pairs.join(", "),
        tally.rarest()
    )
}
