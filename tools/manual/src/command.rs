//! The pages of the command and of each sub-command, from their declarations.

use clap::builder::StyledStr;
use clap::{Arg, Command};

use crate::page::Page;
use crate::Written;

pub fn pages(mut whole: Command) -> Vec<Written> {
    whole.build();
    let mut first = page(&whole, "hverolda");
    first.heading("COMMANDS");
    for command in shown(&whole) {
        let name = command.get_name();
        first.item(
            &format!("hverolda {name}"),
            &format!("{} See hverolda-{name}(1).", about(command)),
        );
    }
    ending(&mut first, &whole);
    let mut all = vec![first.written()];
    for command in shown(&whole) {
        let mut page = page(command, &format!("hverolda-{}", command.get_name()));
        for action in shown(command) {
            page.subheading(&usage(action)).text(&about(action));
            arguments(&mut page, action);
        }
        ending(&mut page, command);
        all.push(page.written());
    }
    all
}

/// The sub-commands that are not hidden.
fn shown(command: &Command) -> impl Iterator<Item = &Command> {
    command.get_subcommands().filter(|command| !command.is_hide_set())
}

fn page(command: &Command, name: &str) -> Page {
    let mut page = Page::new(name, "1", &first_sentence(&about(command)));
    page.heading("SYNOPSIS").text(&usage(command));
    page.heading("DESCRIPTION")
        .text(&plain(command.get_long_about().or_else(|| command.get_about())));
    if command.get_arguments().next().is_some() {
        page.heading("OPTIONS");
        arguments(&mut page, command);
    }
    page
}

fn arguments(page: &mut Page, command: &Command) {
    for argument in command.get_arguments().filter(|argument| !argument.is_hide_set()) {
        let help = plain(argument.get_long_help().or_else(|| argument.get_help()));
        let default: Vec<_> =
            argument.get_default_values().iter().map(|value| value.to_string_lossy()).collect();
        let default = match default[..] {
            [] => String::new(),
            _ => format!(". It is {} where nothing else is said.", default.join(" ")),
        };
        page.item(&term(argument), &format!("{help}{default}"));
    }
}

/// An argument as it is written: `-h, --help`, `--table TABLE`, `FILE`.
fn term(argument: &Arg) -> String {
    let names = argument.get_value_names().unwrap_or(&[]);
    let values: String = match argument.get_action().takes_values() {
        true => names.iter().map(|name| format!(" {name}")).collect(),
        false => String::new(),
    };
    let short = argument.get_short().map(|letter| format!("-{letter}"));
    let long = argument.get_long().map(|word| format!("--{word}"));
    let options: Vec<String> = short.into_iter().chain(long).collect();
    match options[..] {
        [] => values.trim_start().to_string(),
        _ => format!("{}{values}", options.join(", ")),
    }
}

fn ending(page: &mut Page, command: &Command) {
    page.heading("NOTES").text(&plain(command.get_after_long_help()));
    page.heading("SEE ALSO");
    page.text("hverolda(1), hverolda(3), hverolda-refusals(7)");
}

fn usage(command: &Command) -> String {
    let usage = command.clone().render_usage().to_string();
    usage.trim_start_matches("Usage:").trim().to_string()
}

fn about(command: &Command) -> String {
    plain(command.get_about())
}

fn first_sentence(text: &str) -> String {
    let text = text.replace('\n', " ");
    text.split_once(':').map_or(text.clone(), |(first, _)| first.to_string())
}

fn plain(text: Option<&StyledStr>) -> String {
    text.map(StyledStr::to_string).unwrap_or_default()
}
