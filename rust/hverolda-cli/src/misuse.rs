//! What is said where the words of a run are not as the usage says.

use std::error::Error as _;

use clap::error::{ContextKind, ContextValue, Error, ErrorKind};

/// One sentence: what was found, and what was perhaps meant.
pub fn told(error: &Error) -> String {
    let part = |kind| error.get(kind).map(words).unwrap_or_default();
    let argument = part(ContextKind::InvalidArg);
    let value = part(ContextKind::InvalidValue);
    let sentence = match error.kind() {
        ErrorKind::UnknownArgument if argument.starts_with('-') => {
            format!("'{argument}' is no option here")
        }
        ErrorKind::UnknownArgument => format!("'{argument}' is one word too many"),
        ErrorKind::InvalidSubcommand => {
            format!("nothing is called '{}' here", part(ContextKind::InvalidSubcommand))
        }
        ErrorKind::MissingSubcommand | ErrorKind::DisplayHelpOnMissingArgumentOrSubcommand => {
            "what is to be done? A command is missing".to_string()
        }
        ErrorKind::MissingRequiredArgument => format!("missing: {argument}"),
        ErrorKind::InvalidValue if value.is_empty() => format!("{argument} wants a value"),
        ErrorKind::InvalidValue => {
            let valid = part(ContextKind::ValidValue);
            format!("'{value}' is no value of {argument}; these are: {valid}")
        }
        ErrorKind::ValueValidation => {
            let why = error.source().map_or(String::new(), |why| format!(": {why}"));
            format!("'{value}' is not taken for {argument}{why}")
        }
        ErrorKind::ArgumentConflict if argument == part(ContextKind::PriorArg) => {
            format!("{argument} is given twice")
        }
        _ => first_line(error),
    };
    sentence + &meant(error)
}

fn words(value: &ContextValue) -> String {
    match value {
        ContextValue::String(word) => word.clone(),
        ContextValue::Strings(words) => words.join(", "),
        other => other.to_string(),
    }
}

/// What was perhaps meant, as the end of the sentence.
fn meant(error: &Error) -> String {
    let suggested =
        [ContextKind::SuggestedArg, ContextKind::SuggestedSubcommand, ContextKind::SuggestedValue];
    let found = suggested.into_iter().filter_map(|kind| error.get(kind)).map(words).next();
    found.map_or(String::new(), |word| format!("; did you mean '{word}'?"))
}

fn first_line(error: &Error) -> String {
    let text = error.to_string();
    let line = text.lines().next().unwrap_or_default();
    line.strip_prefix("error: ").unwrap_or(line).to_string()
}
