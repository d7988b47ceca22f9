//! The stages 1 to 13, one after the other.
//!
//! Paper, clauses "Operations" (an interchange is accepted when none of 1 to
//! 13 is met) and "Refusals by number" (the first failing stage answers). Change
//! request 2026-08, "Message structures": where a table is lent, 22 comes after
//! 12 and before 13.

use crate::contents::Contents;
use crate::control::check_control;
use crate::level::{check_bytes, named_syntax, Syntax, Version};
use crate::message_table::Entry;
use crate::normal_form::{normal_characters, text, text_length};
use crate::order::{interchange_of, Interchange};
use crate::reading::read_body;
use crate::refusal::{refuse, Answer, BODY, LONGEST, NORMAL_LENGTH, OVER_LENGTH};
use crate::service_characters::{opening, ServiceCharacters};
use crate::table_walk::stopped_before;
use crate::trimming::trim;

/// What is known of an input that none of 1 to 9 refuses.
pub struct Ordered<'a> {
    pub characters: ServiceCharacters,
    pub syntax: Syntax,
    /// Trimmed.
    pub contents: Contents<'a>,
    pub interchange: Interchange,
}

/// What is known of an accepted interchange.
pub struct Accepted<'a> {
    pub characters: ServiceCharacters,
    pub version: Version,
    /// Trimmed.
    pub contents: Contents<'a>,
    pub messages: usize,
    pub groups: usize,
    pub normal_length: usize,
}

impl Accepted<'_> {
    pub fn normal_form(&self) -> Vec<u8> {
        text(&self.contents, &normal_characters(self.characters.mark, self.version))
    }
}

/// Judges an input by the stages 1 to 9.
pub fn order(input: &[u8]) -> Answer<Ordered<'_>> {
    if input.len() > LONGEST {
        return refuse(OVER_LENGTH, 0);
    }
    let opening = opening(input)?;
    let characters = opening.characters;
    let mut contents = read_body(input, opening.body, &characters)?;
    trim(&mut contents);
    let syntax = named_syntax(&contents, &opening)?;
    check_bytes(&contents, syntax.level)?;
    let interchange = interchange_of(&contents)?;
    Ok(Ordered { characters, syntax, contents, interchange })
}

/// Judges an input by all stages.
pub fn accept(input: &[u8]) -> Answer<Accepted<'_>> {
    accept_by(None, input)
}

/// Judges an input by all stages, and its messages by the entries of a sound
/// table where there is one.
pub fn accept_by<'a>(table: Option<&[Entry]>, input: &'a [u8]) -> Answer<Accepted<'a>> {
    let Ordered { characters, syntax, contents, interchange } = order(input)?;
    check_control(&contents, &interchange)?;
    if let Some(entries) = table {
        check_bodies(entries, &contents, &interchange)?;
    }
    let normal = normal_characters(characters.mark, syntax.version);
    let normal_length = text_length(&contents, &normal) as usize;
    if normal_length > LONGEST {
        return refuse(NORMAL_LENGTH, normal_length);
    }
    Ok(Accepted {
        characters,
        version: syntax.version,
        contents,
        messages: interchange.message_count(),
        groups: interchange.group_count(),
        normal_length,
    })
}

/// Stage 22: the segments between UNH and UNT of every message match the table.
/// Messages are gone through in their order, so that the lowest place answers.
fn check_bodies(entries: &[Entry], contents: &Contents, interchange: &Interchange) -> Answer<()> {
    for message in interchange.messages() {
        let body = &contents.segments[message.header + 1..message.trailer];
        let tags: Vec<&[u8]> =
            body.iter().map(|segment| contents.tag_of(segment).of(contents.source)).collect();
        if let Some(number) = stopped_before(entries, &tags) {
            let segment = &contents.segments[message.header + 1 + number];
            return refuse(BODY, contents.start_of(segment));
        }
    }
    Ok(())
}
