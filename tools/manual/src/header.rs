//! hverolda(3), from the text of the header: its first comment, the constants, the structs and
//! the functions, each with the comment before it.

use std::error::Error;

use crate::page::Page;
use crate::Written;

/// A comment, and the lines of code after it up to the next empty line.
struct Part {
    comment: String,
    code: String,
}

pub fn page(header: &str) -> Result<Written, Box<dyn Error>> {
    let parts = parts(header);
    let (first, rest) = parts.split_first().ok_or("the header has no comment")?;
    let mut page = Page::new("hverolda", "3", "duplicate check for EDIFACT interchanges, proved");
    page.heading("SYNOPSIS");
    page.verbatim("#define HVEROLDA_CALLER 2\n#include <hverolda.h>\n\ncc .. $(pkg-config --cflags --libs hverolda)");
    page.heading("DESCRIPTION").text(&first.comment);
    page.heading("CONSTANTS");
    for part in rest.iter().filter(|part| part.code.starts_with("#define HVEROLDA_")) {
        page.verbatim(&part.code).text(&part.comment);
    }
    page.heading("FUNCTIONS");
    for part in rest.iter().filter(|part| part.code.trim_end().ends_with(");")) {
        let name = function(&part.code).ok_or_else(|| format!("no function: {}", part.code))?;
        page.subheading(name).verbatim(&part.code).text(&part.comment);
    }
    page.heading("STRUCTS");
    for part in rest.iter().filter(|part| part.code.starts_with("typedef struct")) {
        page.text(&part.comment).verbatim(&part.code);
    }
    page.heading("SEE ALSO").text("hverolda(1), hverolda-refusals(7)");
    Ok(page.written())
}

fn function(code: &str) -> Option<&str> {
    let before = code.split_once('(')?.0;
    before.rsplit([' ', '*']).next().filter(|name| name.starts_with("hverolda_"))
}

/// The comments that begin a line, with the code after them.
fn parts(header: &str) -> Vec<Part> {
    let mut parts = Vec::new();
    let mut rest = header;
    while let Some((comment, after)) = next_comment(rest) {
        let code = after.trim_start_matches('\n').split("\n\n").next().unwrap_or("");
        // what an empty line parts from its comment is not its own
        let own = if after.starts_with("\n\n") { "" } else { code };
        parts.push(Part { comment: plain(comment), code: own.to_string() });
        rest = after;
    }
    parts
}

/// The next comment that begins a line, and what follows it.
fn next_comment(text: &str) -> Option<(&str, &str)> {
    let at = if text.starts_with("/*") { 0 } else { text.find("\n/*")? + 1 };
    text[at + 2..].split_once("*/")
}

/// A comment without its stars.
fn plain(comment: &str) -> String {
    let line = |line: &str| {
        let line = line.strip_prefix(" *").unwrap_or(line);
        line.strip_prefix(' ').unwrap_or(line).trim_end().to_string()
    };
    comment.lines().map(line).collect::<Vec<_>>().join("\n").trim().to_string()
}
