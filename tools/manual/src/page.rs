//! A manual page: headings, paragraphs, and lists of a term and what it means.

use roff::{bold, roman, Roff};

use crate::Written;

pub struct Page {
    name: String,
    section: &'static str,
    roff: Roff,
}

impl Page {
    /// A page of this name and section, with what it is about in a line.
    pub fn new(name: &str, section: &'static str, about: &str) -> Page {
        let mut roff = Roff::new();
        let product = concat!("hverolda ", env!("CARGO_PKG_VERSION"));
        roff.control("TH", [&name.to_uppercase()[..], section, "", product, "Hverolda"]);
        roff.control("SH", ["NAME"]);
        roff.text([roman(format!("{name} - {}", about.trim_end_matches('.')))]);
        Page { name: name.to_string(), section, roff }
    }

    pub fn heading(&mut self, heading: &str) -> &mut Page {
        self.roff.control("SH", [heading]);
        self
    }

    pub fn subheading(&mut self, heading: &str) -> &mut Page {
        self.roff.control("SS", [heading]);
        self
    }

    /// Blocks of a text, apart by empty lines. One with indented lines stays as it is.
    pub fn text(&mut self, text: &str) -> &mut Page {
        for block in text.split("\n\n").map(|block| block.trim_matches('\n')) {
            if block.is_empty() {
                continue;
            }
            match block.lines().any(|line| line.starts_with(' ')) {
                true => self.verbatim(block),
                false => self.filled(block),
            };
        }
        self
    }

    fn filled(&mut self, block: &str) -> &mut Page {
        self.roff.control("PP", []);
        self.roff.text([roman(block)]);
        self
    }

    /// A block whose lines stay as they are.
    pub fn verbatim(&mut self, block: &str) -> &mut Page {
        self.roff.control("PP", []);
        self.roff.control("nf", []);
        self.roff.text([roman(block)]);
        self.roff.control("fi", []);
        self
    }

    /// A term, and what it means.
    pub fn item(&mut self, term: &str, meaning: &str) -> &mut Page {
        self.roff.control("TP", []);
        self.roff.text([bold(term)]);
        self.roff.text([roman(meaning)]);
        self
    }

    pub fn written(self) -> Written {
        let name = format!("man/man{}/{}.{}", self.section, self.name, self.section);
        Written { name, bytes: self.roff.to_roff().into_bytes() }
    }
}
