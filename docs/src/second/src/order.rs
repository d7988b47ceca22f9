//! The order of segments: stage 9.
//!
//! Paper, clause "From bytes to values", the paragraph "Order of segments",
//! and refusal 9; change request 2026-03, "Section markers". At each point the
//! next segment alone decides how to go on, so the first segment that is not
//! allowed has the lowest place.

use crate::contents::Contents;
use crate::refusal::{refuse, Answer, ORDER};
use crate::sections::{section_of, Section};

#[derive(Clone, Copy, Debug, PartialEq, Eq)]
pub enum Kind {
    Unb,
    Ung,
    Unh,
    Uns,
    Unt,
    Une,
    Unz,
    User,
}

pub fn kind_of(tag: &[u8]) -> Kind {
    match tag {
        b"UNB" => Kind::Unb,
        b"UNG" => Kind::Ung,
        b"UNH" => Kind::Unh,
        b"UNS" => Kind::Uns,
        b"UNT" => Kind::Unt,
        b"UNE" => Kind::Une,
        b"UNZ" => Kind::Unz,
        _ => Kind::User,
    }
}

/// Header and trailer as segment numbers from 0.
#[derive(Clone, Copy, Debug, PartialEq, Eq)]
pub struct Message {
    pub header: usize,
    pub trailer: usize,
}

#[derive(Clone, Debug, PartialEq, Eq)]
pub struct Group {
    pub header: usize,
    pub messages: Vec<Message>,
    pub trailer: usize,
}

/// Groups or messages, not both.
#[derive(Clone, Debug, PartialEq, Eq)]
pub enum Inner {
    Groups(Vec<Group>),
    Messages(Vec<Message>),
}

#[derive(Clone, Debug, PartialEq, Eq)]
pub struct Interchange {
    pub header: usize,
    pub inner: Inner,
    pub trailer: usize,
}

impl Interchange {
    /// All messages, those inside groups too, in their order.
    pub fn messages(&self) -> Vec<Message> {
        match &self.inner {
            Inner::Groups(groups) => {
                groups.iter().flat_map(|group| group.messages.clone()).collect()
            }
            Inner::Messages(messages) => messages.clone(),
        }
    }

    pub fn message_count(&self) -> usize {
        self.messages().len()
    }

    pub fn group_count(&self) -> usize {
        match &self.inner {
            Inner::Groups(groups) => groups.len(),
            Inner::Messages(_) => 0,
        }
    }
}

/// Goes through the segments, one after the other.
struct Walk<'a> {
    contents: &'a Contents<'a>,
    kinds: Vec<Kind>,
    at: usize,
}

/// Stage 9: the segments as headers and trailers that belong together.
pub fn interchange_of(contents: &Contents) -> Answer<Interchange> {
    let kind = |segment| kind_of(contents.tag_of(segment).of(contents.source));
    let kinds = contents.segments.iter().map(kind).collect();
    Walk { contents, kinds, at: 0 }.interchange()
}

impl Walk<'_> {
    fn next_is(&self, kind: Kind) -> bool {
        self.kinds.get(self.at) == Some(&kind)
    }

    /// What stands here is not allowed here.
    fn not_allowed<T>(&self) -> Answer<T> {
        let segment = self.contents.segments.get(self.at);
        let start = segment.map(|segment| self.contents.start_of(segment));
        refuse(ORDER, start.unwrap_or(self.contents.source.len()))
    }

    /// Takes the next segment, which must be of this kind; gives its number.
    fn take(&mut self, kind: Kind) -> Answer<usize> {
        if !self.next_is(kind) {
            return self.not_allowed();
        }
        self.at += 1;
        Ok(self.at - 1)
    }

    fn interchange(&mut self) -> Answer<Interchange> {
        let header = self.take(Kind::Unb)?;
        let inner = if self.next_is(Kind::Ung) {
            Inner::Groups(self.groups()?)
        } else {
            Inner::Messages(self.messages()?)
        };
        let trailer = self.take(Kind::Unz)?;
        if self.at < self.kinds.len() {
            return self.not_allowed();
        }
        Ok(Interchange { header, inner, trailer })
    }

    /// One or more groups.
    fn groups(&mut self) -> Answer<Vec<Group>> {
        let mut groups = vec![self.group()?];
        while self.next_is(Kind::Ung) {
            groups.push(self.group()?);
        }
        Ok(groups)
    }

    fn group(&mut self) -> Answer<Group> {
        let header = self.take(Kind::Ung)?;
        let messages = self.messages()?;
        let trailer = self.take(Kind::Une)?;
        Ok(Group { header, messages, trailer })
    }

    /// One or more messages.
    fn messages(&mut self) -> Answer<Vec<Message>> {
        let mut messages = vec![self.message()?];
        while self.next_is(Kind::Unh) {
            messages.push(self.message()?);
        }
        Ok(messages)
    }

    fn message(&mut self) -> Answer<Message> {
        let header = self.take(Kind::Unh)?;
        let mut section = None;
        loop {
            if self.next_is(Kind::Uns) {
                section = Some(self.section_after(section)?);
            } else if !self.next_is(Kind::User) {
                break;
            }
            self.at += 1;
        }
        let trailer = self.take(Kind::Unt)?;
        Ok(Message { header, trailer })
    }

    /// The section of the UNS that stands here. Each stands at most once in a
    /// message, D before S: it comes after the last section of the message.
    fn section_after(&self, last: Option<Section>) -> Answer<Section> {
        match section_of(self.contents, &self.contents.segments[self.at]) {
            Some(section) if last < Some(section) => Ok(section),
            _ => self.not_allowed(),
        }
    }
}
