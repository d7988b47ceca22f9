//! Where the walk stands, and what each service segment changes: the order of
//! segments, the sections, the references and the counts.
//!
//! Paper 01, "Order of segments" and "Control elements"; change request 2026-03.

use crate::fields::{count, elements, reference, single};
use crate::opening::Characters;

#[derive(Clone, Copy, PartialEq, Eq)]
enum Standing {
    BeforeHeader,
    Between,
    InGroup,
    InMessage,
    Ended,
}
use Standing::*;

pub struct Walk<'a> {
    characters: Characters,
    standing: Standing,
    grouped: bool,
    pub segments: usize,
    pub messages: usize,
    pub groups: usize,
    /// Segments and messages before the message and the group.
    segments_before: usize,
    messages_before: usize,
    details: bool,
    summary: bool,
    interchange: Option<&'a [u8]>,
    group: Option<&'a [u8]>,
    message: Option<&'a [u8]>,
}

/// What a segment is refused by.
type Checked = Result<(), u32>;

impl<'a> Walk<'a> {
    pub fn new(characters: Characters) -> Walk<'a> {
        Walk {
            characters,
            standing: BeforeHeader,
            grouped: false,
            segments: 0,
            messages: 0,
            groups: 0,
            segments_before: 0,
            messages_before: 0,
            details: false,
            summary: false,
            interchange: None,
            group: None,
            message: None,
        }
    }

    pub fn has_ended(&self) -> bool {
        self.standing == Ended
    }

    pub fn user_segment(&mut self) -> Checked {
        self.segments += 1;
        match self.standing {
            InMessage => Ok(()),
            _ => Err(9),
        }
    }

    /// A service segment without its terminator.
    pub fn service_segment(&mut self, kind: u8, segment: &'a [u8]) -> Checked {
        self.segments += 1;
        match (kind, self.standing) {
            (b'B', BeforeHeader) => self.interchange(segment),
            (b'G', Between) if self.messages == 0 || self.groups > 0 => self.group(segment),
            (b'H', Between) if self.groups == 0 => self.message(segment),
            (b'H', InGroup) => self.message(segment),
            (b'S', InMessage) => self.section(segment),
            (b'T', InMessage) => {
                self.standing = if self.grouped { InGroup } else { Between };
                self.trailer(segment, self.message, self.segments - self.segments_before)
            }
            (b'E', InGroup) if self.messages > self.messages_before => {
                self.standing = Between;
                self.trailer(segment, self.group, self.messages - self.messages_before)
            }
            (b'Z', Between) if self.messages > 0 => {
                self.standing = Ended;
                let count = if self.groups > 0 { self.groups } else { self.messages };
                self.trailer(segment, self.interchange, count)
            }
            _ => Err(9),
        }
    }

    fn reference(&self, segment: &'a [u8], number: usize) -> Option<&'a [u8]> {
        reference(elements(segment, &self.characters).nth(number), &self.characters)
    }

    fn interchange(&mut self, segment: &'a [u8]) -> Checked {
        self.standing = Between;
        self.interchange = self.reference(segment, 5);
        self.interchange.map(drop).ok_or(10)
    }

    fn group(&mut self, segment: &'a [u8]) -> Checked {
        self.standing = InGroup;
        self.groups += 1;
        self.messages_before = self.messages;
        self.group = self.reference(segment, 5);
        self.group.map(drop).ok_or(10)
    }

    fn message(&mut self, segment: &'a [u8]) -> Checked {
        self.grouped = self.standing == InGroup;
        self.standing = InMessage;
        self.messages += 1;
        self.segments_before = self.segments - 1;
        (self.details, self.summary) = (false, false);
        self.message = self.reference(segment, 1);
        self.message.map(drop).ok_or(10)
    }

    fn section(&mut self, segment: &[u8]) -> Checked {
        let element = elements(segment, &self.characters).nth(1);
        match element.and_then(|element| single(element, &self.characters)) {
            Some(b"D") if !self.details && !self.summary => self.details = true,
            Some(b"S") if !self.summary => self.summary = true,
            _ => return Err(9),
        }
        Ok(())
    }

    fn trailer(&self, segment: &[u8], header: Option<&[u8]>, counted: usize) -> Checked {
        let mut elements = elements(segment, &self.characters).skip(1);
        let count = count(elements.next(), &self.characters).ok_or(10u32)?;
        let reference = reference(elements.next(), &self.characters).ok_or(10u32)?;
        if Some(reference) != header {
            return Err(11);
        }
        if count != counted {
            return Err(12);
        }
        Ok(())
    }
}
