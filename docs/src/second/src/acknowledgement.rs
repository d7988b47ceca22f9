//! The acknowledgement of a received interchange: the value list that Write is
//! then given.
//!
//! Change request 2026-11, "Acknowledgements". The report has the received one's
//! level, version and mark, its sender and recipient exchanged, and one message
//! of UNH, UCI and UNT. UCI has the received control reference, sender and
//! recipient as received, and an action code. Received elements are copied whole
//! as they are trimmed; lent ones go in as they are lent.

use crate::contents::{Contents, Part, Repeat};
use crate::control::{reference_of, UNB_REFERENCE};
use crate::judging::{accept, order, Ordered};
use crate::normal_form::normal_characters;
use crate::refusal::{refuse, Answer, CONTROL, COUNT, LIST, NO_REPORT, REFERENCE};
use crate::value_list::{
    records_of, List, ValueList, NEW_ELEMENT, NEW_SEGMENT, NEXT_COMPONENT, NEXT_REPEAT,
};

/// Elements of UNB.
const SYNTAX: usize = 1;
const SENDER: usize = 2;
const RECIPIENT: usize = 3;

/// The action codes of UCI.
const ACKNOWLEDGED: &[u8] = b"7";
const REJECTED: &[u8] = b"4";

/// The reference of the report's message, and the segments of the message.
const MESSAGE_REFERENCE: &[u8] = b"1";
const MESSAGE_SEGMENTS: &[u8] = b"3";

/// What the caller lends: value lists of one element each.
#[derive(Clone, Copy, Debug)]
pub struct Lent<'a> {
    /// The date and time.
    pub date: ValueList<'a>,
    /// The new control reference.
    pub reference: ValueList<'a>,
    /// The message identification.
    pub message: ValueList<'a>,
}

/// The list of the report, and the six bytes to write it with.
#[derive(Clone, Debug, PartialEq, Eq)]
pub struct Report {
    pub service: [u8; 6],
    pub list: List,
}

/// Refusal 23, then 15, or what Write is given.
pub fn put_together(received: &[u8], lent: &Lent) -> Answer<Report> {
    let action = match action_of(received) {
        Some(action) => action,
        None => return refuse(NO_REPORT, 0),
    };
    let ordered = order(received)?;
    let received = match Received::of(&ordered) {
        Some(received) => received,
        None => return refuse(NO_REPORT, 0),
    };
    if ![lent.date, lent.reference, lent.message].iter().all(is_one_element) {
        return refuse(LIST, 0);
    }
    let characters = normal_characters(ordered.characters.mark, ordered.syntax.version);
    Ok(Report { service: characters.six(), list: received.report(action, lent) })
}

/// 7 when accepted, 4 when refused by 10, 11 or 12.
fn action_of(received: &[u8]) -> Option<&'static [u8]> {
    match accept(received) {
        Ok(_) => Some(ACKNOWLEDGED),
        Err(refusal) if [CONTROL, REFERENCE, COUNT].contains(&refusal.number) => Some(REJECTED),
        Err(_) => None,
    }
}

/// A list that has a record, keeps to 15, and has neither kind 0 nor kind 1
/// after its first record.
fn is_one_element(list: &ValueList) -> bool {
    let goes_on = |kind| kind == NEXT_COMPONENT || kind == NEXT_REPEAT;
    match records_of(list.table, list.values) {
        Ok(records) => {
            !records.is_empty() && records.iter().skip(1).all(|record| goes_on(record.kind))
        }
        Err(_) => false,
    }
}

/// What the report takes from UNB.
struct Received<'a> {
    contents: &'a Contents<'a>,
    /// Level and version, and whatever follows them.
    syntax: &'a [Part],
    sender: &'a [Repeat],
    recipient: &'a [Repeat],
    reference: &'a Part,
}

impl<'a> Received<'a> {
    /// None where the reference is not as it must be, or the sender or the
    /// recipient is one empty value.
    fn of(ordered: &'a Ordered<'a>) -> Option<Received<'a>> {
        let contents = &ordered.contents;
        let header = contents.segments.get(ordered.interchange.header)?;
        let filled = |element| {
            let repeats = contents.numbered(header, element)?;
            let empty = contents.only_value(header, element).map_or(false, |part| part.length == 0);
            (!empty).then_some(repeats)
        };
        Some(Received {
            contents,
            syntax: contents.only_repeat(header, SYNTAX)?,
            sender: filled(SENDER)?,
            recipient: filled(RECIPIENT)?,
            reference: reference_of(contents, header, UNB_REFERENCE)?,
        })
    }

    /// All records, in the order of the text.
    fn report(&self, action: &[u8], lent: &Lent) -> List {
        let mut list = List::default();
        put(&mut list, NEW_SEGMENT, b"UNB");
        self.put_value(&mut list, NEW_ELEMENT, &self.syntax[0]);
        self.put_value(&mut list, NEXT_COMPONENT, &self.syntax[1]);
        self.put_element(&mut list, self.recipient);
        self.put_element(&mut list, self.sender);
        put_lent(&mut list, &lent.date);
        put_lent(&mut list, &lent.reference);

        put(&mut list, NEW_SEGMENT, b"UNH");
        put(&mut list, NEW_ELEMENT, MESSAGE_REFERENCE);
        put_lent(&mut list, &lent.message);

        put(&mut list, NEW_SEGMENT, b"UCI");
        self.put_value(&mut list, NEW_ELEMENT, self.reference);
        self.put_element(&mut list, self.sender);
        self.put_element(&mut list, self.recipient);
        put(&mut list, NEW_ELEMENT, action);

        put(&mut list, NEW_SEGMENT, b"UNT");
        put(&mut list, NEW_ELEMENT, MESSAGE_SEGMENTS);
        put(&mut list, NEW_ELEMENT, MESSAGE_REFERENCE);

        put(&mut list, NEW_SEGMENT, b"UNZ");
        put(&mut list, NEW_ELEMENT, b"1");
        put_lent(&mut list, &lent.reference);
        list
    }

    fn put_value(&self, list: &mut List, kind: u32, part: &Part) {
        list.add(kind, self.contents.bytes(part));
    }

    /// A whole received element.
    fn put_element(&self, list: &mut List, repeats: &[Repeat]) {
        let mut kind = NEW_ELEMENT;
        for repeat in repeats {
            for part in self.contents.components_of(repeat) {
                self.put_value(list, kind, part);
                kind = NEXT_COMPONENT;
            }
            kind = NEXT_REPEAT;
        }
    }
}

fn put(list: &mut List, kind: u32, value: &[u8]) {
    list.add(kind, value.iter().copied());
}

/// A lent element: its bytes behind those that are there, its records with the
/// first one of kind 1.
fn put_lent(list: &mut List, lent: &ValueList) {
    let (bytes, numbers) = (list.values.len() as u32, list.table.len());
    list.values.extend(lent.values);
    for record in lent.table.chunks(3) {
        list.table.extend([record[0], bytes + record[1], record[2]]);
    }
    list.table[numbers] = NEW_ELEMENT;
}
