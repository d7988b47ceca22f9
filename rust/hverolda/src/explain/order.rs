//! Refusal 9: what stands somewhere, and what may.

use super::segment::after_end;
use super::{shown, Context, Reason};
use crate::segments::Segment;

/// Where the walk through the segments stands, as the paper's order has it.
#[derive(Clone, Copy, PartialEq)]
enum Standing {
    BeforeUnb,
    AfterUnb,
    BetweenGroups,
    BetweenMessages,
    InGroup { empty: bool },
    InMessage { grouped: bool, header: usize, detail: bool, summary: bool },
    AfterUnz,
}

use Standing::{AfterUnb, AfterUnz, BeforeUnb, BetweenGroups, BetweenMessages, InGroup, InMessage};

impl Standing {
    /// What may stand there.
    fn allowed(self) -> &'static str {
        match self {
            BeforeUnb => "UNB",
            AfterUnb => "UNG or UNH",
            BetweenGroups => "UNG or UNZ",
            BetweenMessages => "UNH or UNZ",
            InGroup { empty: true } => "UNH",
            InGroup { empty: false } => "UNH or UNE",
            InMessage { .. } => "a segment of the message, UNS or UNT",
            AfterUnz => "nothing",
        }
    }

    /// Where it stands after this segment, which has this number from 0; none where it may
    /// not stand there.
    fn after(self, number: usize, segment: &Segment) -> Option<Standing> {
        let message =
            |grouped| InMessage { grouped, header: number, detail: false, summary: false };
        Some(match (self, segment.tag()) {
            (BeforeUnb, b"UNB") => AfterUnb,
            (AfterUnb | BetweenGroups, b"UNG") => InGroup { empty: true },
            (AfterUnb | BetweenMessages, b"UNH") => message(false),
            (InGroup { .. }, b"UNH") => message(true),
            (InGroup { empty: false }, b"UNE") => BetweenGroups,
            (BetweenGroups | BetweenMessages, b"UNZ") => AfterUnz,
            (InMessage { grouped: true, .. }, b"UNT") => InGroup { empty: false },
            (InMessage { grouped: false, .. }, b"UNT") => BetweenMessages,
            // that a section stood before, Judge would have said there
            (InMessage { grouped, header, detail, summary }, b"UNS") => match section(segment)? {
                b'D' => InMessage { grouped, header, detail: true, summary },
                _ => InMessage { grouped, header, detail, summary: true },
            },
            (InMessage { .. }, b"UNB" | b"UNG" | b"UNH" | b"UNE" | b"UNZ") => return None,
            (InMessage { .. }, _) => self,
            _ => return None,
        })
    }
}

/// D or S, where UNS names one of them and nothing else.
fn section(segment: &Segment) -> Option<u8> {
    let element = segment.element(1);
    let mut values = element.repeats().flat_map(|repeat| repeat.components().collect::<Vec<_>>());
    let first = values.next().map(|value| value.bytes().to_vec())?;
    match (&first[..], values.next()) {
        (b"D", None) => Some(b'D'),
        (b"S", None) => Some(b'S'),
        _ => None,
    }
}

pub fn reason(context: &Context, place: usize) -> Option<Reason> {
    if let Some(reason) = after_end(context, place) {
        return Some(reason);
    }
    let mut standing = BeforeUnb;
    for (number, segment) in context.segments.iter().enumerate() {
        if segment.start() >= place {
            break;
        }
        standing = standing.after(number, segment)?;
    }
    let there = context.segments.iter().find(|segment| segment.start() == place);
    Some(match there {
        None => at_end(context, standing),
        Some(segment) if segment.tag() == b"UNS" => in_section(standing, segment),
        Some(segment) => misplaced(context, standing, segment),
    })
}

/// The header of the message that is open, in words.
fn message(context: &Context, header: usize) -> String {
    let reference = shown(context.segments[header].element(1).component(0).spelled());
    format!("message {reference}, which UNH (segment {}) began", header + 1)
}

fn at_end(context: &Context, standing: Standing) -> Reason {
    let expected = standing.allowed();
    let sentence = match standing {
        InMessage { header, .. } => format!(
            "the end comes inside {}, before its UNT and before UNZ",
            message(context, header)
        ),
        InGroup { .. } => "the end comes inside a group, before its UNE and before UNZ".to_string(),
        AfterUnb => "the end comes right after UNB: there is no message, and no UNZ".to_string(),
        _ => "the end comes before UNZ".to_string(),
    };
    Reason::new("the end", expected, format!("{sentence}; {expected} may stand here"))
}

fn in_section(standing: Standing, segment: &Segment) -> Reason {
    let named = shown(segment.element(1).spelled());
    let (detail, summary) = match standing {
        InMessage { detail, summary, .. } => (detail, summary),
        _ => {
            let expected = standing.allowed();
            let sentence = format!("UNS stands outside a message; {expected} may stand here");
            return Reason::new("UNS", expected, sentence);
        }
    };
    let sentence = match section(segment) {
        Some(b'D') if detail => {
            "UNS+D stands twice in one message: each section begins once".to_string()
        }
        Some(b'D') if summary => {
            "UNS+D stands after UNS+S: detail comes before summary".to_string()
        }
        Some(_) => "UNS+S stands twice in one message: each section begins once".to_string(),
        None => format!("UNS names the section {named}: it must be D or S, and nothing else"),
    };
    Reason::new(
        format!("UNS and {named}"),
        "UNS with D or S, each once in a message, D first",
        sentence,
    )
}

fn misplaced(context: &Context, standing: Standing, segment: &Segment) -> Reason {
    let (tag, expected) = (shown(segment.tag()), standing.allowed());
    let sentence = match (standing, segment.tag()) {
        (InMessage { header, .. }, _) => {
            format!(
                "{tag} stands inside {}: its UNT is missing before it",
                message(context, header)
            )
        }
        (AfterUnb, b"UNZ") => {
            "UNZ stands right after UNB: there is no message between them".to_string()
        }
        (InGroup { empty: true }, b"UNE") => "UNE stands right after UNG: there is no message \
            between them"
            .to_string(),
        (BetweenMessages, b"UNG") => "UNG stands after a message that is in no group: either \
            all messages stand in groups or none"
            .to_string(),
        (BetweenGroups, b"UNH") => "UNH stands after a group and in none: either all messages \
            stand in groups or none"
            .to_string(),
        (_, b"UNT") => {
            "UNT ends no message: there is no UNH before it that is still open".to_string()
        }
        (_, b"UNE") => {
            "UNE ends no group: there is no UNG before it that is still open".to_string()
        }
        (InGroup { .. }, b"UNZ" | b"UNG") => format!(
            "{tag} stands inside a group whose UNE is \
            missing before it"
        ),
        (_, b"UNB") => "UNB stands a second time before UNZ".to_string(),
        _ => format!("{tag} stands outside a message"),
    };
    Reason::new(tag, expected, format!("{sentence}; {expected} may stand here"))
}
