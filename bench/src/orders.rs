//! Seeded interchanges of orders, each accepted: what a mailbox holds on a
//! plain day. Most have the standard's service characters, some others; a few
//! values have released characters. One sender in four leaves empty ends.
//! `flavours` makes others, by a manner of its own.

use second::generator::{Draft, Random};
use second::level::Level;
use second::service_characters::{ServiceCharacters, INFORMATION_SEPARATORS, PRINTABLE};

type Repeat = Vec<Vec<u8>>;
pub type Element = Vec<Repeat>;
pub type Segment = Vec<Element>;

/// Other characters that an advice may name.
pub const OTHERS: ServiceCharacters = ServiceCharacters {
    component: b'*',
    element: b'%',
    mark: b',',
    release: Some(b'!'),
    repetition: None,
    terminator: b'&',
};

const NAMES: [&str; 10] = [
    "NORDHAVN SPEDITION",
    "KELLER UND SOHN",
    "ATLAS FREIGHT LTD",
    "LE QUAI NORD",
    "BRUUN",
    "PORT OF HVEROLDA",
    "MERIDIAN HAULAGE",
    "SKAGEN TRANSPORT",
    "VAN DER MEER",
    "ORION LINES",
];

/// Names that hold one of the standard's service characters.
const RELEASED: [&str; 4] = ["O'HARA FREIGHT", "NORTH+SOUTH LINES", "GATE: 14", "FRAGILE?"];

const GOODS: [&str; 8] = [
    "PALLET, EURO, 1200 X 800",
    "STEEL COIL",
    "COFFEE, GREEN, IN BAGS",
    "MACHINE PARTS (USED)",
    "PAPER REELS",
    "TYRES 205/55 R16",
    "TIMBER, SAWN",
    "GLASS JARS, 500 ML",
];

/// An element of the components that the text has, one after each `:`.
pub fn element(text: &str) -> Element {
    vec![text.split(':').map(|component| component.as_bytes().to_vec()).collect()]
}

pub fn value(text: impl AsRef<[u8]>) -> Element {
    vec![vec![text.as_ref().to_vec()]]
}

fn figures(random: &mut Random, count: usize) -> String {
    (0..count).map(|_| char::from(random.pick(b"0123456789"))).collect()
}

fn name(random: &mut Random, released: bool) -> Element {
    match released && random.chance(8) {
        true => value(random.pick(&RELEASED)),
        false => value(random.pick(&NAMES)),
    }
}

/// A segment of an order: a party, a date, a line of goods, a quantity, ...
pub fn order_segment(random: &mut Random, line: usize, released: bool) -> Segment {
    match random.below(8) {
        0 => {
            let party = random.pick(&["BY", "SU", "DP", "IV"]);
            let number = element(&format!("{}::9", figures(random, 13)));
            let street = value(format!("QUAY {}", figures(random, 2)));
            let (name, city) = (name(random, released), name(random, released));
            let code = value(figures(random, 5));
            vec![value("NAD"), value(party), number, value(""), name, street, city, value(""), code]
        }
        1 => vec![value("DTM"), element(&format!("137:2026{}:102", figures(random, 4)))],
        2 => {
            let article = format!("{}:EN", figures(random, 13));
            vec![value("LIN"), value(line.to_string()), value(""), element(&article)]
        }
        3 => vec![value("PIA"), value("1"), element(&format!("{}:SA", figures(random, 8)))],
        4 => {
            let mut description = element(":::");
            description[0].push(random.pick(&GOODS).into());
            description[0].extend(name(random, released).remove(0));
            vec![value("IMD"), value("F"), value(""), description]
        }
        5 => vec![value("QTY"), element(&format!("21:{}:PCE", figures(random, 3)))],
        6 => vec![value("PRI"), element(&format!("AAA:{}.{}", line, figures(random, 2)))],
        _ => vec![value("RFF"), element(&format!("ON:{}", figures(random, 10)))],
    }
}

/// Which segments of an order have empty ends.
#[derive(Clone, Copy, PartialEq, Eq)]
pub enum Ends {
    None,
    Some,
    One,
    Each,
}

/// What an interchange consists of between UNB and UNZ.
#[derive(Clone, Copy, PartialEq, Eq)]
pub enum Shape {
    /// One to four messages, now and then in a group.
    Few,
    /// Messages of some 150 bytes.
    Messages,
    /// Groups of one such message.
    Groups,
}

/// How an interchange is made and spelled.
#[derive(Clone, Copy)]
pub struct Manner {
    pub characters: ServiceCharacters,
    pub advice: bool,
    /// UNB's first element.
    pub syntax: &'static str,
    /// May names hold the standard's service characters?
    pub released: bool,
    pub ends: Ends,
    pub shape: Shape,
    /// Makes a segment of an order.
    pub segment: fn(&mut Random, usize, bool) -> Segment,
}

pub const PLAIN: Manner = Manner {
    characters: PRINTABLE,
    advice: false,
    syntax: "UNOA:2",
    released: true,
    ends: Ends::None,
    shape: Shape::Few,
    segment: order_segment,
};

struct Maker<'a> {
    random: &'a mut Random,
    manner: Manner,
    segments: Vec<Segment>,
    padded: bool,
    bytes: usize,
}

impl Maker<'_> {
    /// Adds a segment of the order, with empty ends where the manner has them.
    fn put_padded(&mut self, mut segment: Segment) {
        let pads = match self.manner.ends {
            Ends::None => false,
            Ends::Some => self.random.chance(15),
            Ends::One => !self.padded,
            Ends::Each => true,
        };
        self.padded |= pads;
        if pads {
            segment.extend([value(""), element(":")]);
        }
        self.put(segment);
    }

    fn put(&mut self, segment: Segment) {
        self.bytes +=
            segment.iter().flatten().flatten().map(|value| value.len() + 1).sum::<usize>();
        self.segments.push(segment);
    }

    /// A message that brings the interchange to so many bytes.
    fn message(&mut self, target: usize) {
        let reference = figures(self.random, 8);
        let first = self.segments.len();
        self.put(vec![value("UNH"), value(&reference), element("ORDERS:D:96A:UN")]);
        let order = vec![value("BGM"), value("220"), value(figures(self.random, 9)), value("9")];
        self.put_padded(order);
        while self.bytes + 60 < target {
            let line = self.segments.len() - first;
            let segment = (self.manner.segment)(self.random, line, self.manner.released);
            self.put_padded(segment);
        }
        let count = self.segments.len() - first + 1;
        self.put(vec![value("UNT"), value(count.to_string()), value(&reference)]);
    }

    fn interchange(&mut self, target: usize) {
        let reference = figures(self.random, 10);
        self.put(vec![
            value("UNB"),
            element(self.manner.syntax),
            element("5790000000012:14"),
            element("4012345000009:14"),
            element("261115:0842"),
            value(&reference),
        ]);
        let count = match self.manner.shape {
            Shape::Few => self.few(target),
            Shape::Messages => self.messages(target / 150, target),
            Shape::Groups => {
                let groups = target / 250;
                (0..groups).for_each(|number| self.group(1, target * (number + 1) / groups));
                groups
            }
        };
        self.put(vec![value("UNZ"), value(count.to_string()), value(&reference)]);
    }

    /// One to four messages; what UNZ counts of them.
    fn few(&mut self, target: usize) -> usize {
        let messages = self.random.between(1, 4);
        if self.random.chance(15) {
            self.group(messages, target);
            return 1;
        }
        self.messages(messages, target)
    }

    fn messages(&mut self, count: usize, target: usize) -> usize {
        (1..=count).for_each(|number| self.message(target * number / count));
        count
    }

    fn group(&mut self, messages: usize, target: usize) {
        let reference = figures(self.random, 6);
        let mut header = vec![value("UNG"), value("ORDERS"), value("5790000000012")];
        header.extend([value("4012345000009"), element("261115:0842"), value(&reference)]);
        self.put(header);
        self.messages(messages, target);
        self.put(vec![value("UNE"), value(messages.to_string()), value(&reference)]);
    }
}

/// One interchange of about so many bytes.
pub fn order(random: &mut Random, target: usize) -> Vec<u8> {
    let (characters, advice) = match random.below(10) {
        0..=4 => (PRINTABLE, false),
        5..=7 => (PRINTABLE, true),
        8 => (OTHERS, true),
        _ => (INFORMATION_SEPARATORS, false),
    };
    let released = characters.release.is_some();
    let ends = if random.chance(25) { Ends::Some } else { Ends::None };
    order_in(Manner { characters, advice, released, ends, ..PLAIN }, random, target)
}

/// One interchange of about so many bytes, made in this manner.
pub fn order_in(manner: Manner, random: &mut Random, target: usize) -> Vec<u8> {
    let Manner { characters, advice, .. } = manner;
    let mut maker = Maker { random, manner, segments: Vec::new(), padded: false, bytes: 0 };
    maker.interchange(target);
    Draft { characters, advice, level: Level::A, segments: maker.segments }.spelled()
}
