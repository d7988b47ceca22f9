//! Drafts: interchanges as nested lists of plain values with the service
//! characters to spell them with. A draft as made here is valid.
//!
//! Paper, clauses "Service characters", "From bytes to values" and "Control
//! elements"; change requests 2026-03, "Section markers", and 2026-10, "Syntax
//! version 4".

use super::random::Random;
use crate::level::{holds, Level, Version};
use crate::service_characters::{
    from_six, ServiceCharacters, INFORMATION_SEPARATORS, PRINTABLE, PRINTABLE_4,
};

pub type Value = Vec<u8>;
/// One or more values, its components.
pub type DraftRepeat = Vec<Value>;
/// One or more repeats.
pub type DraftElement = Vec<DraftRepeat>;
/// One or more elements, the tag first.
pub type DraftSegment = Vec<DraftElement>;

#[derive(Clone, Debug)]
pub struct Draft {
    pub characters: ServiceCharacters,
    pub advice: bool,
    pub level: Level,
    pub segments: Vec<DraftSegment>,
}

impl Draft {
    /// The interchange as bytes; each service character in a value released
    /// where there is a release character, else left bare. Where there is no
    /// repetition separator, a plain `*` stands between repeats.
    pub fn spelled(&self) -> Vec<u8> {
        let mut text = Vec::new();
        if self.advice {
            text.extend(self.characters.advice());
        }
        for segment in &self.segments {
            let elements: Vec<Vec<u8>> =
                segment.iter().map(|element| self.spelled_element(element)).collect();
            text.extend(elements.join(&self.characters.element));
            text.push(self.characters.terminator);
        }
        text
    }

    fn spelled_element(&self, element: &DraftElement) -> Vec<u8> {
        let repeats: Vec<Vec<u8>> =
            element.iter().map(|repeat| self.spelled_repeat(repeat)).collect();
        repeats.join(&self.characters.repetition.unwrap_or(b'*'))
    }

    fn spelled_repeat(&self, repeat: &DraftRepeat) -> Vec<u8> {
        let values: Vec<Vec<u8>> = repeat.iter().map(|value| self.spelled_value(value)).collect();
        values.join(&self.characters.component)
    }

    fn spelled_value(&self, value: &[u8]) -> Vec<u8> {
        let mut spelled = Vec::new();
        for &byte in value {
            if self.characters.is_service(byte) {
                spelled.extend(self.characters.release);
            }
            spelled.push(byte);
        }
        spelled
    }

    /// Can the values be told from the spelled text?
    pub fn is_spellable(&self) -> bool {
        let holds_service = |value: &Value| value.iter().any(|&b| self.characters.is_service(b));
        let repeats_told = self.characters.repetition.is_some()
            || self.segments.iter().flatten().all(|element| element.len() == 1);
        let values_told = self.characters.release.is_some()
            || !self.segments.iter().flatten().flatten().flatten().any(holds_service);
        repeats_told && values_told
    }

    /// Does UNB name version 4?
    pub fn is_version_4(&self) -> bool {
        let names = self.segments.first().and_then(|header| header.get(1)?.first());
        names.map_or(false, |names| names.get(1).map_or(false, |version| version == b"4"))
    }

    /// The numbers of the segments that begin with one of these tags.
    pub fn tagged(&self, tags: &[&str]) -> Vec<usize> {
        let has_tag = |number: &usize| {
            let tag = tag_of(&self.segments[*number]);
            tags.iter().any(|wanted| wanted.as_bytes() == &tag[..])
        };
        (0..self.segments.len()).filter(has_tag).collect()
    }
}

/// The tag of a segment, without its repetition figures.
pub fn tag_of(segment: &DraftSegment) -> &Value {
    &segment[0][0][0]
}

/// An element of one value.
pub fn single(value: impl AsRef<[u8]>) -> DraftElement {
    vec![vec![value.as_ref().to_vec()]]
}

/// One of the three versions, so that one time in three it is version 4.
pub fn any_version(random: &mut Random) -> Version {
    random.pick(&[Version::One, Version::Two, Version::Four])
}

/// A usable choice of service characters for this version: often those of the
/// standard.
pub fn usable_characters(random: &mut Random, version: Version) -> ServiceCharacters {
    let mark = random.pick(b"..,");
    let characters = match random.below(5) {
        0 => ServiceCharacters { mark, ..PRINTABLE },
        1 => ServiceCharacters { mark, ..INFORMATION_SEPARATORS },
        2 => from_pool(random, b":+?'!\"%&*;<>=/()-.,", mark),
        _ => from_pool(random, &all_that_may_serve(), mark),
    };
    match version {
        Version::One | Version::Two => characters,
        Version::Four => with_repetition(random, characters),
    }
}

/// These characters with a repetition separator, `*` more often than another;
/// one time in five with a space, as they are.
fn with_repetition(random: &mut Random, characters: ServiceCharacters) -> ServiceCharacters {
    if random.chance(20) {
        return characters;
    }
    let pool = all_that_may_serve();
    loop {
        let byte = if random.chance(40) { b'*' } else { random.pick(&pool) };
        let with = ServiceCharacters { repetition: Some(byte), ..characters };
        if from_six(&with.six()).is_some() {
            return with;
        }
    }
}

fn all_that_may_serve() -> Vec<u8> {
    let printable = (33..=126u8).filter(|byte| !byte.is_ascii_alphanumeric());
    printable.chain([28, 29, 31]).collect()
}

fn from_pool(random: &mut Random, pool: &[u8], mark: u8) -> ServiceCharacters {
    loop {
        let release = if random.chance(25) { b' ' } else { random.pick(pool) };
        let (component, element) = (random.pick(pool), random.pick(pool));
        let six = [component, element, mark, release, b' ', random.pick(pool)];
        if let Some(characters) = from_six(&six) {
            return characters;
        }
    }
}

/// Service characters for this version and whether an advice names them.
fn opening_choice(random: &mut Random, version: Version) -> (ServiceCharacters, bool) {
    match random.below(10) {
        0..=3 if version == Version::Four => (PRINTABLE_4, false),
        0..=3 => (PRINTABLE, false),
        4 => (INFORMATION_SEPARATORS, false),
        _ => (usable_characters(random, version), true),
    }
}

/// What a value may be made of, and whether an element may have repeats.
struct Palette {
    bytes: Vec<u8>,
    releasable: Vec<u8>,
    common: Vec<u8>,
    repeats: bool,
}

fn palette_of(level: Level, characters: &ServiceCharacters) -> Palette {
    let held = (0..=255u8).filter(|&byte| holds(level, byte));
    let (service, plain): (Vec<u8>, Vec<u8>) = held.partition(|&b| characters.is_service(b));
    let releasable = if characters.release.is_some() { service } else { Vec::new() };
    let common = b"ABR012*".iter().copied().filter(|byte| plain.contains(byte)).collect();
    Palette { bytes: plain, releasable, common, repeats: characters.repetition.is_some() }
}

impl Palette {
    fn byte(&self, random: &mut Random) -> u8 {
        match random.below(10) {
            0 if !self.releasable.is_empty() => random.pick(&self.releasable),
            1..=3 => random.pick(&self.bytes),
            _ => random.pick(&self.common),
        }
    }

    fn value(&self, random: &mut Random, least: usize, most: usize) -> Value {
        let length = random.between(least, most);
        (0..length).map(|_| self.byte(random)).collect()
    }

    /// 1 to 14 bytes, sometimes 14 with many released ones.
    fn reference(&self, random: &mut Random) -> Value {
        match random.below(10) {
            0 if !self.releasable.is_empty() => {
                let byte = random.pick(&self.releasable);
                let mut value = self.value(random, 14, 14);
                value.iter_mut().step_by(random.between(1, 3)).for_each(|place| *place = byte);
                value
            }
            1 => self.value(random, 14, 14),
            2 => self.value(random, 1, 14),
            _ => self.value(random, 1, 4),
        }
    }

    /// Repeats of any number of components, some of them empty.
    fn element(&self, random: &mut Random) -> DraftElement {
        let count = if self.repeats { random.pick(&[1, 1, 2, 2, 3, 4]) } else { 1 };
        (0..count).map(|_| self.repeat(random)).collect()
    }

    fn repeat(&self, random: &mut Random) -> DraftRepeat {
        if self.repeats && random.chance(15) {
            return vec![Vec::new()];
        }
        let count = random.pick(&[1, 1, 1, 2, 3]);
        (0..count).map(|_| self.value(random, 0, 4)).collect()
    }
}

/// A count with leading zeros now and then, 6 digits at most.
pub fn count_value(random: &mut Random, count: usize) -> Value {
    match random.below(8) {
        0 => format!("{count:06}").into_bytes(),
        1 => format!("{count:02}").into_bytes(),
        _ => count.to_string().into_bytes(),
    }
}

/// Makes the segments of a valid interchange.
struct Maker<'a> {
    random: &'a mut Random,
    palette: Palette,
    level: Level,
    version: Version,
    segments: Vec<DraftSegment>,
}

/// A valid interchange of small size, one time in three of version 4.
pub fn valid_draft(random: &mut Random) -> Draft {
    let version = any_version(random);
    draft_of_version(random, version)
}

/// A valid interchange of small size and of this version.
pub fn draft_of_version(random: &mut Random, version: Version) -> Draft {
    let (characters, advice) = opening_choice(random, version);
    let level = random.pick(&[Level::A, Level::B]);
    let palette = palette_of(level, &characters);
    let mut maker = Maker { random, palette, level, version, segments: Vec::new() };
    maker.interchange();
    Draft { characters, advice, level, segments: maker.segments }
}

impl Maker<'_> {
    fn elements(&mut self, count: usize) -> Vec<DraftElement> {
        (0..count).map(|_| self.palette.element(self.random)).collect()
    }

    fn interchange(&mut self) {
        let level = if self.level == Level::A { "UNOA" } else { "UNOB" };
        let version = match self.version {
            Version::One => "1",
            Version::Two => "2",
            Version::Four => "4",
        };
        let reference = self.palette.reference(self.random);
        let mut header = vec![single("UNB"), vec![vec![level.into(), version.into()]]];
        if self.random.chance(5) {
            header[1][0].push(self.palette.value(self.random, 1, 2));
        }
        header.extend(self.elements(3));
        header.push(single(&reference));
        self.end_segment(header);
        let count = self.random.pick(&[1, 1, 1, 2, 3]);
        let grouped = self.random.chance(35);
        for _ in 0..count {
            if grouped {
                self.group();
            } else {
                self.message();
            }
        }
        self.trailer("UNZ", count, reference);
    }

    fn group(&mut self) {
        let reference = self.palette.reference(self.random);
        let mut header = vec![single("UNG")];
        header.extend(self.elements(4));
        header.push(single(&reference));
        self.end_segment(header);
        let count = self.random.pick(&[1, 1, 2, 3]);
        for _ in 0..count {
            self.message();
        }
        self.trailer("UNE", count, reference);
    }

    fn message(&mut self) {
        let reference = self.palette.reference(self.random);
        let first = self.segments.len();
        self.end_segment(vec![single("UNH"), single(&reference)]);
        self.user_segments();
        for section in self.random.pick(&["", "", "", "D", "S", "DS"]).bytes() {
            self.end_segment(vec![single("UNS"), single([section])]);
            self.user_segments();
        }
        let count = self.segments.len() - first + 1;
        self.trailer("UNT", count, reference);
    }

    fn user_segments(&mut self) {
        for _ in 0..self.random.pick(&[0, 1, 1, 2, 3]) {
            self.user_segment();
        }
    }

    fn user_segment(&mut self) {
        let tags = ["BGM", "LIN", "TXT", "A0Z", "000", "UMN", "XUN", "NUN"];
        let mut element = single(self.random.pick(&tags));
        if self.random.chance(30) {
            for _ in 0..self.random.between(1, 3) {
                let figure = self.random.pick(&["1", "2", "", "10"]);
                element[0].push(figure.into());
            }
        }
        let count = self.random.below(4);
        let mut segment = vec![element];
        segment.extend(self.elements(count));
        self.segments.push(segment);
    }

    fn trailer(&mut self, tag: &str, count: usize, reference: Value) {
        let count = count_value(self.random, count);
        self.end_segment(vec![single(tag), single(count), single(reference)]);
    }

    /// Adds the segment, now and then with elements that nobody judges.
    fn end_segment(&mut self, mut segment: DraftSegment) {
        if self.random.chance(15) {
            let count = self.random.between(1, 3);
            segment.extend(self.elements(count));
        }
        self.segments.push(segment);
    }
}

/// Extra empty ends, which trimming takes away again: of repeats, and, where
/// there is a repetition separator, of elements, but never of a tag.
pub fn pad(random: &mut Random, draft: &mut Draft) {
    let repeats = draft.characters.repetition.is_some();
    for segment in &mut draft.segments {
        let service = tag_of(segment).starts_with(b"UN");
        for (number, element) in segment.iter_mut().enumerate() {
            if random.chance(15) && !(number == 0 && service) {
                let repeat = random.below(element.len());
                element[repeat].extend(vec![Vec::new(); random.between(1, 3)]);
            }
            if repeats && number > 0 && random.chance(15) {
                element.extend(empty_element(random, repeats));
            }
        }
        if random.chance(25) {
            for _ in 0..random.between(1, 3) {
                segment.push(empty_element(random, repeats));
            }
        }
    }
}

/// An element whose values are all empty.
fn empty_element(random: &mut Random, repeats: bool) -> DraftElement {
    let count = if repeats { random.between(1, 3) } else { 1 };
    (0..count).map(|_| vec![Vec::new(); random.between(1, 3)]).collect()
}

/// The same contents and mark under other service characters.
pub fn respelled(random: &mut Random, draft: &Draft) -> Draft {
    let mut other = draft.clone();
    let version = if draft.is_version_4() { Version::Four } else { Version::One };
    for _ in 0..8 {
        let (characters, advice) = opening_choice(random, version);
        other.advice = advice;
        other.characters = characters;
        if advice {
            other.characters.mark = draft.characters.mark;
        }
        let usable = from_six(&other.characters.six()).is_some();
        if usable && other.characters.mark == draft.characters.mark && other.is_spellable() {
            return other;
        }
    }
    draft.clone()
}
