//! The pass: from one byte that is not plain to the next. What needs no change
//! is handed to the text in runs as long as they can be.
//!
//! Paper 01, "From bytes to values", "Normal form" and "Refusals by number".

use crate::classes::{
    is_service, stops, Table, COMPONENT, ELEMENT, OUTSIDE, PLAIN, RELEASE, REPETITION, TERMINATOR,
    TO_RELEASE,
};
use crate::fields::tag_repeats;
use crate::marks::{Marks, Stops, BLOCK};
use crate::opening::{is_break, Characters, Opening, Respelling};
use crate::order::Walk;
use crate::text::Text;
use crate::{refuse, Answer, Refusal, Verdict, LONGEST};

pub struct Pass<'a, T> {
    input: &'a [u8],
    opening: &'a Opening,
    classes: &'a Table,
    normal: Characters,
    /// None where it is spelled with the normal form's characters.
    respelling: Option<Respelling>,
    text: T,
    /// The bytes before this place are in the text.
    taken: usize,
    /// Where the segment begins.
    start: usize,
    walk: Walk<'a>,
    /// The first refusal of the earliest of the stages 7 to 12.
    later: Option<Refusal>,
}

impl<'a, T: Text> Pass<'a, T> {
    pub fn new(
        input: &'a [u8],
        opening: &'a Opening,
        classes: &'a Table,
        mut text: T,
    ) -> Pass<'a, T> {
        let (normal, body) = (opening.normal(), opening.body);
        let same = normal.six() == opening.characters.six();
        let respelling = if same { None } else { Some(opening.respelling()) };
        text.run(b"UNA");
        text.run(&normal.six());
        let walk = Walk::new(opening.characters);
        let later = match opening.syntax {
            Some(_) => None,
            None => Some(Refusal { number: 7, place: body }),
        };
        Pass {
            input,
            opening,
            classes,
            normal,
            respelling,
            text,
            taken: body,
            start: body,
            walk,
            later,
        }
    }

    pub fn by_bytes(mut self) -> Answer<(Verdict, T)> {
        let mut at = self.opening.body;
        while let Some(stop) = self.next_stop(at) {
            at = self.stop(stop)?;
        }
        self.ended()
    }

    /// The first byte from here on at which there is something to do.
    fn next_stop(&self, from: usize) -> Option<usize> {
        let mut class = self.class(*self.input.get(from)?);
        for (number, &byte) in self.input[from + 1..].iter().enumerate() {
            let next = self.class(byte);
            if stops(class, next) {
                return Some(from + number);
            }
            class = next;
        }
        if stops(class, PLAIN) {
            Some(self.input.len() - 1)
        } else {
            None
        }
    }

    pub fn by_blocks(mut self) -> Answer<(Verdict, T)> {
        let marks = Marks::of(self.opening);
        let mut at = self.opening.body;
        for block in (at..self.input.len()).step_by(BLOCK) {
            let stops = match self.input[block..].get(..BLOCK + 1) {
                Some(bytes) => self.block_stops(
                    &marks,
                    bytes.try_into().expect("a block and a byte"),
                    block,
                    at,
                ),
                None => self.block_stops(&marks, &padded(&self.input[block..]), block, at),
            };
            for (number, bits) in stops.into_iter().enumerate() {
                at = self.stops(block + 64 * number, bits, at)?;
            }
        }
        self.ended()
    }

    /// Where there is something to do in a block, of which what stands before this place
    /// is done.
    fn block_stops(
        &self,
        marks: &Marks,
        bytes: &[u8; BLOCK + 1],
        block: usize,
        at: usize,
    ) -> Stops {
        let mut stops = marks.stops(bytes);
        if self.respelling.is_none() && marks.releases_often(&stops) {
            let released = at == block + 1 && self.class(self.input[block - 1]) == RELEASE;
            marks.but_released(bytes, released, &mut stops);
        }
        stops
    }

    /// Does what is to be done at these bits, from this place on; says from where
    /// on nothing is done yet.
    fn stops(&mut self, first: usize, mut bits: u64, mut at: usize) -> Answer<usize> {
        while bits != 0 {
            let stop = first + bits.trailing_zeros() as usize;
            bits &= bits - 1;
            if stop >= at {
                at = self.stop(stop)?;
            }
        }
        Ok(at)
    }

    fn stop(&mut self, at: usize) -> Answer<usize> {
        Ok(match self.class(self.input[at]) {
            TERMINATOR => self.terminator(at)?,
            RELEASE => self.release(at)?,
            TO_RELEASE => self.release_added(at),
            OUTSIDE => self.outside(at),
            _ => self.separators(at),
        })
    }

    fn class(&self, byte: u8) -> u8 {
        self.classes[usize::from(byte)]
    }

    fn class_at(&self, at: usize) -> u8 {
        self.input.get(at).map_or(PLAIN, |&byte| self.class(byte))
    }

    /// Of two refusals that of the earlier stage stays; of one stage the first.
    fn refuse_later(&mut self, number: u32, place: usize) {
        let stage = |number: u32| number.min(10);
        if self.later.map_or(true, |later| stage(number) < stage(later.number)) {
            self.later = Some(Refusal { number, place });
        }
    }

    /// Hands on what is not in the text yet, up to here.
    fn take(&mut self, to: usize, next: usize) {
        let bytes = &self.input[self.taken..to];
        match self.respelling {
            None => self.text.run(bytes),
            Some(respelling) => self.text.respelled(bytes, respelling),
        }
        self.taken = next;
    }

    /// The separators that begin here, of which trimming leaves those that no
    /// higher one follows; the terminator takes all.
    fn separators(&mut self, at: usize) -> usize {
        let (mut elements, mut repeats, mut components) = (0, 0, 0);
        let mut next = at;
        loop {
            match self.class_at(next) {
                COMPONENT => components += 1,
                REPETITION => (repeats, components) = (repeats + 1, 0),
                ELEMENT => (elements, repeats, components) = (elements + 1, 0, 0),
                TERMINATOR => {
                    (elements, repeats, components) = (0, 0, 0);
                    break;
                }
                _ => break,
            }
            next += 1;
        }
        if elements + repeats + components < next - at {
            self.take(at, next);
            self.text.bytes(b'+', elements);
            self.text.bytes(b'*', repeats);
            self.text.bytes(b':', components);
        }
        next
    }

    fn release(&mut self, at: usize) -> Answer<usize> {
        let byte = match self.input.get(at + 1) {
            Some(&byte) if is_service(self.class(byte)) => byte,
            _ => return refuse(4, at),
        };
        if self.opening.level()[usize::from(byte)] == OUTSIDE {
            self.refuse_later(8, at + 1);
        }
        if self.respelling.is_some() {
            self.take(at, at + 2);
            if self.normal.serves(byte) {
                self.text.byte(b'?');
            }
            self.text.byte(byte);
        }
        Ok(at + 2)
    }

    fn release_added(&mut self, at: usize) -> usize {
        self.take(at, at + 1);
        self.text.byte(b'?');
        self.text.byte(self.input[at]);
        at + 1
    }

    fn outside(&mut self, at: usize) -> usize {
        self.refuse_later(8, at);
        at + 1
    }

    /// Ends the segment, and passes over the breaks behind it.
    fn terminator(&mut self, at: usize) -> Answer<usize> {
        let input = self.input;
        let segment = &input[self.start..at];
        if !self.tag_is_fine(at) {
            return refuse(6, self.start);
        }
        let checked = match segment {
            [b'U', b'N', kind, ..] => self.walk.service_segment(*kind, segment),
            _ => self.walk.user_segment(),
        };
        if let Err(number) = checked {
            self.refuse_later(number, self.start);
        }
        self.start = at + 1;
        if input.get(self.start).map_or(false, |&byte| is_break(byte)) {
            let breaks = input[self.start..].iter().take_while(|&&byte| is_break(byte)).count();
            let next = self.start + breaks;
            self.take(self.start, next);
            self.start = next;
        }
        Ok(self.start)
    }

    /// The tag rule, for the segment that ends here.
    fn tag_is_fine(&self, end: usize) -> bool {
        let segment = &self.input[self.start..=end];
        let (tag, behind) = match segment {
            [one, two, three, behind, ..] => ([*one, *two, *three], self.class(*behind)),
            _ => return false,
        };
        let is_service = tag.starts_with(b"UN");
        let ends = match behind {
            ELEMENT | TERMINATOR => true,
            COMPONENT => !is_service && !tag_repeats(segment, &self.opening.characters),
            _ => false,
        };
        ends && tag.iter().all(|byte| byte.is_ascii_uppercase() || byte.is_ascii_digit())
            && (!is_service || b"BGHSTEZ".contains(&tag[2]))
    }

    fn ended(mut self) -> Answer<(Verdict, T)> {
        let end = self.input.len();
        if self.start < end {
            return refuse(5, end);
        }
        if !self.walk.has_ended() {
            self.refuse_later(9, end);
        }
        if let Some(refusal) = self.later {
            return Err(refusal);
        }
        self.take(end, end);
        let normal_length = self.text.length();
        if normal_length > LONGEST {
            return refuse(13, normal_length);
        }
        let verdict = Verdict {
            characters: self.opening.characters.six(),
            segments: self.walk.segments,
            messages: self.walk.messages,
            groups: self.walk.groups,
            normal_length,
        };
        Ok((verdict, self.text))
    }
}

/// The last bytes, and plain ones behind the input's end.
fn padded(bytes: &[u8]) -> [u8; BLOCK + 1] {
    let mut block = [b'A'; BLOCK + 1];
    block[..bytes.len()].copy_from_slice(bytes);
    block
}
