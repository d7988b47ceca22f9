//! One history: a shelf, and some hundred operations done to it by all sides,
//! with damage in between.

use std::fmt::Debug;

use second::generator::{with_breaks, Random};
use second::refusal::{FREE_SLOT, NO_ROOM, NO_SHELF, NO_SLOT};
use second::shelf::{is_sound, LARGEST, SLOTS, SMALLEST};

use super::beginnings::{beginning, Beginning};
use super::counts::{Counts, BY_JUDGE};
use super::damage::{damage, OLD};
use super::layout::{by_position, bytes_held, free_slots, map, number, pair, DUPLICATES, HELD};
use super::sides::{Operations, SECOND};
use super::texts::{Pool, Text, BREAKS, NORMAL};
use crate::lent::Lender;

/// Removed texts that are remembered, to be put again.
const REMEMBERED: usize = 8;

/// An interchange to put, how it is spelled and how long its text is, where
/// these are known.
struct Offer {
    input: Vec<u8>,
    spelling: Option<&'static str>,
    length: Option<usize>,
}

pub struct History<'a> {
    sides: &'a [Operations],
    pool: &'a Pool,
    /// What is put most often.
    texts: &'a [Text],
    random: Random,
    lender: &'a mut Lender,
    counts: &'a mut Counts,
    /// The bytes of all sides after the last operation, and before it.
    shelf: Vec<u8>,
    before: Vec<u8>,
    sound: bool,
    was_damaged: bool,
    /// A shelf of version 1 lies there.
    old: bool,
    /// The bytes before the damage, and how many operations it stays.
    undamaged: Vec<u8>,
    damage_left: usize,
    /// Bytes newly put less bytes removed, and those that were there before.
    held: usize,
    /// The copies found, and those before.
    duplicates: u32,
    removed: Vec<usize>,
    filling: bool,
    puts: [usize; 2],
    most: u64,
}

impl<'a> History<'a> {
    pub fn new(
        sides: &'a [Operations],
        pool: &'a Pool,
        seed: u64,
        lender: &'a mut Lender,
        counts: &'a mut Counts,
    ) -> History<'a> {
        let mut random = Random::new(seed);
        let Beginning { shelf, texts, most, puts } = beginning(&mut random, pool);
        match shelf.len() {
            SMALLEST => counts.count("size", "533"),
            LARGEST => counts.count("size", "65536"),
            532 | 65_537 => counts.count("size", "532 or 65537"),
            _ => {}
        }
        let mut history = History {
            sides,
            pool,
            texts,
            random,
            lender,
            counts,
            shelf: Vec::new(),
            before: Vec::new(),
            sound: false,
            was_damaged: false,
            old: false,
            undamaged: Vec::new(),
            damage_left: 0,
            held: 0,
            duplicates: 0,
            removed: Vec::new(),
            filling: true,
            puts,
            most,
        };
        history.go_on_with(shelf);
        history
    }

    /// So many operations, or fewer where the shelf is not worth as many.
    pub fn run(&mut self, length: u64) -> Result<(), String> {
        let end = self.counts.operations + length.min(self.most);
        if !self.sound {
            self.start("over any bytes")?;
        }
        while self.counts.operations < end {
            if self.damage_left > 0 {
                self.any_operation()?;
                self.damage_left -= 1;
                if self.damage_left == 0 {
                    self.repair()?;
                }
            } else if self.shelf.len() >= SMALLEST && self.random.chance(8) {
                self.damage();
            } else {
                self.any_operation()?;
            }
        }
        Ok(())
    }

    /// All sides go on with these bytes.
    fn go_on_with(&mut self, shelf: Vec<u8>) {
        self.shelf = shelf;
        self.look();
    }

    fn look(&mut self) {
        self.old = false;
        self.sound = is_sound(&self.shelf);
        self.held = if self.sound { bytes_held(&self.shelf) } else { 0 };
        self.duplicates = if self.sound { number(&self.shelf, DUPLICATES) } else { 0 };
    }

    fn damage(&mut self) {
        let mut shelf = self.shelf.clone();
        let name = damage(&mut self.random, &mut shelf);
        self.undamaged = std::mem::take(&mut self.shelf);
        self.go_on_with(shelf);
        self.old = name == OLD;
        self.counts.count("damage", name);
        if self.sound {
            self.counts.count("damage, still sound", name);
        }
        self.damage_left = self.random.between(1, 4);
    }

    /// The damage is undone, or written over, or stays where the shelf is sound.
    fn repair(&mut self) -> Result<(), String> {
        if self.sound && self.random.chance(50) {
            self.was_damaged = true;
            return Ok(());
        }
        let startable = (SMALLEST..=LARGEST).contains(&self.shelf.len());
        let chance = if self.old { 25 } else { 4 };
        if startable && !self.sound && self.random.chance(chance) {
            return self.start("over a damaged shelf");
        }
        let undamaged = std::mem::take(&mut self.undamaged);
        self.go_on_with(undamaged);
        Ok(())
    }

    /// Does an operation on all sides: the same answers, the same bytes, and
    /// nothing stored anywhere else.
    fn on_all<T: PartialEq + Debug>(
        &mut self,
        name: &str,
        input: &[u8],
        operation: impl Fn(&Operations, &mut [u8], &[u8]) -> T,
    ) -> Result<T, String> {
        self.counts.count(
            "shelf",
            match (self.sound, self.was_damaged || self.damage_left > 0) {
                (false, _) => "unsound",
                (true, true) => "sound, after damage",
                (true, false) => "sound, as it was left",
            },
        );
        if self.old {
            self.counts.count_old(name);
        }
        self.before.clone_from(&self.shelf);
        self.counts.operations += 1;
        let expected = operation(&SECOND, &mut self.shelf, input);
        for side in self.sides {
            let (mut shelf, mut lent) = (self.lender.lend(&self.before), self.lender.lend(input));
            let told = operation(side, shelf.slice(), lent.slice());
            let left = lent.unchanged("the input").and_then(|()| shelf.exit("the shelf"));
            let what = match left {
                Err(what) => what,
                Ok(_) if told != expected => {
                    format!("{told:?}, and {expected:?} by the second program")
                }
                Ok(bytes) if bytes != self.shelf => "the bytes are others".to_string(),
                Ok(_) => continue,
            };
            let before = format!("the shelf before: {}", hex(&self.before));
            return Err(format!(
                "{name} by {}: {what}\n{before}\nthe input: {}",
                side.name,
                hex(input)
            ));
        }
        Ok(expected)
    }

    fn any_operation(&mut self) -> Result<(), String> {
        if self.random.chance(2) {
            self.filling = !self.filling;
        }
        let puts = self.puts[usize::from(!self.filling)];
        match self.random.below(1_000) {
            number if number < puts => self.any_put(),
            0..=799 => self.remove(),
            800..=919 => self.get(),
            920..=959 => self.slots(),
            960..=998 => self.sums(),
            _ if self.sound => self.start("over a sound shelf"),
            _ => self.start("over a damaged shelf"),
        }
    }

    fn start(&mut self, over: &'static str) -> Result<(), String> {
        let told = self.on_all("start", &[], |side, shelf, _| (side.start)(shelf))?;
        match told.number {
            0 => {
                self.counts.count("start", "an empty shelf");
                self.counts.count("start", over);
                self.was_damaged = false;
                self.removed.clear();
            }
            _ => self.counts.count("start", "refused by 19"),
        }
        self.look();
        Ok(())
    }

    /// A new text, one that was removed, a copy of one that is there, one that
    /// Judge refuses, or any other interchange.
    fn any_put(&mut self) -> Result<(), String> {
        let pool = self.pool;
        match self.random.below(100) {
            0..=39 => {
                let text = &self.texts[self.random.below(self.texts.len())];
                let offer = offer(&mut self.random, text);
                self.put(&offer, false)
            }
            40..=59 if !self.removed.is_empty() => {
                let number = self.random.pick(&self.removed);
                let offer = offer(&mut self.random, &pool.small[number]);
                self.put(&offer, true)
            }
            40..=84 if self.sound && map(&self.shelf) != 0 => {
                let offer = self.copy();
                self.put(&offer, false)
            }
            85..=92 => {
                let input = pool.any_refused(&mut self.random).to_vec();
                self.put(&Offer { input, spelling: None, length: None }, false)
            }
            93..=94 => {
                let text = &pool.middle[self.random.below(pool.middle.len())];
                let offer = offer(&mut self.random, text);
                self.put(&offer, false)
            }
            _ => {
                let text = &pool.small[self.random.below(pool.small.len())];
                let offer = offer(&mut self.random, text);
                self.put(&offer, false)
            }
        }
    }

    /// A text of the shelf in some spelling.
    fn copy(&mut self) -> Offer {
        let slot = self.random.pick(&by_position(&self.shelf));
        let [start, length] = pair(&self.shelf, slot).map(|number| number as usize);
        let form = &self.shelf[start..start + length];
        match self.pool.number_of(form) {
            Some(number) => offer(&mut self.random, &self.pool.small[number]),
            None if self.random.chance(50) => {
                let input = with_breaks(&mut self.random, form).input;
                Offer { input, spelling: Some(BREAKS), length: None }
            }
            None => Offer { input: form.to_vec(), spelling: Some(NORMAL), length: Some(length) },
        }
    }

    fn put(&mut self, offer: &Offer, again: bool) -> Result<(), String> {
        let told =
            self.on_all("put", &offer.input, |side, shelf, input| (side.put)(shelf, input))?;
        if !self.sound {
            self.counts.count("put", "refused by 19");
            return Ok(());
        }
        let full = map(&self.before) == u64::MAX;
        let room = self.shelf.len() - SMALLEST - bytes_held(&self.before);
        match (told.number, told.added) {
            (0, 0) => self.count_copy(full, room, offer.spelling),
            (0, _) => {
                let length = pair(&self.shelf, told.slot)[1] as usize;
                self.held += offer.length.unwrap_or(length);
                self.count_new(told.slot, length, room, offer.spelling);
                if again {
                    self.counts.count("put", "again what was removed");
                }
            }
            (NO_SLOT, _) => {
                self.counts.count("put", "refused by 17");
                if offer.length.map_or(false, |length| length <= room) {
                    self.counts.count("put", "refused by 17, with room for the text");
                }
            }
            (NO_ROOM, _) => {
                self.counts.count("put", "refused by 18");
                if told.place == room + 1 {
                    self.counts.count("put", "refused by 18, for one byte");
                }
            }
            (number, _) => {
                let how = BY_JUDGE.get(number as usize).copied().unwrap_or("refused otherwise");
                self.counts.count("put", how);
                if full || room == 0 {
                    self.counts.count("put", "refused by Judge on a full shelf");
                }
            }
        }
        self.is_held("put")
    }

    /// One more duplicate is found, up to the most that can be told.
    fn count_copy(&mut self, full: bool, room: usize, spelling: Option<&'static str>) {
        self.counts.count("put", "a copy");
        if self.duplicates == u32::MAX {
            self.counts.count("put", "a copy where the figure stays");
        } else {
            self.duplicates += 1;
            match self.duplicates {
                u32::MAX => self.counts.count("put", "a copy that brings the figure to its most"),
                figure if figure % 256 == 0 => {
                    self.counts.count("put", "a copy by which the figure carries");
                }
                _ => {}
            }
        }
        if let Some(spelling) = spelling {
            self.counts.count("copy", spelling);
        }
        if full {
            self.counts.count("put", "a copy where 64 slots are occupied");
        }
        if room == 0 {
            self.counts.count("put", "a copy where no byte is free");
        }
    }

    fn count_new(
        &mut self,
        slot: usize,
        length: usize,
        room: usize,
        spelling: Option<&'static str>,
    ) {
        self.counts.count("put", "a new text");
        if let Some(spelling) = spelling {
            self.counts.count("new text", spelling);
        }
        if length == room {
            self.counts.count("put", "a new text that fills the last byte");
        }
        if slot == SLOTS - 1 {
            self.counts.count("put", "a new text into slot 63");
        }
        if map(&self.before) >> slot != 0 {
            self.counts.count("put", "a new text into a slot between others");
        }
        match length {
            10_000.. => self.counts.count("new text", "of 10000 bytes or more"),
            200.. => self.counts.count("new text", "of 200 bytes or more"),
            _ => {}
        }
    }

    /// The bytes held are those newly put less those removed, also by the sum;
    /// the duplicates are the copies found.
    fn is_held(&self, name: &str) -> Result<(), String> {
        let sum = number(&self.shelf, HELD) as usize;
        if bytes_held(&self.shelf) != self.held || sum != self.held {
            return Err(format!("not {} bytes are held after {name}", self.held));
        }
        match number(&self.shelf, DUPLICATES) == self.duplicates {
            true => Ok(()),
            false => Err(format!("not {} duplicates were found after {name}", self.duplicates)),
        }
    }

    /// An occupied slot, a free one, or a number above 63, of which perhaps
    /// the low bits are those of an occupied one.
    fn any_slot(&mut self) -> usize {
        if self.shelf.len() < SMALLEST {
            return self.random.below(SLOTS + 2);
        }
        let (occupied, free) = (by_position(&self.shelf), free_slots(&self.shelf));
        let any = occupied.get(self.random.below(occupied.len())).copied().unwrap_or(0);
        match (self.random.below(100), &occupied[..]) {
            (0..=49, [_, ..]) => any,
            (50..=54, [_, ..]) => self.random.pick(&[0, 63]),
            (55..=69, [first, ..]) => *first,
            (70..=84, [.., last]) => *last,
            (0..=94, _) if !free.is_empty() => self.random.pick(&free),
            _ => {
                let more = [64, 128, 256, 1 << 16, 1 << 32, 1 << 63];
                let wild = any + self.random.pick(&more);
                self.random.pick(&[wild, wild, 64, 65, usize::MAX])
            }
        }
    }

    fn get(&mut self) -> Result<(), String> {
        let slot = self.any_slot();
        let name = format!("get {slot}");
        let got = self.on_all(&name, &[], |side, shelf, _| (side.get)(shelf, slot))?;
        self.counts.count("get", how_refused(got.number, slot));
        Ok(())
    }

    fn remove(&mut self) -> Result<(), String> {
        let slot = self.any_slot();
        let name = format!("remove {slot}");
        let told = self.on_all(&name, &[], |side, shelf, _| (side.remove)(shelf, slot))?;
        if told.number != 0 {
            self.counts.count("remove", how_refused(told.number, slot));
            return Ok(());
        }
        let length = told.length;
        self.held -= length;
        let slots = by_position(&self.before);
        let place = slots.iter().position(|&other| other == slot).unwrap_or(0);
        self.counts.count(
            "remove",
            match (place, slots.len() - 1 - place) {
                (0, 0) => "the only text",
                (0, _) => "the first text",
                (_, 0) => "the last text",
                _ => "a text between others",
            },
        );
        if slots.len() == SLOTS {
            self.counts.count("remove", "one of 64 texts");
        }
        if slots[place..].iter().any(|&other| other < slot) {
            self.counts.count("remove", "a text before one of a lower slot");
        }
        let start = pair(&self.before, slot)[0] as usize;
        if let Some(number) = self.pool.number_of(&self.before[start..start + length]) {
            self.removed.insert(0, number);
            self.removed.truncate(REMEMBERED);
        }
        self.is_held("remove")
    }

    fn slots(&mut self) -> Result<(), String> {
        let told = self.on_all("slots", &[], |side, shelf, _| (side.slots)(shelf))?;
        if told.number != 0 {
            self.counts.count("slots", "refused by 19");
            return Ok(());
        }
        let occupied = match told.occupied {
            0 => "none occupied",
            SLOTS => "64 occupied",
            _ => "some occupied",
        };
        let lowest = match told.lowest {
            0 => "lowest free: 0",
            SLOTS => "lowest free: 64",
            lowest if lowest < told.occupied => "lowest free: below an occupied one",
            _ => "lowest free: above all others",
        };
        self.counts.count("slots", occupied);
        self.counts.count("slots", lowest);
        Ok(())
    }

    fn sums(&mut self) -> Result<(), String> {
        let told = self.on_all("sums", &[], |side, shelf, _| (side.sums)(shelf))?;
        if told.number != 0 {
            self.counts.count("sums", "refused by 19");
            return Ok(());
        }
        let held = if told.held == 0 { "none held" } else { "some held" };
        let duplicates = match told.duplicates {
            0 => "no duplicates",
            4_294_967_295 => "4294967295 duplicates",
            _ => "some duplicates",
        };
        self.counts.count("sums", held);
        self.counts.count("sums", duplicates);
        self.is_held("sums")
    }
}

/// How Get or Remove of a slot was refused, if it was.
fn how_refused(number: u32, slot: usize) -> &'static str {
    match number {
        0 => "a text",
        NO_SHELF => "refused by 19",
        FREE_SLOT if slot < SLOTS => "refused by 20, a free slot",
        FREE_SLOT => "refused by 20, above 63",
        _ => "refused otherwise",
    }
}

/// A text in one of its spellings.
fn offer(random: &mut Random, text: &Text) -> Offer {
    let spelling = &text.spellings[random.below(text.spellings.len())];
    let (input, length) = (spelling.input.clone(), Some(text.form.len()));
    Offer { input, spelling: Some(spelling.name), length }
}

fn hex(bytes: &[u8]) -> String {
    bytes.iter().map(|byte| format!("{byte:02x}")).collect()
}
