//! Shelves: sound ones and others, every refusal with its place, the order of
//! refusals, and histories beside a list of what should be kept.
//!
//! Change requests 2026-04, "The shelf", and 2026-06, "A shelf that knows its
//! own sums".

use crate::cases::X;
use crate::generator::{any_input, any_valid, same_contents, with_breaks, Draft, Random};
use crate::judging::accept;
use crate::operations::{judge, normalise};
use crate::refusal::{
    Answer, Refusal, BEGINNING, FREE_SLOT, LONGEST, NO_ROOM, NO_SHELF, NO_SLOT, ORDER,
};
use crate::shelf::{
    duplicates, get, held, is_sound, lowest_free, lowest_free_in, occupied, occupied_in, put,
    remove, start, summary, Got, Put, Summary, LARGEST, SLOTS, SMALLEST,
};

type Check = Result<(), String>;

fn ensure(holds: bool, what: &str) -> Check {
    match holds {
        true => Ok(()),
        false => Err(format!("the shelf: {what}")),
    }
}

/// The first failure.
pub fn check_shelf() -> Check {
    check_maps()?;
    check_head()?;
    check_duplicates()?;
    check_start()?;
    check_sound_shelves()?;
    check_unsound_shelves()?;
    check_every_byte()?;
    check_refusals()?;
    check_full_shelf()?;
    (0..30).try_for_each(check_history)
}

/// The number of ones, and the trailing ones.
fn check_maps() -> Check {
    let mut random = Random::new(64);
    let mut maps = vec![0, u64::MAX, 1, u64::MAX - 1, u64::MAX / 2, 1 << 63];
    maps.extend((0..500).map(|_| random.number() | random.number() >> random.below(64)));
    maps.extend((0..64).map(|ones| (1u64 << ones) - 1));
    maps.into_iter().try_for_each(|map| {
        let counted = occupied_in(map) == map.count_ones() as usize;
        let found = lowest_free_in(map) == map.trailing_ones() as usize;
        ensure(counted && found, &format!("the map {map:x}"))
    })
}

/// The head of the shelf as request 2026-06 lays it out: `EDS` and version 2,
/// then the map (64 bits), text bytes held, duplicates found, and the pairs of
/// the slots 0 and 1. Texts start at 533; the normal form of X has 93 bytes, the
/// small one 47.
fn check_head() -> Check {
    let mut shelf = vec![0xA5; 533 + 93 + 47];
    let heads: [(&str, [u32; 8]); 5] = [
        ("an empty shelf", [0, 0, 0, 0, 0, 0, 0, 0]),
        ("X put", [0, 1, 93, 0, 533, 93, 0, 0]),
        ("X put again", [0, 1, 93, 1, 533, 93, 0, 0]),
        ("another put", [0, 3, 140, 1, 533, 93, 626, 47]),
        ("X removed", [0, 2, 47, 1, 0, 0, 533, 47]),
    ];
    for (step, (name, head)) in heads.iter().enumerate() {
        let done = match step {
            0 => start(&mut shelf).is_ok(),
            1 => put(&mut shelf, X.as_bytes()) == Ok(Put::New(0)),
            2 => put(&mut shelf, X.as_bytes()) == Ok(Put::Found(0)),
            3 => put(&mut shelf, &small(1)) == Ok(Put::New(1)),
            _ => remove(&mut shelf, 0) == Ok(93),
        };
        let mut bytes = b"EDS\x00\x02".to_vec();
        bytes.extend(head.iter().flat_map(|number| number.to_be_bytes()));
        ensure(done && shelf[..37] == bytes, name)?;
    }
    let texts = [&b"UNA:+.? 'UNB+UNOA:1++++1'UNH+1'UNT+2+1'UNZ+1+1'"[..], &[0; 93]].concat();
    ensure(shelf[37..533].iter().all(|&byte| byte == 0) && shelf[533..] == texts, "its texts")
}

/// The figure rises by one at each put that finds its copy, stays at
/// 4,294,967,295, and is altered by nothing else; it may be any in a sound shelf.
fn check_duplicates() -> Check {
    let x = normal_form(X.as_bytes());
    let told = |shelf: &[u8]| summary(shelf).map(|told| (told.held, told.duplicates));
    for before in [0, 1, 255, 256, 65_535, u32::MAX - 2, u32::MAX - 1, u32::MAX] {
        let mut shelf = with_duplicates(laid_out(533 + 93 + 46, &[(5, &x)]), before);
        ensure(told(&shelf) == Ok((93, before)), "any figure is sound")?;
        let refused = put(&mut shelf, &small(1)) == Err(refusal(NO_ROOM, 47));
        ensure(refused && put(&mut shelf, b"").is_err(), "a refused put")?;
        ensure(remove(&mut shelf, 6).is_err(), "a refused remove")?;
        ensure(told(&shelf) == Ok((93, before)), "what is refused raises nothing")?;
        let after = if before == 4_294_967_295 { before } else { before + 1 };
        ensure(put(&mut shelf, &x) == Ok(Put::Found(5)), "a copy")?;
        let expected = with_duplicates(laid_out(533 + 93 + 46, &[(5, &x)]), after);
        ensure(shelf == expected, "one more, and nothing else")?;
        ensure(remove(&mut shelf, 5) == Ok(93), "the copy removed")?;
        ensure(told(&shelf) == Ok((0, after)), "Remove leaves the figure")?;
        ensure(put(&mut shelf, &x) == Ok(Put::New(0)), "the copy put again")?;
        ensure(told(&shelf) == Ok((93, after)), "a new text leaves the figure")?;
        ensure(start(&mut shelf).is_ok() && told(&shelf) == Ok((0, 0)), "Start zeroes it")?;
    }
    Ok(())
}

/// The shelf with this number of duplicates found.
fn with_duplicates(mut shelf: Vec<u8>, figure: u32) -> Vec<u8> {
    store(&mut shelf, 17, figure);
    shelf
}

/// A buffer of this size with these texts, laid out as the requests say: each
/// with its slot, in the order in which they lie. No duplicates were found.
fn laid_out(size: usize, texts: &[(usize, &[u8])]) -> Vec<u8> {
    let mut map = 0u64;
    let mut pairs = [[0u32; 2]; SLOTS];
    let mut bytes: Vec<u8> = Vec::new();
    for (slot, text) in texts {
        map |= 1 << slot;
        pairs[*slot] = [(SMALLEST + bytes.len()) as u32, text.len() as u32];
        bytes.extend(*text);
    }
    let mut shelf = b"EDS\x00\x02".to_vec();
    shelf.extend(map.to_be_bytes());
    shelf.extend((bytes.len() as u32).to_be_bytes());
    shelf.extend([0; 4]);
    shelf.extend(pairs.iter().flatten().flat_map(|number| number.to_be_bytes()));
    shelf.extend(bytes);
    shelf.resize(size, 0);
    shelf
}

/// The normal form of an accepted interchange.
fn normal_form(input: &[u8]) -> Vec<u8> {
    let mut form = vec![0; LONGEST];
    let length = normalise(input, &mut form).unwrap_or(0);
    form.truncate(length);
    form
}

/// A small interchange with this reference.
fn small(reference: usize) -> Vec<u8> {
    format!("UNB+UNOA:1++++{reference}'UNH+1'UNT+2+1'UNZ+1+{reference}'").into_bytes()
}

fn refusal(number: u32, place: usize) -> Refusal {
    Refusal { place, number }
}

/// The shelf is refused by every operation, whatever else is wrong, and stays
/// as it was.
fn check_unsound(shelf: &[u8], why: &str) -> Check {
    ensure(!is_sound(shelf), &format!("{why} is sound"))?;
    let none = refusal(NO_SHELF, 0);
    let mut same = shelf.to_vec();
    for input in [X.as_bytes(), b"", b"UNA"] {
        ensure(put(&mut same, input) == Err(none), &format!("put: {why}"))?;
    }
    for slot in [0, 3, 63, 64, usize::MAX] {
        let nothing = Got { refusal: Some(none), offset: 0, bytes: &[] };
        ensure(get(&same, slot) == nothing, &format!("get: {why}"))?;
        ensure(remove(&mut same, slot) == Err(none), &format!("remove: {why}"))?;
    }
    let figures = [occupied(&same), lowest_free(&same), held(&same)];
    ensure(figures == [Err(none); 3] && same == shelf, &format!("figures: {why}"))?;
    ensure(summary(&same) == Err(none), &format!("summary: {why}"))?;
    ensure(duplicates(&same) == Err(none), &format!("duplicates: {why}"))
}

/// Start writes over any bytes of an allowed size, and nothing else.
fn check_start() -> Check {
    for size in [SMALLEST, SMALLEST + 1, 4_000, LARGEST] {
        let mut buffer = vec![0xA5; size];
        ensure(start(&mut buffer) == Ok(()), &format!("start on {size} bytes"))?;
        ensure(buffer == laid_out(size, &[]) && is_sound(&buffer), "an empty shelf")?;
        let figures = (occupied(&buffer), lowest_free(&buffer));
        ensure(figures == (Ok(0), Ok(0)), "an empty shelf's figures")?;
        let sums = Ok(Summary { map: 0, held: 0, duplicates: 0 });
        ensure(summary(&buffer) == sums, "an empty shelf's sums")?;
    }
    for size in [0, 1, 3, 524, 525, 528, 532, LARGEST + 1, 2 * LARGEST] {
        let mut buffer = vec![0xA5; size];
        let refused = start(&mut buffer) == Err(refusal(NO_SHELF, 0));
        ensure(refused && buffer == vec![0xA5; size], &format!("start on {size} bytes"))?;
    }
    Ok(())
}

/// Texts in any order of slots, at the smallest size and at any other, under
/// either mark, and of version 4.
fn check_sound_shelves() -> Check {
    let (x, one, two) = (normal_form(X.as_bytes()), normal_form(&small(1)), normal_form(&small(2)));
    let comma = normal_form(&[b"UNA:+,? '", X.as_bytes()].concat());
    let four = b"UNA:+.?*'UNB+UNOA:4+A*?*+++1'UNH+1'UNT+2+1'UNZ+1+1'";
    ensure(x.len() == 93 && one.len() == 47 && comma.len() == 93, "the texts")?;
    let rows: [&[(usize, &[u8])]; 7] = [
        &[(0, &x)],
        &[(63, &x)],
        &[(3, &x), (0, &one)],
        &[(0, &one), (3, &x), (1, &two)],
        &[(63, &two), (62, &one), (0, &x), (7, &comma)],
        &[(5, &comma), (6, &x)],
        &[(9, &four[..]), (8, &one)],
    ];
    for texts in rows {
        let needed = texts.iter().map(|(_, text)| text.len()).sum::<usize>() + SMALLEST;
        for size in [needed, needed + 1, 2_000, LARGEST] {
            let shelf = laid_out(size, texts);
            ensure(is_sound(&shelf), &format!("a sound shelf of {size} bytes"))?;
            ensure(occupied(&shelf) == Ok(texts.len()), "occupied slots")?;
            ensure(held(&shelf) == Ok(needed - SMALLEST), "bytes held")?;
            for (slot, text) in texts {
                let got = get(&shelf, *slot);
                let whole = got.refusal.is_none() && got.bytes == *text;
                let there = shelf[got.offset..].starts_with(text);
                ensure(whole && there, &format!("the text of slot {slot}"))?;
            }
        }
        check_unsound(&laid_out(needed, texts)[..needed - 1], "a shelf without its last byte")?;
    }
    Ok(())
}

/// A shelf as request 2026-04 laid it out: without the two sums, texts from byte
/// 525.
fn version_1(size: usize, texts: &[(usize, &[u8])]) -> Vec<u8> {
    let mut shelf = laid_out(size + 8, texts);
    shelf[4] = 1;
    shelf.drain(13..21);
    for (slot, _) in texts {
        let start = 13 + 8 * slot + 2..13 + 8 * slot + 4;
        let moved = u16::from_be_bytes([shelf[start.start], shelf[start.start + 1]]) - 8;
        shelf[start].copy_from_slice(&moved.to_be_bytes());
    }
    shelf
}

/// Stores a number of four bytes.
fn store(shelf: &mut [u8], place: usize, number: u32) {
    shelf[place..place + 4].copy_from_slice(&number.to_be_bytes());
}

/// Stores the sum of the lengths of the slots that the map calls occupied, so
/// that this is not what makes a shelf unsound.
fn mend_held(shelf: &mut [u8]) {
    let number =
        |place: usize| shelf[place..place + 4].iter().fold(0, |n, &b| n * 256 + u64::from(b));
    let occupied = |slot: &usize| shelf[12 - slot / 8] >> (slot % 8) & 1 == 1;
    let sum: u64 = (0..SLOTS).filter(occupied).map(|slot| number(25 + 8 * slot)).sum();
    store(shelf, 13, sum as u32);
}

/// Shelves that miss one thing.
fn check_unsound_shelves() -> Check {
    let (x, one) = (normal_form(X.as_bytes()), normal_form(&small(1)));
    let both: [(usize, &[u8]); 2] = [(3, &x), (0, &one)];
    let sound = laid_out(1_000, &both);
    ensure(is_sound(&sound), "the shelf of two texts")?;
    let (pair_0, pair_3, behind) = (21, 21 + 24, SMALLEST + x.len() + one.len());
    let changed = |change: &dyn Fn(&mut Vec<u8>)| {
        let mut shelf = sound.clone();
        change(&mut shelf);
        mend_held(&mut shelf);
        shelf
    };
    let holding = |bytes: u32| {
        let mut shelf = sound.clone();
        store(&mut shelf, 13, bytes);
        shelf
    };
    let two_breaks = [&x[..], b"\r\n"].concat();
    let respelled = b"UNA;*.! ~UNB*UNOA;1****1~UNH*1~UNT*2*1~UNZ*1*1~";
    let padded = b"UNA:+.? 'UNB+UNOA:1++++1'UNH+1+'UNT+2+1'UNZ+1+1'";
    let section = b"UNA:+.? 'UNB+UNOA:1++++1'UNH+1'UNS+D'UNS+D'UNT+4+1'UNZ+1+1'";
    let fifth_byte = b"UNA:+.? 'UNB+UNOA:4++++1'UNH+1'UNT+2+1'UNZ+1+1'";
    let unsound = [
        ("a version 1 shelf", version_1(1_000, &both)),
        ("an empty version 1 shelf", version_1(1_000, &[])),
        ("version 1", changed(&|shelf| shelf[4] = 1)),
        ("version 3", changed(&|shelf| shelf[4] = 3)),
        ("version 258", changed(&|shelf| shelf[3] = 1)),
        ("a byte held too many", holding(141)),
        ("a byte held too few", holding(139)),
        ("no byte held", holding(0)),
        ("the bytes held and 2^16 more", holding(140 + 65_536)),
        ("a byte held and no text", {
            let mut empty = laid_out(1_000, &[]);
            store(&mut empty, 13, 1);
            empty
        }),
        ("EDX", changed(&|shelf| shelf[2] = b'X')),
        ("no size", Vec::new()),
        ("a head alone", sound[..532].to_vec()),
        ("65537 bytes", laid_out(LARGEST + 1, &both)),
        ("a free slot's start", changed(&|shelf| store(shelf, 21 + 8, 533))),
        ("a free slot's length", changed(&|shelf| store(shelf, 21 + 12, 1))),
        ("a free byte", changed(&|shelf| shelf[behind] = b'\n')),
        ("the last byte", changed(&|shelf| shelf[999] = 1)),
        ("an occupied slot without an entry", changed(&|shelf| shelf[5] |= 128)),
        ("an occupied slot of length 0", {
            changed(&|shelf| {
                shelf[12] |= 4;
                store(shelf, 21 + 16, behind as u32);
            })
        }),
        ("an entry that is free by the map", changed(&|shelf| shelf[12] &= !1)),
        ("a gap", {
            changed(&|shelf| {
                let first = SMALLEST + x.len();
                shelf.copy_within(first..first + one.len(), first + 1);
                shelf[first] = 0;
                store(shelf, pair_0, first as u32 + 1);
            })
        }),
        ("a gap at byte 533", {
            changed(&|shelf| {
                shelf.copy_within(533..behind, 534);
                shelf[533] = 0;
                store(shelf, pair_0, 534 + x.len() as u32);
                store(shelf, pair_3, 534);
            })
        }),
        ("two slots with one text", {
            changed(&|shelf| {
                shelf[12] |= 4;
                shelf.copy_within(pair_3..pair_3 + 8, 21 + 16);
            })
        }),
        ("two copies", laid_out(1_000, &[(3, &x), (0, &one), (1, &x)])),
        ("one entry for two texts", {
            changed(&|shelf| {
                shelf[12] = 8;
                store(shelf, pair_0, 0);
                store(shelf, pair_0 + 4, 0);
                store(shelf, pair_3 + 4, (x.len() + one.len()) as u32);
            })
        }),
        ("a start before byte 533", changed(&|shelf| store(shelf, pair_3, 532))),
        ("a length beyond the shelf", changed(&|shelf| store(shelf, pair_0 + 4, 1_000))),
        ("a sum over 32 bits", {
            changed(&|shelf| {
                store(shelf, pair_0, u32::MAX);
                store(shelf, pair_0 + 4, (SMALLEST + x.len() + one.len() + 1) as u32);
            })
        }),
        ("X itself", laid_out(1_000, &[(0, X.as_bytes())])),
        ("a normal form and breaks", laid_out(1_000, &[(0, &two_breaks)])),
        ("another spelling", laid_out(1_000, &[(0, respelled)])),
        ("a spelling with empty ends", laid_out(1_000, &[(0, padded)])),
        ("version 4 and a space as fifth byte", laid_out(1_000, &[(0, fifth_byte)])),
        ("a text refused by the rules as they stand", laid_out(1_000, &[(0, section)])),
        ("a text of no interchange", laid_out(1_000, &[(0, b"A")])),
    ];
    let by_section = judge(section).map_err(|refusal| refusal.number);
    ensure(by_section == Err(ORDER), "a D twice")?;
    for accepted in [&two_breaks[..], respelled, padded, fifth_byte] {
        ensure(judge(accepted).is_ok(), "accepted, and no normal form")?;
    }
    unsound.iter().try_for_each(|(why, shelf)| check_unsound(shelf, why))
}

/// A change of any bit outside the texts makes a sound shelf unsound, but for
/// the duplicates found; in a text it does so unless that is another normal form
/// that is not there.
fn check_every_byte() -> Check {
    let texts = [normal_form(&small(1)), normal_form(X.as_bytes()), normal_form(&small(2))];
    let sound = laid_out(800, &[(9, &texts[0]), (2, &texts[1]), (41, &texts[2])]);
    let mut ends = SMALLEST;
    for (number, text) in texts.iter().enumerate() {
        for (place, bit) in (0..text.len()).flat_map(|place| (0..8).map(move |bit| (place, bit))) {
            let mut shelf = sound.clone();
            shelf[ends + place] ^= 1 << bit;
            let changed = &shelf[ends..ends + text.len()];
            let its_own = accept(changed).map_or(false, |told| told.normal_form() == changed);
            let there = (0..3).any(|other| other != number && texts[other] == changed);
            let as_it_should_be = is_sound(&shelf) == (its_own && !there);
            ensure(as_it_should_be, &format!("text {number}, byte {place}, bit {bit}"))?;
        }
        ends += text.len();
    }
    for place in (0..SMALLEST).chain(ends..800) {
        for bit in 0..8 {
            let mut shelf = sound.clone();
            shelf[place] ^= 1 << bit;
            let of_duplicates = (17..21).contains(&place);
            ensure(is_sound(&shelf) == of_duplicates, &format!("byte {place}, bit {bit}"))?;
        }
    }
    Ok(())
}

/// A put that is refused leaves the shelf as it was.
fn check_put_refused(shelf: &[u8], input: &[u8], expected: Refusal, why: &str) -> Check {
    let mut same = shelf.to_vec();
    let answer = put(&mut same, input);
    ensure(answer == Err(expected) && same == shelf, &format!("{why}: {answer:?}"))
}

/// Each refusal of a sound shelf, with its place.
fn check_refusals() -> Check {
    let (x, one) = (normal_form(X.as_bytes()), normal_form(&small(1)));
    let full_bytes = laid_out(SMALLEST + x.len() + 46, &[(1, &x)]);
    check_put_refused(&full_bytes, b"", refusal(BEGINNING, 0), "Judge's before 18")?;
    check_put_refused(&full_bytes, &small(1), refusal(NO_ROOM, 47), "one byte short")?;
    check_put_refused(&full_bytes[..SMALLEST + 93], &small(1), refusal(NO_ROOM, 47), "no byte")?;
    let mut exact = laid_out(SMALLEST + x.len() + 47, &[(1, &x)]);
    let put_there = put(&mut exact, &small(1)) == Ok(Put::New(0));
    let expected = laid_out(SMALLEST + x.len() + 47, &[(1, &x), (0, &one)]);
    ensure(put_there && exact == expected, "room for exactly this text")?;
    for slot in [0, 2, 63, 64, 65, 1 << 32, usize::MAX] {
        let free = Err(refusal(FREE_SLOT, slot));
        let mut shelf = full_bytes.clone();
        let same = remove(&mut shelf, slot) == free && shelf == full_bytes;
        ensure(same, &format!("remove of slot {slot}"))?;
        let got = get(&shelf, slot);
        let nothing = Got { refusal: free.err(), offset: 0, bytes: &[] };
        ensure(got == nothing, &format!("get of slot {slot}"))?;
    }
    Ok(())
}

/// 64 texts: a copy is found, a refused input is Judge's, a new one is 17 where
/// there is room for it and where there is none.
fn check_full_shelf() -> Check {
    let texts: Vec<Vec<u8>> = (100..164).map(|number| normal_form(&small(number))).collect();
    let needed = SMALLEST + texts.iter().map(Vec::len).sum::<usize>();
    for size in [needed, needed + 1, needed + 1_000] {
        let mut shelf = vec![1; size];
        start(&mut shelf).map_err(|_| "a shelf of 64 texts is not started".to_string())?;
        for (slot, text) in texts.iter().enumerate() {
            ensure(put(&mut shelf, text) == Ok(Put::New(slot)), "64 texts")?;
        }
        let figures = (occupied(&shelf), lowest_free(&shelf));
        ensure(figures == (Ok(64), Ok(64)), "a full shelf's figures")?;
        check_put_refused(&shelf, &small(99), refusal(NO_SLOT, 64), "17")?;
        check_put_refused(&shelf, b"UNA", refusal(2, 0), "Judge's before 17")?;
        for slot in 0..SLOTS {
            let one_more = with_duplicates(shelf.clone(), slot as u32 + 1);
            let found = put(&mut shelf, &small(100 + slot)) == Ok(Put::Found(slot));
            ensure(found && shelf == one_more, "a copy on a full shelf")?;
        }
        for slot in [0, 1, 31, 62, 63] {
            let mut other = shelf.clone();
            let removed = remove(&mut other, slot) == Ok(texts[slot].len());
            ensure(removed && lowest_free(&other) == Ok(slot), "a slot that is free again")?;
            ensure(put(&mut other, &texts[slot]) == Ok(Put::New(slot)), "room used again")?;
        }
    }
    Ok(())
}

/// What a shelf should hold, and what was put and removed so far.
struct Kept {
    size: usize,
    texts: Vec<(usize, Vec<u8>)>,
    put: usize,
    removed: usize,
    duplicates: u32,
}

impl Kept {
    fn bytes_held(&self) -> usize {
        self.texts.iter().map(|(_, text)| text.len()).sum()
    }

    fn put(&mut self, input: &[u8]) -> Answer<Put> {
        judge(input)?;
        let text = normal_form(input);
        if let Some((slot, _)) = self.texts.iter().find(|(_, kept)| *kept == text) {
            self.duplicates = (u64::from(self.duplicates) + 1).min(4_294_967_295) as u32;
            return Ok(Put::Found(*slot));
        }
        let free = (0..SLOTS).find(|slot| self.texts.iter().all(|(other, _)| other != slot));
        let slot = free.ok_or(refusal(NO_SLOT, 64))?;
        if SMALLEST + self.bytes_held() + text.len() > self.size {
            return Err(refusal(NO_ROOM, text.len()));
        }
        self.put += text.len();
        self.texts.push((slot, text));
        Ok(Put::New(slot))
    }

    fn remove(&mut self, slot: usize) -> Answer<usize> {
        let found = self.texts.iter().position(|(other, _)| *other == slot);
        let (_, text) = self.texts.remove(found.ok_or(refusal(FREE_SLOT, slot))?);
        self.removed += text.len();
        Ok(text.len())
    }

    fn shelf(&self) -> Vec<u8> {
        let texts: Vec<(usize, &[u8])> =
            self.texts.iter().map(|(slot, text)| (*slot, &text[..])).collect();
        with_duplicates(laid_out(self.size, &texts), self.duplicates)
    }
}

/// The draft in some spelling.
fn any_spelling(random: &mut Random, draft: &Draft) -> Vec<u8> {
    let input = same_contents(random, draft).spelled();
    match random.chance(33) {
        true => with_breaks(random, &input).input,
        false => input,
    }
}

/// Puts of new texts and of copies, removes of every position, and refusals of
/// all sorts; after each the shelf has the bytes that it should have.
fn check_history(seed: u64) -> Check {
    let mut random = Random::new(seed);
    let pool: Vec<Draft> = (0..90).map(|_| any_valid(&mut random)).collect();
    let size = random.pick(&[SMALLEST, 700, 1_500, 4_000, 20_000, LARGEST]);
    let figure = random.pick(&[0, 0, 255, u32::MAX - 20]);
    let mut kept = Kept { size, texts: Vec::new(), put: 0, removed: 0, duplicates: figure };
    let mut shelf = random.bytes(size);
    start(&mut shelf).map_err(|_| "a shelf is not started".to_string())?;
    store(&mut shelf, 17, figure);
    for step in 0..200 {
        let name = |what: &str| format!("{what}, seed {seed}, step {step}");
        let draft = random.pick(&pool);
        let slot = match kept.texts.is_empty() || random.chance(15) {
            true => random.pick(&[0, 1, 5, 62, 63, 64, 1_000, usize::MAX]),
            false => random.pick(&kept.texts).0,
        };
        match random.below(20) {
            0..=13 => {
                let input = any_spelling(&mut random, &draft);
                ensure(put(&mut shelf, &input) == kept.put(&input), &name("put"))?;
            }
            14 => {
                let input = any_input(&mut random);
                ensure(put(&mut shelf, &input) == kept.put(&input), &name("put of any"))?;
            }
            _ => ensure(remove(&mut shelf, slot) == kept.remove(slot), &name("remove"))?,
        }
        ensure(shelf == kept.shelf(), &name("the bytes"))?;
        let sums = (held(&shelf), duplicates(&shelf));
        let known = (Ok(kept.put - kept.removed), Ok(kept.duplicates));
        ensure(sums == known, &name("put less removed, and duplicates"))?;
        let got = get(&shelf, slot);
        let text = kept.texts.iter().find(|(other, _)| *other == slot);
        match text {
            Some((_, text)) => ensure(got.bytes == text, &name("get"))?,
            None => ensure(got.refusal == Some(refusal(FREE_SLOT, slot)), &name("get"))?,
        }
        ensure(occupied(&shelf) == Ok(kept.texts.len()), &name("occupied"))?;
    }
    Ok(())
}
