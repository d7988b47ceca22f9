//! Shelves carried over and back: bytes computed by hand, every refusal with its
//! place, and generated shelves.
//!
//! Change request 2026-07, "Old shelves carried over, and back".

use crate::carrying_over::{carry_back, carry_over};
use crate::cases::X;
use crate::generator::{any_shelf, first_text, laid_out, sound_shelf, text_of, Random};
use crate::operations::normalise;
use crate::refusal::{Answer, Refusal, NO_ROOM, NO_SHELF};
use crate::shelf::{get, is_sound, put, remove, Put};
use crate::shelf_layout::{occupied_slots, VERSION_1, VERSION_2};

type Check = Result<(), String>;

fn ensure(holds: bool, what: &str) -> Check {
    match holds {
        true => Ok(()),
        false => Err(format!("shelves carried over: {what}")),
    }
}

const UNSOUND: Answer<()> = Err(Refusal { number: NO_SHELF, place: 0 });
const TOO_FEW: Answer<()> = Err(Refusal { number: NO_ROOM, place: 8 });

/// The first failure.
pub fn check_carrying() -> Check {
    check_by_hand()?;
    check_free_bytes()?;
    check_versions()?;
    check_order()?;
    (0..2_000).try_for_each(check_sound)?;
    (0..3_000).try_for_each(check_any)
}

/// A shelf's answer and bytes after it was carried over, or back.
fn after(carry: fn(&mut [u8]) -> Answer<()>, shelf: &[u8]) -> (Answer<()>, Vec<u8>) {
    let mut carried = shelf.to_vec();
    (carry(&mut carried), carried)
}

/// `EDS` and the version; these numbers of 32 bits, which are the map in two
/// halves, in version 2 the two sums, and the first pairs; then zeros up to the
/// texts, and behind them.
fn by_hand(version: u8, numbers: &[u32], texts: &[u8], size: usize) -> Vec<u8> {
    let mut shelf = vec![b'E', b'D', b'S', 0, version];
    shelf.extend(numbers.iter().flat_map(|number| number.to_be_bytes()));
    shelf.resize(if version == 1 { 525 } else { 533 }, 0);
    shelf.extend(texts);
    shelf.resize(size, 0);
    shelf
}

/// "Slots and texts stay; the duplicates figure starts at 0 and is lost on the
/// way back." X's normal form, in slot 0, has 93 bytes; the other, in slot 1, has
/// 47 and lies first.
fn check_by_hand() -> Check {
    let mut x = vec![0; 93];
    normalise(X.as_bytes(), &mut x).map_err(|_| "X is refused".to_string())?;
    let other = b"UNA:+.? 'UNB+UNOA:1++++1'UNH+1'UNT+2+1'UNZ+1+1'";
    let texts = [&other[..], &x].concat();
    let size = 525 + 140 + 8;
    let old = by_hand(1, &[0, 3, 572, 93, 525, 47], &texts, size);
    let new = by_hand(2, &[0, 3, 140, 0, 580, 93, 533, 47], &texts, size);
    let found = by_hand(2, &[0, 3, 140, 7, 580, 93, 533, 47], &texts, size);
    ensure(after(carry_over, &old) == (Ok(()), new.clone()), "two texts, over")?;
    ensure(after(carry_back, &new) == (Ok(()), old.clone()), "two texts, back")?;
    ensure(after(carry_back, &found) == (Ok(()), old), "the figure is lost")?;
    ensure(is_sound(&new) && get(&new, 0).bytes == x && get(&new, 1).bytes == other, "slots")?;
    let (empty_old, empty_new) = (by_hand(1, &[], &[], 533), by_hand(2, &[], &[], 533));
    ensure(after(carry_over, &empty_old) == (Ok(()), empty_new.clone()), "no text, over")?;
    ensure(after(carry_back, &empty_new) == (Ok(()), empty_old), "no text, back")
}

/// "18 if old to new finds fewer than 8 free bytes (place 8)".
fn check_free_bytes() -> Check {
    let (one, two) = (text_of(1, 0), text_of(2, 100));
    let rows: [&[(usize, &[u8])]; 3] = [&[], &[(0, &one)], &[(63, &two), (9, &one)]];
    for texts in rows {
        let held: usize = texts.iter().map(|(_, text)| text.len()).sum();
        for free in 0..=20 {
            let size = 525 + held + free;
            let old = laid_out(1, size, texts, 0);
            let expected = match free {
                0..=7 => (TOO_FEW, old.clone()),
                _ => (Ok(()), laid_out(2, size, texts, 0)),
            };
            ensure(after(carry_over, &old) == expected, &format!("{free} free bytes"))?;
        }
    }
    Ok(())
}

/// "19 if not sound in its version": a sound shelf of the other version, also
/// one that says so and is none.
fn check_versions() -> Check {
    for texts in [&[][..], &[(3, &text_of(1, 0)[..])]] {
        let (old, new) = (laid_out(1, 800, texts, 0), laid_out(2, 800, texts, 5));
        ensure(after(carry_over, &new) == (UNSOUND, new.clone()), "version 2 over")?;
        ensure(after(carry_back, &old) == (UNSOUND, old.clone()), "version 1 back")?;
    }
    let one = text_of(1, 0);
    for version in [0, 1, 2, 3, 255] {
        let mut shelf = laid_out(3 - version.clamp(1, 2), 800, &[(3, &one)], 0);
        shelf[4] = version;
        ensure(after(carry_over, &shelf) == (UNSOUND, shelf.clone()), "a version alone, over")?;
        ensure(after(carry_back, &shelf) == (UNSOUND, shelf.clone()), "a version alone, back")?;
    }
    Ok(())
}

/// 19 comes before 18, and nothing that is in a free byte is free.
fn check_order() -> Check {
    let one = text_of(1, 0);
    for free in 0..=12 {
        let mut shelf = laid_out(1, 525 + one.len() + free, &[(0, &one)], 0);
        shelf[13 + 7] -= 1;
        ensure(after(carry_over, &shelf) == (UNSOUND, shelf.clone()), "a length")?;
        if free > 0 {
            let mut shelf = laid_out(1, 525 + one.len() + free, &[(0, &one)], 0);
            shelf[525 + one.len() + free - 1] = 1;
            ensure(after(carry_over, &shelf) == (UNSOUND, shelf.clone()), "a free byte")?;
        }
    }
    for size in [0, 4, 524, 65_537] {
        let shelf = laid_out(1, 1_000, &[], 0).into_iter().chain([0; 65_000]).take(size).collect();
        let shelf: Vec<u8> = shelf;
        ensure(after(carry_over, &shelf) == (UNSOUND, shelf.clone()), "no size of version 1")?;
    }
    for size in [0, 4, 525, 532, 65_537] {
        let shelf = laid_out(2, 1_000, &[], 0).into_iter().chain([0; 65_000]).take(size).collect();
        let shelf: Vec<u8> = shelf;
        ensure(after(carry_back, &shelf) == (UNSOUND, shelf.clone()), "no size of version 2")?;
    }
    Ok(())
}

/// Each kept text with its slot, in the order in which they lie.
fn kept(version: u8, shelf: &[u8]) -> Vec<(usize, Vec<u8>)> {
    let layout = if version == 1 { VERSION_1 } else { VERSION_2 };
    let mut kept: Vec<(usize, usize, Vec<u8>)> = occupied_slots(shelf)
        .into_iter()
        .map(|slot| {
            let entry = layout.entry(shelf, slot);
            (entry.range().start, slot, entry.of(shelf).to_vec())
        })
        .collect();
    kept.sort();
    kept.into_iter().map(|(_, slot, text)| (slot, text)).collect()
}

/// "Unless refused, there and back gives the same bytes, but for that figure."
fn check_sound(seed: u64) -> Check {
    let name = |what: &str| format!("{what}, seed {seed}");
    let mut random = Random::new(seed);
    let new = sound_shelf(&mut random, 2);
    let texts = kept(2, &new);
    let texts: Vec<(usize, &[u8])> = texts.iter().map(|(slot, text)| (*slot, &text[..])).collect();
    let (size, without_figure) = (new.len(), laid_out(2, new.len(), &texts, 0));
    let (answer, old) = after(carry_back, &new);
    ensure(answer == Ok(()) && old == laid_out(1, size, &texts, 0), &name("back"))?;
    ensure(after(carry_over, &old) == (Ok(()), without_figure), &name("back and there"))?;
    let old = sound_shelf(&mut random, 1);
    let held: usize = kept(1, &old).iter().map(|(_, text)| text.len()).sum();
    let (answer, mut new) = after(carry_over, &old);
    if old.len() - first_text(1) - held < 8 {
        return ensure(answer == TOO_FEW && new == old, &name("too few free bytes"));
    }
    ensure(answer == Ok(()) && kept(2, &new) == kept(1, &old), &name("over"))?;
    ensure(after(carry_back, &new) == (Ok(()), old), &name("there and back"))?;
    for (slot, text) in kept(2, &new).into_iter().take(3) {
        ensure(put(&mut new, &text) == Ok(Put::Found(slot)), &name("found again"))?;
        ensure(remove(&mut new, slot) == Ok(text.len()), &name("removed"))?;
    }
    Ok(())
}

/// Never both ways; refused, it stays as it was; else it is sound in the other
/// version, and the way there is open.
fn check_any(seed: u64) -> Check {
    let name = |what: &str| format!("{what}, seed {seed}");
    let shelf = any_shelf(&mut Random::new(seed));
    let (over, new) = after(carry_over, &shelf);
    let (back, old) = after(carry_back, &shelf);
    ensure(over.is_err() || back.is_err(), &name("both ways"))?;
    ensure(over.is_ok() || new == shelf, &name("refused, over"))?;
    ensure(back.is_ok() || old == shelf, &name("refused, back"))?;
    ensure(over.is_err() || VERSION_2.is_sound(&new), &name("sound in version 2"))?;
    ensure(back.is_err() || VERSION_1.is_sound(&old), &name("sound in version 1"))?;
    let expected = match (VERSION_1.is_sound(&shelf), over) {
        (false, _) => over == UNSOUND,
        (true, _) => over == Ok(()) || over == TOO_FEW,
    };
    ensure(expected && (back == Ok(()) || back == UNSOUND), &name("refusals"))?;
    ensure(back.is_ok() == VERSION_2.is_sound(&shelf), &name("back"))
}
