//! Two networks, either order: lists of accepted interchanges put on a shelf in
//! two orders.
//!
//! Change request 2026-13, "Two networks, either order": on a sound shelf with
//! free slots and free bytes for all, either order leaves the same kept texts,
//! bytes held and duplicates figure. Slot numbers may differ. The request says it
//! of two interchanges; a list is put in another order by exchanging two
//! neighbours again and again.

use crate::cases::X;
use crate::generator::{two_orders, Random, TwoOrders};
use crate::refusal::{Answer, Refusal, NO_ROOM};
use crate::shelf::{duplicates, get, held, is_sound, put, start, Put, SLOTS, SMALLEST};

type Check = Result<(), String>;

/// Puts an interchange on a shelf.
pub type PutOperation = fn(&mut [u8], &[u8]) -> Answer<Put>;

/// What must not depend on the order.
#[derive(Clone, Debug, PartialEq, Eq)]
pub struct Kept {
    /// In the order of their bytes.
    pub texts: Vec<Vec<u8>>,
    pub held: usize,
    pub duplicates: u32,
}

/// What a sound shelf keeps.
pub fn kept(shelf: &[u8]) -> Answer<Kept> {
    let (held, duplicates) = (held(shelf)?, duplicates(shelf)?);
    let got = (0..SLOTS).map(|slot| get(shelf, slot));
    let mut texts: Vec<Vec<u8>> =
        got.filter(|got| got.refusal.is_none()).map(|got| got.bytes.to_vec()).collect();
    texts.sort();
    Ok(Kept { texts, held, duplicates })
}

/// What putting a list leaves, and what each put answered.
#[derive(Clone, Debug, PartialEq, Eq)]
pub struct After {
    pub shelf: Vec<u8>,
    pub answers: Vec<Put>,
}

/// After all these interchanges were put; or what was refused.
pub fn after_puts(put: PutOperation, shelf: &[u8], inputs: &[Vec<u8>]) -> Result<After, String> {
    let mut after = After { shelf: shelf.to_vec(), answers: Vec::new() };
    for (number, input) in inputs.iter().enumerate() {
        match put(&mut after.shelf, input) {
            Ok(answer) => after.answers.push(answer),
            Err(refusal) => return Err(format!("put {number} is refused: {refusal:?}")),
        }
    }
    Ok(after)
}

/// How the check says that the order matters.
pub const DIFFERENT: &str = "the two orders leave different things";

/// What both orders leave and answer, by this way to put: they leave the same.
pub fn check_orders(put: PutOperation, orders: &TwoOrders) -> Result<[After; 2], String> {
    let one = after_puts(put, &orders.shelf, &orders.one)?;
    let other = after_puts(put, &orders.shelf, &orders.other)?;
    match (kept(&one.shelf), kept(&other.shelf)) {
        (Ok(left), Ok(right)) if left == right => Ok([one, other]),
        (Ok(_), Ok(_)) => Err(DIFFERENT.to_string()),
        _ => Err("a shelf is left unsound".to_string()),
    }
}

/// How many lists there were of each sort.
#[derive(Clone, Copy, Debug, Default)]
pub struct Sorts {
    /// Two interchanges, both new and different.
    pub two_new: u64,
    /// Two interchanges, a new one and the copy of what was kept.
    pub new_and_copy: u64,
    /// Two spellings of a new text.
    pub spellings: u64,
    /// Two copies of what was kept.
    pub two_copies: u64,
    /// The last free byte is used by a new text.
    pub exact: u64,
    /// So is the last free slot.
    pub last_slot: u64,
    /// The duplicates figure reaches its ceiling.
    pub ceiling: u64,
    /// It was there, and a copy comes.
    pub beyond: u64,
}

impl Sorts {
    /// One more list, and what both orders left and answered.
    pub fn count(&mut self, orders: &TwoOrders, [after, turned]: &[After; 2]) -> Check {
        let is_new = |answer: &Put| matches!(answer, Put::New(_));
        let new = after.answers.iter().filter(|answer| is_new(answer)).count();
        let copies = after.answers.len() - new;
        let kept_of = |shelf: &[u8]| kept(shelf).map_err(|told| format!("no shelf: {told:?}"));
        let (was, is) = (kept_of(&orders.shelf)?, kept_of(&after.shelf)?);
        let pair = orders.one.len() == 2;
        let first_new = is_new(&after.answers[0]) && is_new(&turned.answers[0]);
        let top = u32::MAX;
        self.two_new += u64::from(pair && new == 2);
        self.new_and_copy += u64::from(pair && new == 1 && !first_new);
        self.spellings += u64::from(pair && new == 1 && first_new);
        self.two_copies += u64::from(pair && new == 0);
        self.exact += u64::from(new > 0 && SMALLEST + is.held == after.shelf.len());
        self.last_slot += u64::from(new > 0 && is.texts.len() == SLOTS);
        self.ceiling += u64::from(was.duplicates < top && is.duplicates == top);
        self.beyond += u64::from(was.duplicates == top && copies > 0);
        Ok(())
    }

    /// Whether there were so many of each sort.
    pub fn have(&self, least: u64) -> bool {
        let Sorts { two_new, new_and_copy, spellings, two_copies, .. } = *self;
        let Sorts { exact, last_slot, ceiling, beyond, .. } = *self;
        let pairs = [two_new, new_and_copy, spellings, two_copies];
        let limits = [exact, last_slot, ceiling, beyond];
        pairs.iter().chain(&limits).all(|&count| count >= least)
    }
}

/// The first failure.
pub fn check_either_order() -> Check {
    check_by_hand()?;
    check_without_room()?;
    let mut sorts = Sorts::default();
    for seed in 0..400 {
        let orders = two_orders(&mut Random::new(seed));
        let name = |what: String| format!("either order, seed {seed}: {what}");
        let differ = orders.one.len() == orders.other.len() && orders.one != orders.other;
        if !(is_sound(&orders.shelf) && differ) {
            return Err(name("no sound shelf, or one order".to_string()));
        }
        let after = check_orders(put, &orders).map_err(name)?;
        sorts.count(&orders, &after).map_err(name)?;
    }
    match sorts.have(5) {
        true => Ok(()),
        false => Err(format!("either order: not enough of {sorts:?}")),
    }
}

/// An interchange with a normal form of 47 bytes, beside X, whose normal form has
/// 93: each with its normal form.
fn small_and_x() -> [(Vec<u8>, Vec<u8>); 2] {
    let with_form = |input: &[u8]| (input.to_vec(), [&b"UNA:+.? '"[..], input].concat());
    [with_form(b"UNB+UNOA:1++++1'UNH+1'UNT+2+1'UNZ+1+1'"), with_form(X.as_bytes())]
}

/// An empty shelf with so many bytes for texts, and this number of duplicates.
fn started(room: usize, figure: u32) -> Result<Vec<u8>, String> {
    let mut shelf = vec![0; SMALLEST + room];
    start(&mut shelf).map_err(|_| "no shelf".to_string())?;
    shelf[17..21].copy_from_slice(&figure.to_be_bytes());
    Ok(shelf)
}

/// Two interchanges on a shelf with so many bytes for texts, this number of
/// duplicates, and texts that are put before: what is then kept, in either order.
struct Row {
    name: &'static str,
    room: usize,
    figure: u32,
    there: Vec<Vec<u8>>,
    inputs: [Vec<u8>; 2],
    kept: Kept,
}

fn rows() -> Vec<Row> {
    let [(small, small_form), (x, x_form)] = small_and_x();
    let broken = X.replace('\'', "'\r\n").into_bytes();
    let (both, alone) = (vec![small_form, x_form.clone()], vec![x_form]);
    let (no, one) = (Vec::new(), vec![x.clone()]);
    let two = vec![x.clone(), small.clone()];
    let top = u32::MAX;
    let row = |name,
               room,
               figure,
               there: &Vec<Vec<u8>>,
               inputs: [&Vec<u8>; 2],
               texts: &Vec<_>,
               duplicates| {
        let held = if texts.len() == 2 { 93 + 47 } else { 93 };
        let kept = Kept { texts: texts.clone(), held, duplicates };
        Row { name, room, figure, there: there.clone(), inputs: inputs.map(Vec::clone), kept }
    };
    vec![
        row("two new texts", 300, 7, &no, [&x, &small], &both, 7),
        row("two new texts, exact room", 93 + 47, 7, &no, [&x, &small], &both, 7),
        row("two spellings", 300, 7, &no, [&x, &broken], &alone, 8),
        row("two spellings, exact room", 93 + 93, 7, &no, [&x, &broken], &alone, 8),
        row("one is there", 300, 0, &one, [&broken, &small], &both, 1),
        row("one is there, exact room", 93 + 93 + 47, 0, &one, [&broken, &small], &both, 1),
        row("one is there, at the ceiling", 300, top, &one, [&broken, &small], &both, top),
        row("one is there, below the ceiling", 300, top - 1, &one, [&x, &small], &both, top),
        row("one is there, twice", 300, 0, &one, [&broken, &x], &alone, 2),
        row("both are there", 300, 5, &two, [&small, &broken], &both, 7),
        row("the figure stays", 300, top - 1, &one, [&broken, &x], &alone, top),
        row("both are there, the figure stays", 300, top - 1, &two, [&small, &x], &both, top),
    ]
}

fn check_by_hand() -> Check {
    for Row { name, room, figure, there, inputs, kept: expected } in rows() {
        let shelf = after_puts(put, &started(room, figure)?, &there)?.shelf;
        let [first, second] = inputs;
        for order in [[first.clone(), second.clone()], [second, first]] {
            let after = after_puts(put, &shelf, &order)?;
            if kept(&after.shelf) != Ok(expected.clone()) {
                return Err(format!("either order: {name}"));
            }
        }
    }
    Ok(())
}

/// A shelf with room for X or for the small one, and not for both: each order
/// keeps the one that is put first, and the other is refused by 18.
fn check_without_room() -> Check {
    let [small, x] = small_and_x();
    for ((first, form), (second, refused)) in [(&x, &small), (&small, &x)] {
        let mut shelf = started(93, 7)?;
        let told = (put(&mut shelf, first), put(&mut shelf, second));
        let no_room = Refusal { place: refused.len(), number: NO_ROOM };
        let only = Kept { texts: vec![form.clone()], held: form.len(), duplicates: 7 };
        if told != (Ok(Put::New(0)), Err(no_room)) || kept(&shelf) != Ok(only) {
            return Err("either order: without room for both".to_string());
        }
    }
    Ok(())
}
