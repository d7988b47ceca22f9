//! Memory lent to the surface: each slice lies between two guards, so that a
//! byte stored outside it is seen.

use second::generator::Random;

/// The least and the most elements of a guard.
const GUARD: (usize, usize) = (8, 71);

/// What a slice may be of.
pub trait Element: Copy + PartialEq {
    /// Any element but zero.
    fn any(random: &mut Random) -> Self;
}

impl Element for u8 {
    fn any(random: &mut Random) -> u8 {
        random.byte().max(1)
    }
}

impl Element for u32 {
    fn any(random: &mut Random) -> u32 {
        (random.number() as u32).max(1)
    }
}

/// So many elements, none of them zero.
pub fn filled<T: Element>(random: &mut Random, count: usize) -> Vec<T> {
    (0..count).map(|_| T::any(random)).collect()
}

/// A slice to be lent, with a copy of it and of its guards as they were.
pub struct Lent<T> {
    memory: Box<[T]>,
    entry: Box<[T]>,
    before: usize,
    length: usize,
}

impl<T: Element> Lent<T> {
    /// The first element of what is lent; of the whole memory's provenance.
    pub fn pointer(&mut self) -> *mut T {
        self.memory.as_mut_ptr().wrapping_add(self.before)
    }

    pub fn length(&self) -> usize {
        self.length
    }

    /// What is lent.
    pub fn slice(&mut self) -> &mut [T] {
        &mut self.memory[self.before..self.before + self.length]
    }

    /// What is lent as it is now; the guards must be as they were.
    pub fn exit(&self, name: &str) -> Result<&[T], String> {
        let end = self.before + self.length;
        if self.memory[..self.before] != self.entry[..self.before] {
            return Err(format!("something was stored before {name}"));
        }
        if self.memory[end..] != self.entry[end..] {
            return Err(format!("something was stored behind {name}"));
        }
        Ok(&self.memory[self.before..end])
    }

    /// All is as it was.
    pub fn unchanged(&self, name: &str) -> Result<(), String> {
        match self.exit(name)? == &self.entry[self.before..self.before + self.length] {
            true => Ok(()),
            false => Err(format!("{name} was only to be read, and is changed")),
        }
    }
}

/// Lends memory.
pub struct Lender {
    random: Random,
    tight: bool,
}

impl Lender {
    /// A tight lender has no guards: each slice is an allocation of its own, so
    /// that a tool that watches memory sees every access beyond it.
    pub fn new(seed: u64, tight: bool) -> Lender {
        Lender { random: Random::new(!seed), tight }
    }

    pub fn lend<T: Element>(&mut self, contents: &[T]) -> Lent<T> {
        let [before, behind] = [0, 1].map(|_| match self.tight {
            true => 0,
            false => self.random.between(GUARD.0, GUARD.1),
        });
        let mut memory = filled(&mut self.random, before);
        memory.reserve_exact(contents.len() + behind);
        memory.extend_from_slice(contents);
        memory.extend(filled::<T>(&mut self.random, behind));
        let entry = memory.clone().into_boxed_slice();
        Lent { memory: memory.into_boxed_slice(), entry, before, length: contents.len() }
    }

    /// Is one slice to be lent twice, where two have equal contents?
    pub fn twice(&mut self) -> bool {
        self.random.chance(50)
    }
}

#[cfg(test)]
mod tests {
    use super::*;

    /// Memory for three bytes, one byte of which is changed, so far from them.
    fn stored_at(offset: isize) -> Lent<u8> {
        let mut lent = Lender::new(1, false).lend(&[1, 2, 3]);
        let place = lent.before as isize + offset;
        lent.memory[place as usize] ^= 1;
        lent
    }

    /// What is said of a byte stored so far from the three, outside them.
    fn told(offset: isize) -> String {
        stored_at(offset).exit("it").expect_err("a guard is changed")
    }

    #[test]
    fn guards_show_what_was_stored_outside() {
        for offset in [-8, -1] {
            assert!(told(offset).contains("before"));
        }
        for offset in [3, 10] {
            assert!(told(offset).contains("behind"));
        }
    }

    #[test]
    fn what_is_lent_may_be_changed_unless_it_is_only_read() {
        let lent = stored_at(0);
        assert_eq!(lent.exit("it"), Ok(&[0, 2, 3][..]));
        assert!(lent.unchanged("it").is_err());
    }

    #[test]
    fn a_tight_lender_lends_the_whole_allocation() {
        let lent = Lender::new(1, true).lend(&[1u32, 2, 3]);
        assert_eq!(*lent.memory, [1, 2, 3]);
        assert_eq!(lent.unchanged("it"), Ok(()));
    }
}
