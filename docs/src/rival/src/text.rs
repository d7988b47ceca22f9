//! Where the normal form goes: a count of its bytes, or the bytes.

use crate::opening::Respelling;

pub trait Text {
    fn byte(&mut self, byte: u8);
    fn run(&mut self, bytes: &[u8]);
    /// A run whose separators and terminators become others.
    fn respelled(&mut self, bytes: &[u8], respelling: Respelling);
    fn length(&self) -> usize;

    fn bytes(&mut self, byte: u8, count: usize) {
        (0..count).for_each(|_| self.byte(byte));
    }
}

/// Judge keeps the length only.
#[derive(Default)]
pub struct Length(usize);

impl Text for Length {
    fn byte(&mut self, _: u8) {
        self.0 += 1;
    }

    fn run(&mut self, bytes: &[u8]) {
        self.0 += bytes.len();
    }

    fn respelled(&mut self, bytes: &[u8], _: Respelling) {
        self.0 += bytes.len();
    }

    fn length(&self) -> usize {
        self.0
    }
}

impl Text for Vec<u8> {
    fn byte(&mut self, byte: u8) {
        self.push(byte);
    }

    fn run(&mut self, bytes: &[u8]) {
        self.extend_from_slice(bytes);
    }

    fn respelled(&mut self, bytes: &[u8], respelling: Respelling) {
        self.extend(bytes.iter().map(|&byte| respelling.of(byte)));
    }

    fn length(&self) -> usize {
        self.len()
    }
}
