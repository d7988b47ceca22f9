//! By which rules an interchange is judged and found: the linked library's, and SHA-256. Tests put
//! others in their place, to force what does not happen by itself.

use hverolda::Refusal;
use sha2::{Digest as _, Sha256};

use crate::error::{Error, Result};
use crate::parties::{parties, Parties};

/// The SHA-256 of a normal form, by which an interchange is found. It only finds: two interchanges
/// are the same when their normal forms are.
#[derive(Clone, Copy, PartialEq, Eq, PartialOrd, Ord, Hash)]
pub struct Digest(pub [u8; 32]);

impl Digest {
    /// The digest of these bytes as they are.
    #[must_use]
    pub fn of(bytes: &[u8]) -> Digest {
        Digest(Sha256::digest(bytes).into())
    }

    /// Reads 64 hexadecimal digits.
    #[must_use]
    pub fn read(text: &str) -> Option<Digest> {
        let digit = |byte: u8| (byte as char).to_digit(16);
        let mut digest = [0; 32];
        let digits = text.as_bytes();
        if digits.len() != 64 {
            return None;
        }
        for (byte, pair) in digest.iter_mut().zip(digits.chunks(2)) {
            *byte = (digit(pair[0])? * 16 + digit(pair[1])?) as u8;
        }
        Some(Digest(digest))
    }

    /// The digest in a column of a store.
    pub(crate) fn stored(bytes: &[u8]) -> Result<Digest> {
        let digest = bytes.try_into().map(Digest);
        digest.map_err(|_| Error::Store("a digest in the store has not 32 bytes".to_string()))
    }
}

impl std::fmt::Display for Digest {
    fn fmt(&self, f: &mut std::fmt::Formatter) -> std::fmt::Result {
        self.0.iter().try_for_each(|byte| write!(f, "{byte:02x}"))
    }
}

impl std::fmt::Debug for Digest {
    fn fmt(&self, f: &mut std::fmt::Formatter) -> std::fmt::Result {
        write!(f, "{self}")
    }
}

/// By what a mailbox judges and finds.
#[derive(Clone, Copy)]
pub struct Rules {
    /// The number that stands beside what is kept.
    pub number: u64,
    /// Puts the normal form of an interchange after what the buffer holds.
    pub form: fn(&[u8], &mut Vec<u8>) -> std::result::Result<(), Refusal>,
    /// By what a normal form is found.
    pub digest: fn(&[u8]) -> Digest,
    /// Who sent the interchange of a normal form, to whom, and its reference.
    pub parties: fn(&[u8]) -> Parties,
}

impl Rules {
    /// The linked library's.
    #[must_use]
    pub fn ours() -> Rules {
        Rules { number: hverolda::rules().into(), form, digest: Digest::of, parties }
    }
}

fn form(input: &[u8], forms: &mut Vec<u8>) -> std::result::Result<(), Refusal> {
    let start = forms.len();
    // two bytes for one, and the advice
    forms.resize(start + (2 * input.len() + 9).min(hverolda::LONGEST), 0);
    let written = hverolda::normalise(input, &mut forms[start..]);
    forms.truncate(start + *written.as_ref().unwrap_or(&0));
    written.map(drop)
}

#[cfg(test)]
mod tests {
    use super::*;

    #[test]
    fn a_digest_is_read_as_it_is_written() {
        let digest = Digest::of(b"abc");
        let text = "ba7816bf8f01cfea414140de5dae2223b00361a396177a9cb410ff61f20015ad";
        assert_eq!(digest.to_string(), text);
        assert_eq!(Digest::read(text), Some(digest));
        assert_eq!(Digest::read(&text.to_uppercase()), Some(digest));
        for wrong in ["", &text[1..], &text.replace('b', "g")] {
            assert_eq!(Digest::read(wrong), None);
        }
    }
}
