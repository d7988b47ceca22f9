//! Compare and Keep: are two interchanges the same, and which one stays?

use std::error::Error;
use std::fmt;

use crate::refusal::Refusal;
use crate::surface;

/// What Compare says of two accepted interchanges.
#[derive(Clone, Copy, Debug, PartialEq, Eq, Hash)]
pub enum Comparison {
    /// Their normal forms are equal.
    Same,
    /// They are not.
    Different,
}

/// One of two inputs.
#[derive(Clone, Copy, Debug, PartialEq, Eq, Hash)]
pub enum Which {
    /// The first.
    First,
    /// The second.
    Second,
}

impl Which {
    /// The input that a struct of the surface names by 1 or 2.
    fn told(input: u32) -> Which {
        match input {
            2 => Which::Second,
            _ => Which::First,
        }
    }
}

impl fmt::Display for Which {
    fn fmt(&self, f: &mut fmt::Formatter) -> fmt::Result {
        f.write_str(match self {
            Which::First => "first",
            Which::Second => "second",
        })
    }
}

/// A refusal of one of two inputs; the first is judged first.
#[derive(Clone, Copy, Debug, PartialEq, Eq, Hash)]
pub struct ComparisonRefused {
    /// The input that is refused.
    pub input: Which,
    /// Why, and where in it.
    pub refusal: Refusal,
}

impl fmt::Display for ComparisonRefused {
    fn fmt(&self, f: &mut fmt::Formatter) -> fmt::Result {
        write!(f, "the {} interchange is {}", self.input, self.refusal)
    }
}

impl Error for ComparisonRefused {
    fn source(&self) -> Option<&(dyn Error + 'static)> {
        Some(&self.refusal)
    }
}

/// Says whether two interchanges are the same.
///
/// # Errors
///
/// Where one of them is refused, as [`judge`](crate::judge) refuses it: the
/// first, or else the second.
///
/// ```
/// use hverolda::{compare, Comparison};
///
/// let first = b"UNB+UNOA:1++++1'UNH+1'UNT+2+1'UNZ+1+1'";
/// let padded = b"UNB+UNOA:1++++1+'UNH+1'UNT+2+1::'UNZ+1+1'";
/// let other = b"UNB+UNOA:1++++1'UNH+1'UNT+02+1'UNZ+1+1'";
/// assert_eq!(compare(first, padded), Ok(Comparison::Same));
/// assert_eq!(compare(first, other), Ok(Comparison::Different));
///
/// let refused = compare(first, b"UNB+").unwrap_err();
/// assert_eq!(
///     refused.to_string(),
///     "the second interchange is refused 5 at byte 4: the body ends inside a segment"
/// );
/// ```
pub fn compare(first: &[u8], second: &[u8]) -> Result<Comparison, ComparisonRefused> {
    let comparison = surface::compare(first, second);
    if let Err(refusal) = Refusal::told(comparison.number, comparison.place) {
        return Err(ComparisonRefused { input: Which::told(comparison.input), refusal });
    }
    Ok(match comparison.same {
        1 => Comparison::Same,
        _ => Comparison::Different,
    })
}

/// The shorter of two interchanges that are the same, the first where they are
/// equally long. Where they are not the same, or one is refused: no bytes, at
/// the beginning of the first.
///
/// ```
/// let long = b"UNB+UNOA:1++++1+'UNH+1'UNT+2+1'UNZ+1+1'";
/// let short = b"UNB+UNOA:1++++1'UNH+1'UNT+2+1'UNZ+1+1'";
/// assert_eq!(hverolda::keep(long, short), short);
/// assert_eq!(hverolda::keep(long, b"UNB+"), b"");
/// ```
#[must_use]
pub fn keep<'a>(first: &'a [u8], second: &'a [u8]) -> &'a [u8] {
    let kept = surface::keep(first, second);
    let input = match Which::told(kept.input) {
        Which::First => first,
        Which::Second => second,
    };
    &input[kept.offset..][..kept.length]
}

#[cfg(test)]
mod tests {
    use super::*;
    use crate::examples::{NORMAL, RESPELLED, WRONG_COUNT, X};
    use crate::Fault;

    #[test]
    fn respelled_is_the_same() {
        assert_eq!(compare(X, RESPELLED), Ok(Comparison::Same));
        assert_eq!(compare(RESPELLED, NORMAL), Ok(Comparison::Same));
    }

    #[test]
    fn another_mark_is_different() {
        let mut comma = RESPELLED.to_vec();
        comma[5] = b',';
        assert_eq!(compare(X, &comma), Ok(Comparison::Different));
        assert!(keep(X, &comma).is_empty());
    }

    #[test]
    fn the_first_is_judged_first() {
        let refusal = Refusal { fault: Fault::Count, place: 67 };
        let refused = |input| Err(ComparisonRefused { input, refusal });
        assert_eq!(compare(WRONG_COUNT, b""), refused(Which::First));
        assert_eq!(compare(X, WRONG_COUNT), refused(Which::Second));
        let told = compare(X, WRONG_COUNT).unwrap_err();
        assert_eq!(told.source().unwrap().to_string(), refusal.to_string());
    }

    #[test]
    fn the_shorter_is_kept_and_the_first_of_equals() {
        assert_eq!(keep(X, RESPELLED).as_ptr(), X.as_ptr());
        assert_eq!(keep(RESPELLED, X), X);
        let copy = X.to_vec();
        assert_eq!(keep(&copy, X).as_ptr(), copy.as_ptr());
        assert_eq!(keep(&copy, X), X);
    }

    #[test]
    fn a_small_stack_is_enough() {
        let asked = || (compare(X, RESPELLED), keep(RESPELLED, X).len());
        let small = std::thread::Builder::new().stack_size(96 * 1024);
        let answered = small.spawn(asked).unwrap().join().unwrap();
        assert_eq!(answered, (Ok(Comparison::Same), X.len()));
    }

    #[test]
    fn nothing_kept_stands_at_the_first_ones_beginning() {
        let kept = keep(X, WRONG_COUNT);
        assert!(kept.is_empty());
        assert_eq!(kept.as_ptr(), X.as_ptr());
        assert!(keep(b"", b"").is_empty());
    }
}
