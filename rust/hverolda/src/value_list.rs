//! Value lists: bytes and a table of three numbers a value.

use std::error::Error;
use std::fmt;
use std::slice::ChunksExact;

/// How a value goes on from the one before it.
///
/// More may come, with higher numbers.
#[derive(Clone, Copy, Debug, PartialEq, Eq, Hash)]
#[non_exhaustive]
pub enum Kind {
    /// 0: it begins a segment; it is the tag.
    NewSegment,
    /// 1: it begins an element of the segment.
    NewElement,
    /// 2: it is the next component of the repeat.
    NextComponent,
    /// 3: it begins the next repeat of the element, in version 4.
    NextRepeat,
    /// A number above these, which only an archive that is newer than this crate
    /// reads; see [`rules`](crate::rules()).
    Unknown(u32),
}

impl From<Kind> for u32 {
    fn from(kind: Kind) -> u32 {
        match kind {
            Kind::NewSegment => 0,
            Kind::NewElement => 1,
            Kind::NextComponent => 2,
            Kind::NextRepeat => 3,
            Kind::Unknown(number) => number,
        }
    }
}

/// The kind that a table's number names.
///
/// ```
/// use hverolda::Kind;
///
/// assert_eq!(Kind::try_from(1), Ok(Kind::NewElement));
/// assert_eq!(Kind::try_from(4).unwrap_err().to_string(), "no value is of kind 4");
/// ```
impl TryFrom<u32> for Kind {
    type Error = UnknownKind;

    fn try_from(number: u32) -> Result<Kind, UnknownKind> {
        match number {
            0 => Ok(Kind::NewSegment),
            1 => Ok(Kind::NewElement),
            2 => Ok(Kind::NextComponent),
            3 => Ok(Kind::NextRepeat),
            other => Err(UnknownKind(other)),
        }
    }
}

/// A number that no [`Kind`] has.
#[derive(Clone, Copy, Debug, PartialEq, Eq, Hash)]
pub struct UnknownKind(pub u32);

impl fmt::Display for UnknownKind {
    fn fmt(&self, f: &mut fmt::Formatter) -> fmt::Result {
        write!(f, "no value is of kind {}", self.0)
    }
}

impl Error for UnknownKind {}

/// A list of values that owns its bytes and its table. The values of an
/// interchange come from [`values`](crate::values); a list of one's own is
/// pushed together, or collected.
///
/// ```
/// use hverolda::{Kind, ValueList};
///
/// let mut list = ValueList::new();
/// list.push(Kind::NewSegment, "BGM");
/// list.push(Kind::NewElement, "220");
/// list.push(Kind::NextComponent, "A+B");
/// assert_eq!(list.bytes(), b"BGM220A+B");
/// assert_eq!(list.table(), [0, 0, 3, 1, 3, 3, 2, 6, 3]);
/// assert_eq!(list.iter().last(), Some((Kind::NextComponent, &b"A+B"[..])));
///
/// let tags: ValueList = ["UNB", "UNZ"].map(|tag| (Kind::NewSegment, tag)).into_iter().collect();
/// assert_eq!(tags.bytes(), b"UNBUNZ");
/// ```
#[derive(Clone, Default, PartialEq, Eq, Hash)]
pub struct ValueList {
    bytes: Vec<u8>,
    table: Vec<u32>,
}

impl ValueList {
    /// A list of no values.
    #[must_use]
    pub fn new() -> ValueList {
        ValueList::default()
    }

    /// The list of one element with these components, of which the first is of kind 0, as
    /// [`acknowledge`](crate::acknowledge()) is lent it. A further repeat is pushed.
    ///
    /// ```
    /// use hverolda::ValueList;
    ///
    /// let list = ValueList::element(["261115", "0842"]);
    /// assert_eq!(list.bytes(), b"2611150842");
    /// assert_eq!(list.table(), [0, 0, 6, 2, 6, 4]);
    /// ```
    pub fn element<V: AsRef<[u8]>>(components: impl IntoIterator<Item = V>) -> ValueList {
        let mut list = ValueList::new();
        for value in components {
            let kind = if list.is_empty() { Kind::NewSegment } else { Kind::NextComponent };
            list.push(kind, value);
        }
        list
    }

    /// The list that Read stored.
    pub(crate) fn of_parts(bytes: Vec<u8>, table: Vec<u32>) -> ValueList {
        ValueList { bytes, table }
    }

    /// Adds a value at the end, as it is: nothing in it is to be released.
    ///
    /// # Panics
    ///
    /// Where the values would have more bytes together than 32 bits can count.
    pub fn push(&mut self, kind: Kind, value: impl AsRef<[u8]>) {
        let value = value.as_ref();
        let start = self.bytes.len();
        let number = |count: usize| u32::try_from(count).expect("a list's bytes fit 32 bits");
        number(start + value.len());
        self.table.extend([kind.into(), number(start), number(value.len())]);
        self.bytes.extend_from_slice(value);
    }

    /// The bytes of all values, end to end.
    #[must_use]
    pub fn bytes(&self) -> &[u8] {
        &self.bytes
    }

    /// Three numbers a value: its kind, where it starts, how long it is.
    #[must_use]
    pub fn table(&self) -> &[u32] {
        &self.table
    }

    /// The number of values.
    #[must_use]
    pub fn len(&self) -> usize {
        self.table.len() / 3
    }

    /// Are there no values?
    #[must_use]
    pub fn is_empty(&self) -> bool {
        self.table.is_empty()
    }

    /// The values in their order, each with its kind.
    pub fn iter(&self) -> Values<'_> {
        Values { bytes: &self.bytes, records: self.table.chunks_exact(3) }
    }
}

impl fmt::Debug for ValueList {
    fn fmt(&self, f: &mut fmt::Formatter) -> fmt::Result {
        let told = |(kind, value): (Kind, &[u8])| (kind, value.escape_ascii().to_string());
        f.debug_list().entries(self.iter().map(told)).finish()
    }
}

/// Pushes each value at the end.
impl<V: AsRef<[u8]>> Extend<(Kind, V)> for ValueList {
    fn extend<I: IntoIterator<Item = (Kind, V)>>(&mut self, values: I) {
        values.into_iter().for_each(|(kind, value)| self.push(kind, value));
    }
}

impl<V: AsRef<[u8]>> FromIterator<(Kind, V)> for ValueList {
    fn from_iter<I: IntoIterator<Item = (Kind, V)>>(values: I) -> ValueList {
        let mut list = ValueList::new();
        list.extend(values);
        list
    }
}

impl<'a> IntoIterator for &'a ValueList {
    type Item = (Kind, &'a [u8]);
    type IntoIter = Values<'a>;

    fn into_iter(self) -> Values<'a> {
        self.iter()
    }
}

/// Goes through the values of a list.
#[derive(Clone, Debug)]
#[must_use]
pub struct Values<'a> {
    bytes: &'a [u8],
    records: ChunksExact<'a, u32>,
}

impl<'a> Iterator for Values<'a> {
    type Item = (Kind, &'a [u8]);

    fn next(&mut self) -> Option<(Kind, &'a [u8])> {
        let record = self.records.next()?;
        let (start, length) = (record[1] as usize, record[2] as usize);
        let kind = Kind::try_from(record[0]).unwrap_or_else(|unknown| Kind::Unknown(unknown.0));
        Some((kind, &self.bytes[start..][..length]))
    }

    fn size_hint(&self) -> (usize, Option<usize>) {
        self.records.size_hint()
    }
}

impl ExactSizeIterator for Values<'_> {}

#[cfg(test)]
mod tests {
    use super::*;

    #[test]
    fn values_come_back_as_they_were_pushed() {
        let pushed: [(Kind, &[u8]); 4] = [
            (Kind::NewSegment, b"UNB"),
            (Kind::NewElement, b""),
            (Kind::NextComponent, b"+'?"),
            (Kind::NewSegment, b"UNZ"),
        ];
        let mut list = ValueList::new();
        assert!(list.is_empty());
        for (kind, value) in pushed {
            list.push(kind, value);
        }
        assert_eq!(list.len(), 4);
        assert_eq!(list.iter().len(), 4);
        assert!(list.iter().eq(pushed));
        assert!((&list).into_iter().eq(pushed));
        assert!(format!("{list:?}").contains("NextComponent"));
    }

    #[test]
    fn a_collected_list_is_the_pushed_one() {
        let pushed = [(Kind::NewSegment, "UNB"), (Kind::NewElement, ""), (Kind::NewElement, "A")];
        let mut list = ValueList::new();
        for (kind, value) in pushed {
            list.push(kind, value);
        }
        assert_eq!(pushed.into_iter().collect::<ValueList>(), list);
        assert_eq!(list.iter().collect::<ValueList>(), list);
        let mut twice = list.clone();
        twice.extend(&list);
        assert_eq!(twice.len(), 6);
        assert_eq!(twice.bytes(), b"UNBAUNBA");
    }

    #[test]
    fn a_kind_of_a_newer_archive_is_told() {
        let list = ValueList::of_parts(b"UNBA".to_vec(), vec![0, 0, 3, 4, 3, 1]);
        assert_eq!(list.iter().last(), Some((Kind::Unknown(4), &b"A"[..])));
        assert_eq!(list.iter().collect::<ValueList>(), list);
    }

    #[test]
    fn the_kinds_are_zero_to_three() {
        for number in 0..4 {
            assert_eq!(Kind::try_from(number).map(u32::from), Ok(number));
        }
        for number in [4, 256, u32::MAX] {
            assert_eq!(Kind::try_from(number), Err(UnknownKind(number)));
        }
    }
}
