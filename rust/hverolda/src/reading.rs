//! Read: the values of an interchange, without their release characters.

use crate::refusal::Refusal;
use crate::value_list::ValueList;
use crate::{surface, LONGEST};

/// How much of the two lent buffers Read has filled.
#[derive(Clone, Copy, Debug, PartialEq, Eq, Hash)]
pub struct Listing {
    /// Bytes of values.
    pub bytes: usize,
    /// Numbers of the table, three a value.
    pub numbers: usize,
}

/// Stores the values of an interchange, end to end, in `bytes` and a record of
/// three numbers for each in `table`: its kind (0 new segment, 1 new element, 3
/// next repeat, 2 next component), where it starts and how long it is. What is
/// not filled, and all where it is refused, keeps its values.
///
/// # Errors
///
/// Where the input is refused, as [`judge`](crate::judge) refuses it; and 14
/// where a buffer is too short: `bytes` with the bytes needed, or else `table`
/// with the numbers needed.
///
/// ```
/// let input = b"UNB+UNOA:1++++1'UNH+1'UNT+2+1'UNZ+1+1'";
/// let (mut bytes, mut table) = ([0; 64], [0; 64]);
/// let listing = hverolda::read(input, &mut bytes, &mut table)?;
/// assert_eq!(&bytes[..listing.bytes], b"UNBUNOA11UNH1UNT21UNZ11");
/// assert_eq!(table[..9], [0, 0, 3, 1, 3, 4, 2, 7, 1]);
///
/// let input = b"UNB+UNOB:4+AA*BB+++1'UNH+1'UNT+2+1'UNZ+1+1'";
/// hverolda::read(input, &mut bytes, &mut table)?;
/// assert_eq!(table[9..15], [1, 8, 2, 3, 10, 2]);
/// # Ok::<(), hverolda::Refusal>(())
/// ```
pub fn read(input: &[u8], bytes: &mut [u8], table: &mut [u32]) -> Result<Listing, Refusal> {
    let listing = surface::read(input, bytes, table);
    Refusal::told(listing.number, listing.place)?;
    Ok(Listing { bytes: listing.bytes, numbers: listing.numbers })
}

/// The values of an interchange.
///
/// # Errors
///
/// Where the input is refused, as [`judge`](crate::judge) refuses it.
///
/// ```
/// use hverolda::Kind;
///
/// let list = hverolda::values(b"UNB+UNOA:1+O?'HARA+++1'UNH+1'UNT+2+1'UNZ+1+1'")?;
/// let sender = list.iter().nth(3);
/// assert_eq!(sender, Some((Kind::NewElement, &b"O'HARA"[..])));
/// # Ok::<(), hverolda::Refusal>(())
/// ```
pub fn values(input: &[u8]) -> Result<ValueList, Refusal> {
    // a value has at least the byte that ends it
    let most = input.len().min(LONGEST);
    let (mut bytes, mut table) = (vec![0; most], vec![0; 3 * most]);
    let listing = read(input, &mut bytes, &mut table)?;
    bytes.truncate(listing.bytes);
    table.truncate(listing.numbers);
    Ok(ValueList::of_parts(bytes, table))
}

#[cfg(test)]
mod tests {
    use super::*;
    use crate::examples::{REPEATED, RESPELLED, WRONG_COUNT, X};
    use crate::{Fault, Kind};

    #[test]
    fn values_have_no_release_characters() {
        let list = values(X).unwrap();
        assert_eq!(list.len(), 23);
        assert!(list.iter().any(|value| value == (Kind::NewElement, b"A+B")));
        assert_eq!(values(RESPELLED), Ok(list));
    }

    #[test]
    fn repeats_have_a_kind_of_their_own() {
        let list = values(REPEATED).unwrap();
        let kinds: Vec<_> = list.iter().skip_while(|value| value.1 != b"RFF").take(5).collect();
        let told: [(Kind, &[u8]); 5] = [
            (Kind::NewSegment, b"RFF"),
            (Kind::NewElement, b"ON"),
            (Kind::NextComponent, b"1"),
            (Kind::NextRepeat, b"ON"),
            (Kind::NextComponent, b"2"),
        ];
        assert_eq!(kinds, told);
    }

    #[test]
    fn the_byte_buffer_is_asked_for_before_the_table() {
        let list = values(X).unwrap();
        let (bytes, numbers) = (list.bytes().len(), list.table().len());
        let refused = |place| Err(Refusal { fault: Fault::Buffer, place });
        let into = |bytes, numbers| read(X, &mut vec![7; bytes], &mut vec![7; numbers]);
        assert_eq!(into(bytes - 1, 0), refused(bytes));
        assert_eq!(into(bytes, numbers - 1), refused(numbers));
        assert_eq!(into(bytes, numbers), Ok(Listing { bytes, numbers }));
    }

    #[test]
    fn what_is_not_filled_keeps_its_values() {
        let (mut bytes, mut table) = ([7; 100], [7; 100]);
        let listing = read(X, &mut bytes, &mut table).unwrap();
        assert!(bytes[listing.bytes..].iter().all(|&byte| byte == 7));
        assert!(table[listing.numbers..].iter().all(|&number| number == 7));
    }

    #[test]
    fn what_is_refused_fills_nothing() {
        let (mut bytes, mut table) = ([7; 100], [7; 100]);
        let refused = Err(Refusal { fault: Fault::Count, place: 67 });
        assert_eq!(read(WRONG_COUNT, &mut bytes, &mut table), refused);
        assert_eq!((bytes, table), ([7; 100], [7; 100]));
        assert!(values(b"").is_err());
    }
}
