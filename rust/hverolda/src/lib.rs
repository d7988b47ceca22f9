//! Judges one EDIFACT interchange by the rules of ISO 9735, reads its values,
//! writes interchanges, makes a normal form, and says whether two interchanges
//! are the same. The work is done by a library that is proved to do it; this
//! crate lends it slices and gives its answers the types of Rust.
//!
//! Every function takes any bytes, of any length, and answers for each: what
//! was asked, or a [`Refusal`] with its number and place. [`keep`] and [`part`]
//! refuse nothing: they answer a part of what they are lent, of no bytes where
//! there is none to hand back; [`pieces`] tells with each piece what stopped it. None panics on what it is given, none keeps what
//! it is lent.
//!
//! | To | lent buffers | owned |
//! |---|---|---|
//! | judge an interchange | [`judge`] | |
//! | hold its messages to a table of their structure | [`judge_by_table`] | |
//! | make its normal form | [`normalise`] | [`normal_form`] |
//! | tell two apart, keep one | [`compare`], [`keep`] | |
//! | find a component | [`locate`], [`part`] | |
//! | find sender, recipient and control reference | [`parties()`] | |
//! | read all values | [`read`] | [`values`] |
//! | write an interchange | [`write()`] | [`text_of`] |
//! | acknowledge an interchange | [`acknowledge`] | [`acknowledgement`] |
//! | put it into columns for a spreadsheet | [`export`] | [`columns()`] |
//! | and back | [`import`] | [`imported`] |
//! | keep each interchange once | [`Shelf`] | [`Shelf`] |
//! | the same in a file | | [`ShelfFile`](shelf_file::ShelfFile) |
//! | cut a mailbox file into its interchanges | [`pieces`], [`piece`] | |
//! | count what a mailbox file holds | [`report()`] | |
//! | go through its segments where they stand | [`opened`] | |
//! | say what was found where it is refused, and what would do | | [`explain()`] |
//! | make a table of message structures from a text | | [`Table`] |
//!
//! ```
//! let first = b"UNB+UNOA:1+AA+BB+260105:0930+R1'UNH+1+ORDERS:1:901:UN'\
//!     BGM+220+A?+B'UNT+3+1'UNZ+1+R1'";
//! let second = b"UNA;*.! ~UNB*UNOA;1*AA*BB*260105;0930*R1~UNH*1*ORDERS;1;901;UN~\
//!     BGM*220*A+B~UNT*3*1~UNZ*1*R1~";
//! assert_eq!(hverolda::compare(first, second), Ok(hverolda::Comparison::Same));
//! assert_eq!(hverolda::keep(first, second), first);
//! ```
//!
//! Carriage returns and line feeds directly after a segment's terminator or after
//! the service string advice are passed over, however many: an interchange with
//! one segment a line is the same as the one without. Anywhere else they are
//! refused as any such byte is.
//!
//! [`compare`] and [`keep`] take up to 66,400 bytes of stack, [`Shelf::put`] 34,300,
//! all others less than 10,000: a stack of 96 KB is enough for a thread that calls
//! them. What [`write()`] can cost stands there.
//!
//! It links libhverolda: the one that `HVEROLDA_LIB_DIR` names the folder of; or else that of
//! `tools/library`, which proves it and writes `target/lib/libhverolda.a` in the root of the
//! project; or else the installed one (Debian: libhverolda-dev), which `pkg-config` finds.

#![deny(missing_docs)]
#![deny(unsafe_code)]

mod acknowledging;
mod columns;
mod comparing;
mod cutting;
mod explain;
mod judging;
mod locating;
mod normalising;
mod parties;
mod reading;
mod refusal;
mod reporting;
mod segments;
mod shelf;
pub mod shelf_file;
mod table;
mod value_list;
mod words;
mod writing;

#[cfg(feature = "surface")]
pub mod surface;
#[cfg(not(feature = "surface"))]
mod surface;

pub use acknowledging::{acknowledge, acknowledgement, Lent, LentList};
pub use columns::{columns, export, import, imported};
pub use comparing::{compare, keep, Comparison, ComparisonRefused, Which};
pub use cutting::{piece, pieces, Piece, PieceEnd, Pieces};
pub use explain::{
    explain, explain_by_table, explain_columns, explain_list, faults, header, unjudged, Explanation,
};
pub use judging::{judge, judge_by_table, Interchange, ServiceCharacters};
pub use locating::{locate, part};
pub use normalising::{normal_form, normalise};
pub use parties::{parties, Parties};
pub use reading::{read, values, Listing};
pub use refusal::{Fault, Refusal};
pub use reporting::{report, Report};
pub use segments::{opened, Element, Opened, Repeat, Segment, Segments, Value};
pub use shelf::{Shelf, Shelved, Slots, Sums};
pub use table::{Table, TableFault};
pub use value_list::{Kind, UnknownKind, ValueList, Values};
#[doc(hidden)]
pub use words::c_file;
pub use words::{words, Words};
pub use writing::{text_of, write};

/// The longest input, text and normal form, in bytes (refusals 1 and 13).
pub const LONGEST: usize = 32_000;

/// The longest table that [`write()`] takes, in numbers (refusal 15).
pub const LONGEST_TABLE: usize = 96_000;

/// The most entries of a table that [`judge_by_table`] takes, eight bytes each (refusal
/// 21).
pub const MOST_ENTRIES: usize = 999;

/// How many texts a shelf keeps at most.
pub const SLOTS: usize = 64;

/// The fewest bytes of a shelf: those of one that can keep no text.
pub const SMALLEST_SHELF: usize = 533;

/// The most bytes of a shelf.
pub const LARGEST_SHELF: usize = 65_536;

/// The most duplicates that a shelf tells: there the figure stays.
pub const MOST_DUPLICATES: u32 = 4_294_967_295;

/// The longest mailbox file that [`report()`] takes, in bytes (its refusal 1).
pub const LONGEST_FILE: usize = 65_536;

/// The number of the rules that this crate was written for. It rises with each
/// change of an answer: whoever stores verdicts or normal forms stores it beside
/// them, and sees when they are old. See [`rules()`].
pub const RULES: u32 = 5;

/// The number of the rules that the linked archive follows. Where it is not
/// [`RULES`], the archive is not this crate's, and nothing else is to be called; a
/// [`Fault`] or a [`Kind`] of a newer one may be one that this crate does not know.
///
/// ```
/// assert_eq!(hverolda::rules(), hverolda::RULES);
/// ```
#[must_use]
pub fn rules() -> u32 {
    surface::rules()
}

/// What the linked library is: its version, its rules, the commit that it was made from, and the
/// toolchain that proved and compiled it. Nothing is proved of what this says.
///
/// ```
/// assert!(hverolda::version().starts_with("hverolda 1."));
/// ```
#[must_use]
pub fn version() -> &'static str {
    surface::version()
}

/// The example of the paper and its neighbours, for the tests.
#[cfg(test)]
mod examples {
    pub const X: &[u8] = b"UNB+UNOA:1+AA+BB+260105:0930+R1'UNH+1+ORDERS:1:901:UN'\
        BGM+220+A?+B'UNT+3+1'UNZ+1+R1'";
    pub const RESPELLED: &[u8] = b"UNA;*.! ~UNB*UNOA;1*AA*BB*260105;0930*R1~\
        UNH*1*ORDERS;1;901;UN~BGM*220*A+B~UNT*3*1~UNZ*1*R1~";
    pub const NORMAL: &[u8] = b"UNA:+.? 'UNB+UNOA:1+AA+BB+260105:0930+R1'\
        UNH+1+ORDERS:1:901:UN'BGM+220+A?+B'UNT+3+1'UNZ+1+R1'";
    pub const WRONG_COUNT: &[u8] = b"UNB+UNOA:1+AA+BB+260105:0930+R1'UNH+1+ORDERS:1:901:UN'\
        BGM+220+A?+B'UNT+4+1'UNZ+1+R1'";
    pub const REPEATED: &[u8] = b"UNB+UNOB:4+AA+BB+20260105:0930+R1'UNH+1+ORDERS:1:901:UN'\
        RFF+ON:1*ON:2'UNT+3+1'UNZ+1+R1'";
}
