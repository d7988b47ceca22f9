//! A mailbox in which each EDIFACT interchange is kept once, however often it comes, over
//! whatever network and under whatever spelling: in an SQLite file, or in PostgreSQL.
//!
//! An interchange is found by the SHA-256 of its normal form, and is called a copy of another
//! only when the two normal forms, made by the proved library, are equal as a whole. Each call of
//! [`Mailbox::keep`] is one transaction: what it answers is on the disk. A [`Delivery`] has an
//! identity, so that a call that is repeated after its answer was lost changes nothing and is
//! answered the same.
//!
//! ```
//! use hverolda_mailbox::{Answer, Delivery, Item, Mailbox};
//!
//! let folder = tempfile::tempdir()?;
//! let place = folder.path().join("mailbox.db");
//! let mut mailbox = Mailbox::start(&place.to_string_lossy(), 0)?;
//! let first = b"UNB+UNOA:1+AA+BB+260105:0930+R1'UNH+1+ORDERS:1:901:UN'\
//!     BGM+220+A?+B'UNT+3+1'UNZ+1+R1'";
//! let second = b"UNA;*.! ~UNB*UNOA;1*AA*BB*260105;0930*R1~UNH*1*ORDERS;1;901;UN~\
//!     BGM*220*A+B~UNT*3*1~UNZ*1*R1~";
//! let answers = mailbox.keep(&[
//!     Item::new(Delivery::named("x400", "message 1")?, first),
//!     Item::new(Delivery::named("as2", "message 7")?, second),
//! ])?;
//! assert!(matches!(answers[0], Answer::New { .. }));
//! match &answers[1] {
//!     Answer::Copy { first, .. } => assert_eq!(first.network, "x400"),
//!     other => panic!("{other:?}"),
//! }
//! # Ok::<(), Box<dyn std::error::Error>>(())
//! ```

#![deny(missing_docs)]
#![deny(unsafe_code)]

mod checking;
mod delivery;
mod error;
mod files;
mod keeping;
mod libpq;
mod mailbox;
mod parties;
mod place;
mod postgresql;
mod rules;
mod searching;
mod sql;
mod sqlite;
mod watching;

#[cfg(test)]
mod tests;

pub use checking::{Check, Fault};
pub use delivery::Delivery;
pub use error::{Error, Result};
pub use files::{Keeper, Source};
pub use keeping::{Answer, First, Item};
pub use mailbox::Mailbox;
pub use parties::Parties;
pub use place::without_password;
pub use rules::Digest;
pub use searching::{Filter, Found, Listed, Report};
pub use watching::{Place, Told, Watch};

#[cfg(feature = "measure")]
#[doc(hidden)]
pub use rules::Rules;

/// The tables, as both stores make them.
pub const SCHEMA: &str = include_str!("schema.sql");

/// The number of the tables' layout, which stands in the store.
pub const LAYOUT: u64 = 1;
