//! Semuryeon from Rust: safe types over the proved calls of `include/semuryeon.h`.
//!
//! The only `unsafe` code is in `raw`, whose functions take slices and hand their pointers and lengths over.
//! A call answers what it did, or a [`Refusal`]; a refusal changes nothing that was lent.

#![deny(unsafe_code)]

mod answer;
mod attributes;
mod bench;
mod header;
mod link;
mod messages;
mod table;

#[allow(unsafe_code)]
pub mod raw;

pub use answer::{Answer, Refusal};
pub use attributes::{Area, Directory, Found, Identity, Row};
pub use bench::{Bench, TEXT_OCTETS};
pub use header::{read_header, write_header, Header};
pub use link::{Configuration, Element, Equipment, Heard, Link, LINK_WORDS};
pub use messages::{check, rewrite, string, Field, Kind};
pub use table::{Joined, Table, OUTPUT_OCTETS, STORE_OCTETS, TABLE_WORDS};
