//! The independent second program: the message layer of a toll tag, written from
//! the papers in plain Rust, to be compared octet for octet with the proved one.

pub mod attributes;
pub mod bench;
pub mod calls;
pub mod check;
pub mod composer;
pub mod decode;
pub mod equipment;
pub mod fragments;
pub mod header;
pub mod header_samples;
pub mod hex;
pub mod ledger;
pub mod limits;
pub mod lines;
pub mod link;
pub mod message;
pub mod random;
pub mod reading;
pub mod reassembly;
pub mod recording;
pub mod refusal;
pub mod requests;
pub mod samples;
pub mod script;
pub mod scripts;
pub mod tag;
pub mod writing;
