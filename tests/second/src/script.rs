//! The lines of a script for the tag: set-up lines and calls.

use crate::attributes::{Area, Row};
use crate::bench::{decimal, parse_lid};
use crate::hex;
use crate::link::Configuration;

pub const LINE_LIMIT: usize = 2048;
const LID_DIGITS: usize = 8;

#[derive(Clone, Debug, PartialEq, Eq)]
pub enum Line {
    SetUp(SetUp),
    Call(Call),
}

#[derive(Clone, Debug, PartialEq, Eq)]
pub enum SetUp {
    Configuration(Configuration),
    Element { eid: u32, aid: u32, mark: Vec<u8> },
    Eid(u32),
    Credentials(Vec<u8>),
    Factory(Vec<u8>),
    Writable(Vec<u8>),
    Row(Row),
}

#[derive(Clone, Debug, PartialEq, Eq)]
pub enum Call {
    Bst { tick: u32, lid: u32, octets: Vec<u8> },
    Release(u32),
    Tick(u32),
    Request(Vec<u8>),
    Lookup(u32),
    Show,
}

/// Reads a line, or answers nothing if it is not of these forms. Numbers are
/// taken whatever the call will say of them.
pub fn parse(line: &[u8]) -> Option<Line> {
    if line.len() > LINE_LIMIT {
        return None;
    }
    let words: Vec<&[u8]> = line.split(|character| *character == b' ').collect();
    set_up(&words).map(Line::SetUp).or_else(|| call(&words).map(Line::Call))
}

fn set_up(words: &[&[u8]]) -> Option<SetUp> {
    Some(match words {
        [b"config", class, maker, status] => SetUp::Configuration(Configuration {
            class: decimal(class)?,
            maker: decimal(maker)?,
            status: decimal(status)?,
        }),
        [b"element", eid, aid, mark] => {
            SetUp::Element { eid: decimal(eid)?, aid: decimal(aid)?, mark: hex::read_all(mark)? }
        }
        [b"eid", eid] => SetUp::Eid(decimal(eid)?),
        [b"credentials", octets] => SetUp::Credentials(hex::read_all(octets)?),
        [b"factory", octets] => SetUp::Factory(hex::read_all(octets)?),
        [b"writable", octets] => SetUp::Writable(hex::read_all(octets)?),
        [b"row", id, area, start, length, access] => SetUp::Row(Row {
            id: decimal(id)?,
            area: parse_area(area)?,
            start: decimal(start)?,
            length: decimal(length)?,
            protected: parse_access(access)?,
        }),
        _ => return None,
    })
}

fn call(words: &[&[u8]]) -> Option<Call> {
    Some(match words {
        [b"bst", tick, lid, octets] => {
            Call::Bst { tick: decimal(tick)?, lid: short_lid(lid)?, octets: hex::read_all(octets)? }
        }
        [b"release", lid] => Call::Release(short_lid(lid)?),
        [b"tick", tick] => Call::Tick(decimal(tick)?),
        [b"request", octets] => Call::Request(hex::read_all(octets)?),
        [b"lookup", id] => Call::Lookup(decimal(id)?),
        [b"show"] => Call::Show,
        _ => return None,
    })
}

/// A LID of 1 to 8 hex digits.
fn short_lid(digits: &[u8]) -> Option<u32> {
    let fits = (1..=LID_DIGITS).contains(&digits.len());
    fits.then(|| parse_lid(digits))?
}

fn parse_area(word: &[u8]) -> Option<Area> {
    match word {
        b"factory" => Some(Area::Factory),
        b"writable" => Some(Area::Writable),
        _ => None,
    }
}

/// Whether the row is protected.
fn parse_access(word: &[u8]) -> Option<bool> {
    match word {
        b"protected" => Some(true),
        b"open" => Some(false),
        _ => None,
    }
}

#[cfg(test)]
mod tests;
