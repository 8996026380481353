//! Attributes: the directory of a tag's two areas, and its answers to requests.

use crate::answer::Refusal;
use crate::raw;

#[derive(Clone, Copy, Debug, PartialEq, Eq)]
pub enum Area {
    Factory,
    Writable,
}

/// One attribute; start and length count octets of its area.
#[derive(Clone, Copy, Debug, PartialEq, Eq)]
pub struct Row {
    pub id: u32,
    pub area: Area,
    pub start: u32,
    pub length: u32,
    pub protected: bool,
}

/// Where an attribute lies.
#[derive(Clone, Copy, Debug, PartialEq, Eq)]
pub struct Found {
    pub area: Area,
    pub start: usize,
    pub length: usize,
}

/// What requests are measured against.
#[derive(Clone, Copy, Debug)]
pub struct Identity<'a> {
    pub eid: u32,
    pub credentials: &'a [u8],
}

/// A list of rows; whether it is sound is found out by each call.
#[derive(Clone, Debug)]
pub struct Directory {
    words: Vec<u32>,
}

fn area_of(word: u32) -> Area {
    if word == 0 {
        Area::Factory
    } else {
        Area::Writable
    }
}

impl Directory {
    pub fn new(rows: &[Row]) -> Self {
        let words = |row: &Row| {
            let Row { id, area, start, length, protected } = *row;
            [id, (area == Area::Writable).into(), start, length, protected.into()]
        };
        Directory { words: rows.iter().flat_map(words).collect() }
    }

    /// Where an attribute lies in areas of so many octets, if it is known. Refuses with 26.
    pub fn lookup(&self, id: u32, factory: usize, writable: usize) -> Result<Option<Found>, Refusal> {
        let mut part = [0; 3];
        let answer = raw::lookup(id, &self.words, factory, writable, &mut part).accepted()?;
        let [area, start, length] = part;
        let found = Found { area: area_of(area), start: start as usize, length: length as usize };
        Ok((answer.kind() == 1).then_some(found))
    }

    /// Answers a request: a reply at the front of the output, or none. Refuses with 1, 26, as `check`, then with 24.
    pub fn request<'o>(
        &self,
        octets: &[u8],
        identity: Identity,
        factory: &[u8],
        writable: &mut [u8],
        output: &'o mut [u8],
    ) -> Result<Option<&'o [u8]>, Refusal> {
        let Identity { eid, credentials } = identity;
        let answer =
            raw::request(octets, eid, credentials, &self.words, factory, writable, output).accepted()?;
        Ok((answer.kind() == 1).then(|| &output[..answer.first()]))
    }
}
