//! Joining fragments: a table of eight slots with its store.

use crate::answer::Refusal;
use crate::raw;

pub const TABLE_WORDS: usize = 41;
pub const STORE_OCTETS: usize = 4096;
/// The least room for a message.
pub const OUTPUT_OCTETS: usize = 512;

/// The open messages. A new one is empty.
#[derive(Clone, Debug)]
pub struct Table {
    pub(crate) words: [u32; TABLE_WORDS],
    pub(crate) store: [u8; STORE_OCTETS],
}

/// What a fragment did, and how many octets of an older message of its pair were dropped.
#[derive(Clone, Copy, Debug, PartialEq, Eq)]
pub enum Joined<'a> {
    /// So many octets are now held.
    Held {
        octets: usize,
        dropped: usize,
    },
    Whole {
        message: &'a [u8],
        dropped: usize,
    },
}

impl Table {
    pub fn new() -> Self {
        Table { words: [0; TABLE_WORDS], store: [0; STORE_OCTETS] }
    }

    /// Takes one LSDU; a whole message stands at the front of the output. Refuses with 1 to 12.
    pub fn fragment<'o>(
        &mut self,
        lid: u32,
        tick: u32,
        lsdu: &[u8],
        output: &'o mut [u8],
    ) -> Result<Joined<'o>, Refusal> {
        let answer = raw::fragment(lid, tick, lsdu, &mut self.words, &mut self.store, output).accepted()?;
        let (octets, dropped) = (answer.first(), answer.second());
        Ok(match answer.kind() {
            1 => Joined::Held { octets, dropped },
            _ => Joined::Whole { message: &output[..octets], dropped },
        })
    }

    /// Frees each slot at least `limit` ticks old; answers the octets dropped.
    pub fn expire(&mut self, tick: u32, limit: u32) -> Result<usize, Refusal> {
        raw::expire(tick, limit, &mut self.words).accepted().map(|answer| answer.first())
    }

    /// Frees each slot of one LID; answers the octets dropped. Refuses with 3.
    pub fn release(&mut self, lid: u32) -> Result<usize, Refusal> {
        raw::release(lid, &mut self.words).accepted().map(|answer| answer.first())
    }
}

impl Default for Table {
    fn default() -> Self {
        Self::new()
    }
}
