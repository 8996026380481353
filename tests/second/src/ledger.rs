//! The ledger: what a list of calls has to answer, told without table or store.
//! It keeps the payloads of the open messages and nothing else.

use crate::header;
use crate::refusal::*;

const KEPT_AT_MOST: usize = 8;

/// All that the ledger sees of a call.
#[derive(Clone, Debug)]
pub enum Call {
    Fragment { lid: u32, tick: u32, lsdu: Vec<u8>, store: usize, output: usize },
    Expiry { tick: u32, limit: u32 },
    Release { lid: u32 },
}

#[derive(Clone, Debug, PartialEq, Eq)]
pub enum Entry {
    Held { octets: usize, dropped: usize },
    Whole { message: Vec<u8>, dropped: usize },
    Dropped(usize),
    Refused(u8),
}

#[derive(Clone, Debug)]
struct Kept {
    pair: (u32, u8),
    begun: u32,
    payloads: Vec<Vec<u8>>,
}

#[derive(Clone, Debug, Default)]
pub struct Ledger {
    kept: Vec<Kept>,
    pub accepted: u64,
    pub delivered: u64,
    pub dropped: u64,
}

impl Kept {
    fn octets(&self) -> usize {
        self.payloads.iter().map(Vec::len).sum()
    }
}

impl Ledger {
    pub fn call(&mut self, call: &Call) -> Entry {
        match call {
            Call::Fragment { lid, tick, lsdu, store, output } => {
                if *store != 4096 || *output < 512 {
                    return Entry::Refused(LENT_LENGTHS);
                }
                self.fragment(*lid, *tick, lsdu)
            }
            Call::Expiry { tick, limit } => {
                Entry::Dropped(self.drop_where(|kept| tick.wrapping_sub(kept.begun) >= *limit))
            }
            Call::Release { lid } if *lid >= 1 << 28 => Entry::Refused(LID_RANGE),
            Call::Release { lid } => Entry::Dropped(self.drop_where(|kept| kept.pair.0 == *lid)),
        }
    }

    /// A fragment call with a store and an output of fitting lengths.
    pub fn fragment(&mut self, lid: u32, tick: u32, lsdu: &[u8]) -> Entry {
        if let Some(number) = self.first_check_to_hold(lid, lsdu) {
            return Entry::Refused(number);
        }
        let Ok(header) = header::read(lsdu) else {
            return Entry::Refused(HEADER);
        };
        let pair = (lid, header.number);
        let payload = lsdu[header.length..].to_vec();
        self.accepted += payload.len() as u64;
        let mut dropped = 0;
        if header.counter == 0 {
            dropped = self.drop_where(|kept| kept.pair == pair);
            self.kept.push(Kept { pair, begun: tick, payloads: Vec::new() });
        }
        let Some(place) = self.kept.iter().position(|kept| kept.pair == pair) else {
            return Entry::Refused(NOT_OPEN);
        };
        self.kept[place].payloads.push(payload);
        if !header.last {
            return Entry::Held { octets: self.kept[place].octets(), dropped };
        }
        let message = self.kept.remove(place).payloads.concat();
        self.delivered += message.len() as u64;
        Entry::Whole { message, dropped }
    }

    /// The first of checks 3 to 12 that holds.
    fn first_check_to_hold(&self, lid: u32, lsdu: &[u8]) -> Option<u8> {
        if lid >= 1 << 28 {
            return Some(LID_RANGE);
        }
        if !(1..=128).contains(&lsdu.len()) {
            return Some(LSDU_LENGTH);
        }
        let Ok(header) = header::read(lsdu) else {
            return Some(HEADER);
        };
        let open = self.kept.iter().find(|kept| kept.pair == (lid, header.number));
        let counter = usize::from(header.counter);
        let expected = open.map(|kept| kept.payloads.len());
        let held = if counter == 0 { 0 } else { open.map_or(0, Kept::octets) };
        let payload = lsdu.len() - header.length;
        let full = self.kept.len() == KEPT_AT_MOST;
        let checks = [
            (PDU_NUMBER, header.number <= 1),
            (NO_PAYLOAD, payload == 0),
            (NOT_OPEN, counter > 0 && open.is_none()),
            (NO_PLACE, counter == 0 && !header.last && open.is_none() && full),
            (UNEXPECTED_COUNTER, open.is_some() && counter > 0 && expected != Some(counter)),
            (COUNTERS_USED_UP, counter == 65_535 && expected == Some(counter) && !header.last),
            (JOINED_TOO_LONG, held + payload > 512),
        ];
        checks.iter().find(|(_, holds)| *holds).map(|(number, _)| *number)
    }

    fn drop_where(&mut self, condition: impl Fn(&Kept) -> bool) -> usize {
        let mut octets = 0;
        self.kept.retain(|kept| {
            let goes = condition(kept);
            octets += if goes { kept.octets() } else { 0 };
            !goes
        });
        self.dropped += octets as u64;
        octets
    }

    /// Octets kept for a pair, 0 if it is not open.
    pub fn held_for(&self, lid: u32, number: u8) -> usize {
        let mut pairs = self.kept.iter();
        pairs.find(|kept| kept.pair == (lid, number)).map_or(0, Kept::octets)
    }

    /// Octets kept in all.
    pub fn held(&self) -> u64 {
        self.kept.iter().map(|kept| kept.octets() as u64).sum()
    }

    /// The open pairs, each with its expected counter and its octets.
    pub fn open(&self) -> impl Iterator<Item = ((u32, u8), usize, usize)> + '_ {
        self.kept.iter().map(|kept| (kept.pair, kept.payloads.len(), kept.octets()))
    }

    /// Nothing is lost: every accepted octet is delivered, dropped or still held.
    pub fn balances(&self) -> bool {
        self.accepted == self.delivered + self.dropped + self.held()
    }
}

#[cfg(test)]
mod tests;
