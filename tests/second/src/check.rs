//! Random lists of calls through the table and through the ledger, side by side.

use crate::fragments::{Chooser, LIDS};
use crate::ledger::{Call, Entry, Ledger};
use crate::random::Random;
use crate::reassembly::{Answer, Table, MESSAGE_OCTETS, STORE_OCTETS};

const UNTOUCHED: u8 = 0xA5;
const LONGEST_LIST: usize = 600;

/// A table with its store, run call by call with watched lent octets.
pub struct TableRun {
    table: Table,
    store: Vec<u8>,
}

impl Default for TableRun {
    fn default() -> Self {
        TableRun { table: Table::default(), store: vec![UNTOUCHED; STORE_OCTETS] }
    }
}

impl TableRun {
    pub fn new() -> Self {
        Self::default()
    }

    /// The table's answer in the ledger's words, or what went wrong with lent octets.
    pub fn call(&mut self, call: &Call) -> Result<Entry, String> {
        let before = (self.table, self.store.clone());
        let entry = match call {
            Call::Fragment { lid, tick, lsdu, store, output } => {
                self.fragment(*lid, *tick, lsdu, *store, *output)?
            }
            Call::Expiry { tick, limit } => dropped(self.table.expire(*tick, *limit)),
            Call::Release { lid } => dropped(self.table.release(*lid)),
        };
        if !self.table.is_sound() {
            return Err(format!("table not sound: {:?}", self.table));
        }
        let unchanged = before == (self.table, self.store.clone());
        match entry {
            Entry::Refused(_) if !unchanged => Err("a refusal changed the table or the store".into()),
            Entry::Dropped(_) if before.1 != self.store => Err("dropping changed the store".into()),
            Entry::Whole { .. } if before.1 != self.store => Err("delivery changed the store".into()),
            Entry::Held { .. } => self.check_store(&before.1).map(|()| entry),
            _ => Ok(entry),
        }
    }

    fn fragment(
        &mut self,
        lid: u32,
        tick: u32,
        lsdu: &[u8],
        store: usize,
        room: usize,
    ) -> Result<Entry, String> {
        let mut output = vec![UNTOUCHED; room];
        let mut other = vec![UNTOUCHED; store];
        let lent = if store == STORE_OCTETS { &mut self.store } else { &mut other };
        let answer = self.table.fragment(lent, &mut output, lid, tick, lsdu);
        let written = match answer {
            Ok(Answer::Whole { octets, .. }) => octets,
            _ => 0,
        };
        if output[written..].iter().any(|octet| *octet != UNTOUCHED) {
            return Err("output written behind the message".into());
        }
        if other.iter().any(|octet| *octet != UNTOUCHED) {
            return Err("a store of wrong length was written".into());
        }
        Ok(match answer {
            Err(refusal) => Entry::Refused(refusal.number),
            Ok(Answer::Held { octets, dropped }) => Entry::Held { octets, dropped },
            Ok(Answer::Whole { dropped, .. }) => {
                Entry::Whole { message: output[..written].to_vec(), dropped }
            }
        })
    }

    /// A held fragment may change the store only where its place holds octets.
    fn check_store(&self, before: &[u8]) -> Result<(), String> {
        for (place, slot) in self.table.slots.iter().enumerate() {
            let start = place * MESSAGE_OCTETS;
            let rest = start + usize::from(slot.held)..start + MESSAGE_OCTETS;
            if before[rest.clone()] != self.store[rest] {
                return Err(format!("store changed behind the octets of place {place}"));
            }
        }
        Ok(())
    }

    pub fn held(&self) -> u64 {
        self.table.held() as u64
    }
}

fn dropped(answer: Result<usize, crate::refusal::Refusal>) -> Entry {
    match answer {
        Ok(octets) => Entry::Dropped(octets),
        Err(refusal) => Entry::Refused(refusal.number),
    }
}

/// Runs `lists` random lists; answers the number of calls, or the first difference.
pub fn check_joining(seed: u64, lists: usize) -> Result<u64, String> {
    let mut random = Random::new(seed);
    let mut calls = 0;
    for list in 0..lists {
        calls += check_list(&mut random).map_err(|fault| format!("list {list}: {fault}"))?;
    }
    Ok(calls)
}

fn check_list(random: &mut Random) -> Result<u64, String> {
    let mut ledger = Ledger::default();
    let mut run = TableRun::new();
    let mut chooser = Chooser::default();
    let length = random.between(1, LONGEST_LIST);
    for index in 0..length {
        let call = random_call(random, &mut chooser, &ledger);
        let expected = ledger.call(&call);
        let found = run.call(&call).map_err(|fault| format!("call {index} {call:?}: {fault}"))?;
        if found != expected {
            return Err(format!("call {index} {call:?}: table {found:?}, ledger {expected:?}"));
        }
        if !ledger.balances() || run.held() != ledger.held() {
            return Err(format!("call {index} {call:?}: octets do not add up"));
        }
    }
    Ok(length as u64)
}

fn random_call(random: &mut Random, chooser: &mut Chooser, ledger: &Ledger) -> Call {
    match random.below(40) {
        0 => Call::Expiry { tick: random_tick(random), limit: random_limit(random) },
        1 => Call::Release { lid: random_lid(random) },
        _ => random_fragment(random, chooser, ledger),
    }
}

fn random_fragment(random: &mut Random, chooser: &mut Chooser, ledger: &Ledger) -> Call {
    let store = if random.one_in(50) { random.pick(&[0, 512, 4095, 4097]) } else { STORE_OCTETS };
    let output = if random.one_in(20) { random.pick(&[0, 511, 513, 600]) } else { MESSAGE_OCTETS };
    let (lid, lsdu) = chooser.fragment(random, ledger);
    let lid = if random.one_in(60) { random_lid(random) } else { lid };
    Call::Fragment { lid, tick: random_tick(random), lsdu, store, output }
}

fn random_lid(random: &mut Random) -> u32 {
    match random.below(6) {
        0 => random.pick(&[1 << 28, (1 << 28) + 1, u32::MAX]),
        1 => (1 << 28) - 1,
        _ => random.pick(&LIDS),
    }
}

fn random_tick(random: &mut Random) -> u32 {
    match random.below(8) {
        0 => random.word() as u32,
        1 => u32::MAX - random.below(50) as u32,
        _ => random.below(20) as u32,
    }
}

fn random_limit(random: &mut Random) -> u32 {
    match random.below(6) {
        0 => 0,
        1 => u32::MAX,
        2 => random.word() as u32,
        _ => random.below(20) as u32,
    }
}

#[cfg(test)]
mod tests {
    #[test]
    fn table_and_ledger_agree() {
        for seed in 0..20 {
            assert_eq!(super::check_joining(seed, 25).err(), None, "seed {seed}");
        }
    }
}
