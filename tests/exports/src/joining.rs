//! Fragment, expiry and release calls.

use second::fragments::{Chooser, LIDS};
use second::ledger::{Call, Entry, Ledger};
use second::random::Random;
use second::reassembly::{self, MESSAGE_OCTETS, STORE_OCTETS};
use semuryeon::{raw, Answer};

use crate::arbitrary;
use crate::expected::{kept_if_refused, number_or_refused, packed, refused, same};
use crate::states::{table_of, table_words};

const LONGEST_LIST: usize = 600;

/// What a call gets lent, and what it leaves.
#[derive(Clone, Debug, PartialEq)]
struct Lent {
    table: Vec<u32>,
    store: Vec<u8>,
    output: Vec<u8>,
}

fn archive(call: &Call, lent: &mut Lent) -> Answer {
    match call {
        Call::Fragment { lid, tick, lsdu, .. } => {
            raw::fragment(*lid, *tick, lsdu, &mut lent.table, &mut lent.store, &mut lent.output)
        }
        Call::Expiry { tick, limit } => raw::expire(*tick, *limit, &mut lent.table),
        Call::Release { lid } => raw::release(*lid, &mut lent.table),
    }
}

fn second(call: &Call, lent: &mut Lent) -> Answer {
    let mut table = table_of(&lent.table);
    let answer = match call {
        Call::Fragment { lid, tick, lsdu, .. } => {
            match table.fragment(&mut lent.store, &mut lent.output, *lid, *tick, lsdu) {
                Ok(reassembly::Answer::Held { octets, dropped }) => packed(1, octets, dropped),
                Ok(reassembly::Answer::Whole { octets, dropped }) => packed(2, octets, dropped),
                Err(refusal) => refused(refusal),
            }
        }
        Call::Expiry { tick, limit } => number_or_refused(table.expire(*tick, *limit)),
        Call::Release { lid } => number_or_refused(table.release(*lid)),
    };
    if answer.refusal() == 0 {
        lent.table = table_words(&table);
    }
    answer
}

/// Both programs on the same lent words and octets; answers the archive's answer.
fn compare(call: &Call, lent: &mut Lent) -> Result<Answer, String> {
    let (before, mut expected) = (lent.clone(), lent.clone());
    let answer = archive(call, lent);
    let name = || format!("{call:X?} on table {:X?}", before.table);
    same(&name(), &answer, &second(call, &mut expected))?;
    same(&name(), lent, &expected)?;
    kept_if_refused(answer, &before, lent)?;
    Ok(answer)
}

/// Whether an answer is the ledger's.
fn agrees(answer: Answer, lent: &Lent, entry: &Entry) -> bool {
    match entry {
        Entry::Held { octets, dropped } => answer == packed(1, *octets, *dropped),
        Entry::Whole { message, dropped } => {
            answer == packed(2, message.len(), *dropped) && lent.output.starts_with(message)
        }
        Entry::Dropped(octets) => answer == packed(0, *octets, 0),
        Entry::Refused(number) => answer.refusal() == *number,
    }
}

fn tick(random: &mut Random) -> u32 {
    match random.below(8) {
        0 => random.word() as u32,
        1 => u32::MAX - random.below(50) as u32,
        _ => random.below(20) as u32,
    }
}

fn lid(random: &mut Random) -> u32 {
    if random.one_in(5) {
        arbitrary::word(random)
    } else {
        random.pick(&LIDS)
    }
}

fn call(random: &mut Random, chooser: &mut Chooser, ledger: &Ledger) -> Call {
    match random.below(40) {
        0 => Call::Expiry { tick: tick(random), limit: arbitrary::word(random) },
        1 => Call::Release { lid: lid(random) },
        _ => {
            let (lid, lsdu) = chooser.fragment(random, ledger);
            let store = if random.one_in(50) { random.pick(&[0, 512, 4095, 4097]) } else { STORE_OCTETS };
            let output = if random.one_in(20) { random.pick(&[0, 511, 513, 600]) } else { MESSAGE_OCTETS };
            Call::Fragment { lid, tick: tick(random), lsdu, store, output }
        }
    }
}

/// A list of calls on one table, with a ledger beside it.
fn list(random: &mut Random, length: usize) -> Result<(), String> {
    let (mut ledger, mut chooser) = (Ledger::default(), Chooser::default());
    let mut table = vec![0; 41];
    let mut kept = random.octets(STORE_OCTETS);
    for _ in 0..length {
        let call = call(random, &mut chooser, &ledger);
        let (store, room) = match call {
            Call::Fragment { store, output, .. } => (store, output),
            _ => (STORE_OCTETS, MESSAGE_OCTETS),
        };
        let whole = store == STORE_OCTETS;
        let store = if whole { kept.clone() } else { random.octets(store) };
        let mut lent = Lent { table, store, output: vec![random.octet(); room] };
        let answer = compare(&call, &mut lent)?;
        let entry = ledger.call(&call);
        if !agrees(answer, &lent, &entry) || !ledger.balances() {
            return Err(format!("{call:X?}: found {answer:X?}, ledger {entry:X?}"));
        }
        kept = if whole { lent.store } else { kept };
        table = lent.table;
        if random.one_in(8) {
            damaged_table(random, &table, &call)?;
        }
    }
    Ok(())
}

/// The same call on a copy of the table with one word changed.
fn damaged_table(random: &mut Random, table: &[u32], call: &Call) -> Result<(), String> {
    let mut table = table.to_vec();
    arbitrary::damage(random, &mut table);
    let mut lent = Lent { table, store: vec![random.octet(); STORE_OCTETS], output: vec![0; MESSAGE_OCTETS] };
    compare(call, &mut lent).map(|_| ())
}

pub fn lists(random: &mut Random, count: usize) -> Result<usize, String> {
    let mut calls = 0;
    while calls < count {
        let length = random.between(1, LONGEST_LIST);
        list(random, length)?;
        calls += length;
    }
    Ok(calls)
}

fn arbitrary_call(random: &mut Random) -> Call {
    match random.below(4) {
        0 => Call::Expiry { tick: arbitrary::word(random), limit: arbitrary::word(random) },
        1 => Call::Release { lid: arbitrary::word(random) },
        _ => {
            let (lid, tick) = (arbitrary::word(random), arbitrary::word(random));
            let lsdu = arbitrary::octets(random, 5, 300);
            Call::Fragment { lid, tick, lsdu, store: 0, output: 0 }
        }
    }
}

pub fn arbitrary(random: &mut Random, count: usize) -> Result<usize, String> {
    for _ in 0..count {
        let table = if random.one_in(2) { vec![0; 41] } else { arbitrary::words(random, 60) };
        let mut lent = Lent {
            table,
            store: arbitrary::octets(random, STORE_OCTETS, 5000),
            output: arbitrary::octets(random, MESSAGE_OCTETS, 700),
        };
        if random.one_in(2) {
            arbitrary::damage(random, &mut lent.table);
        }
        compare(&arbitrary_call(random), &mut lent)?;
    }
    Ok(count)
}
