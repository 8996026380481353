//! The bench program: recorded lines in, what each fragment did out.

use std::io::{self, Read, Write};

use crate::header;
use crate::hex;
use crate::ledger::{Entry, Ledger};
use crate::lines;
use crate::reassembly::{Answer, Table, MESSAGE_OCTETS, STORE_OCTETS};
use crate::refusal::PDU_NUMBER;

pub const LINE_LIMIT: usize = 600;
const LID_DIGITS: usize = 7;
/// More than the octets any line of 600 characters can carry.
const LSDU_ROOM: usize = LINE_LIMIT / 2;

pub struct Line {
    pub lid: u32,
    pub tick: u32,
    lsdu: [u8; LSDU_ROOM],
    length: usize,
}

impl Line {
    pub fn lsdu(&self) -> &[u8] {
        &self.lsdu[..self.length]
    }
}

/// Reads a line of the bench, or answers nothing if it is not of that form.
pub fn parse(line: &[u8]) -> Option<Line> {
    if line.len() > LINE_LIMIT {
        return None;
    }
    let (lid, rest) = (line.get(..LID_DIGITS)?, line.get(LID_DIGITS..)?);
    let rest = rest.strip_prefix(b" ")?;
    let space = rest.iter().position(|character| *character == b' ')?;
    let mut lsdu = [0; LSDU_ROOM];
    let length = hex::read(&rest[space + 1..], &mut lsdu)?;
    Some(Line { lid: parse_lid(lid)?, tick: decimal(&rest[..space])?, lsdu, length })
}

/// A LID of up to 8 hex digits of either case.
pub fn parse_lid(digits: &[u8]) -> Option<u32> {
    digits.iter().try_fold(0, |lid, digit| Some(lid << 4 | u32::from(hex::digit(*digit)?)))
}

/// A decimal number below 2^32, leading zeros allowed.
pub fn decimal(digits: &[u8]) -> Option<u32> {
    if digits.is_empty() {
        return None;
    }
    digits.iter().try_fold(0u32, |number, digit| {
        let digit = digit.is_ascii_digit().then(|| u32::from(digit - b'0'))?;
        number.checked_mul(10)?.checked_add(digit)
    })
}

/// What the bench needs to know of a joining engine.
pub trait Engine {
    /// What the fragment did, or the number of the refusal.
    fn fragment(&mut self, lid: u32, tick: u32, lsdu: &[u8]) -> Result<Answer, u8>;
    fn held_for(&self, lid: u32, number: u8) -> usize;
    fn held(&self) -> u64;
}

/// The table with a store and an output of its own.
pub struct TableEngine {
    table: Table,
    store: [u8; STORE_OCTETS],
    output: [u8; MESSAGE_OCTETS],
}

impl Default for TableEngine {
    fn default() -> Self {
        TableEngine { table: Table::default(), store: [0; STORE_OCTETS], output: [0; MESSAGE_OCTETS] }
    }
}

impl Engine for TableEngine {
    fn fragment(&mut self, lid: u32, tick: u32, lsdu: &[u8]) -> Result<Answer, u8> {
        let answer = self.table.fragment(&mut self.store, &mut self.output, lid, tick, lsdu);
        answer.map_err(|refusal| refusal.number)
    }

    fn held_for(&self, lid: u32, number: u8) -> usize {
        self.table.held_for(lid, number)
    }

    fn held(&self) -> u64 {
        self.table.held() as u64
    }
}

impl Engine for Ledger {
    fn fragment(&mut self, lid: u32, tick: u32, lsdu: &[u8]) -> Result<Answer, u8> {
        match Ledger::fragment(self, lid, tick, lsdu) {
            Entry::Held { octets, dropped } => Ok(Answer::Held { octets, dropped }),
            Entry::Whole { message, dropped } => Ok(Answer::Whole { octets: message.len(), dropped }),
            Entry::Refused(number) => Err(number),
            Entry::Dropped(_) => unreachable!("a fragment call is never answered as an expiry"),
        }
    }

    fn held_for(&self, lid: u32, number: u8) -> usize {
        Ledger::held_for(self, lid, number)
    }

    fn held(&self) -> u64 {
        Ledger::held(self)
    }
}

#[derive(Default)]
struct Totals {
    lines: u64,
    accepted: u64,
    delivered: u64,
    dropped: u64,
}

/// Reads `input` to its end and writes the heading, a line for each line, and the totals.
pub fn run(mut input: impl Read, output: &mut impl Write, engine: &mut impl Engine) -> io::Result<()> {
    let mut totals = Totals::default();
    writeln!(output, "line answer octets dropped")?;
    lines::for_each(&mut input, LINE_LIMIT, |line| {
        totals.lines += 1;
        answer_line(line.and_then(parse), output, engine, &mut totals)
    })?;
    let Totals { accepted, delivered, dropped, .. } = totals;
    let held = engine.held();
    writeln!(output, "accepted {accepted} delivered {delivered} dropped {dropped} held {held}")
}

fn answer_line(
    line: Option<Line>,
    output: &mut impl Write,
    engine: &mut impl Engine,
    totals: &mut Totals,
) -> io::Result<()> {
    let count = totals.lines;
    let Some(line) = line else {
        return writeln!(output, "{count} refused-0 0 0");
    };
    match engine.fragment(line.lid, line.tick, line.lsdu()) {
        Err(number) => {
            let held = held_behind_refusal(number, &line, engine);
            writeln!(output, "{count} refused-{number} {held} 0")
        }
        Ok(Answer::Held { octets, dropped }) => {
            totals.accept(&line, dropped);
            writeln!(output, "{count} held {octets} {dropped}")
        }
        Ok(Answer::Whole { octets, dropped }) => {
            totals.accept(&line, dropped);
            totals.delivered += octets as u64;
            writeln!(output, "{count} whole {octets} {dropped}")
        }
    }
}

/// Octets the pair still holds, shown from refusal 7 on.
fn held_behind_refusal(refusal: u8, line: &Line, engine: &impl Engine) -> usize {
    if refusal <= PDU_NUMBER {
        return 0;
    }
    header::read(line.lsdu()).map_or(0, |header| engine.held_for(line.lid, header.number))
}

impl Totals {
    fn accept(&mut self, line: &Line, dropped: usize) {
        let header = header::read(line.lsdu()).map_or(0, |header| header.length);
        self.accepted += (line.length - header) as u64;
        self.dropped += dropped as u64;
    }
}

#[cfg(test)]
mod tests;
