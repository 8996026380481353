//! Random fragments. A ledger tells what is open, so that most of them fit.

use crate::header;
use crate::ledger::Ledger;
use crate::random::Random;

/// Few LIDs, so that pairs meet again.
pub const LIDS: [u32; 4] = [0x000_0001, 0x000_0002, 0xABC_DEF0, 0xFFF_FFFF];
const LSDU_LIMIT: usize = 128;
const MESSAGE_LIMIT: usize = 512;
/// Enough one-octet fragments to reach counter 512, a header of three octets,
/// though some of their lines are spoilt.
const CRAWL: usize = 600;

#[derive(Clone, Copy)]
enum Mood {
    Mixed,
    Filling,
    Draining,
    Long,
    Crawling,
}

/// Chooses fragments; keeps to one mood for a while.
pub struct Chooser {
    mood: Mood,
    left: usize,
    pair: (u32, u8),
}

impl Default for Chooser {
    fn default() -> Self {
        Chooser { mood: Mood::Mixed, left: 0, pair: (1, 2) }
    }
}

impl Chooser {
    /// A LID and an LSDU.
    pub fn fragment(&mut self, random: &mut Random, ledger: &Ledger) -> (u32, Vec<u8>) {
        if self.left == 0 {
            self.change_mood(random, ledger);
        }
        self.left -= 1;
        match self.mood {
            Mood::Filling if !random.one_in(3) => opening(random, random_pair),
            Mood::Draining if !random.one_in(3) => finishing(random, ledger),
            Mood::Long if !random.one_in(4) => self.carry_on(random, ledger, 126),
            Mood::Crawling => self.carry_on(random, ledger, 1),
            _ => random_fragment(random, ledger),
        }
    }

    fn change_mood(&mut self, random: &mut Random, ledger: &Ledger) {
        (self.mood, self.left) = match random.below(80) {
            0 => (Mood::Crawling, CRAWL),
            1..=19 => (Mood::Filling, 30),
            20..=39 => (Mood::Draining, 20),
            40..=59 => (Mood::Long, 12),
            _ => (Mood::Mixed, 50),
        };
        let open: Vec<(u32, u8)> = ledger.open().map(|(pair, ..)| pair).collect();
        let full = open.len() == 8;
        self.pair = if full { random.pick(&open) } else { random_pair(random) };
    }

    /// The next fragment of the chosen pair, or its first.
    fn carry_on(&self, random: &mut Random, ledger: &Ledger, payload: usize) -> (u32, Vec<u8>) {
        let (lid, number) = self.pair;
        let open = ledger.open().find(|(pair, ..)| *pair == self.pair);
        let begins = self.left + 1 == CRAWL;
        match open {
            Some((_, counter, held)) if !begins => {
                let payload = if payload > 1 { long_payload(random, held) } else { payload };
                (lid, fragment(random, self.left == 0, number, counter, payload))
            }
            _ => (lid, fragment(random, false, number, 0, payload)),
        }
    }
}

/// Any kind of fragment, most of them fitting.
fn random_fragment(random: &mut Random, ledger: &Ledger) -> (u32, Vec<u8>) {
    match random.below(20) {
        0..=7 => continuing(random, ledger, false),
        8..=9 => finishing(random, ledger),
        10..=11 => opening(random, random_pair),
        12 => opening(random, |random| open_pair(random, ledger)),
        13 => lone(random, random_pair),
        14 => lone(random, |random| open_pair(random, ledger)),
        15 => wrong_counter(random, ledger),
        _ => (random.pick(&LIDS), damaged(random, ledger)),
    }
}

fn random_pair(random: &mut Random) -> (u32, u8) {
    (random.pick(&LIDS), random.between(2, 15) as u8)
}

fn open_pair(random: &mut Random, ledger: &Ledger) -> (u32, u8) {
    let open: Vec<(u32, u8)> = ledger.open().map(|(pair, ..)| pair).collect();
    if open.is_empty() {
        return random_pair(random);
    }
    random.pick(&open)
}

fn opening(random: &mut Random, pair: impl Fn(&mut Random) -> (u32, u8)) -> (u32, Vec<u8>) {
    let (lid, number) = pair(random);
    let payload = short_payload(random);
    (lid, fragment(random, false, number, 0, payload))
}

fn lone(random: &mut Random, pair: impl Fn(&mut Random) -> (u32, u8)) -> (u32, Vec<u8>) {
    let (lid, number) = pair(random);
    let payload = random.pick(&[1, 2, 3, 126, 127, 128]);
    (lid, fragment(random, true, number, 0, payload))
}

fn continuing(random: &mut Random, ledger: &Ledger, last: bool) -> (u32, Vec<u8>) {
    let (lid, number) = open_pair(random, ledger);
    let open = ledger.open().find(|(pair, ..)| *pair == (lid, number));
    let (mut counter, held) = open.map_or((0, 0), |(_, counter, held)| (counter, held));
    // A full message can only be opened anew.
    if held == MESSAGE_LIMIT && random.one_in(2) {
        counter = 0;
    }
    let payload = if random.one_in(4) { long_payload(random, held) } else { short_payload(random) };
    (lid, fragment(random, last, number, counter, payload))
}

fn finishing(random: &mut Random, ledger: &Ledger) -> (u32, Vec<u8>) {
    continuing(random, ledger, true)
}

fn wrong_counter(random: &mut Random, ledger: &Ledger) -> (u32, Vec<u8>) {
    let (lid, number) = open_pair(random, ledger);
    let counter = random.pick(&[1, 2, 3, 4, 5, 511, 512, 65_535]);
    let last = random.one_in(2);
    (lid, fragment(random, last, number, counter, 2))
}

fn short_payload(random: &mut Random) -> usize {
    if random.one_in(8) {
        random.between(100, 127)
    } else {
        random.between(1, 12)
    }
}

/// Large, and near the end of the room exactly full or one too many.
fn long_payload(random: &mut Random, held: usize) -> usize {
    let left = MESSAGE_LIMIT.saturating_sub(held);
    if left > LSDU_LIMIT - 3 {
        return random.between(60, 126);
    }
    random.pick(&[left.max(1), left.max(1), left + 1, (left / 2).max(1)])
}

/// An LSDU with the shortest header.
fn fragment(random: &mut Random, last: bool, number: u8, counter: usize, payload: usize) -> Vec<u8> {
    let mut room = [0; 3];
    let length = header::write(last, number.into(), counter as u32, &mut room).unwrap_or(0);
    let mut lsdu = room[..length].to_vec();
    lsdu.extend(random.octets(payload));
    lsdu
}

fn damaged(random: &mut Random, ledger: &Ledger) -> Vec<u8> {
    let (_, number) = open_pair(random, ledger);
    let first = (random.below(2) as u8) << 7 | number << 3;
    let mut lsdu = match random.below(11) {
        0 => return vec![first],
        1 => return vec![first | 6, random.octet() & 0xFE],
        2 => vec![first, 0x07],
        3 => vec![first, 0x06, 0xFE],
        4 => vec![first, 0x08, 0x01],
        5 => vec![first & 0x80 | 0x01],
        6 => vec![first & 0x80 | 0x09],
        7 => return header_alone(random, number),
        8 => return Vec::new(),
        9 => {
            let payload = random.pick(&[126, 127, 128]);
            return fragment(random, true, number, 0, payload);
        }
        _ => {
            let length = random.between(1, 6);
            return random.octets(length);
        }
    };
    let payload = random.between(0, 4);
    lsdu.extend(random.octets(payload));
    lsdu
}

fn header_alone(random: &mut Random, number: u8) -> Vec<u8> {
    let counter = random.pick(&[0, 1, 2, 3, 4, 511, 512, 65_535]);
    let last = random.one_in(2);
    fragment(random, last, number, counter, 0)
}
