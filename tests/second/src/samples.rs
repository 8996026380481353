//! Random messages as lines of hex: sound ones, damaged ones, and ones at and
//! just above each limit.

use std::io::{self, Write};

use crate::composer::{faulty_message, sound_message};
use crate::limits::at_a_limit;
use crate::random::Random;

/// Longest message of which every bit is changed in turn.
const CHANGED_OCTETS: usize = 24;
const CUT_OCTETS: usize = 120;

/// Prints so many lines of messages.
pub fn write_messages(seed: u64, count: usize, output: &mut impl Write) -> io::Result<()> {
    let mut random = Random::new(seed);
    let mut left = count;
    while left > 0 {
        let mut batch = message_lines(&mut random);
        batch.truncate(left);
        left -= batch.len();
        for line in batch {
            output.write_all(&line)?;
            output.write_all(b"\n")?;
        }
    }
    Ok(())
}

fn message_lines(random: &mut Random) -> Vec<Vec<u8>> {
    let messages = match random.below(24) {
        0..=9 => vec![sound_message(random)],
        10..=13 => vec![faulty_message(random)],
        14 => cuts(&shorter_than(random, CUT_OCTETS)),
        15 => bit_changes(&shorter_than(random, CHANGED_OCTETS)),
        16 => vec![garbage(random)],
        17..=19 => vec![at_a_limit(random)],
        20 => vec![followed_message(random)],
        21..=22 => vec![changed_message(random)],
        _ => return vec![odd_line(random)],
    };
    messages.iter().map(|octets| hex_line(random, octets)).collect()
}

/// The octets in hex of either case.
pub fn hex_line(random: &mut Random, octets: &[u8]) -> Vec<u8> {
    let mut text = crate::hex::text(octets);
    if random.one_in(4) {
        text.make_ascii_lowercase();
    }
    text.into_bytes()
}

fn shorter_than(random: &mut Random, limit: usize) -> Vec<u8> {
    loop {
        let octets = sound_message(random);
        if octets.len() <= limit {
            return octets;
        }
    }
}

fn cuts(octets: &[u8]) -> Vec<Vec<u8>> {
    (0..octets.len()).map(|length| octets[..length].to_vec()).collect()
}

fn bit_changes(octets: &[u8]) -> Vec<Vec<u8>> {
    let change = |bit: usize| {
        let mut changed = octets.to_vec();
        changed[bit / 8] ^= 0x80 >> (bit % 8);
        changed
    };
    (0..octets.len() * 8).map(change).collect()
}

fn garbage(random: &mut Random) -> Vec<u8> {
    let length = if random.one_in(20) { random.between(480, 540) } else { random.below(40) };
    let mut octets = random.octets(length);
    if let Some(first) = octets.first_mut() {
        *first = if random.one_in(4) { *first } else { *first % 0xA0 };
    }
    octets
}

fn followed_message(random: &mut Random) -> Vec<u8> {
    let mut octets = sound_message(random);
    let length = random.between(1, 3);
    octets.extend(random.octets(length));
    octets
}

fn changed_message(random: &mut Random) -> Vec<u8> {
    let mut octets = sound_message(random);
    for _ in 0..random.between(1, 3) {
        let place = random.below(octets.len());
        octets[place] = random.octet();
    }
    octets
}

fn odd_line(random: &mut Random) -> Vec<u8> {
    let octets = sound_message(random);
    let mut line = hex_line(random, &octets);
    match random.below(12) {
        0 => line.push(b'A'),
        1 => line.push(b'\r'),
        2 => line.push(b' '),
        3 => line.insert(0, b' '),
        4 => line.insert(2, b' '),
        5 => line[0] = random.pick(b"gGxX:@`/-\x00\xC3\xFF"),
        6 => line.clear(),
        7 => line = b"0".repeat(random.pick(&[2046, 2047, 2048, 2049, 2050])),
        8 => line = b"A0".repeat(random.pick(&[512, 513, 1024, 1025])),
        9 => line = b"20".repeat(10_000),
        10 => line = b"0x200000".to_vec(),
        _ => line.truncate(1),
    }
    line
}

#[cfg(test)]
mod tests;
