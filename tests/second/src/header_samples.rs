//! Random and edge fragment headers, and fields to write as headers.

use std::io::{self, Write};

use crate::random::Random;
use crate::samples::hex_line;

/// Prints so many lines of fragment headers, 0 to 5 octets each.
pub fn write_headers(seed: u64, count: usize, output: &mut impl Write) -> io::Result<()> {
    let mut random = Random::new(seed);
    for _ in 0..count {
        let octets = random_header(&mut random);
        let line = hex_line(&mut random, &octets);
        output.write_all(&line)?;
        output.write_all(b"\n")?;
    }
    Ok(())
}

fn random_header(random: &mut Random) -> Vec<u8> {
    if random.one_in(3) {
        let length = random.below(6);
        return random.octets(length);
    }
    let first = random.octet() & 0xF8;
    let edge = random.pick(&EDGE_COUNTERS);
    let (low, middle, high) = (edge & 127, edge >> 7 & 127, edge >> 14);
    let mut octets = match random.below(4) {
        0 => vec![first | (edge as u8 & 3) << 1 | 1],
        1 => vec![first | (middle as u8 & 3) << 1, (low as u8) << 1 | 1],
        2 => vec![first | (high as u8) << 1, (middle as u8) << 1, (low as u8) << 1],
        _ => vec![first | (high as u8) << 1, (middle as u8) << 1, (low as u8) << 1 | 1],
    };
    octets.truncate(random.between(1, 4));
    let behind = random.below(6 - octets.len());
    octets.extend(random.octets(behind));
    octets
}

const EDGE_COUNTERS: [u32; 14] = [0, 1, 3, 4, 5, 127, 128, 510, 511, 512, 513, 16_383, 16_384, 65_535];

/// Prints so many lines `LAST NUMBER COUNTER ROOM` for header writing.
pub fn write_header_fields(seed: u64, count: usize, output: &mut impl Write) -> io::Result<()> {
    let mut random = Random::new(seed);
    for _ in 0..count {
        let (last, room) = (random.below(2), random.below(6));
        let number = if random.one_in(10) {
            random.pick(&[16, 17, 255, 256, u32::MAX])
        } else {
            random.below(16) as u32
        };
        let counter = match random.below(10) {
            0 => random.pick(&[65_536, 65_537, 131_072, u32::MAX]),
            1..=5 => random.pick(&EDGE_COUNTERS),
            _ => random.below(65_536) as u32,
        };
        writeln!(output, "{last} {number} {counter} {room}")?;
    }
    Ok(())
}
