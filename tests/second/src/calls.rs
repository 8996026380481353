//! Random BSTs, ticks and LIDs for a tag, most of which mean something to it.

use crate::composer::{faulty_message, sound_message};
use crate::equipment::AIDS;
use crate::limits::at_a_limit;
use crate::link::Phase;
use crate::message::Beacon;
use crate::random::Random;
use crate::tag::Tag;

const BEACONS: [Beacon; 5] = [
    Beacon { manufacturer: 6, individual: 19_088_743 },
    Beacon { manufacturer: 6, individual: 19_088_742 },
    Beacon { manufacturer: 7, individual: 19_088_743 },
    Beacon { manufacturer: 0, individual: 0 },
    Beacon { manufacturer: 65_535, individual: (1 << 27) - 1 },
];

/// What a beacon might send: mostly a BST that the tag understands.
pub fn bst(random: &mut Random, tag: &Tag) -> Vec<u8> {
    match random.below(24) {
        0 => sound_message(random),
        1 => faulty_message(random),
        2 => at_a_limit(random),
        3 => {
            let octets = sound_bst(random, tag);
            damaged(random, octets)
        }
        _ => sound_bst(random, tag),
    }
}

fn sound_bst(random: &mut Random, tag: &Tag) -> Vec<u8> {
    let Beacon { manufacturer, individual } = match tag.link.phase {
        Phase::Ready { beacon, .. } if !random.one_in(4) => beacon,
        _ => random.pick(&BEACONS),
    };
    let both = random.one_in(3);
    let bits = 8 << 44 | u64::from(both) << 43 | u64::from(manufacturer) << 27 | u64::from(individual);
    let mut octets = bits.to_be_bytes()[2..].to_vec();
    octets.extend(next_time(random, tag.link.time).to_be_bytes());
    octets.push(random.pick(&[0, 0, 0, 1, 1, 2, 127]));
    push_applications(random, tag, &mut octets);
    if both {
        push_applications(random, tag, &mut octets);
    }
    let profiles = if random.one_in(20) { 16 } else { random.below(4) };
    octets.push(profiles as u8);
    octets.extend((0..profiles).map(|_| random.pick(&[0, 1, 2, 3, 126, 127])));
    octets
}

/// A time around the stored one, mostly less than 255 seconds later.
fn next_time(random: &mut Random, stored: u32) -> u32 {
    let later = match random.below(16) {
        0..=3 => random.pick(&[253, 254, 255, 256]),
        4 | 5 => random.pick(&[-1, -2, -254, -255, -256]),
        6 => return random.pick(&[0, 1, 1_600_000_000, u32::MAX - 1, u32::MAX]),
        7 => return random.word() as u32,
        _ => random.below(254) as i32,
    };
    stored.wrapping_add_signed(later)
}

fn push_applications(random: &mut Random, tag: &Tag, octets: &mut Vec<u8>) {
    let count = if random.one_in(25) { 16 } else { random.below(4) };
    octets.push(count as u8);
    for _ in 0..count {
        let aid = match tag.elements.len() {
            0 => random.pick(&AIDS),
            count if random.one_in(2) => tag.elements[random.below(count)].aid,
            _ => random.pick(&AIDS),
        };
        let (eid, parameter) = (random.one_in(3), random.one_in(5));
        octets.push(u8::from(eid) << 7 | u8::from(parameter) << 6 | aid as u8 & 31);
        octets.extend(eid.then(|| random.below(128) as u8));
        let containers: [&[u8]; 4] = [&[2, 2, 9, 9], &[7, 3], &[8, 1, 5], &[9, 1, 5, 2, 0]];
        octets.extend(if parameter { random.pick(&containers) } else { &[] });
    }
}

/// A tick around the one at which the tag was last awake.
pub fn tick(random: &mut Random, tag: &Tag) -> u32 {
    let awake = tag.link.tick;
    match random.below(10) {
        0..=3 => awake.wrapping_add(random.pick(&[98, 99, 100, 101])),
        4 => awake.wrapping_sub(random.pick(&[1, 99, 100])),
        5 => random.word() as u32,
        6 => random.pick(&[0, 99, 100, u32::MAX - 50, u32::MAX]),
        _ => awake.wrapping_add(random.below(98) as u32),
    }
}

pub fn fresh_lid(random: &mut Random) -> u32 {
    match random.below(16) {
        0 => random.pick(&[1 << 28, (1 << 28) + 1, u32::MAX]),
        1 => (1 << 28) - 1,
        2 => 0,
        3 => random.word() as u32 >> 4,
        _ => random.below(4) as u32,
    }
}

/// Mostly the LID of a ready tag.
pub fn released_lid(random: &mut Random, tag: &Tag) -> u32 {
    match tag.link.phase {
        Phase::Ready { lid, .. } if !random.one_in(4) => lid,
        Phase::Ready { lid, .. } if random.one_in(3) => lid | 1 << 28,
        _ => fresh_lid(random),
    }
}

/// A message with one octet or bit changed, cut short or followed by an octet.
pub fn damaged(random: &mut Random, mut octets: Vec<u8>) -> Vec<u8> {
    let place = random.below(octets.len());
    match random.below(4) {
        0 => octets.truncate(place),
        1 => octets.push(random.octet()),
        2 => octets[place] = random.octet(),
        _ => octets[place] ^= 1 << random.below(8),
    }
    octets
}
