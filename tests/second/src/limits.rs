//! Messages at each limit and one above it.

use crate::random::Random;

/// A message at a limit or just above it.
pub fn at_a_limit(random: &mut Random) -> Vec<u8> {
    match random.below(8) {
        0 => of_length(random.between(509, 514)),
        1 => with_rows(random.between(31, 34)),
        2 => with_depth(random.between(3, 6), random.pick(&[2, 3, 7, 9, 0x82])),
        3 => with_rows_in_entries(random.between(31, 34)),
        4 => with_string(random.pick(&[126, 127, 128, 255])),
        5 => with_whole_beacon(random),
        _ => {
            let count = random.pick(&[15, 16, 17, 127, 128 + 16, 128 + 17]);
            with_count(random, count)
        }
    }
}

/// A SET of exactly so many octets, which must be 400 to 519.
pub fn of_length(length: usize) -> Vec<u8> {
    let mut octets = vec![0x41, 1, 4];
    for _ in 0..3 {
        octets.extend([5, 2, 127]);
        octets.extend([0xA5; 127]);
    }
    let rest = length - octets.len() - 3;
    octets.extend([6, 2, rest as u8]);
    octets.extend(vec![0x5A; rest]);
    octets
}

/// A GET response with so many rows in all, from 16 to 47: an outer list of 16,
/// the others in lists within it.
pub fn with_rows(rows: usize) -> Vec<u8> {
    let mut octets = vec![0x74, 1, 16];
    let mut nested = rows - 16;
    for _ in 0..16 {
        let inner = nested.min(16);
        nested -= inner;
        push_value(&mut octets, inner);
    }
    octets
}

/// A row with an eid, or with a list of so many eids.
fn push_value(octets: &mut Vec<u8>, inner: usize) {
    octets.push(5);
    if inner == 0 {
        return octets.extend([7, 1]);
    }
    octets.extend([9, inner as u8]);
    for _ in 0..inner {
        octets.extend([6, 7, 2]);
    }
}

/// A BST whose entries hold so many rows, from 16: two lists of values in the
/// mandatory applications, one in the others.
pub fn with_rows_in_entries(rows: usize) -> Vec<u8> {
    let mut octets = vec![0x88, 0, 0, 0, 0, 0, 0, 0, 0, 0, 0];
    octets.push(2);
    push_entry(&mut octets, 16);
    push_entry(&mut octets, (rows - 16).min(16));
    octets.push(1);
    push_entry(&mut octets, rows.saturating_sub(32));
    octets.push(0);
    octets
}

fn push_entry(octets: &mut Vec<u8>, inner: usize) {
    octets.extend([0x41, 9, inner as u8]);
    for _ in 0..inner {
        octets.extend([6, 7, 2]);
    }
}

/// An action request with containers down to this depth, the last of this kind.
pub fn with_depth(depth: usize, kind: u8) -> Vec<u8> {
    let mut octets = vec![0x05, 0, 1];
    for _ in 1..depth {
        octets.extend([9, 1, 5]);
    }
    octets.extend([kind, 0]);
    octets
}

fn with_string(length: u8) -> Vec<u8> {
    let mut octets = vec![0x05, 0, 15, 2, length];
    octets.extend(vec![0x33; length.into()]);
    octets
}

/// Every bit of the beacon, time and second list set or not.
fn with_whole_beacon(random: &mut Random) -> Vec<u8> {
    let (lead, octet) = (random.pick(&[0x87, 0x8F, 0x80]), random.pick(&[0, 0xFF]));
    let mut octets = vec![lead];
    octets.extend([octet; 9]);
    octets.extend([1, 0]);
    octets.extend(vec![0; usize::from(lead == 0x8F)]);
    octets.push(0);
    octets
}

/// Each list of the ten kinds with this count octet, followed by enough elements.
fn with_count(random: &mut Random, count: u8) -> Vec<u8> {
    let bst = [0x80, 0, 0, 0, 0, 0, 0, 0, 0, 0, 0];
    let beacon = |second: u8, counts: &[u8]| {
        let mut octets = bst.to_vec();
        octets[0] |= second;
        octets.extend(counts);
        octets
    };
    let (mut octets, element): (Vec<u8>, &[u8]) = match random.below(9) {
        0 => (vec![0x62, 1], &[5]),
        1 => (vec![0x05, 0, 15, 8], &[5]),
        2 => (beacon(0, &[0]), &[0]),
        3 => (beacon(0, &[]), &[1]),
        4 => (beacon(8, &[0]), &[1]),
        5 => (vec![0x90, 0], &[1]),
        6 => (vec![0x41, 1], &[5, 7, 1]),
        7 => (vec![0x74, 1], &[5, 7, 1]),
        _ => (vec![0x05, 0, 15, 9], &[5, 7, 1]),
    };
    octets.push(count);
    octets.extend(element.repeat((count & 127).min(17).into()));
    // What follows the list in a BST or VST; too much for some, which is a fault as well.
    octets.extend(vec![0; random.pick(&[0, 1, 2, 4])]);
    octets
}
