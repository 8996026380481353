//! Random set-up lines for the tag: mostly sound, else with one fault.

use crate::attributes::{Area, Row};
use crate::hex;
use crate::random::Random;

/// AIDs that tags and beacons choose from, so that they often meet.
pub const AIDS: [u32; 6] = [0, 1, 2, 14, 30, 31];

/// Two areas and the rows that lie in them.
pub struct Directory {
    pub rows: Vec<Row>,
    pub factory: Vec<u8>,
    pub writable: Vec<u8>,
}

/// All the set-up lines of a tag, in any order.
pub fn lines(random: &mut Random) -> Vec<String> {
    let directory = directory(random);
    let mut lines = vec![
        format!("factory {}", hex::text(&directory.factory)),
        format!("writable {}", hex::text(&directory.writable)),
        configuration_line(random),
        eid_line(random),
        credentials_line(random),
    ];
    lines.extend(directory.rows.iter().map(row_line));
    lines.extend(element_lines(random));
    if random.one_in(3) {
        shuffle(random, &mut lines);
    }
    lines
}

/// A line that changes a tag in the middle of its life.
pub fn change_line(random: &mut Random, writable: usize) -> String {
    match random.below(9) {
        0 => configuration_line(random),
        1 | 2 => eid_line(random),
        3 | 4 => credentials_line(random),
        5 => element_lines(random).pop().unwrap_or_default(),
        6 => directory(random).rows.first().map(row_line).unwrap_or_default(),
        // Mostly an area of the same length, else one in which the rows may not fit.
        7 => format!("factory {}", hex_of(random, 800)),
        _ => {
            let length = if random.one_in(4) { writable.saturating_sub(1) } else { writable };
            format!("writable {}", hex_of(random, length))
        }
    }
}

fn shuffle<T>(random: &mut Random, list: &mut [T]) {
    for index in 1..list.len() {
        list.swap(index, random.below(index + 1));
    }
}

fn hex_of(random: &mut Random, length: usize) -> String {
    hex::text(&random.octets(length))
}

fn configuration_line(random: &mut Random) -> String {
    let limits = [32_767, 65_535, 65_535];
    let mut fields = limits.map(|limit| if random.one_in(4) { limit } else { random.below(limit) });
    if random.one_in(10) {
        let field = random.below(3);
        fields[field] = random.pick(&[limits[field] + 1, 65_536, 65_537, 98_304, 4_294_967_295]);
    }
    format!("config {} {} {}", fields[0], fields[1], fields[2])
}

/// Mostly an eid that a request can carry; 257 and 129 look like 1 in fewer bits.
fn eid_line(random: &mut Random) -> String {
    let eid = match random.below(12) {
        0 => random.pick(&[128, 129, 255, 257, 65_537, 4_294_967_295]),
        1 => random.pick(&[0, 127]),
        2 => random.below(128),
        _ => 1,
    };
    format!("eid {eid}")
}

/// Mostly credentials that a request can carry.
fn credentials_line(random: &mut Random) -> String {
    let length = match random.below(12) {
        0 | 1 => 0,
        2 => 127,
        3 => random.pick(&[128, 129, 255, 256, 1018]),
        _ => random.between(1, 6),
    };
    format!("credentials {}", hex_of(random, length))
}

fn element_lines(random: &mut Random) -> Vec<String> {
    let count = match random.below(20) {
        0 => 0,
        1 => 8,
        2 => random.between(9, 11),
        _ => random.between(1, 4),
    };
    let mut eids: Vec<usize> = (1..=127).collect();
    shuffle(random, &mut eids);
    let broken = if random.one_in(8) { random.below(count.max(1)) } else { count };
    let first = eids[0];
    let mut line = |index: usize| {
        let (mut eid, mut aid, mut mark) = (eids[index], random.pick(&AIDS) as usize, mark_length(random));
        if index == broken {
            match random.below(6) {
                0 => eid = 0,
                1 => eid = random.pick(&[128, 129, 255, 256, 257, 4_294_967_295]),
                2 => aid = random.pick(&[32, 33, 63, 256, 4_294_967_295]),
                3 => mark = random.pick(&[128, 129, 255, 256, 1000]),
                _ if index > 0 => eid = first,
                _ => eid = 256 + first,
            }
        }
        format!("element {eid} {aid} {}", hex_of(random, mark))
    };
    (0..count).map(&mut line).collect()
}

fn mark_length(random: &mut Random) -> usize {
    match random.below(8) {
        0..=2 => 0,
        3 => 127,
        _ => random.between(1, 9),
    }
}

fn row_line(row: &Row) -> String {
    let Row { id, start, length, .. } = row;
    let area = if row.area == Area::Factory { "factory" } else { "writable" };
    let access = if row.protected { "protected" } else { "open" };
    format!("row {id} {area} {start} {length} {access}")
}

fn directory(random: &mut Random) -> Directory {
    let lengths = row_lengths(random);
    let mut directory = lay_out(random, &lengths);
    if !directory.rows.is_empty() && random.one_in(8) {
        break_directory(random, &mut directory);
    }
    shuffle(random, &mut directory.rows);
    directory
}

fn row_lengths(random: &mut Random) -> Vec<u32> {
    match random.below(8) {
        0 => (0..32).map(|_| random.below(9) as u32).collect(),
        // Three long values and one of the others make a reply of about 512 octets.
        1 | 2 => vec![127, 127, 127, 114, 115, 116, 117],
        3 => Vec::new(),
        _ => (0..random.between(1, 9)).map(|_| random.below(7) as u32).collect(),
    }
}

/// Rows of these lengths, one behind the other with small gaps, in either area.
fn lay_out(random: &mut Random, lengths: &[u32]) -> Directory {
    let mut ids: Vec<u32> = (0..128).collect();
    shuffle(random, &mut ids);
    let mut ends = [0, 0];
    let mut rows = Vec::new();
    for (length, id) in lengths.iter().zip(ids) {
        let area = random.pick(&[Area::Factory, Area::Writable, Area::Writable]);
        let end = &mut ends[usize::from(area == Area::Writable)];
        // An empty row may stand anywhere, also within another or at the very end.
        let start = if *length == 0 { random.between(0, *end) } else { *end + random.below(2) };
        *end = (*end).max(start + *length as usize);
        rows.push(Row { id, area, start: start as u32, length: *length, protected: random.one_in(3) });
    }
    let [factory, writable] = ends.map(|end| end + random.pick(&[0, 0, 0, 1, 30]));
    Directory { rows, factory: random.octets(factory), writable: random.octets(writable) }
}

/// Makes a directory unsound, or nearly so, in one way.
fn break_directory(random: &mut Random, directory: &mut Directory) {
    let count = directory.rows.len();
    let broken = random.below(count);
    let other = directory.rows[random.below(count)];
    let row = &mut directory.rows[broken];
    match random.below(9) {
        0 => row.id = other.id,
        1 => row.id = random.pick(&[128, 255, 256 + other.id, u32::MAX]),
        2 => {
            *row = Row { start: 0, length: 128, ..*row };
            directory.rows = vec![*row];
            directory.factory = random.octets(200);
            directory.writable = random.octets(200);
        }
        3 => row.start += 1,
        4 => row.start = row.start.saturating_sub(1),
        5 => *row = Row { start: other.start, area: other.area, ..*row },
        6 => row.start = (u32::MAX - row.length).saturating_add(random.pick(&[0, 1])),
        7 => {
            let start = directory.writable.len() as u32 + random.below(2) as u32;
            *row = Row { area: Area::Writable, start, length: 0, ..*row };
        }
        _ => {
            let wanted = random.between(32, 36);
            let unused = (0..128).filter(|id| directory.rows.iter().all(|row| row.id != *id));
            let empty = |id| Row { id, area: Area::Factory, start: 0, length: 0, protected: false };
            let more: Vec<Row> = unused.take(wanted.saturating_sub(count)).map(empty).collect();
            directory.rows.extend(more);
        }
    }
}
