//! Random scripts for the tag. A tag runs along, so that most calls reach far.

use std::fs;
use std::io;
use std::path::Path;

use crate::calls;
use crate::equipment;
use crate::hex;
use crate::random::Random;
use crate::requests;
use crate::script::{self, LINE_LIMIT};
use crate::tag::{self, Tag};

/// Writes the scripts of so many seeds, and what `tag` answers to each, as
/// `SEED.stdin` and `SEED.stdout` of a folder.
pub fn write_files(seed: u64, count: u64, folder: &Path) -> io::Result<()> {
    for seed in seed..seed.saturating_add(count) {
        let (script, mut answers) = (script(seed), Vec::new());
        tag::run(&script[..], &mut answers)?;
        fs::write(folder.join(format!("{seed}.stdin")), script)?;
        fs::write(folder.join(format!("{seed}.stdout")), answers)?;
    }
    Ok(())
}

/// A script: set-up lines, then calls with a change or an odd line in between.
/// Now and then the last line has no line feed.
pub fn script(seed: u64) -> Vec<u8> {
    let mut random = Random::new(seed);
    let mut writer = Writer { tag: Tag::default(), text: Vec::new() };
    // A tag that is asked before it is set up at all.
    for _ in 0..if random.one_in(10) { 3 } else { 0 } {
        let line = call_line(&mut random, &writer.tag);
        writer.push(&mut random, line);
    }
    for line in equipment::lines(&mut random) {
        writer.push(&mut random, line);
    }
    for _ in 0..random.between(5, 30) {
        let line = match random.below(16) {
            0 => equipment::change_line(&mut random, writer.tag.writable.len()),
            1 | 2 => "show".into(),
            _ => call_line(&mut random, &writer.tag),
        };
        writer.push(&mut random, line);
    }
    writer.push(&mut random, "show".into());
    if random.one_in(2) {
        writer.text.pop();
    }
    writer.text
}

struct Writer {
    tag: Tag,
    text: Vec<u8>,
}

impl Writer {
    /// Adds a line, now and then in an odd form.
    fn push(&mut self, random: &mut Random, line: String) {
        let line = if random.one_in(25) { odd_line(random, line) } else { line.into_bytes() };
        self.tag.take(script::parse(&line));
        self.text.extend(line);
        self.text.push(b'\n');
    }
}

fn call_line(random: &mut Random, tag: &Tag) -> String {
    match random.below(15) {
        0..=5 => {
            let (tick, octets) = (calls::tick(random, tag), calls::bst(random, tag));
            let (tick, lid) = (decimal(random, tick), lid_digits(random, calls::fresh_lid));
            format!("bst {tick} {lid} {}", hex_digits(random, &octets))
        }
        6 => format!("release {}", lid_digits(random, |random| calls::released_lid(random, tag))),
        7 => {
            let tick = calls::tick(random, tag);
            format!("tick {}", decimal(random, tick))
        }
        8..=12 => {
            let octets = requests::request(random, tag);
            format!("request {}", hex_digits(random, &octets))
        }
        _ => {
            let id = looked_up(random, tag);
            format!("lookup {}", decimal(random, id))
        }
    }
}

fn looked_up(random: &mut Random, tag: &Tag) -> u32 {
    match random.below(6) {
        0 => random.below(130) as u32,
        1 => random.pick(&[127, 128, 255, 256, u32::MAX]),
        _ if tag.rows.is_empty() => 5,
        2 => tag.rows[random.below(tag.rows.len())].id.wrapping_add(256),
        _ => tag.rows[random.below(tag.rows.len())].id,
    }
}

fn decimal(random: &mut Random, number: u32) -> String {
    let zeros = if random.one_in(12) { random.between(1, 12) } else { 0 };
    format!("{}{number}", "0".repeat(zeros))
}

fn lid_digits(random: &mut Random, lid: impl FnOnce(&mut Random) -> u32) -> String {
    let (lid, width) = (lid(random), random.pick(&[1, 7, 7, 8]));
    if random.one_in(3) {
        format!("{lid:0width$x}")
    } else {
        format!("{lid:0width$X}")
    }
}

fn hex_digits(random: &mut Random, octets: &[u8]) -> String {
    let mut digits = hex::text(octets);
    if random.one_in(4) {
        digits.make_ascii_lowercase();
    }
    digits
}

/// A line of odd form made from a good one; some of them are still good.
fn odd_line(random: &mut Random, line: String) -> Vec<u8> {
    let mut words: Vec<String> = line.split(' ').map(String::from).collect();
    let place = random.below(words.len());
    let word = &mut words[place];
    match random.below(18) {
        0 => word.push(' '),
        1 => word.insert(0, ' '),
        2 => word.push('\r'),
        3 => word.push('\t'),
        4 => word.push('0'),
        5 => word.insert(0, '0'),
        6 => word.push('G'),
        7 => word.insert(0, random.pick(&['+', '-'])),
        8 => *word = word.to_uppercase(),
        9 => *word = random.pick(&["4294967295", "4294967296", "42949672950", "123456789", "0x1"]).into(),
        10 => word.clear(),
        11 => drop(words.remove(place)),
        12 => words.insert(place, "1".into()),
        13 => return Vec::new(),
        14 => return long_line(random, line),
        15 => return strange_octets(random, line),
        16 => return random.pick(&LINES_OF_NO_FORM).as_bytes().to_vec(),
        _ => word.truncate(1),
    }
    words.join(" ").into_bytes()
}

const LINES_OF_NO_FORM: [&str; 10] = [
    " ",
    "show ",
    "credentials",
    "bst 0 1",
    "element 1 1",
    "request",
    "row 5 factory 0 1 locked",
    "row 5 lent 0 1 open",
    "release 000000001",
    "release ",
];

/// A line of about the greatest length, or of far more: zeros before its first
/// number, or octets behind its last word.
fn long_line(random: &mut Random, line: String) -> Vec<u8> {
    let length = random.pick(&[LINE_LIMIT - 1, LINE_LIMIT, LINE_LIMIT + 1, LINE_LIMIT + 2, 20_000]);
    let missing = length.saturating_sub(line.len());
    let long = match line.split_once(' ') {
        Some((first, rest)) if random.one_in(2) => format!("{first} {}{rest}", "0".repeat(missing)),
        _ => line + &"00".repeat(missing / 2),
    };
    long.into_bytes()
}

/// One octet replaced by one that no good line has.
fn strange_octets(random: &mut Random, line: String) -> Vec<u8> {
    let mut line = line.into_bytes();
    if let Some(length) = line.len().checked_sub(1) {
        line[random.between(0, length)] = random.pick(b"\x00\x0B\x1F/:@G`g\x7F\x80\xC3\xFF");
    }
    line
}

#[cfg(test)]
mod tests;
