//! Random recordings for the bench. A ledger runs along, so that most fragments fit.

use std::io::{self, Write};

use crate::bench;
use crate::fragments::Chooser;
use crate::ledger::Ledger;
use crate::random::Random;

/// Prints a recording of so many lines; now and then the last has no line feed.
pub fn write(seed: u64, lines: usize, output: &mut impl Write) -> io::Result<()> {
    let mut random = Random::new(seed);
    let mut ledger = Ledger::default();
    let mut chooser = Chooser::default();
    for index in 1..=lines {
        let (lid, lsdu) = chooser.fragment(&mut random, &ledger);
        let mut line = good_line(&mut random, lid, &lsdu);
        if random.one_in(12) {
            line = odd_line(&mut random, line);
        }
        if let Some(line) = bench::parse(&line) {
            ledger.fragment(line.lid, line.tick, line.lsdu());
        }
        output.write_all(&line)?;
        let unended = index == lines && !line.is_empty() && random.one_in(2);
        if !unended {
            output.write_all(b"\n")?;
        }
    }
    Ok(())
}

fn good_line(random: &mut Random, lid: u32, lsdu: &[u8]) -> Vec<u8> {
    let tick = match random.below(10) {
        0 => u32::MAX,
        1 => random.word() as u32,
        _ => random.below(1000) as u32,
    };
    line_of(random, lid, &tick.to_string(), lsdu)
}

fn line_of(random: &mut Random, lid: u32, tick: &str, lsdu: &[u8]) -> Vec<u8> {
    let mut digits = crate::hex::text(lsdu);
    if random.one_in(3) {
        digits.make_ascii_lowercase();
    }
    let lid = if random.one_in(3) { format!("{lid:07x}") } else { format!("{lid:07X}") };
    format!("{lid} {tick} {digits}").into_bytes()
}

/// A line of odd form made from a good one; some of them are still good.
fn odd_line(random: &mut Random, line: Vec<u8>) -> Vec<u8> {
    let text = String::from_utf8(line).unwrap_or_default();
    let fields: Vec<&str> = text.splitn(3, ' ').collect();
    let (lid, tick, lsdu) = (fields[0], fields[1], fields[2]);
    let zeros = |length: usize| "0".repeat(length.saturating_sub(lid.len() + lsdu.len() + 3));
    let odd = match random.below(31) {
        0 => format!("{text}\r"),
        1 => format!("{lid}\t{tick} {lsdu}"),
        2 => format!("{lid} {tick}\t{lsdu}"),
        3 => format!("{lid}  {tick} {lsdu}"),
        4 => format!("{lid} {tick}  {lsdu}"),
        5 => format!("{text} "),
        6 => format!(" {text}"),
        7 => format!("{text}A"),
        8 => format!("{lid} 4294967295 {lsdu}"),
        9 => format!("{lid} 4294967296 {lsdu}"),
        10 => format!("{lid} 42949672950 {lsdu}"),
        11 => format!("{lid} 0000000000{tick} {lsdu}"),
        12 => format!("{lid} {}7 {lsdu}", zeros(600)),
        13 => format!("{lid} {}7 {lsdu}", zeros(601)),
        14 => format!("{lid} {tick} {}", "5A".repeat(10_000)),
        15 | 16 => String::new(),
        17 => format!("{lid} {tick}"),
        18 => format!("{lid} {tick} "),
        19 => format!("{lid}  {lsdu}"),
        20 => format!("{lid} +{tick} {lsdu}"),
        21 => format!("{lid} -{tick} {lsdu}"),
        22 => format!("{}{tick} {lsdu}", &text[..7]),
        23 => format!("{} {tick} {lsdu}", &lid[1..]),
        24 => format!("0{text}"),
        25 => format!("{lid} {tick} {lsdu}0G"),
        26 => format!("{lid} 1A {lsdu}"),
        27 => format!("{lid} {tick} 91{}", "C3".repeat(random.pick(&[127, 128, 294]))),
        28 => return strange_octets(random, text),
        29 => "0".repeat(random.pick(&[1, 7, 600, 601, 20_000])),
        _ => format!("00000g1 {tick} {lsdu}"),
    };
    odd.into_bytes()
}

/// One octet replaced by one that no good line has.
fn strange_octets(random: &mut Random, text: String) -> Vec<u8> {
    let mut line = text.into_bytes();
    let place = random.below(line.len());
    line[place] = match random.below(3) {
        0 => 0,
        1 => random.between(0x80, 0xFF) as u8,
        _ => random.pick(b"\x0B\x0C\x1F/:@G`g\x7F"),
    };
    line
}

#[cfg(test)]
mod tests {
    use super::*;
    use crate::bench::{run, TableEngine};
    use crate::ledger::Entry;
    use crate::refusal::JOINED_TOO_LONG;
    use std::collections::BTreeSet;

    fn recording(seed: u64, lines: usize) -> Vec<u8> {
        let mut text = Vec::new();
        write(seed, lines, &mut text).unwrap();
        text
    }

    fn answered(recording: &[u8]) -> String {
        let (mut by_table, mut by_ledger) = (Vec::new(), Vec::new());
        run(recording, &mut by_table, &mut TableEngine::default()).unwrap();
        run(recording, &mut by_ledger, &mut Ledger::default()).unwrap();
        assert!(by_table == by_ledger);
        String::from_utf8(by_table).unwrap()
    }

    /// Answers seen, with a mark where octets were dropped.
    fn kinds(text: &str) -> BTreeSet<String> {
        let lines = text.lines().skip(1).filter(|line| !line.starts_with("accepted"));
        lines
            .map(|line| {
                let fields: Vec<&str> = line.split(' ').collect();
                let mark = if fields[3] == "0" { "" } else { " dropped" };
                format!("{}{mark}", fields[1])
            })
            .collect()
    }

    #[test]
    fn every_answer_occurs() {
        for seed in 0..40 {
            let text = answered(&recording(seed, 2000));
            let kinds = kinds(&text);
            for number in [0, 4, 5, 6, 7, 8, 9, 10, 12] {
                assert!(kinds.contains(&format!("refused-{number}")), "seed {seed}: {number}");
            }
            for kind in ["held", "whole", "held dropped", "whole dropped"] {
                assert!(kinds.contains(kind), "seed {seed}: {kind}");
            }
            assert_eq!(kinds.len(), 13, "seed {seed}: {kinds:?}");
            assert_eq!(text.lines().count(), 2002);
        }
    }

    #[test]
    fn recordings_reach_the_limits() {
        let texts: Vec<String> = (0..40).map(|seed| answered(&recording(seed, 2000))).collect();
        for wanted in [" whole 512 0\n", " held 512 0\n", " refused-12 512 0\n"] {
            assert!(texts.iter().any(|text| text.contains(wanted)), "{wanted}");
        }
    }

    #[test]
    fn one_octet_fragments_reach_the_three_octet_header() {
        let crawls = |seed: &u64| {
            let (text, mut ledger) = (recording(*seed, 2000), Ledger::default());
            text.split(|character| *character == b'\n').filter_map(bench::parse).any(|line| {
                let entry = ledger.fragment(line.lid, line.tick, line.lsdu());
                let full = crate::header::read(line.lsdu()).is_ok_and(|header| header.counter == 512);
                full && entry == Entry::Refused(JOINED_TOO_LONG)
            })
        };
        let found = (0..40).filter(crawls).count();
        assert!(found >= 5, "{found} of 40 recordings");
    }

    #[test]
    fn some_recordings_have_no_final_line_feed() {
        let ends: BTreeSet<bool> = (0..20).map(|seed| recording(seed, 30).ends_with(b"\n")).collect();
        assert_eq!(ends.len(), 2);
    }
}
