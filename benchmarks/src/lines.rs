//! Lines of a recording.

use std::hint::black_box;
use std::io;

use second::bench::{self, TableEngine};
use second::recording;
use semuryeon::{Bench, TEXT_OCTETS};

use crate::timing::{best, contender, Effort};

/// Few enough that a round is not much longer than those of the other calls.
const LINES: usize = 250;

/// Lines of 40 characters: eight messages of 10 octets in turn, each in two fragments.
fn regular() -> Vec<u8> {
    let line = |index: usize| {
        let header = if index / 8 % 2 == 1 { "93" } else { "11" };
        format!("{:07X} {index:09} {header}AA000102030405060708\n", index % 8)
    };
    (0..LINES).map(line).collect::<String>().into_bytes()
}

fn random() -> Vec<u8> {
    let mut text = Vec::new();
    recording::write(1, LINES, &mut text).expect("memory takes any text");
    text
}

fn proved(recording: &[u8]) -> usize {
    let (mut bench, mut text) = (Bench::new(), [0; TEXT_OCTETS]);
    let lines = recording.strip_suffix(b"\n").unwrap_or(recording).split(|character| *character == b'\n');
    lines.map(|line| bench.line(black_box(line), &mut text).map_or(0, <[u8]>::len)).sum()
}

fn plain(recording: &[u8]) -> bool {
    bench::run(black_box(recording), &mut io::sink(), &mut TableEngine::default()).is_ok()
}

pub fn print(effort: Effort) {
    println!("\n## Bench lines\n");
    println!("Both split the text into lines; neither prints.\n");
    println!("| Recording | octets a line | proved ns | lines/s | plain ns | lines/s | ratio |");
    println!("|---|--:|--:|--:|--:|--:|--:|");
    for (name, recording) in [("regular", regular()), ("random, some lines refused", random())] {
        let both = [contender(|| proved(&recording)), contender(|| plain(&recording))];
        let [proved, plain] = best(both, effort).map(|time| time / LINES as f64);
        println!(
            "| {name} | {:.0} | {proved:.0} | {:.0} | {plain:.0} | {:.0} | {:.2} |",
            recording.len() as f64 / LINES as f64,
            1e9 / proved,
            1e9 / plain,
            proved / plain
        );
    }
}
