//! Lines of a recording, and lines on a table that is not sound.

use second::bench::{self, TableEngine};
use second::random::Random;
use second::recording;
use semuryeon::{raw, Bench, TEXT_OCTETS};

use crate::arbitrary;
use crate::expected::same;
use crate::states::table_of;

const LINES: usize = 2000;

/// A recording line by line; answers what the bench program would print between heading and totals.
fn answered(recording: &[u8]) -> Result<Vec<u8>, String> {
    let (mut bench, mut printed) = (Bench::new(), Vec::new());
    let mut text = [0; TEXT_OCTETS];
    let lines = recording.strip_suffix(b"\n").unwrap_or(recording);
    for line in lines.split(|character| *character == b'\n') {
        printed.extend_from_slice(bench.line(line, &mut text).map_err(|refusal| refusal.to_string())?);
    }
    Ok(printed)
}

fn expected(recording: &[u8]) -> Result<Vec<u8>, String> {
    let mut printed = Vec::new();
    bench::run(recording, &mut printed, &mut TableEngine::default()).map_err(|error| error.to_string())?;
    let lines: Vec<&[u8]> = printed.split_inclusive(|character| *character == b'\n').collect();
    Ok(lines[1..lines.len() - 1].concat())
}

/// A line on any words; those that are no sound table are told as refused 2 and stay no sound table.
fn arbitrary_line(random: &mut Random) -> Result<(), String> {
    let mut table = vec![0; 41];
    arbitrary::damage(random, &mut table);
    let sound = table_of(&table).is_sound();
    let (mut store, mut output) = (random.octets(4096), random.octets(512));
    let room = if random.one_in(4) { random.pick(&[0, 1, 127]) } else { 128 };
    let mut text = random.octets(room);
    let number = random.word();
    let before = (table.clone(), store.clone(), output.clone(), text.clone());
    let line = b"0000001 0 11AABB";
    let answer = raw::bench_line(number, line, &mut table, &mut store, &mut output, &mut text);
    let name = format!("line {number} on table {:X?}", before.0);
    if room < 128 {
        same(&name, &answer.refusal(), &22)?;
        return same(&name, &(table, store, output, text), &before);
    }
    let printed = if sound { format!("{number} held 2 0\n") } else { format!("{number} refused-2 0 0\n") };
    let front = answer.first();
    same(&name, &&text[..front], &printed.as_bytes())?;
    same(&name, &&text[front..], &&before.3[front..])?;
    if sound {
        return Ok(());
    }
    same(&name, &(table, store, output), &(before.0, before.1, before.2))
}

pub fn recordings(random: &mut Random, count: usize) -> Result<usize, String> {
    let mut calls = 0;
    while calls < count {
        let (mut recording, seed) = (Vec::new(), random.word());
        recording::write(seed, LINES.min(count), &mut recording).map_err(|error| error.to_string())?;
        let (found, expected) = (answered(&recording)?, expected(&recording)?);
        let differs = found.iter().zip(&expected).position(|(found, expected)| found != expected);
        same(&format!("recording {seed}, octets from {differs:?} on"), &found.len(), &expected.len())?;
        same(&format!("recording {seed}"), &differs, &None)?;
        calls += LINES.min(count);
    }
    for _ in 0..count {
        arbitrary_line(random)?;
    }
    Ok(calls + count)
}
