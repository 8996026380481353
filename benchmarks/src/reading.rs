//! Reading, reading and writing again, and writing.

use std::hint::black_box;

use second::message::Lists;
use second::{reading, writing};
use semuryeon::{raw, OUTPUT_OCTETS};

use crate::sizes::{kinds, FAMILIES, SIZES};
use crate::table::Row;
use crate::timing::{best, contender, copy, Effort};

fn reading_row(name: &str, octets: &[u8], effort: Effort) -> Row {
    assert_eq!(raw::check(octets).refusal(), 0);
    let (mut left, mut lists) = (Lists::default(), Lists::default());
    let contenders = [
        contender(|| raw::check(black_box(octets))),
        contender(|| reading::read(black_box(octets), black_box(&mut left))),
        contender(|| {
            lists = Lists::default();
            reading::read(black_box(octets), black_box(&mut lists))
        }),
        copy(octets),
    ];
    let [proved, plain, cleared, copy] = best(contenders, effort);
    Row { name: name.into(), octets: octets.len(), proved, plain, cleared: Some(cleared), copy }
}

fn rewriting_row(name: &str, octets: &[u8], effort: Effort) -> Row {
    let again = |lists: &mut Lists, output: &mut [u8]| {
        let message = reading::read(black_box(octets), lists)?;
        writing::write(&message, lists, black_box(octets), output)
    };
    let mut outputs = [[0; OUTPUT_OCTETS]; 3];
    let [first, second, third] = &mut outputs;
    let (mut left, mut lists) = (Lists::default(), Lists::default());
    assert_eq!(raw::rewrite(octets, first).first(), octets.len());
    let contenders = [
        contender(|| raw::rewrite(black_box(octets), black_box(first))),
        contender(|| again(black_box(&mut left), black_box(second))),
        contender(|| {
            lists = Lists::default();
            again(black_box(&mut lists), black_box(third))
        }),
        copy(octets),
    ];
    let [proved, plain, cleared, copy] = best(contenders, effort);
    Row { name: name.into(), octets: octets.len(), proved, plain, cleared: Some(cleared), copy }
}

/// Writing alone. The archive has no call that only writes, so the proved time is that of reading and writing again less that of reading, in the same
/// rounds; plain Rust's is that of its writer.
fn writing_row(name: &str, octets: &[u8], effort: Effort) -> Row {
    let mut outputs = [[0; OUTPUT_OCTETS]; 2];
    let [first, second] = &mut outputs;
    let mut lists = Lists::default();
    let message = reading::read(octets, &mut lists).unwrap_or_else(|_| unreachable!("the family's messages are read"));
    let contenders = [
        contender(|| raw::rewrite(black_box(octets), black_box(first))),
        contender(|| raw::check(black_box(octets))),
        contender(|| writing::write(black_box(&message), black_box(&lists), black_box(octets), black_box(second))),
        copy(octets),
    ];
    let [both, reading, plain, copy] = best(contenders, effort);
    Row { name: name.into(), octets: octets.len(), proved: both - reading, plain, cleared: None, copy }
}

pub fn by_kind(effort: Effort) -> Vec<Row> {
    kinds().iter().map(|(name, octets)| reading_row(name, octets, effort)).collect()
}

fn families(row: impl Fn(&str, &[u8]) -> Row) -> Vec<Row> {
    let mut rows = Vec::new();
    for (name, message) in FAMILIES {
        rows.extend(SIZES.map(|size| row(name, &message(size))));
    }
    rows
}

pub fn by_size(effort: Effort) -> Vec<Row> {
    families(|name, octets| reading_row(name, octets, effort))
}

pub fn rewriting(effort: Effort) -> Vec<Row> {
    families(|name, octets| rewriting_row(name, octets, effort))
}

pub fn writing(effort: Effort) -> Vec<Row> {
    families(|name, octets| writing_row(name, octets, effort))
}
