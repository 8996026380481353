//! Request and lookup calls.

use second::attributes::{self, Area, Identity};
use second::random::Random;
use second::refusal::{Refusal, OUTPUT_SMALL};
use second::requests;
use semuryeon::{raw, Answer};

use crate::arbitrary;
use crate::expected::{kept_if_refused, packed, refused, same};
use crate::links::random_tag;
use crate::states::{row_words, rows_of};

#[derive(Clone, Debug, PartialEq)]
struct Lent {
    rows: Vec<u32>,
    factory: Vec<u8>,
    writable: Vec<u8>,
    output: Vec<u8>,
}

fn compare_request(octets: &[u8], eid: u32, credentials: &[u8], lent: &mut Lent) -> Result<(), String> {
    let (before, mut expected) = (lent.clone(), lent.clone());
    let Lent { rows, factory, writable, output } = lent;
    let answer = raw::request(octets, eid, credentials, rows, factory, writable, output);
    let reply = attributes::request(
        octets,
        &Identity { eid, credentials },
        &rows_of(&expected.rows),
        &expected.factory,
        &mut expected.writable,
        &mut expected.output,
    );
    let wanted = reply.map_or_else(refused, |reply| reply.map_or(packed(0, 0, 0), |n| packed(1, n, 0)));
    let name = || format!("request {octets:X?} eid {eid} credentials {credentials:X?} with {before:X?}");
    same(&name(), &answer, &wanted)?;
    same(&name(), lent, &expected)?;
    kept_if_refused(answer, &before, lent)
}

/// The second program's answer, and the words it leaves in the part.
fn second_lookup(id: u32, words: &[u32], factory: usize, writable: usize, part: &mut [u32]) -> Answer {
    let rows = rows_of(words);
    let known = match attributes::is_known(&rows, id, factory, writable) {
        Ok(known) => known,
        Err(refusal) => return refused(refusal),
    };
    let Some(part) = part.get_mut(..3) else {
        return refused(Refusal::plain(OUTPUT_SMALL));
    };
    let row = rows.iter().find(|row| row.id == id);
    part.copy_from_slice(
        &row.map_or([0; 3], |row| [u32::from(row.area == Area::Writable), row.start, row.length]),
    );
    packed(known.into(), 0, 0)
}

fn compare_lookup(id: u32, rows: &[u32], areas: [usize; 2], before: &[u32]) -> Result<(), String> {
    let [factory, writable] = areas;
    let (mut found, mut expected) = (before.to_vec(), before.to_vec());
    let answer = raw::lookup(id, rows, factory, writable, &mut found);
    let name = format!("lookup {id} in {rows:?}, areas {areas:?}, part {before:?}");
    same(&name, &answer, &second_lookup(id, rows, factory, writable, &mut expected))?;
    same(&name, &found, &expected)?;
    kept_if_refused(answer, &before.to_vec(), &found)
}

fn id(random: &mut Random, rows: &[u32]) -> u32 {
    match rows.len() / 5 {
        count if count > 0 && !random.one_in(3) => rows[5 * random.below(count)],
        _ => arbitrary::word(random),
    }
}

/// Random tags, each asked for a while.
pub fn tags(random: &mut Random, count: usize) -> Result<usize, String> {
    let mut calls = 0;
    while calls < count {
        let mut tag = random_tag(random);
        for _ in 0..8 {
            let room = if random.one_in(16) { random.pick(&[0, 511, 513]) } else { 512 };
            let mut lent = Lent {
                rows: row_words(&tag.rows),
                factory: tag.factory.clone(),
                writable: tag.writable.clone(),
                output: vec![random.octet(); room],
            };
            let octets = requests::request(random, &tag);
            if random.one_in(4) {
                let mut damaged = lent.clone();
                arbitrary::damage(random, &mut damaged.rows);
                compare_request(&octets, tag.eid, &tag.credentials, &mut damaged)?;
            }
            compare_request(&octets, tag.eid, &tag.credentials, &mut lent)?;
            tag.writable = lent.writable;
            let part = arbitrary::words(random, 6);
            let areas = [tag.factory.len(), tag.writable.len()];
            compare_lookup(id(random, &lent.rows), &lent.rows, areas, &part)?;
            calls += 2;
        }
    }
    Ok(calls)
}

/// Rows of five words that are mostly no directory.
fn rows(random: &mut Random) -> Vec<u32> {
    let mut rows: Vec<u32> = Vec::new();
    for _ in 0..random.below(36) {
        rows.extend([arbitrary::word(random), random.below(3) as u32, arbitrary::word(random)]);
        rows.extend([arbitrary::word(random), arbitrary::word(random)]);
    }
    if random.one_in(4) {
        arbitrary::damage(random, &mut rows);
    }
    rows
}

pub fn arbitrary(random: &mut Random, count: usize) -> Result<usize, String> {
    for _ in 0..count {
        let tag = random_tag(random);
        let rows = match random.below(3) {
            0 => rows(random),
            1 => arbitrary::words(random, 200),
            _ => row_words(&tag.rows),
        };
        let mut lent = Lent {
            rows,
            factory: arbitrary::octets(random, tag.factory.len(), 300),
            writable: arbitrary::octets(random, tag.writable.len(), 300),
            output: arbitrary::octets(random, 512, 700),
        };
        let octets = if random.one_in(2) {
            requests::request(random, &tag)
        } else {
            arbitrary::octets(random, 8, 600)
        };
        compare_request(&octets, arbitrary::word(random), &tag.credentials, &mut lent)?;
        let areas = [random.pick(&[0, 300, usize::MAX]), arbitrary::word(random) as usize];
        let part = arbitrary::words(random, 6);
        compare_lookup(id(random, &lent.rows), &lent.rows, areas, &part)?;
    }
    Ok(2 * count)
}
