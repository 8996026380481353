//! Fragment headers.

use second::header;
use second::header_samples::{write_header_fields, write_headers};
use second::hex;
use second::random::Random;
use semuryeon::{raw, Answer};

use crate::arbitrary;
use crate::expected::{kept_if_refused, number_or_refused, packed, refused, same};

fn expected_reading(octets: &[u8]) -> Answer {
    match header::read(octets) {
        Err(refusal) => refused(refusal),
        Ok(header) => {
            let second = header.length + 4 * usize::from(header.last);
            packed(header.number, header.counter.into(), second)
        }
    }
}

pub fn read(random: &mut Random, count: usize) -> Result<usize, String> {
    let mut lines = Vec::new();
    write_headers(random.word(), count, &mut lines).map_err(|error| error.to_string())?;
    for line in lines.split(|character| *character == b'\n') {
        let octets = hex::read_all(line).unwrap_or_default();
        same(&format!("{octets:X?}"), &raw::header_read(&octets), &expected_reading(&octets))?;
    }
    Ok(count)
}

fn compare_writing(last: u32, number: u32, counter: u32, before: Vec<u8>) -> Result<(), String> {
    let (mut found, mut expected) = (before.clone(), before.clone());
    let answer = raw::header_write(last, number, counter, &mut found);
    let written = header::write(last != 0, number, counter, &mut expected);
    let call = format!("last {last} number {number} counter {counter} room {}", before.len());
    same(&call, &answer, &number_or_refused(written))?;
    same(&call, &found, &expected)?;
    kept_if_refused(answer, &before, &found)
}

pub fn write(random: &mut Random, count: usize) -> Result<usize, String> {
    let mut lines = Vec::new();
    write_header_fields(random.word(), count, &mut lines).map_err(|error| error.to_string())?;
    for line in String::from_utf8_lossy(&lines).lines() {
        let fields: Vec<u32> = line.split(' ').filter_map(|field| field.parse().ok()).collect();
        let before = random.octets(fields[3] as usize);
        compare_writing(fields[0], fields[1], fields[2], before.clone())?;
        let last = arbitrary::word(random);
        compare_writing(last, arbitrary::word(random), arbitrary::word(random), before)?;
    }
    Ok(2 * count)
}
