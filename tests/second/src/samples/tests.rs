use super::*;
use crate::decode;
use crate::header_samples::write_headers;
use crate::limits::{of_length, with_depth, with_rows, with_rows_in_entries};
use crate::message::Lists;
use crate::reading;
use std::collections::BTreeSet;

fn decoded(seed: u64, count: usize) -> String {
    let (mut lines, mut output) = (Vec::new(), Vec::new());
    write_messages(seed, count, &mut lines).unwrap();
    decode::run(&lines[..], &mut output).unwrap();
    String::from_utf8(output).unwrap()
}

fn refused_at(octets: &[u8]) -> Option<(u8, usize)> {
    let refusal = reading::read(octets, &mut Lists::default()).err()?;
    Some((refusal.number, refusal.position.unwrap()))
}

#[test]
fn sound_messages_are_read() {
    let mut random = Random::new(7);
    for _ in 0..20_000 {
        let octets = sound_message(&mut random);
        assert_eq!(refused_at(&octets), None, "{}", crate::hex::text(&octets));
    }
}

#[test]
fn every_kind_and_refusal_occurs_and_all_are_written_back() {
    for seed in 0..10 {
        let text = decoded(seed, 5000);
        assert_eq!(text.lines().count(), 5002);
        let answers: BTreeSet<&str> =
            text.lines().skip(1).filter_map(|line| line.split(' ').nth(1)).collect();
        for kind in ["action", "event", "set", "get"] {
            assert!(answers.contains(format!("{kind}-request").as_str()), "{kind}");
            assert!(answers.contains(format!("{kind}-response").as_str()), "{kind}");
        }
        assert!(answers.contains("bst") && answers.contains("vst"));
        for number in [0, 13, 14, 15, 16, 17, 18, 19, 21] {
            assert!(answers.contains(format!("refused-{number}").as_str()), "seed {seed}: {number}");
        }
        let totals: Vec<&str> = text.lines().last().unwrap().split(' ').collect();
        let (messages, refused): (u64, u64) = (totals[1].parse().unwrap(), totals[3].parse().unwrap());
        assert_eq!((messages + refused, totals[1]), (5000, totals[5]), "seed {seed}");
        assert!(messages > 1500 && refused > 1000, "seed {seed}: {totals:?}");
    }
}

#[test]
fn limits() {
    assert_eq!((of_length(512).len(), refused_at(&of_length(512))), (512, None));
    assert_eq!((of_length(513).len(), refused_at(&of_length(513))), (513, Some((21, 512))));
    assert_eq!(refused_at(&with_rows(32)), None);
    assert_eq!(refused_at(&with_rows(33)).map(|fault| fault.0), Some(18));
    assert_eq!(refused_at(&with_rows_in_entries(32)), None);
    assert_eq!(refused_at(&with_rows_in_entries(33)).map(|fault| fault.0), Some(18));
    assert_eq!(refused_at(&with_depth(4, 2)), None);
    assert_eq!(refused_at(&with_depth(4, 9)), None);
    assert_eq!(refused_at(&with_depth(5, 2)), Some((19, 15)));
}

#[test]
fn headers_are_short_and_of_every_form() {
    let mut lines = Vec::new();
    write_headers(3, 2000, &mut lines).unwrap();
    let text = String::from_utf8(lines).unwrap();
    assert!(text.lines().all(|line| line.len() <= 10 && line.len() % 2 == 0));
    let answers: BTreeSet<String> = text
        .lines()
        .map(|line| crate::header::reading_text(&crate::hex::octets(line)))
        .filter_map(|answer| answer.split(' ').next_back().map(String::from))
        .collect();
    assert_eq!(answers.into_iter().collect::<Vec<_>>(), ["1", "2", "3", "refused-5"]);
}
