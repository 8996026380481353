use super::*;
use crate::{attributes, link};
use std::collections::{BTreeMap, BTreeSet};

const SCRIPTS: u64 = 3000;

fn answers(script: &[u8]) -> String {
    let mut output = Vec::new();
    tag::run(script, &mut output).unwrap();
    String::from_utf8(output).unwrap()
}

/// What an answer line says without its values; replies and refusals keep their kind.
fn kind(answer: &str) -> String {
    let words: Vec<&str> = answer.split(' ').skip(1).collect();
    match words[..] {
        ["reply", octets] => reply_kind(&hex::octets(octets)),
        ["silent" | "done", phase, ..] => format!("{} {}", words[0], phase.split(':').next().unwrap()),
        _ => words[0].into(),
    }
}

/// The choice of a reply, with its status or for a long one its length.
fn reply_kind(octets: &[u8]) -> String {
    let has_status = match octets[0] >> 4 {
        5 => true,
        7 => octets[0] & 2 == 2,
        _ => false,
    };
    match octets.last() {
        Some(status) if has_status => format!("reply {} status {status}", octets[0] >> 4),
        _ if octets.len() >= 511 => format!("reply {} length {}", octets[0] >> 4, octets.len()),
        _ => format!("reply {}", octets[0] >> 4),
    }
}

#[test]
fn every_answer_occurs_often() {
    let mut counts: BTreeMap<String, usize> = BTreeMap::new();
    for seed in 0..SCRIPTS {
        for line in answers(&script(seed)).lines().skip(1) {
            *counts.entry(kind(line)).or_default() += 1;
        }
    }
    let refusals = [0, 3, 13, 14, 15, 16, 17, 18, 19, 21, 23, 24, 25, 26];
    let mut wanted: Vec<String> = refusals.iter().map(|number| format!("refused-{number}")).collect();
    wanted.extend(["no-reply", "known", "unknown", "writable", "vst"].map(String::from));
    wanted.extend(["silent phase=looking", "silent phase=ready"].map(String::from));
    wanted.extend(["sleeping", "looking", "ready"].map(|phase| format!("done phase={phase}")));
    wanted.extend([0, 1, 2].map(|status| format!("reply 5 status {status}")));
    wanted.extend([1, 2, 3].map(|status| format!("reply 7 status {status}")));
    wanted.extend(["reply 1", "reply 7", "reply 7 length 511", "reply 7 length 512"].map(String::from));
    for kind in &wanted {
        assert!(counts.get(kind).is_some_and(|count| *count >= 15), "{kind}: {:?}", counts.get(kind));
    }
    assert_eq!(counts.len(), wanted.len(), "{counts:?}");
}

#[test]
fn scripts_are_those_of_their_seed() {
    assert!((0..50).all(|seed| script(seed) == script(seed)));
    assert_ne!(script(1), script(2));
    let ends: BTreeSet<bool> = (0..20).map(|seed| script(seed).ends_with(b"\n")).collect();
    assert_eq!(ends.len(), 2);
}

#[test]
fn most_lines_are_of_a_form() {
    let (mut taken, mut odd) = (0, 0);
    for seed in 0..200 {
        for line in script(seed).split(|character| *character == b'\n') {
            *if script::parse(line).is_some() { &mut taken } else { &mut odd } += 1;
        }
    }
    assert!(taken > 15 * odd && odd > 100, "{taken} taken, {odd} odd");
}

#[test]
fn most_tags_are_sound() {
    let (mut directories, mut elements) = (0, 0);
    for seed in 0..400 {
        let mut tag = Tag::default();
        for line in equipment::lines(&mut Random::new(seed)) {
            assert_eq!(tag.take(script::parse(line.as_bytes())), None, "{line}");
        }
        let Tag { rows, factory, writable, marks, .. } = &tag;
        directories += usize::from(attributes::is_sound(rows, factory.len(), writable.len()));
        elements += usize::from(link::elements_are_sound(&tag.elements, marks.len()));
    }
    assert!((320..400).contains(&directories) && (280..400).contains(&elements), "{directories} {elements}");
}
