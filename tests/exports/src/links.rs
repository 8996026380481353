//! BST, release and tick calls of a link.

use second::calls;
use second::equipment;
use second::link::{Configuration, HeardBst, Own, Reply};
use second::message::{Lists, Message};
use second::random::Random;
use second::reading;
use second::refusal::{Refusal, RECORD_BROKEN};
use second::script;
use second::tag::Tag;
use semuryeon::{raw, Answer};

use crate::arbitrary;
use crate::expected::{kept_if_refused, packed, refused, same};
use crate::states::{element_words, elements_of, link_of, link_words};

#[derive(Clone, Debug)]
enum Call {
    Bst { octets: Vec<u8>, tick: u32, lid: u32 },
    Release(u32),
    Tick(u32),
}

#[derive(Clone, Debug, PartialEq)]
struct Lent {
    link: Vec<u32>,
    elements: Vec<u32>,
    marks: Vec<u8>,
    configuration: [u32; 3],
    output: Vec<u8>,
}

fn archive(call: &Call, lent: &mut Lent) -> Answer {
    let Lent { link, elements, marks, configuration, output } = lent;
    match call {
        Call::Bst { octets, tick, lid } => {
            raw::link_bst(octets, *tick, *lid, link, elements, marks, *configuration, output)
        }
        Call::Release(lid) => raw::link_release(*lid, link),
        Call::Tick(tick) => raw::link_tick(*tick, link),
    }
}

fn second(call: &Call, lent: &mut Lent) -> Result<Answer, Refusal> {
    let mut link = link_of(&lent.link);
    let answer = match call {
        Call::Release(lid) => link.release(*lid).map(|()| packed(0, 0, 0))?,
        Call::Tick(tick) => link.pass_tick(*tick).map(|()| packed(0, 0, 0))?,
        Call::Bst { octets, tick, lid } => {
            let mut lists = Lists::default();
            let Message::Bst(bst) = reading::read(octets, &mut lists)? else {
                return Err(Refusal::plain(RECORD_BROKEN));
            };
            let [class, maker, status] = lent.configuration;
            let own = Own {
                elements: &elements_of(&lent.elements),
                marks: &lent.marks,
                configuration: Configuration { class, maker, status },
            };
            let heard = HeardBst { bst, lists: &lists, octets };
            match link.hear(&heard, *tick, *lid, &own, &mut lent.output)? {
                Reply::Silent => packed(0, 0, 0),
                Reply::Vst(octets) => packed(1, octets, 0),
            }
        }
    };
    lent.link = link_words(&link);
    Ok(answer)
}

fn compare(call: &Call, lent: &mut Lent) -> Result<(), String> {
    let (before, mut expected) = (lent.clone(), lent.clone());
    let answer = archive(call, lent);
    let name = || format!("{call:X?} with {before:X?}");
    same(&name(), &answer, &second(call, &mut expected).unwrap_or_else(refused))?;
    same(&name(), lent, &expected)?;
    kept_if_refused(answer, &before, lent)
}

fn call(random: &mut Random, tag: &Tag) -> Call {
    match random.below(8) {
        0 => Call::Release(calls::released_lid(random, tag)),
        1 => Call::Tick(calls::tick(random, tag)),
        _ => Call::Bst {
            octets: calls::bst(random, tag),
            tick: calls::tick(random, tag),
            lid: calls::fresh_lid(random),
        },
    }
}

/// A tag set up by random lines.
pub fn random_tag(random: &mut Random) -> Tag {
    let mut tag = Tag::default();
    for line in equipment::lines(random) {
        tag.take(script::parse(line.as_bytes()));
    }
    tag
}

fn room(random: &mut Random) -> usize {
    if random.one_in(16) {
        random.pick(&[0, 511, 513, 600])
    } else {
        512
    }
}

/// A list of calls on one link.
fn list(random: &mut Random, length: usize) -> Result<(), String> {
    let mut tag = random_tag(random);
    let Configuration { class, maker, status } = tag.configuration;
    let mut link = vec![0; 6];
    for _ in 0..length {
        let call = call(random, &tag);
        let mut lent = Lent {
            link,
            elements: element_words(&tag.elements),
            marks: tag.marks.clone(),
            configuration: [class, maker, status],
            output: vec![random.octet(); room(random)],
        };
        if random.one_in(4) {
            let mut damaged = lent.clone();
            let words = if random.one_in(2) { &mut damaged.link } else { &mut damaged.elements };
            arbitrary::damage(random, words);
            compare(&call, &mut damaged)?;
        }
        compare(&call, &mut lent)?;
        link = lent.link;
        tag.link = link_of(&link);
    }
    Ok(())
}

pub fn lists(random: &mut Random, count: usize) -> Result<usize, String> {
    let mut calls = 0;
    while calls < count {
        let length = random.between(1, 40);
        list(random, length)?;
        calls += length;
    }
    Ok(calls)
}

fn words(random: &mut Random, wanted: usize, most: usize) -> Vec<u32> {
    if random.one_in(3) {
        return arbitrary::words(random, most);
    }
    (0..wanted).map(|_| arbitrary::word(random)).collect()
}

pub fn arbitrary(random: &mut Random, count: usize) -> Result<usize, String> {
    for _ in 0..count {
        let tag = random_tag(random);
        let sound = random.one_in(2);
        let call = match random.below(4) {
            0 => Call::Release(arbitrary::word(random)),
            1 => Call::Tick(arbitrary::word(random)),
            _ => Call::Bst {
                octets: if sound { calls::bst(random, &tag) } else { arbitrary::octets(random, 14, 600) },
                tick: arbitrary::word(random),
                lid: arbitrary::word(random),
            },
        };
        let mut lent = Lent {
            link: words(random, 6, 12),
            elements: if random.one_in(2) { element_words(&tag.elements) } else { words(random, 4, 45) },
            marks: if random.one_in(2) { tag.marks } else { arbitrary::octets(random, 20, 300) },
            configuration: [(); 3].map(|()| arbitrary::word(random)),
            output: arbitrary::octets(random, 512, 700),
        };
        compare(&call, &mut lent)?;
    }
    Ok(count)
}
