//! Requests, the link and the header.

use std::hint::black_box;

use second::attributes::{self, Identity};
use second::hex;
use second::link::{Configuration, Element, HeardBst, Link, Own};
use second::message::{Lists, Message, Part};
use second::{header, reading};
use semuryeon::raw;

use crate::table::Row;
use crate::timing::{best, contender, copy, Effort};

const AREA: usize = 600;
const CREDENTIALS: [u8; 4] = [0xAA, 0xBB, 0xCC, 0xDD];

fn octets(digits: &str) -> Vec<u8> {
    hex::read_all(digits.as_bytes()).unwrap_or_default()
}

/// Twelve attributes, six in each area, from 1 to 100 octets.
fn directory() -> Vec<attributes::Row> {
    let lengths = [1, 2, 4, 10, 40, 100];
    let row = |index: usize| attributes::Row {
        id: 5 + index as u32,
        area: if index < 6 { attributes::Area::Factory } else { attributes::Area::Writable },
        start: lengths[..index % 6].iter().sum(),
        length: lengths[index % 6],
        protected: index % 6 == 5,
    };
    (0..12).map(row).collect()
}

fn words(rows: &[attributes::Row]) -> Vec<u32> {
    let row = |row: &attributes::Row| {
        [row.id, (row.area == attributes::Area::Writable).into(), row.start, row.length, row.protected.into()]
    };
    rows.iter().flat_map(row).collect()
}

fn request_row(name: &str, request: &[u8], effort: Effort) -> Row {
    let rows = directory();
    let (words, factory) = (words(&rows), vec![0x41; AREA]);
    let identity = Identity { eid: 1, credentials: &CREDENTIALS };
    let (mut first_area, mut second_area) = (vec![0; AREA], vec![0; AREA]);
    let (mut first, mut second) = ([0; 512], [0; 512]);
    let answer = raw::request(request, 1, &CREDENTIALS, &words, &factory, &mut first_area, &mut first);
    let plain = attributes::request(request, &identity, &rows, &factory, &mut second_area, &mut second);
    assert_eq!(Ok(Some(answer.first())), plain);
    let contenders = [
        contender(|| {
            raw::request(black_box(request), 1, &CREDENTIALS, &words, &factory, &mut first_area, &mut first)
        }),
        contender(|| {
            attributes::request(black_box(request), &identity, &rows, &factory, &mut second_area, &mut second)
        }),
        copy(request),
    ];
    let [proved, plain, copy] = best(contenders, effort);
    Row { name: name.into(), octets: request.len(), proved, plain, cleared: None, copy }
}

fn link_row(effort: Effort) -> Row {
    let octets = octets("8000312345675F5E10000002010200");
    let marks = [0x11, 0x22, 0x33, 0x44, 0x55, 0x66];
    let elements = [Element { eid: 1, aid: 1, mark: Part { start: 0, length: marks.len() } }];
    let configuration = Configuration { class: 1, maker: 5, status: 32_768 };
    let own = Own { elements: &elements, marks: &marks, configuration };
    let (mut first, mut second) = ([0; 512], [0; 512]);
    let mut proved = || {
        let (words, configuration) = ([1, 1, 0, 6], [1, 5, 32_768]);
        raw::link_bst(black_box(&octets), 10, 0xA7, &mut [0; 6], &words, &marks, configuration, &mut first)
    };
    let mut plain = || {
        let (mut link, mut lists) = (Link::new(), Lists::default());
        let Ok(Message::Bst(bst)) = reading::read(black_box(&octets), &mut lists) else {
            return false;
        };
        let heard = HeardBst { bst, lists: &lists, octets: &octets };
        black_box(link.hear(&heard, 10, 0xA7, &own, &mut second)).is_ok()
    };
    assert!(proved().kind() == 1 && plain());
    let [proved, plain, copy] = best([contender(proved), contender(plain), copy(&octets)], effort);
    Row {
        name: "link: BST answered with a VST".into(),
        octets: octets.len(),
        proved,
        plain,
        cleared: None,
        copy,
    }
}

fn header_row(name: &str, digits: &str, effort: Effort) -> Row {
    let octets = octets(digits);
    let contenders = [
        contender(|| raw::header_read(black_box(&octets))),
        contender(|| header::read(black_box(&octets))),
        copy(&octets),
    ];
    let [proved, plain, copy] = best(contenders, effort);
    Row { name: name.into(), octets: octets.len(), proved, plain, cleared: None, copy }
}

fn header_writing_row(name: &str, counter: u32, effort: Effort) -> Row {
    let (mut first, mut second) = ([0; 3], [0; 3]);
    let written = raw::header_write(1, 2, counter, &mut first).first();
    let contenders = [
        contender(|| raw::header_write(1, 2, black_box(counter), black_box(&mut first))),
        contender(|| header::write(true, 2, black_box(counter), black_box(&mut second))),
        copy(&[0; 3][..written]),
    ];
    let [proved, plain, copy] = best(contenders, effort);
    Row { name: name.into(), octets: written, proved, plain, cleared: None, copy }
}

pub fn rows(effort: Effort) -> Vec<Row> {
    // attribute 14, ten octets, and 15, forty octets
    let set = format!("490104AABBCCDD020E020A{}0F0228{}", "31".repeat(10), "32".repeat(40));
    vec![
        request_row("GET of one attribute", &octets("62010105"), effort),
        request_row(
            "GET of twelve attributes, 314 octets",
            &octets("6A0104AABBCCDD0C05060708090A0B0C0D0E0F10"),
            effort,
        ),
        request_row("GET of an unknown attribute", &octets("6201017F"), effort),
        request_row("SET of two attributes, 50 octets", &octets(&set), effort),
        request_row("ECHO of ten octets", &octets("05000F020A30313233343536373839"), effort),
        link_row(effort),
        header_row("header read, one octet", "91AA", effort),
        header_row("header read, three octets", "96FEFEAA", effort),
        header_writing_row("header write, one octet", 0, effort),
        header_writing_row("header write, three octets", 65_535, effort),
    ]
}
