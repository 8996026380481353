//! Every call of the wrapper against answers that the scope paper gives.

#![forbid(unsafe_code)]

use semuryeon::*;

fn octets(hex: &str) -> Vec<u8> {
    let digits: String = hex.split(' ').collect();
    (0..digits.len()).step_by(2).map(|at| u8::from_str_radix(&digits[at..at + 2], 16).unwrap()).collect()
}

fn refused<T>(number: u8) -> Result<T, Refusal> {
    Err(Refusal { number, position: None })
}

fn refused_at<T>(number: u8, position: usize) -> Result<T, Refusal> {
    Err(Refusal { number, position: Some(position) })
}

#[test]
fn headers() {
    let cases = [
        ("91", true, 2, 0),
        ("97", true, 2, 3),
        ("10 09", false, 2, 4),
        ("FE FF", true, 15, 511),
        ("10 08 00", false, 2, 512),
        ("96 FE FE", true, 2, 65_535),
    ];
    for (hex, last, number, counter) in cases {
        let (expected, header) = (octets(hex), Header { last, number, counter });
        assert_eq!(read_header(&expected), Ok((header, expected.len())));
        let mut output = [0xEE; 4];
        assert_eq!(write_header(header, &mut output), Ok(expected.len()));
        assert_eq!(output[..expected.len()], expected);
        assert!(output[expected.len()..].iter().all(|octet| *octet == 0xEE));
        assert_eq!(write_header(header, &mut output[..expected.len() - 1]), refused(22));
    }
    assert_eq!(read_header(&octets("10 07")), refused(5));
    assert_eq!(read_header(&octets("10 06 FE")), refused(5));
    assert_eq!(read_header(&[]), refused(5));
    assert_eq!(write_header(Header { last: true, number: 16, counter: 0 }, &mut []), refused(23));
    assert_eq!(write_header(Header { last: true, number: 256, counter: 0 }, &mut [0; 3]), refused(23));
    assert_eq!(write_header(Header { last: true, number: 2, counter: 65_536 }, &mut [0; 3]), refused(23));
}

#[test]
fn joining() {
    let (mut table, mut output) = (Table::new(), [0; OUTPUT_OCTETS]);
    assert_eq!(
        table.fragment(1, 0, &octets("11 AA BB"), &mut output),
        Ok(Joined::Held { octets: 2, dropped: 0 })
    );
    let whole = Joined::Whole { message: &octets("AA BB CC"), dropped: 0 };
    assert_eq!(table.fragment(1, 5, &octets("93 CC"), &mut output), Ok(whole));
    assert_eq!(table.fragment(1, 9, &octets("95 DD"), &mut output), refused(8));
    assert_eq!(table.fragment(1, 9, &octets("11 AA"), &mut output[..511]), refused(1));
    assert_eq!(table.fragment(1 << 28, 9, &octets("11 AA"), &mut output), refused(3));
    assert_eq!(table.fragment(1, 9, &[], &mut output), refused(4));
    assert_eq!(table.fragment(1, 9, &octets("01 AA"), &mut output), refused(6));
    assert_eq!(table.fragment(1, 9, &octets("11"), &mut output), refused(7));

    for lid in 0..8 {
        let held = Ok(Joined::Held { octets: 2, dropped: 0 });
        assert_eq!(table.fragment(lid, lid, &octets("11 AA BB"), &mut output), held);
    }
    assert_eq!(table.fragment(8, 9, &octets("11 AA"), &mut output), refused(9));
    assert_eq!(table.fragment(7, 9, &octets("15 AA"), &mut output), refused(10));
    let anew = Joined::Held { octets: 1, dropped: 2 };
    assert_eq!(table.fragment(7, 9, &octets("11 AA"), &mut output), Ok(anew));
    assert_eq!(table.release(7), Ok(1));
    assert_eq!(table.release(1 << 28), refused(3));
    assert_eq!(table.expire(6, 5), Ok(4));
    assert_eq!(table.expire(6, 0), Ok(10));
    assert_eq!(table.expire(6, 0), Ok(0));
}

#[test]
fn messages() {
    assert_eq!(check(&octets("05 00 0F 02 00")), Ok(Kind::ActionRequest));
    assert_eq!(check(&octets("14 00 02 00")), Ok(Kind::ActionResponse));
    assert_eq!(check(&octets("20 00 00")), Ok(Kind::EventRequest));
    assert_eq!(check(&octets("20 00")), refused_at(13, 2));
    assert_eq!(check(&octets("20 00 00 00")), refused_at(14, 3));
    assert_eq!(check(&octets("20 80 00")), refused_at(16, 1));
    assert_eq!(check(&octets("A0")), refused_at(15, 0));
    assert_eq!(check(&[]), refused_at(13, 0));
    assert_eq!(check(&[0; 513]), refused_at(21, 512));

    let vst = octets("90 00 01 C1 01 02 06 11 22 33 44 55 66 80 01 00 05 80 00");
    let mut output = [0; OUTPUT_OCTETS];
    assert_eq!(check(&vst), Ok(Kind::Vst));
    assert_eq!(rewrite(&vst, &mut output), Ok(&vst[..]));
    assert_eq!(rewrite(&vst, &mut output[..vst.len() - 1]), refused(22));
    assert_eq!(rewrite(&octets("20 80 00"), &mut output), refused_at(16, 1));
}

#[test]
fn strings() {
    let mut output = [0; OUTPUT_OCTETS];
    let vst = octets("90 00 01 C1 01 02 06 11 22 33 44 55 66 80 01 00 05 80 00");
    let mark = octets("11 22 33 44 55 66");
    assert_eq!(string(&vst, Field::Entry(0), &mut output), Ok(Some(&mark[..])));
    assert_eq!(string(&vst, Field::Entry(0), &mut output[..5]), refused(22));
    assert_eq!(string(&vst, Field::Entry(1), &mut output), Ok(None));
    assert_eq!(string(&vst, Field::Entry(32), &mut output), Ok(None));
    assert_eq!(string(&vst, Field::Credentials, &mut output), Ok(None));

    let set = octets("49 01 02 AA BB 02 05 02 02 41 42 06 02 00");
    assert_eq!(string(&set, Field::Credentials, &mut output), Ok(Some(&[0xAA, 0xBB][..])));
    assert_eq!(string(&set, Field::Row(0), &mut output), Ok(Some(&[0x41, 0x42][..])));
    assert_eq!(string(&set, Field::Row(1), &mut output), Ok(Some(&[][..])));
    assert_eq!(string(&set, Field::Row(2), &mut output), Ok(None));
    assert_eq!(string(&set, Field::Row(32), &mut output), Ok(None));

    let echo = octets("05 00 0F 02 01 77");
    assert_eq!(string(&echo, Field::Parameter, &mut output), Ok(Some(&[0x77][..])));
    assert_eq!(string(&echo[..5], Field::Parameter, &mut output), refused_at(13, 5));
}

#[test]
fn link() {
    let bst = octets("80 00 31 23 45 67 5F 5E 10 00 00 01 01 00");
    let marks = octets("11 22 33 44 55 66");
    let element = Element { eid: 1, aid: 1, mark_start: 0, mark_length: 6 };
    let configuration = Configuration { class: 1, maker: 5, status: 32_768 };
    let tag = Equipment::new(&[element], &marks, configuration);
    let vst = octets("90 00 01 C1 01 02 06 11 22 33 44 55 66 80 01 00 05 80 00");
    let (mut link, mut output) = (Link::new(), [0; OUTPUT_OCTETS]);

    assert_eq!(link.release(0xA7), refused(25));
    assert_eq!(link.hear(&bst, 10, 0xA7, &tag, &mut output), Ok(Heard::Vst(&vst)));
    assert_eq!(link.hear(&bst, 12, 0xA8, &tag, &mut output), Ok(Heard::Silent));
    assert_eq!(link.release(0xA8), refused(25));
    assert_eq!(link.release(1 << 28), refused(3));
    assert_eq!(link.release(0xA7), Ok(()));
    assert_eq!(link.tick(111), Ok(()));
    assert_ne!(link, Link::new());
    assert_eq!(link.hear(&vst, 12, 0xA8, &tag, &mut output), refused(23));
    assert_eq!(link.hear(&bst[..3], 12, 0xA8, &tag, &mut output), refused_at(13, 3));
    assert_eq!(link.hear(&bst, 12, 0xA8, &tag, &mut output[..511]), refused(1));
    assert_eq!(link.hear(&bst, 12, 1 << 28, &tag, &mut output), refused(3));
    let outside = Equipment::new(&[element], &marks[..5], configuration);
    assert_eq!(link.hear(&bst, 12, 0xA8, &outside, &mut output), refused(26));
    let out_of_range = Equipment::new(&[element], &marks, Configuration { class: 32_768, ..configuration });
    assert_eq!(link.hear(&bst, 12, 0xA8, &out_of_range, &mut output), refused(23));
}

const ROWS: [Row; 3] = [
    Row { id: 5, area: Area::Factory, start: 0, length: 2, protected: false },
    Row { id: 6, area: Area::Writable, start: 0, length: 2, protected: false },
    Row { id: 7, area: Area::Writable, start: 2, length: 2, protected: true },
];

#[test]
fn requests() {
    let directory = Directory::new(&ROWS);
    let identity = Identity { eid: 1, credentials: &[0xAA, 0xBB] };
    let (factory, mut writable, mut output) = ([0x41, 0x42], [0; 4], [0; OUTPUT_OCTETS]);
    let mut answered = |request: &str| {
        let answer = directory.request(&octets(request), identity, &factory, &mut writable, &mut output);
        answer.map(|reply| reply.map(<[u8]>::to_vec))
    };
    let reply = |hex: &str| Ok(Some(octets(hex)));
    assert_eq!(answered("62 01 01 05"), reply("74 01 01 05 02 02 41 42"));
    assert_eq!(answered("62 01 01 09"), reply("72 01 02"));
    assert_eq!(answered("41 01 01 06 02 02 41 42"), reply("54 01 00"));
    assert_eq!(answered("41 01 01 07 02 02 41 42"), reply("54 01 01"));
    assert_eq!(answered("49 01 02 AA BB 01 07 02 02 43 44"), reply("54 01 00"));
    assert_eq!(answered("40 01 01 06 02 02 45 46"), Ok(None));
    assert_eq!(answered("05 00 0F 02 00"), reply("14 00 02 00"));
    assert_eq!(answered("20 00 00"), refused(24));
    assert_eq!(answered("20 00"), refused_at(13, 2));
    assert_eq!(writable, [0x45, 0x46, 0x43, 0x44]);
    let get = octets("62 01 01 05");
    assert_eq!(directory.request(&get, identity, &factory, &mut writable, &mut output[..511]), refused(1));
    assert_eq!(directory.request(&get, identity, &factory, &mut writable[..3], &mut output), refused(26));
}

#[test]
fn lookups() {
    let directory = Directory::new(&ROWS);
    let found = Found { area: Area::Writable, start: 2, length: 2 };
    assert_eq!(directory.lookup(7, 2, 4), Ok(Some(found)));
    assert_eq!(directory.lookup(5, 2, 4), Ok(Some(Found { area: Area::Factory, start: 0, length: 2 })));
    assert_eq!(directory.lookup(9, 2, 4), Ok(None));
    assert_eq!(directory.lookup(256 + 5, 2, 4), Ok(None));
    assert_eq!(directory.lookup(7, 2, 3), refused(26));
}

#[test]
fn bench_lines() {
    let (mut bench, mut text) = (Bench::new(), [0; TEXT_OCTETS]);
    assert_eq!(bench.line(b"0000001 0 11AABB", &mut text[..127]), refused(22));
    assert_eq!(bench.line(b"0000001 0 11AABB", &mut text), Ok(&b"1 held 2 0\n"[..]));
    assert_eq!(bench.line(b"0000001 5 93CC", &mut text), Ok(&b"2 whole 3 0\n"[..]));
    assert_eq!(bench.line(b"0000001 9 95DD", &mut text), Ok(&b"3 refused-8 0 0\n"[..]));
    assert_eq!(bench.line(b"0000001 9", &mut text), Ok(&b"4 refused-0 0 0\n"[..]));
}
