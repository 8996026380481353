use super::*;
use crate::hex;

fn row(id: u32, area: Area, start: u32, length: u32, protected: bool) -> Row {
    Row { id, area, start, length, protected }
}

use Area::{Factory, Writable};

/// A tag with eid 1 and its areas in hex.
struct Tag<'a> {
    credentials: &'a str,
    rows: &'a [Row],
    factory: &'a str,
    writable: &'a str,
}

const BARE: Tag = Tag { credentials: "", rows: &[], factory: "", writable: "" };

impl Tag<'_> {
    /// The reply in hex and the writable area afterwards.
    fn answer(&self, message: &str) -> (String, String) {
        let credentials = hex::octets(self.credentials);
        let identity = Identity { eid: 1, credentials: &credentials };
        let (factory, mut writable) = (hex::octets(self.factory), hex::octets(self.writable));
        let mut output = [0xEE; 520];
        let octets = hex::octets(message);
        let answer = request(&octets, &identity, self.rows, &factory, &mut writable, &mut output);
        let text = match answer {
            Err(refusal) => refusal.to_string(),
            Ok(None) => "none".into(),
            Ok(Some(length)) => {
                let text = hex::text(&output[..length]);
                output[..length].fill(0xEE);
                text
            }
        };
        assert!(output.iter().all(|octet| *octet == 0xEE));
        (text, hex::text(&writable))
    }

    fn check(&self, message: &str, reply: &str, writable: &str) {
        assert_eq!(self.answer(message), (reply.into(), writable.into()), "{message}");
    }
}

#[test]
fn cases_of_the_scope_paper() {
    let rows = [row(5, Writable, 0, 2, false)];
    let tag = Tag { rows: &rows, writable: "4142", ..BARE };
    tag.check("62010105", "7401010502024142", "4142");
    tag.check("62010109", "720102", "4142");
    tag.check("4101010502024142", "540100", "4142");
    tag.check("05000F0200", "14000200", "4142");
    tag.check("4101010502021122", "540100", "1122");
}

#[test]
fn reading_f3_credentials() {
    let rows = [row(5, Factory, 0, 1, true)];
    let tag = Tag { rows: &rows, factory: "41", ..BARE };
    tag.check("62010105", "720101", "");
    tag.check("6A01000105", "74010105020141", "");
    let tag = Tag { credentials: "AABB", ..tag };
    tag.check("6A0102AABC0105", "720101", "");
    tag.check("6A0101AA0105", "720101", "");
    tag.check("6A0102AABB0105", "74010105020141", "");
}

#[test]
fn readings_f4_and_f5_empty_lists() {
    BARE.check("620100", "740100", "");
    BARE.check("6001", "720102", "");
    BARE.check("410100", "540100", "");
}

#[test]
fn reading_f6_mode_0() {
    let rows = [row(5, Writable, 0, 2, false)];
    let tag = Tag { rows: &rows, writable: "4142", ..BARE };
    tag.check("4001010502021122", "none", "1122");
    tag.check("40010109020111", "none", "4142");
}

#[test]
fn reading_f7_eids_and_what_is_not_served() {
    BARE.check("62020105", "720202", "");
    for message in ["05010F0200", "04000F0200", "05000E0200", "01000F", "05000F0700", "200000", "540100"] {
        BARE.check(message, "refused-24", "");
    }
    BARE.check("41020101020100", "540202", "");
}

#[test]
fn reading_f8_iid() {
    BARE.check("07000F020055", "1C00550200", "");
    BARE.check("0F000F03AABBCC02011155", "1C0055020111", "");
    BARE.check("66015500", "7C015500", "");
    BARE.check("45010055", "5C015500", "");
}

#[test]
fn reading_f9_first_faulty_row() {
    let rows = [row(6, Factory, 0, 1, true)];
    let tag = Tag { credentials: "AA", rows: &rows, factory: "41", ..BARE };
    tag.check("6201020609", "720101", "");
    tag.check("6201020906", "720102", "");
    tag.check("41010106020101", "540101", "");
    tag.check("4101010602020101", "540102", "");
    tag.check("490101AA0106020101", "540101", "");
}

#[test]
fn reading_f10_long_replies() {
    let rows: Vec<Row> = (0..5).map(|id| row(id, Factory, id * 127, 127, false)).collect();
    let last = row(9, Factory, 635, 98, false);
    let rows = [rows, vec![last]].concat();
    let factory = "5A".repeat(733);
    let tag = Tag { rows: &rows, factory: &factory, ..BARE };
    // Three octets in front, three for each row: 3 + 4 * 130 is above 512.
    tag.check("62010400010203", "720103", "");
    // 3 + 3 * 130 + 3 + 98 = 494; a sixth value of 15 octets would make 512.
    let (reply, _) = tag.answer("62010400010209");
    assert_eq!(reply.len() / 2, 494);
    let full = row(11, Writable, 0, 15, false);
    let over = row(12, Writable, 15, 16, false);
    let rows = [rows, vec![full, over]].concat();
    let writable = "11".repeat(31);
    let tag = Tag { rows: &rows, factory: &factory, writable: &writable, ..BARE };
    assert_eq!(tag.answer("6201050001020900").0, "720103");
    assert_eq!(tag.answer("620105000102090B").0.len() / 2, 512);
    assert_eq!(tag.answer("620105000102090C").0, "720103");
    assert_eq!(tag.answer("66015505000102090B").0, "7A015503");
}

#[test]
fn reading_f11_repeated_ids() {
    let rows = [row(5, Writable, 0, 1, false)];
    let tag = Tag { rows: &rows, writable: "41", ..BARE };
    tag.check("6201020505", "7401020502014105020141", "41");
    tag.check("4101020502011105020122", "540100", "22");
    tag.check("4101020502011109020122", "540102", "41");
}

#[test]
fn readings_f1_and_f2_soundness() {
    let sound = |rows: &[Row]| is_sound(rows, 200, 10);
    assert!(sound(&[]) && sound(&[row(0, Factory, 73, 127, false)]));
    assert!(!sound(&[row(0, Factory, 72, 128, false)]) && !sound(&[row(0, Factory, 74, 127, false)]));
    assert!(!sound(&[row(128, Factory, 0, 1, false)]));
    assert!(!sound(&[row(1, Factory, u32::MAX, 1, false)]));
    assert!(sound(&[row(1, Writable, 10, 0, false)]) && !sound(&[row(1, Writable, 11, 0, false)]));
    assert!(!sound(&[row(1, Factory, 0, 3, false), row(2, Factory, 2, 3, false)]));
    assert!(sound(&[row(1, Factory, 0, 3, false), row(2, Factory, 3, 3, false)]));
    assert!(sound(&[row(1, Factory, 0, 3, false), row(2, Writable, 2, 3, false)]));
    assert!(sound(&[row(1, Factory, 0, 3, false), row(2, Factory, 1, 0, false)]));
    assert!(!sound(&[row(1, Factory, 0, 3, false), row(1, Writable, 0, 3, false)]));
    let many = |count| (0..count).map(|id| row(id, Factory, id, 1, false)).collect::<Vec<Row>>();
    assert!(sound(&many(32)) && !sound(&many(33)));
}

#[test]
fn reading_f13_lookup() {
    let (factory, writable) = ([1, 2, 3], [4, 5, 6]);
    let rows = [row(5, Writable, 1, 2, true), row(6, Writable, 2, 0, false), row(7, Factory, 0, 1, false)];
    assert!(std::ptr::eq(lookup(&rows, 5, &factory, &writable), &writable[1..3]));
    assert!(std::ptr::eq(lookup(&rows, 6, &factory, &writable), &writable[2..2]));
    assert!(std::ptr::eq(lookup(&rows, 7, &factory, &writable), &factory[..1]));
    assert!(std::ptr::eq(lookup(&rows, 8, &factory, &writable), &factory[..0]));
    assert!(std::ptr::eq(lookup(&rows, 133, &factory, &writable), &factory[..0]));
    let unsound = [row(5, Writable, 1, 3, false)];
    assert!(std::ptr::eq(lookup(&unsound, 5, &factory, &writable), &factory[..0]));
    assert_eq!(is_known(&rows, 6, 3, 3), Ok(true));
    assert_eq!(is_known(&rows, 133, 3, 3), Ok(false));
    assert_eq!(is_known(&unsound, 5, 3, 3), Err(Refusal::plain(LIST_UNSOUND)));
}

#[test]
fn reading_f14_order_of_checks() {
    let identity = Identity { eid: 1, credentials: &[] };
    let unsound = [row(200, Factory, 0, 0, false)];
    let numbers = |rows: &[Row], message: &str, room: usize| {
        let octets = hex::octets(message);
        request(&octets, &identity, rows, &[], &mut [], &mut vec![0; room]).unwrap_err().number
    };
    assert_eq!(numbers(&unsound, "A0", 511), 1);
    assert_eq!(numbers(&unsound, "A0", 512), 26);
    assert_eq!(numbers(&[], "A0", 512), 15);
    assert_eq!(numbers(&[], "9000000000000000", 512), 14);
    assert_eq!(numbers(&[], "90000000000000", 512), 24);
}

#[test]
fn readings_f15_and_f16() {
    let rows = [row(5, Writable, 0, 1, false)];
    let tag = Tag { rows: &rows, writable: "41", ..BARE };
    tag.check("63010105", "74010105020141", "41");
    tag.check("430101050201AA", "540100", "AA");
    for value in ["0700", "0800", "0900", "090105020111"] {
        tag.check(&format!("41010105{value}"), "540102", "41");
    }
    tag.check("41010105090105090105090105090105020111", "refused-19 at 16", "41");
}

#[test]
fn reading_f12_eid_out_of_range() {
    let identity = Identity { eid: 257, credentials: &[] };
    let mut output = [0; 512];
    let answer = request(&[0x62, 1, 0], &identity, &[], &[], &mut [], &mut output);
    assert_eq!((answer, &output[..3]), (Ok(Some(3)), &[0x72, 1, 2][..]));
}

/// Every reply to a random message is a message that answers it.
#[test]
fn replies_read_back() {
    use crate::composer::sound_message;
    use crate::random::Random;
    let mut random = Random::new(5);
    let rows: Vec<Row> = (0..32u32)
        .map(|id| {
            let area = if id % 2 == 0 { Factory } else { Writable };
            row(id, area, id / 2 * 40, id + 2, id % 3 == 0)
        })
        .collect();
    let factory = [0x41; 640];
    let (mut replies, mut none, mut refused) = (0, 0, 0);
    for _ in 0..20_000 {
        let mut octets = sound_message(&mut random);
        for octet in octets.iter_mut().skip(1).filter(|_| random.one_in(3)) {
            *octet %= 32;
        }
        let identity = Identity { eid: octets[1].into(), credentials: &[] };
        let (mut writable, mut output) = ([0x42; 640], [0xEE; 512]);
        let answer = request(&octets, &identity, &rows, &factory, &mut writable, &mut output);
        let mut lists = Lists::default();
        match answer {
            Err(_) => refused += 1,
            Ok(None) => none += 1,
            Ok(Some(length)) => {
                let reply = reading::read(&output[..length], &mut lists).unwrap();
                replies += 1;
                match reply {
                    Message::GetResponse(get) => {
                        assert!(get.attributes.is_some() != get.status.is_some() && octets[0] >> 4 == 6);
                        assert!(get.status != Some(NO_ERROR));
                    }
                    Message::SetResponse(set) => {
                        assert!(set.status == Some(NO_ERROR) || writable == [0x42; 640]);
                        assert_eq!(octets[0] >> 4, 4);
                    }
                    Message::ActionResponse(echo) => assert_eq!((echo.eid, echo.status), (0, None)),
                    _ => panic!("{reply:?}"),
                }
            }
        }
        assert!(answer.is_ok() || (writable == [0x42; 640] && output == [0xEE; 512]));
    }
    assert!(replies > 1000 && none > 300 && refused > 5000, "{replies} {none} {refused}");
}
