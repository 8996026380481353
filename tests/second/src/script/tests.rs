use super::*;

fn parsed(line: &str) -> Option<Line> {
    parse(line.as_bytes())
}

fn set_up_of(line: &str) -> SetUp {
    match parsed(line) {
        Some(Line::SetUp(set_up)) => set_up,
        other => panic!("{line}: {other:?}"),
    }
}

fn call_of(line: &str) -> Call {
    match parsed(line) {
        Some(Line::Call(call)) => call,
        other => panic!("{line}: {other:?}"),
    }
}

#[test]
fn set_up_lines() {
    let configuration = Configuration { class: 32_768, maker: 5, status: u32::MAX };
    assert_eq!(set_up_of("config 32768 005 4294967295"), SetUp::Configuration(configuration));
    let element = |eid, aid, mark: &[u8]| SetUp::Element { eid, aid, mark: mark.to_vec() };
    assert_eq!(set_up_of("element 1 31 aAbB"), element(1, 31, &[0xAA, 0xBB]));
    assert_eq!(set_up_of("element 200 1 "), element(200, 1, &[]));
    assert_eq!(set_up_of("eid 4294967295"), SetUp::Eid(u32::MAX));
    assert_eq!(set_up_of("credentials "), SetUp::Credentials(vec![]));
    assert_eq!(set_up_of("factory 4142"), SetUp::Factory(vec![0x41, 0x42]));
    assert_eq!(set_up_of("writable 00"), SetUp::Writable(vec![0]));
    let row = Row { id: 99, area: Area::Factory, start: 0, length: 301, protected: false };
    assert_eq!(set_up_of("row 99 factory 0 301 open"), SetUp::Row(row));
    let row = Row { id: 5, area: Area::Writable, start: 7, length: 2, protected: true };
    assert_eq!(set_up_of("row 5 writable 7 2 protected"), SetUp::Row(row));
}

#[test]
fn calls() {
    let bst = |tick, lid, octets: &[u8]| Call::Bst { tick, lid, octets: octets.to_vec() };
    assert_eq!(call_of("bst 9 7 80"), bst(9, 7, &[0x80]));
    assert_eq!(call_of("bst 4294967295 FfFfFfFf "), bst(u32::MAX, u32::MAX, &[]));
    assert_eq!(call_of("release 0000007"), Call::Release(7));
    assert_eq!(call_of("release 10000000"), Call::Release(1 << 28));
    assert_eq!(call_of("tick 00000000000012"), Call::Tick(12));
    assert_eq!(call_of("request "), Call::Request(vec![]));
    assert_eq!(call_of("lookup 128"), Call::Lookup(128));
    assert_eq!(call_of("show"), Call::Show);
}

#[test]
fn lines_of_no_form() {
    let lines = [
        "",
        " ",
        "show ",
        " show",
        "SHOW",
        "show\r",
        "lookup",
        "lookup ",
        "lookup 4294967296",
        "lookup 0x5",
        "lookup +5",
        "lookup  5",
        "lookup\t5",
        "request",
        "request 0",
        "request 0g",
        "request 00 ",
        "request  ",
        "bst 9 7",
        "bst 9  80",
        "bst  7 80",
        "bst 9 000000007 80",
        "bst 9 G 80",
        "bst 9 7 80 ",
        "release",
        "release ",
        "release 000000001",
        "tick ",
        "tick -1",
        "config 1 5",
        "config 1 5 0 0",
        "element 1 1",
        "element 1 1 0",
        "eid",
        "credentials",
        "factory",
        "writable",
        "writable 123",
        "row 5 factory 0 1",
        "row 5 factory 0 1 locked",
        "row 5 lent 0 1 open",
        "row 5 factory 0 1 open ",
        "reset",
    ];
    for line in lines {
        assert_eq!(parsed(line), None, "{line:?}");
    }
}

#[test]
fn longest_lines() {
    let padded = |length: usize| format!("tick {}7", "0".repeat(length - 6));
    assert_eq!(call_of(&padded(2048)), Call::Tick(7));
    assert_eq!(parsed(&padded(2049)), None);
    assert_eq!(set_up_of(&format!("factory {}", "5A".repeat(1020))), SetUp::Factory(vec![0x5A; 1020]));
    assert_eq!(parsed(&format!("writable {}", "5A".repeat(1020))), None);
}
