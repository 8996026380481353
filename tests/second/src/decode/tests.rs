use super::*;

fn decoded(input: &str) -> String {
    let mut output = Vec::new();
    run(input.as_bytes(), &mut output).unwrap();
    String::from_utf8(output).unwrap()
}

/// The answer to one message; a message that is read must be written back the same.
fn answer(message: &str) -> String {
    let text = decoded(&format!("{message}\n"));
    let lines: Vec<&str> = text.lines().collect();
    let answer = lines[1].strip_prefix("1 ").unwrap();
    let totals = if answer.starts_with("refused-") {
        "messages 0 refused 1 same 0"
    } else {
        "messages 1 refused 0 same 1"
    };
    assert_eq!((lines[0], lines[2], lines.len()), ("line answer", totals, 3), "{message}");
    answer.into()
}

fn check(cases: &[(&str, &str)]) {
    for (message, expected) in cases {
        assert_eq!(answer(message), *expected, "{message}");
    }
}

fn check_accepted(messages: &[&str]) {
    for message in messages {
        assert!(!answer(message).starts_with("refused"), "{message}: {}", answer(message));
    }
}

#[test]
fn cases_of_the_scope_paper() {
    check(&[
        ("05000F0200", "action-request mode=1 eid=0 type=15 parameter=octets:"),
        ("14000200", "action-response fill=0 eid=0 parameter=octets:"),
        ("200000", "event-request mode=0 eid=0 type=0"),
        ("2000", "refused-13 at 2"),
        ("20000000", "refused-14 at 3"),
        ("208000", "refused-16 at 1"),
        ("A0", "refused-15 at 0"),
        ("", "refused-13 at 0"),
        (
            "900001C1010206112233445566800100058000",
            "vst fill=0 profile=0 applications=[1/1=octets:112233445566] class=1 maker=5 status=32768",
        ),
        ("62010105", "get-request fill=0 eid=1 ids=[5]"),
        ("7401010502024142", "get-response fill=0 eid=1 attributes=[5=octets:4142]"),
        ("720102", "get-response fill=0 eid=1 ret=2"),
        ("4101010502024142", "set-request fill=0 mode=1 eid=1 attributes=[5=octets:4142]"),
        ("540100", "set-response fill=0 eid=1 ret=0"),
    ]);
}

#[test]
fn lines_of_decode() {
    let input = "05000F0200\n05000f0200\nA0\n0\n05 000F\n05000F0200\r\n\nxx\nA0";
    let expected = "line answer\n\
        1 action-request mode=1 eid=0 type=15 parameter=octets:\n\
        2 action-request mode=1 eid=0 type=15 parameter=octets:\n\
        3 refused-15 at 0\n4 refused-0\n5 refused-0\n6 refused-0\n7 refused-13 at 0\n\
        8 refused-0\n9 refused-15 at 0\nmessages 2 refused 7 same 2\n";
    assert_eq!(decoded(input), expected);
    assert_eq!(decoded(""), "line answer\nmessages 0 refused 0 same 0\n");
    check(&[("00".repeat(1024).as_str(), "refused-21 at 512")]);
    check(&[("00".repeat(1025).as_str(), "refused-0")]);
}

#[test]
fn readings_c1_to_c3_rows() {
    let ids = "0810".to_string() + &"01".repeat(16);
    check_accepted(&[&format!("41010301{ids}01{ids}01{ids}")]);
    check(&[("410110010910010901", "refused-18 at 8"), ("410110010910010900", "refused-13 at 9")]);
    // Two entries, each with a list of 16 rows, and a third row in the other list.
    let list = format!("410910{}", "050700".repeat(16));
    let front = "8800000000000000000000";
    check_accepted(&[&format!("{front}02{list}{list}0000")]);
    let over = format!("{front}02{list}{list}01410901");
    let place = over.len() / 2 - 1;
    check(&[(&over, &format!("refused-18 at {place}"))]);
}

#[test]
fn readings_c4_to_c6_depth() {
    check(&[
        ("41010105090105090105090105020000", "refused-14 at 15"),
        ("41010105090105090105090105090105", "refused-13 at 16"),
        ("4101010509010509010509010509010502", "refused-19 at 16"),
        ("05000F090105090105090105090105", "refused-13 at 15"),
        ("05000F09010509010509010509010583", "refused-16 at 15"),
        ("05000F09010509010509010509010503", "refused-19 at 15"),
        ("05000F0901050901050901050901", "refused-13 at 14"),
        ("05000F090105090105090105090180", "refused-16 at 14"),
    ]);
    check_accepted(&["410101050901050901050901050200", "05000F0901050901050901050900"]);
}

#[test]
fn readings_c7_to_c12_components() {
    check(&[
        ("05000F82", "refused-16 at 3"),
        ("05000F03", "refused-17 at 3"),
        ("05000F0280", "refused-16 at 4"),
        ("05000F0203AABB", "refused-13 at 7"),
        ("620111", "refused-18 at 2"),
        ("620191", "refused-16 at 2"),
        ("620110", "refused-13 at 3"),
        ("80000000000000000000000011", "refused-18 at 12"),
        ("8000", "refused-13 at 2"),
    ]);
    check_accepted(&[&format!("05000F027F{}", "AA".repeat(127))]);
}

#[test]
fn readings_c13_to_c17_fields() {
    check(&[
        ("9000008001000500", "refused-13 at 8"),
        ("900000FFFFFFFFFFFF", "vst fill=0 profile=0 applications=[] class=32767 maker=65535 status=65535"),
        ("9000007FFFFFFF", "vst fill=0 profile=0 applications=[] class=32767 maker=65535"),
        ("90000141070500000000", "vst fill=0 profile=0 applications=[1=eid:5] class=0 maker=0"),
        (
            "4D1101AA0113071415",
            "set-request fill=0 mode=1 eid=17 credentials=AA attributes=[19=eid:20] iid=21",
        ),
        ("6E1101AA120113", "get-request fill=0 eid=17 credentials=AA iid=18 ids=[19]"),
        ("9F000000000000", "vst fill=15 profile=0 applications=[] class=0 maker=0"),
        (
            "8800000000000000000000000000",
            "bst manufacturer=0 individual=0 time=0 profile=0 mandatory=[] optional=[] profiles=[]",
        ),
    ]);
}

#[test]
fn readings_c18_to_c23_limits_and_entries() {
    let long = "FF".repeat(513);
    check(&[
        (&long, "refused-21 at 512"),
        (&long[2..], "refused-15 at 0"),
        ("20000000", "refused-14 at 3"),
        ("90000121", "refused-16 at 3"),
        ("900001E1", "refused-16 at 3"),
        ("2100770000", "refused-14 at 3"),
        ("210077", "event-request mode=1 eid=0 type=119"),
        ("62010605050505057F", "get-request fill=0 eid=1 ids=[5,5,5,5,5,127]"),
    ]);
}

#[test]
fn reading_c21_where_strings_start() {
    let octets = hex::octets("05000F0200");
    let mut lists = Lists::default();
    let Ok(Message::ActionRequest(command)) = reading::read(&octets, &mut lists) else {
        panic!("not an action request");
    };
    assert_eq!(command.parameter, Some(Container::Octets(Part { start: 5, length: 0 })));
    assert_eq!((command.credentials, command.iid), (None, None));
}

#[test]
fn a_beacon_with_both_lists() {
    check(&[(
        "8FFFFFFFFFFF5F5E1000010281020301410202AABB0300017F",
        "bst manufacturer=65535 individual=134217727 time=1600000000 profile=1 \
         mandatory=[1/2,3] optional=[1=octets:AABB] profiles=[0,1,127]",
    )]);
    check(&[(
        "8000312345675F5E100000010100",
        "bst manufacturer=6 individual=19088743 time=1600000000 profile=0 mandatory=[1] profiles=[]",
    )]);
}

#[test]
fn nested_containers() {
    check(&[("1F007E090305020241424307094408020102", "refused-13 at 18")]);
    check(&[(
        "1F007E09030502024142430709440802010205",
        "action-response fill=1 eid=0 iid=126 parameter=attributes:[5=octets:4142,67=eid:9,68=ids:[1,2]] ret=5",
    )]);
}

/// The octet pictures of the radio link paper's Annex D, behind the fragment
/// header, with values of our own where a picture leaves them open.
#[test]
fn pictures_of_the_radio_link() {
    check(&[
        (
            "8000312345675F5E100001010100",
            "bst manufacturer=6 individual=19088743 time=1600000000 profile=1 mandatory=[1] profiles=[]",
        ),
        (
            "900001C1010206A4C00100010180010006A000",
            "vst fill=0 profile=0 applications=[1/1=octets:A4C001000101] class=1 maker=6 status=40960",
        ),
        ("0D010209031122334455667788020201", "refused-13 at 16"),
        (
            "0D01020903112233445566778802020163",
            "action-request mode=1 eid=1 type=2 credentials=031122334455667788 parameter=octets:0163",
        ),
        (
            &format!("1401021C01630218{}", "5A".repeat(24)),
            &format!("action-response fill=0 eid=1 parameter=octets:01630218{}", "5A".repeat(24)),
        ),
        (
            &format!("410101640213{}", "3C".repeat(19)),
            &format!("set-request fill=0 mode=1 eid=1 attributes=[100=octets:{}]", "3C".repeat(19)),
        ),
        ("540105", "set-response fill=0 eid=1 ret=5"),
        ("0501041400030174", "refused-17 at 3"),
        ("140115017F", "refused-17 at 2"),
        ("120105", "action-response fill=0 eid=1 ret=5"),
    ]);
}
