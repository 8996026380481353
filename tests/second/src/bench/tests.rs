use super::*;

fn bench(input: &[u8]) -> String {
    let (mut by_table, mut by_ledger) = (Vec::new(), Vec::new());
    run(input, &mut by_table, &mut TableEngine::default()).unwrap();
    run(input, &mut by_ledger, &mut Ledger::default()).unwrap();
    assert_eq!(by_table, by_ledger);
    String::from_utf8(by_table).unwrap()
}

/// The answer lines alone, joined as the readings print them.
fn answers(input: &str) -> String {
    let text = bench(input.as_bytes());
    let lines: Vec<&str> = text.lines().collect();
    lines[1..lines.len() - 1].join("|")
}

#[test]
fn case_of_the_scope_paper() {
    let expected = "line answer octets dropped\n1 held 2 0\n2 whole 3 0\n3 refused-8 0 0\n\
                    accepted 3 delivered 3 dropped 0 held 0\n";
    assert_eq!(bench(b"0000001 0 11AABB\n0000001 5 93CC\n0000001 9 95DD\n"), expected);
    assert_eq!(bench(b"0000001 0 11AABB\n0000001 5 93CC\n0000001 9 95DD"), expected);
}

#[test]
fn no_input() {
    let expected = "line answer octets dropped\naccepted 0 delivered 0 dropped 0 held 0\n";
    assert_eq!(bench(b""), expected);
}

#[test]
fn reading_g1_long_lines() {
    for (length, answer) in [(600, "1 whole 1 0"), (601, "1 refused-0 0 0")] {
        let zeros = "0".repeat(length - "0000001  91AA".len());
        assert_eq!(answers(&format!("0000001 {zeros} 91AA")), answer);
    }
    let long = "0".repeat(20_010);
    assert_eq!(answers(&format!("{long}\n0000001 0 91AA\n")), "1 refused-0 0 0|2 whole 1 0");
}

#[test]
fn reading_g2_ticks() {
    assert_eq!(answers("0000001 000000000000 91AA"), "1 whole 1 0");
    assert_eq!(answers("0000001 4294967295 91AA"), "1 whole 1 0");
    assert_eq!(answers("0000001 4294967296 91AA"), "1 refused-0 0 0");
    assert_eq!(answers("0000001 99999999999999999999999 91AA"), "1 refused-0 0 0");
}

#[test]
fn reading_g3_empty_lsdu() {
    assert_eq!(answers("0000001 0 "), "1 refused-4 0 0");
    assert_eq!(answers("0000001 0"), "1 refused-0 0 0");
}

#[test]
fn reading_g4_bad_lines() {
    for line in [
        "0000001 0 91AA\r",
        "0000001 0 91AA ",
        "0000001\t0 91AA",
        "0000001  0 91AA",
        "0000001 0  91AA",
        "0000001 0 91A",
        "0000001  91AA",
        "0000001 +1 91AA",
        "0000001 -1 91AA",
        " 000001 0 91AA",
        "000001 0 91AA",
        "00000001 0 91AA",
        "0000001 0 91AG",
        "0000001 A 91AA",
        "é000001 0 91AA",
    ] {
        assert_eq!(answers(line), "1 refused-0 0 0", "{line:?}");
    }
    assert_eq!(bench(b"\xFF\x80\n"), bench(b"?\n"));
}

#[test]
fn reading_g5_empty_lines() {
    assert_eq!(answers("\n0000001 0 91aB"), "1 refused-0 0 0|2 whole 1 0");
}

#[test]
fn reading_g6_third_column() {
    let input = "0000001 0 11AABB\n0000001 0 17CC\n0000001 0 13\n0000001 0 01CC\n0000002 0 13CC";
    let expected = "1 held 2 0|2 refused-10 2 0|3 refused-7 2 0|4 refused-6 0 0|5 refused-8 0 0";
    assert_eq!(answers(input), expected);
}

#[test]
fn reading_g7_dropped_column() {
    let input = "0000001 0 11AABB\n0000001 0 11CC\n0000001 0 91DD";
    assert_eq!(answers(input), "1 held 2 0|2 held 1 2|3 whole 1 1");
    let totals = "accepted 4 delivered 1 dropped 3 held 0\n";
    assert!(bench(input.as_bytes()).ends_with(totals));
}

#[test]
fn reading_g9_long_lsdus() {
    for (octets, answer) in [(128, "1 whole 127 0"), (129, "1 refused-4 0 0"), (295, "1 refused-4 0 0")] {
        let line = format!("0000001 0 91{}", "AA".repeat(octets - 1));
        assert_eq!(answers(&line), answer);
    }
}

#[test]
fn a_long_lsdu_of_an_open_pair_shows_no_octets() {
    let input = format!("0000001 0 11AABB\n0000001 0 13{}", "CC".repeat(128));
    assert_eq!(answers(&input), "1 held 2 0|2 refused-4 0 0");
}
