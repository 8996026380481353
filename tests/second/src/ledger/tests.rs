use super::*;
use crate::hex::octets;

fn fragment(lid: u32, tick: u32, lsdu: &str) -> Call {
    lent(lid, tick, lsdu, 4096, 512)
}

fn lent(lid: u32, tick: u32, lsdu: &str, store: usize, output: usize) -> Call {
    Call::Fragment { lid, tick, lsdu: octets(lsdu), store, output }
}

fn text(entry: &Entry) -> String {
    match entry {
        Entry::Held { octets, dropped } => format!("held {octets} {dropped}"),
        Entry::Whole { message, dropped } => {
            format!("whole {} {dropped} {}", message.len(), crate::hex::text(message))
        }
        Entry::Dropped(octets) => format!("dropped {octets}"),
        Entry::Refused(number) => format!("refused-{number}"),
    }
}

/// Answers of ledger and table, which must agree, and the totals.
fn joining(calls: &[Call]) -> String {
    let mut ledger = Ledger::default();
    let mut engine = crate::check::TableRun::new();
    let mut words = Vec::new();
    for call in calls {
        let entry = ledger.call(call);
        assert_eq!(engine.call(call), Ok(entry.clone()));
        words.push(text(&entry));
    }
    let (accepted, delivered) = (ledger.accepted, ledger.delivered);
    let (dropped, held) = (ledger.dropped, ledger.held());
    words.push(format!("accepted {accepted} delivered {delivered} dropped {dropped} held {held}"));
    words.join(" | ")
}

#[test]
fn reading_b3_lent_lengths() {
    let calls = [lent(1, 0, "91AA", 4097, 512), lent(1, 0, "11AA", 4096, 511), lent(1, 0, "11AA", 4096, 513)];
    let answer = "refused-1 | refused-1 | held 1 0 | accepted 1 delivered 0 dropped 0 held 1";
    assert_eq!(joining(&calls), answer);
}

#[test]
fn reading_b4_a_lone_fragment_drops_the_open_message() {
    let calls = [fragment(1, 0, "11AABB"), fragment(1, 0, "91CC")];
    let answer = "held 2 0 | whole 1 2 CC | accepted 3 delivered 1 dropped 2 held 0";
    assert_eq!(joining(&calls), answer);
}

#[test]
fn reading_b5_a_refusal_discards_nothing() {
    let calls = ["11AA", "1005BB", "17BB", "93BBCC"].map(|lsdu| fragment(1, 0, lsdu));
    let answer = "held 1 0 | refused-5 | refused-10 | whole 3 0 AABBCC \
                  | accepted 3 delivered 3 dropped 0 held 0";
    assert_eq!(joining(&calls), answer);
}

#[test]
fn reading_b6_a_repeated_or_missing_counter() {
    let calls = ["11AA", "13BB", "13BB", "97CC"].map(|lsdu| fragment(1, 0, lsdu));
    let answer = "held 1 0 | held 2 0 | refused-10 | refused-10 \
                  | accepted 2 delivered 0 dropped 0 held 2";
    assert_eq!(joining(&calls), answer);
}

#[test]
fn reading_b8_full_table() {
    let mut calls: Vec<Call> = (1..=8).map(|lid| fragment(lid, 0, "11AA")).collect();
    calls.extend([fragment(9, 0, "11AA"), fragment(9, 0, "91AA"), fragment(3, 0, "11AABB")]);
    calls.extend([fragment(9, 0, "13"), fragment(9, 0, "13AA")]);
    let opened = "held 1 0 | ".repeat(8);
    let rest = "refused-9 | whole 1 0 AA | held 2 1 | refused-7 | refused-8 \
                | accepted 11 delivered 1 dropped 1 held 9";
    assert_eq!(joining(&calls), opened + rest);
}

#[test]
fn reading_b10_expiry() {
    let expiry = |tick, limit| Call::Expiry { tick, limit };
    let calls = [fragment(1, 10, "11AA"), fragment(1, 20, "13BB"), expiry(20, 11), expiry(20, 10)];
    let answer = "held 1 0 | held 2 0 | dropped 0 | dropped 2 \
                  | accepted 2 delivered 0 dropped 2 held 0";
    assert_eq!(joining(&calls), answer);
    let calls = [fragment(1, 10, "11AA"), expiry(9, u32::MAX)];
    let answer = "held 1 0 | dropped 1 | accepted 1 delivered 0 dropped 1 held 0";
    assert_eq!(joining(&calls), answer);
}

#[test]
fn readings_b14_and_b15_release() {
    let release = |lid| Call::Release { lid };
    let calls = [fragment(1, 0, "11AA"), release(1 << 28), release(2), release(1)];
    let answer = "held 1 0 | refused-3 | dropped 0 | dropped 1 \
                  | accepted 1 delivered 0 dropped 1 held 0";
    assert_eq!(joining(&calls), answer);
}

#[test]
fn reading_b7_the_last_fragment_counts_too() {
    let full = "AA".repeat(126);
    let mut calls: Vec<Call> =
        ["11", "13", "15", "17"].iter().map(|head| fragment(1, 0, &format!("{head}{full}"))).collect();
    calls.push(fragment(1, 0, &format!("9009{}", "BB".repeat(9))));
    calls.push(fragment(1, 0, &format!("9009{}", "BB".repeat(8))));
    let answer = joining(&calls);
    assert!(answer.contains("held 504 0 | refused-12 | whole 512 0 "), "{answer}");
}
