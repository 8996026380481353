use super::*;
use std::fs;
use std::path::Path;

fn answers(script: &str) -> String {
    let mut output = Vec::new();
    run(script.as_bytes(), &mut output).unwrap();
    String::from_utf8(output).unwrap()
}

/// The stored scripts, whose answers were written down from the papers and readings.
#[test]
fn stored_scripts() {
    let folder = Path::new(env!("CARGO_MANIFEST_DIR")).join("../tag");
    let mut count = 0;
    for entry in fs::read_dir(folder).unwrap() {
        let path = entry.unwrap().path();
        if path.extension().is_some_and(|extension| extension == "stdin") {
            let script = fs::read_to_string(&path).unwrap();
            let expected = fs::read_to_string(path.with_extension("stdout")).unwrap();
            assert_eq!(answers(&script), expected, "{}", path.display());
            count += 1;
        }
    }
    assert!(count >= 31, "{count} scripts");
}

#[test]
fn a_new_tag() {
    assert_eq!(answers(""), "line answer\n");
    let script = "show\ntick 99\ntick 100\nrelease 0\nlookup 0\nrequest 620000\nrequest 6000";
    let expected = "line answer\n1 writable \n\
        2 done phase=sleeping time=0 tick=0\n3 done phase=sleeping time=0 tick=0\n\
        4 refused-25\n5 unknown\n6 reply 740000\n7 reply 720002\n";
    assert_eq!(answers(script), expected);
}

#[test]
fn set_up_lines_are_counted_and_print_nothing() {
    let script = "config 1 5 0\nelement 1 1 \n\nbst 9 7 8000312345675F5E100000010100\nwritable aa\nshow";
    let expected = "line answer\n3 refused-0\n\
        4 vst 9000018101800100050000 phase=ready:6:19088743:0000007 time=1600000000 tick=9\n\
        6 writable AA\n";
    assert_eq!(answers(script), expected);
}

#[test]
fn reading_refuses_a_bst_before_the_call_does() {
    let script = "element 0 1 \nbst 0 FFFFFFFF 80\nbst 0 FFFFFFFF 200000\n\
        bst 0 FFFFFFFF 8000312345675F5E1000000000\nbst 0 1 8000312345675F5E1000000000\ntick 0";
    let expected = "line answer\n2 refused-13 at 1\n3 refused-0\n4 refused-3\n5 refused-26\n\
        6 done phase=sleeping time=0 tick=0\n";
    assert_eq!(answers(script), expected);
}

#[test]
fn lists_stay_unsound_above_their_room() {
    let mut tag = Tag::default();
    for number in 0..100 {
        let lines = [format!("element {} 1 AA", number + 1), format!("row {number} factory 0 0 open")];
        for line in lines {
            assert_eq!(tag.take(script::parse(line.as_bytes())), None);
        }
    }
    assert_eq!((tag.elements.len(), tag.marks.len(), tag.rows.len()), (9, 9, 33));
    for line in ["lookup 0", "request 620000", "bst 0 1 8000312345675F5E1000000000"] {
        assert_eq!(tag.take(script::parse(line.as_bytes())).as_deref(), Some("refused-26"), "{line}");
    }
}
