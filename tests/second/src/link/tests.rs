use super::*;
use crate::hex;
use crate::reading;

const SCOPE_BST: &str = "8000312345675F5E100000010100";
const VST: &str = "9000018101800100050000";
const BEACON: Beacon = Beacon { manufacturer: 6, individual: 19_088_743 };
const TIME: u32 = 1_600_000_000;
const CONFIGURATION: Configuration = Configuration { class: 1, maker: 5, status: 0 };

fn ready(lid: u32) -> Phase {
    Phase::Ready { beacon: BEACON, lid }
}

fn link(phase: Phase, time: u32, tick: u32) -> Link {
    Link { phase, time, tick }
}

fn element(eid: u32, aid: u32) -> Element {
    Element { eid, aid, mark: Part::default() }
}

/// One BST call at tick 9 with fresh LID 7: the link afterwards and the answer.
fn hear(before: Link, bst: &str, elements: &[Element], marks: &[u8]) -> (Link, String) {
    let octets = hex::octets(bst);
    let mut lists = Lists::default();
    let Ok(Message::Bst(bst)) = reading::read(&octets, &mut lists) else {
        panic!("not a BST");
    };
    let heard = HeardBst { bst, lists: &lists, octets: &octets };
    let own = Own { elements, marks, configuration: CONFIGURATION };
    let mut after = before;
    let mut output = [0xEE; 600];
    let answer = match after.hear(&heard, 9, 7, &own, &mut output) {
        Err(refusal) => refusal.to_string(),
        Ok(Reply::Silent) => "silent".into(),
        Ok(Reply::Vst(length)) => {
            let text = hex::text(&output[..length]);
            output[..length].fill(0xEE);
            text
        }
    };
    assert!(output.iter().all(|octet| *octet == 0xEE));
    (after, answer)
}

#[test]
fn reading_e1_every_bst_wakes() {
    let before = link(Phase::Sleeping, 5, 6);
    let found = hear(before, "8000312345675F5E100000010200", &[element(1, 1)], &[]);
    assert_eq!(found, (link(Phase::Looking, TIME, 9), "silent".into()));
}

#[test]
fn reading_e2_a_sleeping_tag_answers_at_once() {
    let before = link(Phase::Sleeping, TIME, 6);
    let found = hear(before, SCOPE_BST, &[element(1, 1)], &[]);
    assert_eq!(found, (link(ready(7), TIME, 9), VST.into()));
}

#[test]
fn reading_e3_the_compared_beacon_is_the_ready_one() {
    // Another beacon without a pair replaces the stored time, not the phase.
    let other = "8000312345685F5E100000010200";
    let before = link(ready(3), TIME - 300, 6);
    let (after, answer) = hear(before, other, &[element(1, 1)], &[]);
    assert_eq!((after, answer.as_str()), (link(ready(3), TIME, 9), "silent"));
    let (after, answer) = hear(after, SCOPE_BST, &[element(1, 1)], &[]);
    assert_eq!((after, answer.as_str()), (link(ready(3), TIME, 9), "silent"));
    let (after, _) = hear(after, "8000312345685F5E100000010100", &[element(1, 1)], &[]);
    let beacon = Beacon { individual: BEACON.individual + 1, ..BEACON };
    assert_eq!(after.phase, Phase::Ready { beacon, lid: 7 });
}

#[test]
fn reading_e8_time_difference() {
    let silent = [TIME - 254, TIME];
    for time in silent {
        let found = hear(link(ready(3), time, 6), SCOPE_BST, &[element(1, 1)], &[]);
        assert_eq!(found, (link(ready(3), TIME, 9), "silent".into()));
    }
    let fresh = [TIME - 255, TIME + 1, 0, u32::MAX];
    for time in fresh {
        let found = hear(link(ready(3), time, 6), SCOPE_BST, &[element(1, 1)], &[]);
        assert_eq!(found, (link(ready(7), TIME, 9), VST.into()));
    }
}

#[test]
fn readings_e7_e9_e15_pairs_and_marks() {
    let looking = link(Phase::Looking, 0, 0);
    let marked = Element { eid: 9, aid: 3, mark: Part { start: 1, length: 2 } };
    // Applications 2 and 3 are offered; the element list has AID 3 first.
    let bst = "8000312345675F5E1000000202030100";
    let (_, answer) = hear(looking, bst, &[marked, element(4, 2)], &[1, 2, 3]);
    assert_eq!(answer, "9000018204800100050000");
    let (_, answer) = hear(looking, bst, &[element(4, 1), marked], &[1, 2, 3]);
    assert_eq!(answer, "900001C30902020203800100050000");
    // Mandatory before other applications.
    let bst = "8800312345675F5E1000000103010200";
    let (_, answer) = hear(looking, bst, &[element(4, 2), element(5, 3)], &[]);
    assert_eq!(answer, "9000018305800100050000");
}

#[test]
fn the_first_known_profile_of_the_list_is_taken() {
    let looking = link(Phase::Looking, 0, 0);
    let elements = [element(1, 1)];
    let (after, answer) = hear(looking, "8000312345675F5E1000020101020501", &elements, &[]);
    assert_eq!((after.phase, answer.as_str()), (ready(7), "9001018101800100050000"));
    let (after, answer) = hear(looking, "8000312345675F5E1000020101020502", &elements, &[]);
    assert_eq!((after, answer.as_str()), (link(Phase::Looking, TIME, 9), "silent"));
}

#[test]
fn reading_e11_ticks() {
    let cases = [(109, Phase::Looking), (110, Phase::Sleeping), (9, Phase::Sleeping), (10, Phase::Looking)];
    for (tick, phase) in cases {
        let mut found = link(Phase::Looking, 1, 10);
        assert_eq!(found.pass_tick(tick), Ok(()));
        assert_eq!(found, link(phase, 1, 10), "tick {tick}");
    }
}

#[test]
fn reading_e12_release() {
    let released = |mut link: Link, lid| link.release(lid).map(|()| link);
    assert_eq!(released(link(ready(7), 1, 2), 7), Ok(link(Phase::Looking, 1, 2)));
    assert_eq!(released(link(ready(7), 1, 2), 8), Err(Refusal::plain(25)));
    assert_eq!(released(link(Phase::Looking, 1, 2), 0), Err(Refusal::plain(25)));
    assert_eq!(released(link(ready(LID_LIMIT), 1, 2), 8), Err(Refusal::plain(23)));
    assert_eq!(released(link(ready(LID_LIMIT), 1, 2), LID_LIMIT), Err(Refusal::plain(3)));
}

#[test]
fn reading_e13_elements() {
    let sound = |elements: &[Element]| elements_are_sound(elements, 10);
    let eight: Vec<Element> = (1..=8).map(|eid| element(eid, 31)).collect();
    let nine: Vec<Element> = (1..=9).map(|eid| element(eid, 31)).collect();
    assert!(sound(&[]) && sound(&eight) && !sound(&nine));
    assert!(!sound(&[element(0, 1)]) && !sound(&[element(128, 1)]) && sound(&[element(127, 1)]));
    assert!(!sound(&[element(1, 32)]) && !sound(&[element(1, 1), element(1, 2)]));
    let marked = |start, length| Element { eid: 1, aid: 1, mark: Part { start, length } };
    assert!(sound(&[marked(10, 0)]) && !sound(&[marked(11, 0)]) && !sound(&[marked(4, 7)]));
    assert!(!elements_are_sound(&[marked(0, 128)], 200) && !sound(&[marked(usize::MAX, 1)]));
}

#[test]
fn order_of_checks() {
    let bst = Bst {
        beacon: BEACON,
        time: 0,
        profile: 0,
        mandatory: Run::default(),
        optional: None,
        profiles: Run::default(),
    };
    let lists = Lists::default();
    let refused = |room: usize, lid: u32, eid: u32, individual: u32| {
        let beacon = Beacon { individual, ..BEACON };
        let heard = HeardBst { bst: Bst { beacon, ..bst }, lists: &lists, octets: &[] };
        let elements = [element(eid, 1)];
        let own = Own { elements: &elements, marks: &[], configuration: CONFIGURATION };
        let mut link = Link::new();
        let answer = link.hear(&heard, 5, lid, &own, &mut vec![0; room]);
        assert_eq!(link == Link::new(), answer.is_err());
        answer.map_err(|refusal| refusal.number)
    };
    assert_eq!(refused(511, LID_LIMIT, 0, 1 << 27), Err(1));
    assert_eq!(refused(512, LID_LIMIT, 0, 1 << 27), Err(3));
    assert_eq!(refused(512, 0, 0, 1 << 27), Err(26));
    assert_eq!(refused(512, 0, 1, 1 << 27), Err(23));
    assert_eq!(refused(512, 0, 1, 0), Ok(Reply::Silent));
}

#[test]
fn reading_e4_broken_link_and_configuration() {
    let octets = hex::octets(SCOPE_BST);
    let mut lists = Lists::default();
    let Ok(Message::Bst(bst)) = reading::read(&octets, &mut lists) else {
        panic!("not a BST");
    };
    let heard = HeardBst { bst, lists: &lists, octets: &octets };
    let answer = |phase, configuration| {
        let own = Own { elements: &[], marks: &[], configuration };
        link(phase, 0, 0).hear(&heard, 0, 0, &own, &mut [0; 512]).map_err(|refusal| refusal.number)
    };
    assert_eq!(answer(ready(LID_LIMIT), CONFIGURATION), Err(23));
    assert_eq!(answer(ready(1), CONFIGURATION), Ok(Reply::Silent));
    assert_eq!(answer(ready(1), Configuration { class: 32_768, ..CONFIGURATION }), Err(23));
    assert_eq!(answer(ready(1), Configuration { maker: 65_536, ..CONFIGURATION }), Err(23));
    assert_eq!(answer(ready(1), Configuration { status: 65_536, ..CONFIGURATION }), Err(23));
}
