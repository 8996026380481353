use super::*;
use crate::composer::sound_message;
use crate::random::Random;
use crate::reading;

fn nothing_asked() -> Command {
    Command { mode: true, eid: 0, command_type: 15, credentials: None, parameter: None, iid: None }
}

/// Writes with an output of so many octets; what is refused must leave it alone.
fn written(message: &Message, lists: &Lists, octets: &[u8], room: usize) -> Result<Vec<u8>, Refusal> {
    let mut output = vec![0xEE; room];
    let answer = write(message, lists, octets, &mut output);
    let length = answer.unwrap_or(0);
    assert!(output[length..].iter().all(|octet| *octet == 0xEE));
    answer.map(|length| output[..length].to_vec())
}

fn number(message: &Message, lists: &Lists, octets: &[u8], room: usize) -> Option<u8> {
    written(message, lists, octets, room).err().map(|refusal| refusal.number)
}

fn command_number(command: Command, lists: &Lists, octets: &[u8]) -> Option<u8> {
    number(&Message::ActionRequest(command), lists, octets, 512)
}

fn set_of(attributes: Run) -> SetRequest {
    SetRequest { fill: 0, mode: true, eid: 1, credentials: None, attributes, iid: None }
}

fn beacon_of(mandatory: Run, profiles: Run) -> Bst {
    Bst { beacon: Beacon::default(), time: 0, profile: 0, mandatory, optional: None, profiles }
}

fn run(first: usize, count: usize) -> Run {
    Run { first, count }
}

#[test]
fn what_was_read_is_written_back() {
    let mut random = Random::new(11);
    for _ in 0..20_000 {
        let octets = sound_message(&mut random);
        let mut lists = Lists::default();
        let message = reading::read(&octets, &mut lists).unwrap();
        assert_eq!(written(&message, &lists, &octets, 512).as_deref(), Ok(&octets[..]));
        assert_eq!(number(&message, &lists, &octets, octets.len()), None);
        assert_eq!(number(&message, &lists, &octets, octets.len() - 1), Some(22));
    }
}

#[test]
fn reading_d1_order_of_checks() {
    // Four strings of 127 octets pass 512 octets.
    let octets = [0x5A; 127];
    let mut lists = Lists::default();
    let value = Container::Octets(Part { start: 0, length: 127 });
    lists.attributes[..4].fill(Attribute { id: 1, value });
    let set = set_of(run(0, 4));
    let long = Refusal::at(21, 512);
    assert_eq!(written(&Message::SetRequest(set), &lists, &octets, 0), Err(long));
    let broken = SetRequest { iid: Some(128), ..set };
    assert_eq!(number(&Message::SetRequest(broken), &lists, &octets, 0), Some(23));
    let short = SetRequest { attributes: run(0, 3), ..set };
    assert_eq!(number(&Message::SetRequest(short), &lists, &octets, 392), Some(22));
    assert_eq!(number(&Message::SetRequest(short), &lists, &octets, 393), None);
}

#[test]
fn reading_d2_unused_rows_are_passed_over() {
    let mut lists = Lists::default();
    let outside = Container::Octets(Part { start: 9999, length: 255 });
    lists.attributes[1..].fill(Attribute { id: 255, value: outside });
    lists.attributes[0] = Attribute { id: 5, value: Container::Eid(6) };
    lists.ids.fill(255);
    let set = Message::SetRequest(set_of(run(0, 1)));
    assert_eq!(written(&set, &lists, &[], 512).unwrap(), [0x41, 1, 1, 5, 7, 6]);
}

#[test]
fn reading_d3_parts_outside() {
    let lists = Lists::default();
    let with = |start, length| {
        let credentials = Some(Part { start, length });
        command_number(Command { credentials, ..nothing_asked() }, &lists, &[0; 200])
    };
    assert_eq!((with(0, 127), with(73, 127), with(200, 0)), (None, None, None));
    assert_eq!((with(0, 128), with(74, 127), with(201, 0)), (Some(23), Some(23), Some(23)));
    assert_eq!(with(usize::MAX, 2), Some(23));
}

#[test]
fn reading_d4_numbers_and_fill() {
    let lists = Lists::default();
    let command = |change: fn(&mut Command)| {
        let mut command = nothing_asked();
        change(&mut command);
        command_number(command, &lists, &[])
    };
    assert_eq!(command(|command| command.eid = 127), None);
    assert_eq!(command(|command| command.eid = 128), Some(23));
    assert_eq!(command(|command| command.command_type = 128), Some(23));
    assert_eq!(command(|command| command.iid = Some(128)), Some(23));
    assert_eq!(command(|command| command.parameter = Some(Container::Eid(128))), Some(23));
    let response = |fill| StatusResponse { fill, eid: 0, iid: None, status: None };
    assert_eq!(number(&Message::SetResponse(response(3)), &lists, &[], 512), None);
    assert_eq!(number(&Message::EventResponse(response(4)), &lists, &[], 512), Some(23));
    let vst = |fill, class| {
        let vst = Vst { fill, profile: 0, applications: run(0, 0), class, maker: 0, status: None };
        number(&Message::Vst(vst), &lists, &[], 512)
    };
    assert_eq!((vst(15, 32_767), vst(16, 0), vst(0, 32_768)), (None, Some(23), Some(23)));
}

#[test]
fn readings_d4_and_d6_counts() {
    let lists = Lists::default();
    let parameter = |container| {
        let command = Command { parameter: Some(container), ..nothing_asked() };
        command_number(command, &lists, &[])
    };
    assert_eq!(parameter(Container::Ids(run(0, 16))), None);
    assert_eq!(parameter(Container::Ids(run(0, 17))), Some(23));
    assert_eq!(parameter(Container::Ids(run(512, 0))), None);
    assert_eq!(parameter(Container::Ids(run(512, 1))), Some(23));
    assert_eq!(parameter(Container::Attributes(run(0, 17))), Some(23));
    assert_eq!(parameter(Container::Attributes(run(17, 16))), Some(23));
    let beacon = |bst| number(&Message::Bst(bst), &lists, &[], 512);
    assert_eq!(beacon(beacon_of(run(16, 16), run(0, 16))), None);
    assert_eq!(beacon(beacon_of(run(0, 17), run(0, 0))), Some(23));
    assert_eq!(beacon(beacon_of(run(0, 0), run(0, 17))), Some(23));
    assert_eq!(beacon(beacon_of(run(usize::MAX, 1), run(0, 0))), Some(23));
}

#[test]
fn reading_d4_depth_and_rows() {
    let mut lists = Lists::default();
    for row in 0..4 {
        lists.attributes[row] = Attribute { id: 5, value: Container::Attributes(run(row + 1, 1)) };
    }
    let set = |first, lists: &Lists| number(&Message::SetRequest(set_of(run(first, 1))), lists, &[], 512);
    assert_eq!((set(1, &lists), set(0, &lists)), (None, Some(23)));
    // A row that names itself is too deep, and ends.
    lists.attributes[9] = Attribute { id: 5, value: Container::Attributes(run(9, 1)) };
    assert_eq!(set(9, &lists), Some(23));
    let mut rows = Lists::default();
    rows.attributes[0].value = Container::Attributes(run(16, 16));
    let outer = |lists: &Lists| number(&Message::SetRequest(set_of(run(0, 16))), lists, &[], 512);
    assert_eq!(outer(&rows), None);
    rows.attributes[1].value = Container::Attributes(run(16, 1));
    assert_eq!(outer(&rows), Some(23));
}

#[test]
fn entries() {
    let mut lists = Lists::default();
    let mut with = |aid, eid| {
        lists.applications[0] = Application { aid, eid, parameter: None };
        number(&Message::Bst(beacon_of(run(0, 1), run(0, 0))), &lists, &[], 512)
    };
    assert_eq!((with(31, Some(127)), with(32, None), with(0, Some(128))), (None, Some(23), Some(23)));
    let beacon = Beacon { manufacturer: 65_535, individual: 1 << 27 };
    let bst = Bst { beacon, ..beacon_of(run(0, 0), run(0, 0)) };
    assert_eq!(number(&Message::Bst(bst), &lists, &[], 512), Some(23));
}
