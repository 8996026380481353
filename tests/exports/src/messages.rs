//! Check, rewrite and string calls.

use second::hex;
use second::message::{Attribute, Container, Lists, Message, Part};
use second::random::Random;
use second::refusal::{Refusal, OUTPUT_SMALL};
use second::samples::write_messages;
use second::{reading, writing};
use semuryeon::{raw, Answer};

use crate::arbitrary;
use crate::expected::{kept_if_refused, number_or_refused, packed, refused, same};

fn choice(message: &Message) -> u8 {
    match message {
        Message::ActionRequest(_) => 0,
        Message::ActionResponse(_) => 1,
        Message::EventRequest(_) => 2,
        Message::EventResponse(_) => 3,
        Message::SetRequest(_) => 4,
        Message::SetResponse(_) => 5,
        Message::GetRequest(_) => 6,
        Message::GetResponse(_) => 7,
        Message::Bst(_) => 8,
        Message::Vst(_) => 9,
    }
}

fn octet_string(container: Option<Container>) -> Option<Part> {
    match container {
        Some(Container::Octets(part)) => Some(part),
        _ => None,
    }
}

/// The attribute rows of a container in the order of the message; the second program keeps those of a list together.
fn rows_of(container: Option<Container>, lists: &Lists) -> Vec<Attribute> {
    let Some(Container::Attributes(run)) = container else {
        return Vec::new();
    };
    let row = |row: &Attribute| [vec![*row], rows_of(Some(row.value), lists)].concat();
    run.of(&lists.attributes).unwrap_or_default().iter().flat_map(row).collect()
}

fn rows_of_message(message: &Message, lists: &Lists) -> Vec<Attribute> {
    let container = match message {
        Message::SetRequest(set) => Some(Container::Attributes(set.attributes)),
        Message::GetResponse(response) => response.attributes.map(Container::Attributes),
        _ => parameter(message),
    };
    let entries = lists.applications[..lists.application_count].iter();
    let parameters = entries.map(|entry| entry.parameter);
    std::iter::once(container).chain(parameters).flat_map(|container| rows_of(container, lists)).collect()
}

fn credentials(message: &Message) -> Option<Part> {
    match message {
        Message::ActionRequest(command) | Message::EventRequest(command) => command.credentials,
        Message::SetRequest(set) => set.credentials,
        Message::GetRequest(get) => get.credentials,
        _ => None,
    }
}

fn parameter(message: &Message) -> Option<Container> {
    match message {
        Message::ActionRequest(command) | Message::EventRequest(command) => command.parameter,
        Message::ActionResponse(response) => response.parameter,
        _ => None,
    }
}

/// The part of the message that a field number names.
fn field_part(message: &Message, lists: &Lists, field: u32) -> Option<Part> {
    match field {
        0 => credentials(message),
        1 => octet_string(parameter(message)),
        2..=33 => {
            let rows = rows_of_message(message, lists);
            octet_string(rows.get(field as usize - 2).map(|row| row.value))
        }
        34..=65 => {
            let entries = &lists.applications[..lists.application_count];
            octet_string(entries.get(field as usize - 34).and_then(|entry| entry.parameter))
        }
        _ => None,
    }
}

fn second_string(octets: &[u8], field: u32, output: &mut [u8]) -> Answer {
    let mut lists = Lists::default();
    let message = match reading::read(octets, &mut lists) {
        Ok(message) => message,
        Err(refusal) => return refused(refusal),
    };
    let Some(part) = field_part(&message, &lists, field) else {
        return packed(0, 0, 0);
    };
    let string = part.of(octets).unwrap_or_default();
    match output.get_mut(..string.len()) {
        None => refused(Refusal::plain(OUTPUT_SMALL)),
        Some(room) => {
            room.copy_from_slice(string);
            packed(1, string.len(), 0)
        }
    }
}

fn second_rewrite(octets: &[u8], output: &mut [u8]) -> Result<usize, Refusal> {
    let mut lists = Lists::default();
    let message = reading::read(octets, &mut lists)?;
    writing::write(&message, &lists, octets, output)
}

fn compare_string(octets: &[u8], field: u32, before: &[u8]) -> Result<(), String> {
    let (mut found, mut expected) = (before.to_vec(), before.to_vec());
    let answer = raw::string(octets, field, &mut found);
    let name = format!("string {field} of {}", hex::text(octets));
    same(&name, &answer, &second_string(octets, field, &mut expected))?;
    same(&name, &found, &expected)?;
    kept_if_refused(answer, &before.to_vec(), &found)
}

fn compare(random: &mut Random, octets: &[u8]) -> Result<usize, String> {
    let mut lists = Lists::default();
    let checked = reading::read(octets, &mut lists);
    let expected = checked.map_or_else(refused, |message| packed(choice(&message), 0, 0));
    same(&format!("check {}", hex::text(octets)), &raw::check(octets), &expected)?;

    let room = if random.one_in(4) { random.below(octets.len() + 2) } else { 512 };
    let before = random.octets(room);
    let (mut found, mut expected) = (before.clone(), before.clone());
    let answer = raw::rewrite(octets, &mut found);
    let name = format!("rewrite {} into {room}", hex::text(octets));
    same(&name, &answer, &number_or_refused(second_rewrite(octets, &mut expected)))?;
    same(&name, &found, &expected)?;
    kept_if_refused(answer, &before, &found)?;
    if answer.refusal() == 0 {
        same(&name, &&found[..answer.first()], &octets)?;
    }

    let all = random.one_in(16);
    let fields: Vec<u32> = if all {
        (0..70).collect()
    } else {
        vec![0, 1, 2, 34, random.below(70) as u32, arbitrary::word(random)]
    };
    for field in &fields {
        compare_string(octets, *field, &before)?;
    }
    Ok(2 + fields.len())
}

/// The second program's random messages, sound and damaged.
pub fn samples(random: &mut Random, count: usize) -> Result<usize, String> {
    let mut lines = Vec::new();
    write_messages(random.word(), count, &mut lines).map_err(|error| error.to_string())?;
    let mut calls = 0;
    for line in lines.split(|character| *character == b'\n') {
        if let Some(octets) = hex::read_all(line) {
            calls += compare(random, &octets)?;
        }
    }
    Ok(calls)
}

pub fn arbitrary(random: &mut Random, count: usize) -> Result<usize, String> {
    let mut calls = 0;
    for _ in 0..count {
        let octets = arbitrary::octets(random, 20, 1100);
        calls += compare(random, &octets)?;
    }
    Ok(calls)
}
