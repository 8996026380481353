//! The words of the archive's states as states of the second program, and back. Words that are no state become one that
//! is not sound, so that the second program refuses it in the right order.

use second::attributes::{Area, Row, DIRECTORY_LIMIT};
use second::link::{Element, Link, Phase, ELEMENT_LIMIT};
use second::message::{Beacon, Part};
use second::reassembly::{Slot, Table};

const TABLE_WORDS: usize = 41;

fn slot_of(words: &[u32]) -> Option<Slot> {
    let [lid, number, next, held, opened] = words else {
        return None;
    };
    Some(Slot {
        lid: *lid,
        number: u8::try_from(*number).ok()?,
        next_counter: u16::try_from(*next).ok()?,
        held: u16::try_from(*held).ok()?,
        opened: *opened,
    })
}

fn sound_table_of(words: &[u32]) -> Option<Table> {
    if words.len() != TABLE_WORDS {
        return None;
    }
    let mut table = Table { busy: words[0], ..Table::default() };
    for (slot, words) in table.slots.iter_mut().zip(words[1..].chunks(5)) {
        *slot = slot_of(words)?;
    }
    Some(table)
}

pub fn table_of(words: &[u32]) -> Table {
    sound_table_of(words).unwrap_or(Table { busy: u32::MAX, ..Table::default() })
}

pub fn table_words(table: &Table) -> Vec<u32> {
    let words =
        |slot: &Slot| [slot.lid, slot.number.into(), slot.next_counter.into(), slot.held.into(), slot.opened];
    std::iter::once(table.busy).chain(table.slots.iter().flat_map(words)).collect()
}

pub fn link_of(words: &[u32]) -> Link {
    let none = Link { phase: Phase::Ready { beacon: Beacon::default(), lid: u32::MAX }, time: 0, tick: 0 };
    let [phase, manufacturer, individual, lid, time, tick] = *words else {
        return none;
    };
    let phase = match (phase, u16::try_from(manufacturer)) {
        (0, _) => Phase::Sleeping,
        (1, _) => Phase::Looking,
        (2, Ok(manufacturer)) => Phase::Ready { beacon: Beacon { manufacturer, individual }, lid },
        _ => return none,
    };
    Link { phase, time, tick }
}

pub fn link_words(link: &Link) -> Vec<u32> {
    let [phase, manufacturer, individual, lid] = match link.phase {
        Phase::Sleeping => [0; 4],
        Phase::Looking => [1, 0, 0, 0],
        Phase::Ready { beacon, lid } => [2, beacon.manufacturer.into(), beacon.individual, lid],
    };
    vec![phase, manufacturer, individual, lid, link.time, link.tick]
}

pub fn elements_of(words: &[u32]) -> Vec<Element> {
    let element = |words: &[u32]| Element {
        eid: words[0],
        aid: words[1],
        mark: Part { start: words[2] as usize, length: words[3] as usize },
    };
    if words.len() % 4 != 0 {
        return vec![element(&[0; 4]); ELEMENT_LIMIT + 1];
    }
    words.chunks(4).map(element).collect()
}

pub fn element_words(elements: &[Element]) -> Vec<u32> {
    let words = |element: &Element| {
        let Part { start, length } = element.mark;
        [element.eid, element.aid, start as u32, length as u32]
    };
    elements.iter().flat_map(words).collect()
}

fn row_of(words: &[u32]) -> Option<Row> {
    let area = match words[1] {
        0 => Area::Factory,
        1 => Area::Writable,
        _ => return None,
    };
    Some(Row { id: words[0], area, start: words[2], length: words[3], protected: words[4] != 0 })
}

pub fn rows_of(words: &[u32]) -> Vec<Row> {
    let rows: Option<Vec<Row>> = words.chunks_exact(5).map(row_of).collect();
    let empty = Row { id: 0, area: Area::Factory, start: 0, length: 0, protected: false };
    match rows {
        Some(rows) if words.len() % 5 == 0 => rows,
        _ => vec![empty; DIRECTORY_LIMIT + 1],
    }
}

pub fn row_words(rows: &[Row]) -> Vec<u32> {
    let words = |row: &Row| {
        [row.id, (row.area == Area::Writable).into(), row.start, row.length, row.protected.into()]
    };
    rows.iter().flat_map(words).collect()
}
