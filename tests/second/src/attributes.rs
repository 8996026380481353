//! Reading and setting attributes: the directory, and the answers to requests.

use crate::message::*;
use crate::reading;
use crate::refusal::*;
use crate::writing;

pub const OUTPUT_OCTETS: usize = 512;
pub const DIRECTORY_LIMIT: usize = 32;
const VALUE_LIMIT: u32 = 127;
const ECHO: u8 = 15;

const NO_ERROR: u8 = 0;
const ACCESS_DENIED: u8 = 1;
const ARGUMENT_ERROR: u8 = 2;
const COMPLEXITY_LIMITATION: u8 = 3;

#[derive(Clone, Copy, Debug, PartialEq, Eq)]
pub enum Area {
    Factory,
    Writable,
}

/// One row of the directory; start and length count octets of its area.
#[derive(Clone, Copy, Debug, PartialEq, Eq)]
pub struct Row {
    pub id: u32,
    pub area: Area,
    pub start: u32,
    pub length: u32,
    pub protected: bool,
}

/// The identity that requests are measured against.
#[derive(Clone, Copy, Debug)]
pub struct Identity<'a> {
    pub eid: u32,
    pub credentials: &'a [u8],
}

impl Row {
    fn end(&self) -> u64 {
        u64::from(self.start) + u64::from(self.length)
    }

    fn part<'a>(&self, factory: &'a [u8], writable: &'a [u8]) -> &'a [u8] {
        let area = match self.area {
            Area::Factory => factory,
            Area::Writable => writable,
        };
        &area[self.start as usize..self.end() as usize]
    }

    fn shares_an_octet_with(&self, other: &Row) -> bool {
        let apart = self.end() <= other.start.into() || other.end() <= self.start.into();
        self.area == other.area && self.length > 0 && other.length > 0 && !apart
    }
}

/// Whether a directory fits areas of these lengths.
pub fn is_sound(rows: &[Row], factory: usize, writable: usize) -> bool {
    let fits = |row: &Row| {
        let area = if row.area == Area::Factory { factory } else { writable };
        row.id <= 127 && row.length <= VALUE_LIMIT && row.end() <= area as u64
    };
    let clashes = |index: usize| {
        let row = &rows[index];
        rows[..index].iter().any(|other| other.id == row.id || other.shares_an_octet_with(row))
    };
    rows.len() <= DIRECTORY_LIMIT && rows.iter().all(fits) && !(0..rows.len()).any(clashes)
}

fn find(rows: &[Row], id: u32) -> Option<&Row> {
    rows.iter().find(|row| row.id == id)
}

/// The very part of an area that holds the attribute; for an unknown id or an
/// unsound directory the empty part at the factory area's front.
pub fn lookup<'a>(rows: &[Row], id: u32, factory: &'a [u8], writable: &'a [u8]) -> &'a [u8] {
    match find(rows, id) {
        Some(row) if is_sound(rows, factory.len(), writable.len()) => row.part(factory, writable),
        _ => &factory[..0],
    }
}

/// Whether the id is known. Refuses with 26.
pub fn is_known(rows: &[Row], id: u32, factory: usize, writable: usize) -> Result<bool, Refusal> {
    if !is_sound(rows, factory, writable) {
        return Err(Refusal::plain(LIST_UNSOUND));
    }
    Ok(find(rows, id).is_some())
}

/// Answers a request with the length of the reply in the output, or with none.
/// Refuses with 1, 26, reading's refusals, 24, and then changes nothing.
pub fn request(
    octets: &[u8],
    identity: &Identity,
    rows: &[Row],
    factory: &[u8],
    writable: &mut [u8],
    output: &mut [u8],
) -> Result<Option<usize>, Refusal> {
    if output.len() < OUTPUT_OCTETS {
        return Err(Refusal::plain(LENT_LENGTHS));
    }
    if !is_sound(rows, factory.len(), writable.len()) {
        return Err(Refusal::plain(LIST_UNSOUND));
    }
    let mut lists = Lists::default();
    let message = reading::read(octets, &mut lists)?;
    let asked = Asked { octets, lists: &lists, identity, rows };
    match message {
        Message::GetRequest(get) => asked.get(&get, factory, writable, output).map(Some),
        Message::SetRequest(set) => {
            let status = asked.set(&set, writable);
            if !set.mode {
                return Ok(None);
            }
            let reply = StatusResponse { fill: 0, eid: set.eid, iid: set.iid, status: Some(status) };
            writing::write(&Message::SetResponse(reply), &lists, octets, output).map(Some)
        }
        Message::ActionRequest(command) if is_echo(&command) => {
            let Command { eid, iid, parameter, .. } = command;
            let reply = ActionResponse { fill: 0, eid, iid, parameter, status: None };
            writing::write(&Message::ActionResponse(reply), &lists, octets, output).map(Some)
        }
        _ => Err(Refusal::plain(NOT_SERVED)),
    }
}

fn is_echo(command: &Command) -> bool {
    let carries_octets = matches!(command.parameter, Some(Container::Octets(_)));
    command.mode && command.eid == 0 && command.command_type == ECHO && carries_octets
}

/// A request that was read, beside the tag's own data.
struct Asked<'a> {
    octets: &'a [u8],
    lists: &'a Lists,
    identity: &'a Identity<'a>,
    rows: &'a [Row],
}

impl Asked<'_> {
    fn is_for_us(&self, eid: u8) -> bool {
        self.identity.eid == u32::from(eid)
    }

    fn may_touch(&self, row: &Row, credentials: Option<Part>) -> bool {
        let given = credentials.and_then(|part| part.of(self.octets));
        !row.protected || given == Some(self.identity.credentials)
    }

    fn get(
        &self,
        get: &GetRequest,
        factory: &[u8],
        writable: &[u8],
        output: &mut [u8],
    ) -> Result<usize, Refusal> {
        let listed = self.readable_rows(get).and_then(|rows| {
            let whole = write_values(get, &rows, factory, writable, output);
            whole.map_err(|_| COMPLEXITY_LIMITATION)
        });
        listed.or_else(|status| {
            let reply =
                GetResponse { fill: 0, eid: get.eid, iid: get.iid, attributes: None, status: Some(status) };
            writing::write(&Message::GetResponse(reply), self.lists, &[], output)
        })
    }

    /// The rows a GET names, or the status of its first fault.
    fn readable_rows(&self, get: &GetRequest) -> Result<Vec<&Row>, u8> {
        if !self.is_for_us(get.eid) {
            return Err(ARGUMENT_ERROR);
        }
        let ids = get.ids.and_then(|run| run.of(&self.lists.ids)).ok_or(ARGUMENT_ERROR)?;
        let readable = |id: &u8| {
            let row = find(self.rows, (*id).into()).ok_or(ARGUMENT_ERROR)?;
            if !self.may_touch(row, get.credentials) {
                return Err(ACCESS_DENIED);
            }
            Ok(row)
        };
        ids.iter().map(readable).collect()
    }

    /// Carries out a SET whose rows are all in order; answers its status.
    fn set(&self, set: &SetRequest, writable: &mut [u8]) -> u8 {
        let values = match self.settable_values(set) {
            Ok(values) => values,
            Err(status) => return status,
        };
        for (row, value) in values {
            let start = row.start as usize;
            writable[start..start + value.len()].copy_from_slice(value);
        }
        NO_ERROR
    }

    /// The rows a SET names with their values, or the status of its first fault.
    fn settable_values(&self, set: &SetRequest) -> Result<Vec<(&Row, &[u8])>, u8> {
        if !self.is_for_us(set.eid) {
            return Err(ARGUMENT_ERROR);
        }
        let asked = set.attributes.of(&self.lists.attributes).ok_or(ARGUMENT_ERROR)?;
        let settable = |attribute: &Attribute| {
            let row = find(self.rows, attribute.id.into()).ok_or(ARGUMENT_ERROR)?;
            let Container::Octets(part) = attribute.value else {
                return Err(ARGUMENT_ERROR);
            };
            if part.length != row.length as usize {
                return Err(ARGUMENT_ERROR);
            }
            if row.area == Area::Factory || !self.may_touch(row, set.credentials) {
                return Err(ACCESS_DENIED);
            }
            Ok((row, part.of(self.octets).ok_or(ARGUMENT_ERROR)?))
        };
        asked.iter().map(settable).collect()
    }
}

/// The reply that carries values; refused where it would pass 512 octets.
fn write_values(
    get: &GetRequest,
    rows: &[&Row],
    factory: &[u8],
    writable: &[u8],
    output: &mut [u8],
) -> Result<usize, Refusal> {
    let mut lists = Lists::default();
    let mut values = Vec::with_capacity(OUTPUT_OCTETS);
    for (row, attribute) in rows.iter().zip(&mut lists.attributes) {
        let part = Part { start: values.len(), length: row.length as usize };
        *attribute = Attribute { id: row.id as u8, value: Container::Octets(part) };
        values.extend_from_slice(row.part(factory, writable));
    }
    let reply = GetResponse {
        fill: 0,
        eid: get.eid,
        iid: get.iid,
        attributes: Some(Run { first: 0, count: rows.len() }),
        status: None,
    };
    writing::write(&Message::GetResponse(reply), &lists, &values, output)
}

#[cfg(test)]
mod tests;
