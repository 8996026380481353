//! Random requests for a tag: GETs, SETs and ECHOs, most of which it can serve.

use crate::attributes::{Area, Row};
use crate::calls::damaged;
use crate::composer::{faulty_message, sound_message};
use crate::limits::at_a_limit;
use crate::random::Random;
use crate::tag::Tag;

/// What a beacon might ask: mostly a GET, SET or ECHO that is read.
pub fn request(random: &mut Random, tag: &Tag) -> Vec<u8> {
    match random.below(24) {
        0 => sound_message(random),
        1 => faulty_message(random),
        2 => at_a_limit(random),
        3 | 4 => {
            let octets = served(random, tag);
            damaged(random, octets)
        }
        _ => served(random, tag),
    }
}

fn served(random: &mut Random, tag: &Tag) -> Vec<u8> {
    match random.below(7) {
        0..=2 => Asking::new(random, tag).get(),
        3..=5 => Asking::new(random, tag).set(),
        _ => echo(random),
    }
}

/// A GET or SET in the making.
struct Asking<'a> {
    random: &'a mut Random,
    tag: &'a Tag,
    eid: u8,
    credentials: Option<Vec<u8>>,
    iid: Option<u8>,
    /// Whether the tag shall have no reason to decline.
    polite: bool,
}

impl<'a> Asking<'a> {
    fn new(random: &'a mut Random, tag: &'a Tag) -> Self {
        let eid = match random.below(16) {
            0 => random.below(128) as u8,
            1 => (tag.eid as u8).wrapping_add(1) & 127,
            _ => tag.eid as u8 & 127,
        };
        let credentials = credentials(random, tag);
        let iid = random.one_in(3).then(|| random.below(128) as u8);
        let polite = !random.one_in(3);
        Asking { random, tag, eid, credentials, iid, polite }
    }

    /// Leading octet, eid and credentials.
    fn front(&self, lead: u8) -> Vec<u8> {
        let flags = u8::from(self.credentials.is_some()) << 3 | u8::from(self.iid.is_some()) << 2;
        let mut octets = vec![lead | flags, self.eid];
        if let Some(credentials) = &self.credentials {
            octets.push(credentials.len() as u8);
            octets.extend(credentials);
        }
        octets
    }

    fn get(mut self) -> Vec<u8> {
        let (listed, fill) = (!self.random.one_in(16), u8::from(self.random.one_in(4)));
        let mut octets = self.front(0x60 | u8::from(listed) << 1 | fill);
        octets.extend(self.iid);
        if listed {
            let ids = if self.random.one_in(2) { self.ids() } else { self.ids_of_a_long_reply() };
            octets.push(ids.len() as u8);
            octets.extend(ids);
        }
        octets
    }

    fn ids(&mut self) -> Vec<u8> {
        let rows = self.rows(|_| true);
        let count = if self.random.one_in(12) { self.random.between(15, 17) } else { self.random.below(5) };
        (0..count).map(|_| self.id(&rows)).collect()
    }

    /// Ids whose reply has about 512 octets, if some can be found.
    fn ids_of_a_long_reply(&mut self) -> Vec<u8> {
        let rows = self.rows(|_| true);
        if rows.is_empty() {
            return self.ids();
        }
        for _ in 0..64 {
            let count = self.random.between(4, 5);
            let chosen: Vec<&Row> = (0..count).map(|_| self.random.pick(&rows)).collect();
            let values: u64 = chosen.iter().map(|row| 3 + u64::from(row.length)).sum();
            if (510..=515).contains(&(3 + values + self.iid.iter().len() as u64)) {
                return chosen.iter().map(|row| row.id as u8 & 127).collect();
            }
        }
        self.ids()
    }

    fn set(mut self) -> Vec<u8> {
        let (mode, fill) = (u8::from(!self.random.one_in(4)), u8::from(self.random.one_in(4)) << 1);
        let mut octets = self.front(0x40 | fill | mode);
        let rows = self.rows(|row| row.area == Area::Writable);
        let count = if self.random.one_in(16) { 16 } else { self.random.below(5) };
        let (place, mut listed) = (octets.len(), 0);
        octets.push(0);
        for _ in 0..count {
            let id = self.id(&rows);
            let value = self.value(id);
            let fits = octets.len() + 1 + value.len() < 512;
            if fits || self.random.one_in(8) {
                octets.push(id);
                octets.extend(value);
                listed += 1;
            }
        }
        octets[place] = listed;
        octets.extend(self.iid);
        octets
    }

    /// The tag's rows; of a polite request, those of the kind wanted that may be touched.
    fn rows(&self, wanted: impl Fn(&Row) -> bool) -> Vec<&'a Row> {
        let opened = self.credentials.as_ref() == Some(&self.tag.credentials);
        let may_be_touched = |row: &&Row| !self.polite || wanted(row) && (opened || !row.protected);
        self.tag.rows.iter().filter(may_be_touched).collect()
    }

    /// The id of one of the rows, now and then another one.
    fn id(&mut self, rows: &[&Row]) -> u8 {
        if rows.is_empty() || self.random.one_in(if self.polite { 40 } else { 8 }) {
            return self.random.below(128) as u8;
        }
        self.random.pick(rows).id as u8 & 127
    }

    /// A value for that attribute, mostly of the right kind and length.
    fn value(&mut self, id: u8) -> Vec<u8> {
        let row = self.tag.rows.iter().find(|row| row.id == id.into());
        let mut length = row.map_or(2, |row| row.length.min(127) as usize);
        if !self.polite {
            match self.random.below(10) {
                0 => return vec![7, self.random.below(128) as u8],
                1 => return vec![8, 2, 1, 2],
                2 => return vec![9, 1, id, 2, 1, 0x55],
                3 => length = (length + 1).min(127),
                4 => length = length.saturating_sub(1),
                _ => {}
            }
        }
        let mut value = vec![2, length as u8];
        value.extend(self.random.octets(length));
        value
    }
}

/// Credentials for a request: right ones, none, or almost right ones.
fn credentials(random: &mut Random, tag: &Tag) -> Option<Vec<u8>> {
    let mut octets = tag.credentials.clone();
    octets.truncate(127);
    match random.below(12) {
        0..=3 => return None,
        4 => octets.clear(),
        5 => drop(octets.pop()),
        6 if octets.len() < 127 => octets.push(random.octet()),
        7 if !octets.is_empty() => {
            let place = random.below(octets.len());
            octets[place] ^= 1 << random.below(8);
        }
        _ => {}
    }
    Some(octets)
}

/// An ECHO, now and then with one thing that makes it none.
fn echo(random: &mut Random) -> Vec<u8> {
    let credentials = random.one_in(4);
    let iid = random.one_in(3);
    let (mut mode, mut eid, mut action, mut parameter) = (1, 0, 15, true);
    match random.below(16) {
        0 => mode = 0,
        1 => eid = random.pick(&[1, 127]),
        2 => action = random.pick(&[0, 14, 16, 127]),
        3 => parameter = false,
        _ => {}
    }
    let flags = u8::from(credentials) << 3 | u8::from(parameter) << 2 | u8::from(iid) << 1;
    let mut octets = vec![flags | mode, eid, action];
    octets.extend(if credentials { &[2, 0xAA, 0xBB][..] } else { &[] });
    if parameter {
        octets.extend(echoed(random));
    }
    octets.extend(iid.then(|| random.below(128) as u8));
    octets
}

fn echoed(random: &mut Random) -> Vec<u8> {
    let others: [&[u8]; 3] = [&[7, 3], &[8, 1, 5], &[9, 1, 5, 2, 0]];
    if random.one_in(10) {
        return random.pick(&others).to_vec();
    }
    let length = random.pick(&[0, 1, 3, 17, 126, 127]);
    let mut octets = vec![2, length as u8];
    octets.extend(random.octets(length));
    octets
}
