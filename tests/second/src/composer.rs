//! Random messages put together from Annex A, apart from reader and writer.

use crate::random::Random;

const KINDS: u8 = 10;
const MESSAGE_LIMIT: usize = 512;
const ROW_LIMIT: usize = 32;
const DEPTH_LIMIT: usize = 4;

/// Puts a message together octet by octet, without regard for its length.
struct Composer<'a> {
    random: &'a mut Random,
    octets: Vec<u8>,
    rows: usize,
    /// Whether components may break their limits.
    faulty: bool,
}

/// A message of any kind that keeps every limit.
pub fn sound_message(random: &mut Random) -> Vec<u8> {
    loop {
        let octets = compose(random, false);
        if octets.len() <= MESSAGE_LIMIT {
            return octets;
        }
    }
}

/// A message whose components now and then break a limit.
pub fn faulty_message(random: &mut Random) -> Vec<u8> {
    compose(random, true)
}

fn compose(random: &mut Random, faulty: bool) -> Vec<u8> {
    let kind = random.below(KINDS.into()) as u8;
    let mut composer = Composer { random, octets: Vec::new(), rows: 0, faulty };
    composer.message(kind);
    composer.octets
}

impl Composer<'_> {
    fn message(&mut self, kind: u8) {
        let bits = self.random.below(16) as u8;
        let flag = |place: u8| bits >> place & 1 == 1;
        self.octets.push(kind << 4 | bits);
        match kind {
            8 => return self.bst(flag(3)),
            9 => return self.vst(),
            _ => self.number(),
        }
        if matches!(kind, 0 | 2) {
            self.number();
        }
        let is_request = kind & 1 == 0;
        self.when(is_request && flag(3), Self::string);
        match kind {
            0 | 2 => {
                self.when(flag(2), |composer| composer.container(1));
                self.when(flag(1), Self::number);
            }
            1 => {
                self.when(flag(3), Self::number);
                self.when(flag(2), |composer| composer.container(1));
                self.when(flag(1), Self::number);
            }
            4 => {
                self.attributes(1);
                self.when(flag(2), Self::number);
            }
            6 => {
                self.when(flag(2), Self::number);
                self.when(flag(1), Self::ids);
            }
            7 => {
                self.when(flag(3), Self::number);
                self.when(flag(2), |composer| composer.attributes(1));
                self.when(flag(1), Self::number);
            }
            _ => {
                self.when(flag(3), Self::number);
                self.when(flag(2), Self::number);
            }
        }
    }

    fn bst(&mut self, both_lists: bool) {
        let beacon_and_time = self.random.octets(9);
        self.octets.extend(beacon_and_time);
        self.number();
        self.applications();
        self.when(both_lists, Self::applications);
        self.ids();
    }

    fn vst(&mut self) {
        self.number();
        self.applications();
        let class = self.random.octet();
        self.octets.push(class);
        let rest = self.random.octets(if class > 127 { 5 } else { 3 });
        self.octets.extend(rest);
    }

    fn when(&mut self, present: bool, compose: impl FnOnce(&mut Self)) {
        if present {
            compose(self);
        }
    }

    fn breaks(&mut self, times: usize) -> bool {
        self.faulty && self.random.one_in(times)
    }

    fn number(&mut self) {
        let number = match self.random.below(8) {
            0 => 0,
            1 => 127,
            _ => self.random.octet() & 127,
        };
        let extension = if self.breaks(25) { 0x80 } else { 0 };
        self.octets.push(number | extension);
    }

    fn string(&mut self) {
        let length = match self.random.below(10) {
            0 => 0,
            1 => 127,
            2 => self.random.between(17, 40),
            _ => self.random.below(7),
        };
        let octets = self.random.octets(length);
        let extension = if self.breaks(25) { 0x80 } else { 0 };
        self.octets.push(length as u8 | extension);
        self.octets.extend(octets);
    }

    fn count(&mut self, limit: usize) -> usize {
        let count = match self.random.below(16) {
            0 => limit,
            1 => limit.min(15),
            _ => self.random.below(4).min(limit),
        };
        let count = if self.breaks(12) { 17 } else { count };
        let extension = if self.breaks(25) { 0x80 } else { 0 };
        self.octets.push(count as u8 | extension);
        count
    }

    fn ids(&mut self) {
        for _ in 0..self.count(16) {
            self.number();
        }
    }

    fn attributes(&mut self, depth: usize) {
        // A list of values at depth 5 must be empty; a sound message has 32 rows at most.
        let room = if depth > DEPTH_LIMIT { 0 } else { ROW_LIMIT - self.rows };
        let room = if self.faulty && depth <= DEPTH_LIMIT + 1 { 16 } else { room };
        let count = self.count(room.min(16));
        self.rows = (self.rows + count).min(ROW_LIMIT);
        for _ in 0..count {
            self.number();
            self.container(depth);
        }
    }

    fn container(&mut self, depth: usize) {
        if self.breaks(15) {
            let kind = self.random.octet();
            return self.octets.push(kind);
        }
        let kinds: &[u8] = if depth > DEPTH_LIMIT { &[2, 7] } else { &[2, 2, 7, 8, 9, 9] };
        let kind = self.random.pick(kinds);
        self.octets.push(kind);
        match kind {
            2 => self.string(),
            7 => self.number(),
            8 => self.ids(),
            _ => self.attributes(depth + 1),
        }
    }

    fn applications(&mut self) {
        for _ in 0..self.count(16) {
            let entry = self.random.octet() & !0x20;
            let extension = if self.breaks(25) { 0x20 } else { 0 };
            self.octets.push(entry | extension);
            self.when(entry & 0x80 != 0, Self::number);
            self.when(entry & 0x40 != 0, |composer| composer.container(1));
        }
    }
}
