//! The tag's link: who it talks to, and what it answers to a BST.

use crate::message::*;
use crate::refusal::*;
use crate::writing;

pub const OUTPUT_OCTETS: usize = 512;
pub const LID_LIMIT: u32 = 1 << 28;
pub const ELEMENT_LIMIT: usize = 8;
/// Ticks without a BST after which the tag sleeps.
pub const AWAKE_TICKS: u32 = 100;
/// Seconds from which a known beacon is greeted anew.
const FRESH_SECONDS: i64 = 255;
const PROFILE_LIMIT: u8 = 1;

#[derive(Clone, Copy, Debug, PartialEq, Eq)]
pub enum Phase {
    Sleeping,
    Looking,
    Ready { beacon: Beacon, lid: u32 },
}

#[derive(Clone, Copy, Debug, PartialEq, Eq)]
pub struct Link {
    pub phase: Phase,
    /// Time of the last BST.
    pub time: u32,
    /// Tick at which the tag was last awake.
    pub tick: u32,
}

/// One element of the tag; its mark is a part of the lent marks, counted in octets.
#[derive(Clone, Copy, Debug, PartialEq, Eq)]
pub struct Element {
    pub eid: u32,
    pub aid: u32,
    pub mark: Part,
}

#[derive(Clone, Copy, Debug, Default, PartialEq, Eq)]
pub struct Configuration {
    pub class: u32,
    pub maker: u32,
    pub status: u32,
}

/// A BST record with its lists and the octets its strings lie in.
#[derive(Clone, Copy, Debug)]
pub struct HeardBst<'a> {
    pub bst: Bst,
    pub lists: &'a Lists,
    pub octets: &'a [u8],
}

/// What the tag itself brings to a BST call.
#[derive(Clone, Copy, Debug)]
pub struct Own<'a> {
    pub elements: &'a [Element],
    pub marks: &'a [u8],
    pub configuration: Configuration,
}

#[derive(Clone, Copy, Debug, PartialEq, Eq)]
pub enum Reply {
    Silent,
    /// A VST of so many octets stands at the front of the output.
    Vst(usize),
}

impl Link {
    /// At first: asleep, nothing heard.
    pub fn new() -> Self {
        Link { phase: Phase::Sleeping, time: 0, tick: 0 }
    }

    fn is_in_range(&self) -> bool {
        match self.phase {
            Phase::Ready { beacon, lid } => beacon.individual <= INDIVIDUAL_LIMIT && lid < LID_LIMIT,
            _ => true,
        }
    }

    /// Hears a BST. Refuses with 1, 3, 26, 23, in that order, and then changes nothing.
    pub fn hear(
        &mut self,
        heard: &HeardBst,
        tick: u32,
        fresh_lid: u32,
        own: &Own,
        output: &mut [u8],
    ) -> Result<Reply, Refusal> {
        self.check_call(heard, fresh_lid, own, output.len())?;
        let stored = self.time;
        self.time = heard.bst.time;
        self.tick = tick;
        if self.phase == Phase::Sleeping {
            self.phase = Phase::Looking;
        }
        let Some((profile, element)) = heard.profile().zip(heard.first_pair(own.elements)) else {
            return Ok(Reply::Silent);
        };
        if self.is_known(&heard.bst, stored) {
            return Ok(Reply::Silent);
        }
        self.phase = Phase::Ready { beacon: heard.bst.beacon, lid: fresh_lid };
        write_vst(profile, element, own, output).map(Reply::Vst)
    }

    fn check_call(&self, heard: &HeardBst, fresh_lid: u32, own: &Own, output: usize) -> Result<(), Refusal> {
        let records_in_range =
            || self.is_in_range() && heard.is_in_range() && own.configuration.is_in_range();
        if output < OUTPUT_OCTETS {
            Err(Refusal::plain(LENT_LENGTHS))
        } else if fresh_lid >= LID_LIMIT {
            Err(Refusal::plain(LID_RANGE))
        } else if !elements_are_sound(own.elements, own.marks.len()) {
            Err(Refusal::plain(LIST_UNSOUND))
        } else if !records_in_range() {
            Err(Refusal::plain(RECORD_BROKEN))
        } else {
            Ok(())
        }
    }

    /// Whether a ready tag has already answered this beacon, not too long ago.
    fn is_known(&self, bst: &Bst, stored: u32) -> bool {
        let elapsed = i64::from(bst.time) - i64::from(stored);
        match self.phase {
            Phase::Ready { beacon, .. } => beacon == bst.beacon && (0..FRESH_SECONDS).contains(&elapsed),
            _ => false,
        }
    }

    /// Ends the link of one LID. Refuses with 3, 23, 25.
    pub fn release(&mut self, released: u32) -> Result<(), Refusal> {
        if released >= LID_LIMIT {
            return Err(Refusal::plain(LID_RANGE));
        }
        if !self.is_in_range() {
            return Err(Refusal::plain(RECORD_BROKEN));
        }
        match self.phase {
            Phase::Ready { lid, .. } if lid == released => {
                self.phase = Phase::Looking;
                Ok(())
            }
            _ => Err(Refusal::plain(LINK_NOT_READY)),
        }
    }

    /// Puts a tag to sleep that has heard nothing for long. Refuses with 23.
    pub fn pass_tick(&mut self, tick: u32) -> Result<(), Refusal> {
        if !self.is_in_range() {
            return Err(Refusal::plain(RECORD_BROKEN));
        }
        if tick.wrapping_sub(self.tick) >= AWAKE_TICKS {
            self.phase = Phase::Sleeping;
        }
        Ok(())
    }
}

impl Default for Link {
    fn default() -> Self {
        Self::new()
    }
}

impl Configuration {
    fn is_in_range(&self) -> bool {
        self.class <= CLASS_LIMIT.into() && self.maker <= 65_535 && self.status <= 65_535
    }
}

impl HeardBst<'_> {
    fn is_in_range(&self) -> bool {
        writing::is_in_range(&Message::Bst(self.bst), self.lists, self.octets)
    }

    /// The BST's own profile, or the first of its list, that the tag speaks.
    fn profile(&self) -> Option<u8> {
        let listed = self.bst.profiles.of(&self.lists.ids)?;
        let mut offered = std::iter::once(&self.bst.profile).chain(listed);
        offered.find(|profile| **profile <= PROFILE_LIMIT).copied()
    }

    /// The first element, by offered application and then by element, of equal AID.
    fn first_pair<'e>(&self, elements: &'e [Element]) -> Option<&'e Element> {
        let pool = &self.lists.applications;
        let mandatory = self.bst.mandatory.of(pool)?;
        let optional = self.bst.optional.map_or(Some(&pool[..0]), |run| run.of(pool))?;
        mandatory
            .iter()
            .chain(optional)
            .find_map(|entry| elements.iter().find(|element| element.aid == u32::from(entry.aid)))
    }
}

/// At most 8 elements, different eids 1 to 127, AIDs to 31, marks inside the lent octets.
pub fn elements_are_sound(elements: &[Element], marks: usize) -> bool {
    let is_sound = |element: &Element| {
        (1..=127).contains(&element.eid)
            && element.aid <= AID_LIMIT.into()
            && element.mark.length <= 127
            && element.mark.start.checked_add(element.mark.length).is_some_and(|end| end <= marks)
    };
    let repeats = |index: usize| elements[..index].iter().any(|other| other.eid == elements[index].eid);
    elements.len() <= ELEMENT_LIMIT && elements.iter().all(is_sound) && !(0..elements.len()).any(repeats)
}

/// The VST with the one entry of the taken pair, always with a status.
fn write_vst(profile: u8, element: &Element, own: &Own, output: &mut [u8]) -> Result<usize, Refusal> {
    let mut lists = Lists::default();
    lists.applications[0] = Application {
        aid: element.aid as u8,
        eid: Some(element.eid as u8),
        parameter: (element.mark.length > 0).then_some(Container::Octets(element.mark)),
    };
    let vst = Vst {
        fill: 0,
        profile,
        applications: Run { first: 0, count: 1 },
        class: own.configuration.class as u16,
        maker: own.configuration.maker as u16,
        status: Some(own.configuration.status as u16),
    };
    writing::write(&Message::Vst(vst), &lists, own.marks, output)
}

#[cfg(test)]
mod tests;
