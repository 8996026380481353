//! Joining fragments: a table of eight slots beside a lent store.

use crate::header::{self, Header};
use crate::refusal::*;

pub const PLACES: usize = 8;
pub const MESSAGE_OCTETS: usize = 512;
pub const STORE_OCTETS: usize = PLACES * MESSAGE_OCTETS;
pub const LSDU_OCTETS: usize = 128;
pub const LID_LIMIT: u32 = 1 << 28;
/// Numbers 0 and 1 belong to broadcasts.
pub const FIRST_NUMBER: u8 = 2;
pub const LAST_NUMBER: u8 = 15;

/// One place of the table; a free one is all zero.
#[derive(Clone, Copy, Debug, Default, PartialEq, Eq)]
pub struct Slot {
    pub lid: u32,
    pub number: u8,
    pub next_counter: u16,
    pub held: u16,
    pub opened: u32,
}

/// The slots and one word with a busy bit for each.
#[derive(Clone, Copy, Debug, Default, PartialEq, Eq)]
pub struct Table {
    pub busy: u32,
    pub slots: [Slot; PLACES],
}

/// What a fragment did: octets now held, or octets delivered to the output.
#[derive(Clone, Copy, Debug, PartialEq, Eq)]
pub enum Answer {
    Held { octets: usize, dropped: usize },
    Whole { octets: usize, dropped: usize },
}

impl Slot {
    fn is_sound(&self) -> bool {
        let held = usize::from(self.held);
        self.lid < LID_LIMIT
            && (FIRST_NUMBER..=LAST_NUMBER).contains(&self.number)
            && self.next_counter >= 1
            && held >= usize::from(self.next_counter)
            && held <= MESSAGE_OCTETS
    }

    fn has_pair(&self, lid: u32, number: u8) -> bool {
        self.lid == lid && self.number == number
    }
}

impl Table {
    pub fn is_sound(&self) -> bool {
        self.busy >> PLACES == 0 && (0..PLACES).all(|place| self.place_is_sound(place))
    }

    // A later free slot is zero, so its number differs from every busy one's.
    fn place_is_sound(&self, place: usize) -> bool {
        let slot = &self.slots[place];
        if !self.is_busy(place) {
            return *slot == Slot::default();
        }
        let mut later = self.slots[place + 1..].iter();
        slot.is_sound() && later.all(|other| !other.has_pair(slot.lid, slot.number))
    }

    fn is_busy(&self, place: usize) -> bool {
        self.busy >> place & 1 == 1
    }

    fn is_full(&self) -> bool {
        self.busy.count_ones() as usize == PLACES
    }

    fn lowest_free(&self) -> usize {
        (!self.busy).trailing_zeros() as usize
    }

    /// The place of an open pair; free slots have number 0 and never match.
    fn find(&self, lid: u32, number: u8) -> Option<usize> {
        (0..PLACES).find(|&place| self.is_busy(place) && self.slots[place].has_pair(lid, number))
    }

    /// Octets held for a pair, 0 if it is not open.
    pub fn held_for(&self, lid: u32, number: u8) -> usize {
        self.find(lid, number).map_or(0, |place| self.slots[place].held.into())
    }

    /// Octets held in all places.
    pub fn held(&self) -> usize {
        self.slots.iter().map(|slot| usize::from(slot.held)).sum()
    }

    /// Takes one LSDU. Refuses with 1 to 12, in that order, and then changes nothing.
    pub fn fragment(
        &mut self,
        store: &mut [u8],
        output: &mut [u8],
        lid: u32,
        tick: u32,
        lsdu: &[u8],
    ) -> Result<Answer, Refusal> {
        if store.len() != STORE_OCTETS || output.len() < MESSAGE_OCTETS {
            return Err(Refusal::plain(LENT_LENGTHS));
        }
        if !self.is_sound() {
            return Err(Refusal::plain(TABLE_UNSOUND));
        }
        let (header, payload) = open_lsdu(lid, lsdu)?;
        let place = self.find(lid, header.number);
        self.check_order(&header, place, payload.len())?;
        if header.counter > 0 {
            // check_order has refused a continuation of a pair that is not open.
            let place = place.ok_or(Refusal::plain(NOT_OPEN))?;
            return Ok(self.carry_on(store, output, place, &header, payload));
        }
        let dropped = place.map_or(0, |place| self.free(place));
        if header.last {
            output[..payload.len()].copy_from_slice(payload);
            return Ok(Answer::Whole { octets: payload.len(), dropped });
        }
        let place = place.unwrap_or(self.lowest_free());
        self.slots[place] =
            Slot { lid, number: header.number, next_counter: 1, held: payload.len() as u16, opened: tick };
        self.busy |= 1 << place;
        let start = place * MESSAGE_OCTETS;
        store[start..start + payload.len()].copy_from_slice(payload);
        Ok(Answer::Held { octets: payload.len(), dropped })
    }

    /// Checks 8 to 12, which depend on what the table holds for the pair.
    fn check_order(&self, header: &Header, place: Option<usize>, payload: usize) -> Result<(), Refusal> {
        let held = match place {
            None if header.counter > 0 => return Err(Refusal::plain(NOT_OPEN)),
            None if !header.last && self.is_full() => return Err(Refusal::plain(NO_PLACE)),
            Some(place) if header.counter > 0 => {
                let slot = &self.slots[place];
                if header.counter != slot.next_counter {
                    return Err(Refusal::plain(UNEXPECTED_COUNTER));
                }
                if header.counter == u16::MAX && !header.last {
                    return Err(Refusal::plain(COUNTERS_USED_UP));
                }
                usize::from(slot.held)
            }
            _ => 0,
        };
        if held + payload > MESSAGE_OCTETS {
            return Err(Refusal::plain(JOINED_TOO_LONG));
        }
        Ok(())
    }

    /// Adds an expected payload to an open message, or delivers the message with it.
    fn carry_on(
        &mut self,
        store: &mut [u8],
        output: &mut [u8],
        place: usize,
        header: &Header,
        payload: &[u8],
    ) -> Answer {
        let slot = &mut self.slots[place];
        let held = usize::from(slot.held);
        let octets = held + payload.len();
        let start = place * MESSAGE_OCTETS;
        if header.last {
            output[..held].copy_from_slice(&store[start..start + held]);
            output[held..octets].copy_from_slice(payload);
            self.free(place);
            return Answer::Whole { octets, dropped: 0 };
        }
        store[start + held..start + octets].copy_from_slice(payload);
        slot.held = octets as u16;
        slot.next_counter += 1;
        Answer::Held { octets, dropped: 0 }
    }

    /// Frees a place and answers the octets it held.
    fn free(&mut self, place: usize) -> usize {
        let held = self.slots[place].held;
        self.slots[place] = Slot::default();
        self.busy &= !(1 << place);
        held.into()
    }

    fn free_where(&mut self, condition: impl Fn(&Slot) -> bool) -> usize {
        let mut dropped = 0;
        for place in 0..PLACES {
            if self.is_busy(place) && condition(&self.slots[place]) {
                dropped += self.free(place);
            }
        }
        dropped
    }

    /// Frees every place at least `limit` ticks old; answers the octets dropped. Refuses with 2.
    pub fn expire(&mut self, tick: u32, limit: u32) -> Result<usize, Refusal> {
        if !self.is_sound() {
            return Err(Refusal::plain(TABLE_UNSOUND));
        }
        Ok(self.free_where(|slot| tick.wrapping_sub(slot.opened) >= limit))
    }

    /// Frees every place of one LID; answers the octets dropped. Refuses with 2, then 3.
    pub fn release(&mut self, lid: u32) -> Result<usize, Refusal> {
        if !self.is_sound() {
            return Err(Refusal::plain(TABLE_UNSOUND));
        }
        if lid >= LID_LIMIT {
            return Err(Refusal::plain(LID_RANGE));
        }
        Ok(self.free_where(|slot| slot.lid == lid))
    }
}

/// Checks 3 to 7, which need no table; answers the header and the payload.
fn open_lsdu(lid: u32, lsdu: &[u8]) -> Result<(Header, &[u8]), Refusal> {
    if lid >= LID_LIMIT {
        return Err(Refusal::plain(LID_RANGE));
    }
    if lsdu.is_empty() || lsdu.len() > LSDU_OCTETS {
        return Err(Refusal::plain(LSDU_LENGTH));
    }
    let header = header::read(lsdu)?;
    if header.number < FIRST_NUMBER {
        return Err(Refusal::plain(PDU_NUMBER));
    }
    let payload = &lsdu[header.length..];
    if payload.is_empty() {
        return Err(Refusal::plain(NO_PAYLOAD));
    }
    Ok((header, payload))
}

#[cfg(test)]
mod tests;
