//! The refusal numbers of the scope paper, and a refusal with its position.

use std::fmt;

pub const LENT_LENGTHS: u8 = 1;
pub const TABLE_UNSOUND: u8 = 2;
pub const LID_RANGE: u8 = 3;
pub const LSDU_LENGTH: u8 = 4;
pub const HEADER: u8 = 5;
pub const PDU_NUMBER: u8 = 6;
pub const NO_PAYLOAD: u8 = 7;
pub const NOT_OPEN: u8 = 8;
pub const NO_PLACE: u8 = 9;
pub const UNEXPECTED_COUNTER: u8 = 10;
pub const COUNTERS_USED_UP: u8 = 11;
pub const JOINED_TOO_LONG: u8 = 12;
pub const CUT_SHORT: u8 = 13;
pub const OCTETS_LEFT: u8 = 14;
pub const UNKNOWN_CHOICE: u8 = 15;
pub const EXTENSION_BIT: u8 = 16;
pub const CONTAINER_KIND: u8 = 17;
pub const COUNT_HIGH: u8 = 18;
pub const TOO_DEEP: u8 = 19;
pub const MESSAGE_LONG: u8 = 21;
pub const OUTPUT_SMALL: u8 = 22;
pub const RECORD_BROKEN: u8 = 23;
pub const NOT_SERVED: u8 = 24;
pub const LINK_NOT_READY: u8 = 25;
pub const LIST_UNSOUND: u8 = 26;

/// A refusal: its number and, for 13 to 21, the octet index it points at.
#[derive(Clone, Copy, Debug, PartialEq, Eq)]
pub struct Refusal {
    pub number: u8,
    pub position: Option<usize>,
}

impl Refusal {
    pub const fn plain(number: u8) -> Self {
        Refusal { number, position: None }
    }

    pub const fn at(number: u8, position: usize) -> Self {
        Refusal { number, position: Some(position) }
    }
}

impl fmt::Display for Refusal {
    fn fmt(&self, text: &mut fmt::Formatter<'_>) -> fmt::Result {
        match self.position {
            None => write!(text, "refused-{}", self.number),
            Some(position) => write!(text, "refused-{} at {}", self.number, position),
        }
    }
}
