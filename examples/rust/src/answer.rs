//! An answer of the archive: one number that holds a refusal, a kind and two numbers.

use std::error::Error;
use std::fmt;

/// What a call of `raw` answers.
#[derive(Clone, Copy, Debug, PartialEq, Eq)]
pub struct Answer(pub u64);

/// A refusal: its number (docs/FAULTS.md) and, for 13 to 21, the octet of the message that it points at.
#[derive(Clone, Copy, Debug, PartialEq, Eq)]
pub struct Refusal {
    pub number: u8,
    pub position: Option<usize>,
}

impl Answer {
    /// The refusal's number, 0 for none.
    pub fn refusal(self) -> u8 {
        self.0 as u8
    }

    pub fn kind(self) -> u8 {
        (self.0 >> 8) as u8
    }

    pub fn first(self) -> usize {
        (self.0 >> 16 & 0xFF_FFFF) as usize
    }

    pub fn second(self) -> usize {
        (self.0 >> 40) as usize
    }

    /// The answer itself, unless it is a refusal.
    pub fn accepted(self) -> Result<Answer, Refusal> {
        match self.refusal() {
            0 => Ok(self),
            number => {
                let position = (13..=21).contains(&number).then_some(self.first());
                Err(Refusal { number, position })
            }
        }
    }
}

impl fmt::Display for Refusal {
    fn fmt(&self, text: &mut fmt::Formatter<'_>) -> fmt::Result {
        match self.position {
            None => write!(text, "refused {}", self.number),
            Some(position) => write!(text, "refused {} at {position}", self.number),
        }
    }
}

impl Error for Refusal {}
