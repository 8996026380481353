//! Answers as the second program would give them, and how two are compared.

use std::fmt::Debug;

use second::refusal::Refusal;
use semuryeon::Answer;

pub fn packed(kind: u8, first: usize, second: usize) -> Answer {
    Answer(u64::from(kind) << 8 | (first as u64) << 16 | (second as u64) << 40)
}

pub fn refused(refusal: Refusal) -> Answer {
    let position = refusal.position.unwrap_or(0) as u64;
    Answer(u64::from(refusal.number) | position << 16)
}

/// The answer of a call that has no kind.
pub fn number_or_refused(answer: Result<usize, Refusal>) -> Answer {
    answer.map_or_else(refused, |first| packed(0, first, 0))
}

/// Nothing if both are the same.
pub fn same<T: PartialEq + Debug>(what: &str, found: &T, expected: &T) -> Result<(), String> {
    if found == expected {
        return Ok(());
    }
    Err(format!("{what}: found {found:X?}, expected {expected:X?}"))
}

/// A refusal leaves all that was lent as it was.
pub fn kept_if_refused<T: PartialEq + Debug>(answer: Answer, before: &T, after: &T) -> Result<(), String> {
    if answer.refusal() == 0 {
        return Ok(());
    }
    same("lent to a refused call", after, before)
}
