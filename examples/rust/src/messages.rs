//! Whole messages: whether octets are one, its strings, and the message written again.

use crate::answer::Refusal;
use crate::raw;

/// The ten message kinds, in the order of their choices.
#[derive(Clone, Copy, Debug, PartialEq, Eq)]
pub enum Kind {
    ActionRequest,
    ActionResponse,
    EventRequest,
    EventResponse,
    SetRequest,
    SetResponse,
    GetRequest,
    GetResponse,
    Bst,
    Vst,
}

const KINDS: [Kind; 10] = [
    Kind::ActionRequest,
    Kind::ActionResponse,
    Kind::EventRequest,
    Kind::EventResponse,
    Kind::SetRequest,
    Kind::SetResponse,
    Kind::GetRequest,
    Kind::GetResponse,
    Kind::Bst,
    Kind::Vst,
];

/// An octet string of a message.
#[derive(Clone, Copy, Debug, PartialEq, Eq)]
pub enum Field {
    Credentials,
    Parameter,
    /// Of the attribute row of this index, below 32, in the order of the message.
    Row(u32),
    /// The parameter of the application entry of this index, below 32.
    Entry(u32),
}

/// A number that no string has.
const NO_FIELD: u32 = 66;

impl Field {
    fn number(self) -> u32 {
        match self {
            Field::Credentials => 0,
            Field::Parameter => 1,
            Field::Row(index @ 0..=31) => 2 + index,
            Field::Entry(index @ 0..=31) => 34 + index,
            _ => NO_FIELD,
        }
    }
}

/// The kind of the message that the octets are. Refuses with 13 to 19 and 21.
pub fn check(octets: &[u8]) -> Result<Kind, Refusal> {
    raw::check(octets).accepted().map(|answer| KINDS[usize::from(answer.kind())])
}

/// Copies a string of the message to the front of the output, if the message has it. Refuses as `check`, then with 22.
pub fn string<'o>(octets: &[u8], field: Field, output: &'o mut [u8]) -> Result<Option<&'o [u8]>, Refusal> {
    let answer = raw::string(octets, field.number(), output).accepted()?;
    Ok((answer.kind() == 1).then(|| &output[..answer.first()]))
}

/// Reads the message and writes it to the front of the output. Refuses as `check`, then with 22.
pub fn rewrite<'o>(octets: &[u8], output: &'o mut [u8]) -> Result<&'o [u8], Refusal> {
    let answer = raw::rewrite(octets, output).accepted()?;
    Ok(&output[..answer.first()])
}
