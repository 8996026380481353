//! The fragment header: one to three octets in front of each fragment's payload.

use crate::answer::Refusal;
use crate::raw;

#[derive(Clone, Copy, Debug, PartialEq, Eq)]
pub struct Header {
    pub last: bool,
    pub number: u32,
    pub counter: u32,
}

/// The header at the front of the octets, and how many of them it has. Refuses with 5.
pub fn read_header(octets: &[u8]) -> Result<(Header, usize), Refusal> {
    let answer = raw::header_read(octets).accepted()?;
    let (number, counter) = (answer.kind().into(), answer.first() as u32);
    Ok((Header { last: answer.second() >= 4, number, counter }, answer.second() % 4))
}

/// Writes the shortest header to the front of the output; answers its octets. Refuses with 23, 22.
pub fn write_header(header: Header, output: &mut [u8]) -> Result<usize, Refusal> {
    let Header { last, number, counter } = header;
    raw::header_write(last.into(), number, counter, output).accepted().map(|answer| answer.first())
}
