//! The fragment header: one to three octets in front of each fragment's payload.

use crate::refusal::{Refusal, HEADER, OUTPUT_SMALL, RECORD_BROKEN};

pub const NUMBER_LIMIT: u32 = 15;
pub const COUNTER_LIMIT: u32 = 65_535;

/// Greatest counter of the one-octet and of the two-octet form.
const ONE_OCTET: u16 = 3;
const TWO_OCTETS: u16 = 511;

#[derive(Clone, Copy, Debug, PartialEq, Eq)]
pub struct Header {
    pub last: bool,
    pub number: u8,
    pub counter: u16,
    /// Octets of the header itself.
    pub length: usize,
}

/// Reads the header at the front; octets behind it are ignored. Refuses with 5.
pub fn read(octets: &[u8]) -> Result<Header, Refusal> {
    const REFUSED: Refusal = Refusal::plain(HEADER);
    let first = *octets.first().ok_or(REFUSED)?;
    let (counter, length) = counter(first, &octets[1..]).ok_or(REFUSED)?;
    Ok(Header { last: first & 0x80 != 0, number: first >> 3 & 0x0F, counter, length })
}

/// The counter and the header's length, or nothing if cut short, overlong or ended wrongly.
fn counter(first: u8, rest: &[u8]) -> Option<(u16, usize)> {
    let one = u16::from(first >> 1 & 0x03);
    if first & 1 == 1 {
        return Some((one, 1));
    }
    let second = *rest.first()?;
    let two = one << 7 | u16::from(second >> 1);
    if second & 1 == 1 {
        return (two > ONE_OCTET).then_some((two, 2));
    }
    let third = *rest.get(1)?;
    let three = two << 7 | u16::from(third >> 1);
    (third & 1 == 0 && three > TWO_OCTETS).then_some((three, 3))
}

/// Writes the shortest header to the front of `output`; answers its length.
/// Refuses with 23 (number or counter out of range), then 22.
pub fn write(last: bool, number: u32, counter: u32, output: &mut [u8]) -> Result<usize, Refusal> {
    if number > NUMBER_LIMIT || counter > COUNTER_LIMIT {
        return Err(Refusal::plain(RECORD_BROKEN));
    }
    let front = (last as u8) << 7 | (number as u8) << 3;
    let counter = counter as u16;
    let (octets, length) = if counter <= ONE_OCTET {
        ([front | low_bits(counter, 3) << 1 | 1, 0, 0], 1)
    } else if counter <= TWO_OCTETS {
        let second = low_bits(counter, 0x7F) << 1 | 1;
        ([front | low_bits(counter >> 7, 3) << 1, second, 0], 2)
    } else {
        let second = low_bits(counter >> 7, 0x7F) << 1;
        let third = low_bits(counter, 0x7F) << 1;
        ([front | low_bits(counter >> 14, 3) << 1, second, third], 3)
    };
    let room = output.get_mut(..length).ok_or(Refusal::plain(OUTPUT_SMALL))?;
    room.copy_from_slice(&octets[..length]);
    Ok(length)
}

fn low_bits(counter: u16, mask: u16) -> u8 {
    (counter & mask) as u8
}

/// The text of a reading: `yes|no NUMBER COUNTER LENGTH` or `refused-5`.
pub fn reading_text(octets: &[u8]) -> String {
    match read(octets) {
        Err(refusal) => refusal.to_string(),
        Ok(header) => {
            let last = if header.last { "yes" } else { "no" };
            format!("{last} {} {} {}", header.number, header.counter, header.length)
        }
    }
}

/// The text of a writing into `room` octets: upper-case hex or `refused-N`.
pub fn writing_text(last: bool, number: u32, counter: u32, room: usize) -> String {
    let mut output = [0; 8];
    let room = room.min(output.len());
    match write(last, number, counter, &mut output[..room]) {
        Err(refusal) => refusal.to_string(),
        Ok(length) => crate::hex::text(&output[..length]),
    }
}

#[cfg(test)]
mod tests {
    use super::*;
    use crate::hex::octets;

    fn reading(text: &str) -> String {
        reading_text(&octets(text))
    }

    #[test]
    fn cases_of_the_scope_paper() {
        assert_eq!(reading("91"), "yes 2 0 1");
        assert_eq!(reading("97"), "yes 2 3 1");
        assert_eq!(reading("1009"), "no 2 4 2");
        assert_eq!(reading("FEFF"), "yes 15 511 2");
        assert_eq!(reading("100800"), "no 2 512 3");
        assert_eq!(reading("96FEFE"), "yes 2 65535 3");
        assert_eq!(reading("1007"), "refused-5");
        assert_eq!(reading("1006FE"), "refused-5");
    }

    #[test]
    fn readings_a1_to_a4() {
        assert_eq!(reading("91FFFF"), "yes 2 0 1");
        assert_eq!(reading(""), "refused-5");
        assert_eq!(reading("100801"), "refused-5");
        assert_eq!(reading("100800"), "no 2 512 3");
        assert_eq!(reading("9001"), "refused-5");
        assert_eq!(reading("100000"), "refused-5");
    }

    #[test]
    fn reading_a5() {
        assert_eq!(writing_text(true, 0, 0, 1), "81");
        assert_eq!(writing_text(true, 16, 0, 0), "refused-23");
        assert_eq!(writing_text(true, 15, 4, 1), "refused-22");
        assert_eq!(writing_text(false, 2, 65_536, 3), "refused-23");
    }

    #[test]
    fn every_header_reads_back() {
        for counter in 0..=COUNTER_LIMIT {
            for number in [0, 1, 2, 15] {
                for last in [false, true] {
                    let mut output = [0xEE; 4];
                    let length = write(last, number, counter, &mut output).unwrap();
                    let expected = Header { last, number: number as u8, counter: counter as u16, length };
                    assert_eq!(read(&output[..length]), Ok(expected));
                    assert!(output[length..].iter().all(|octet| *octet == 0xEE));
                    assert!(read(&output[..length - 1]).is_err());
                }
            }
        }
    }

    #[test]
    fn every_accepted_header_is_the_written_one() {
        for octets in 0..1u32 << 24 {
            let octets = [(octets >> 16) as u8, (octets >> 8) as u8, octets as u8];
            if let Ok(header) = read(&octets) {
                let mut output = [0; 3];
                write(header.last, header.number.into(), header.counter.into(), &mut output).unwrap();
                assert_eq!(output[..header.length], octets[..header.length]);
            }
        }
    }
}
