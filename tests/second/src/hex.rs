//! Hexadecimal digits of either case in, upper case out.

pub fn digit(character: u8) -> Option<u8> {
    match character {
        b'0'..=b'9' => Some(character - b'0'),
        b'a'..=b'f' => Some(character - b'a' + 10),
        b'A'..=b'F' => Some(character - b'A' + 10),
        _ => None,
    }
}

/// Reads digit pairs into the front of `room`; answers how many octets, or
/// nothing for an odd number of digits, another character or too little room.
pub fn read(digits: &[u8], room: &mut [u8]) -> Option<usize> {
    let pairs = digits.chunks_exact(2);
    let length = pairs.len();
    if !pairs.remainder().is_empty() || length > room.len() {
        return None;
    }
    for (pair, octet) in pairs.zip(room.iter_mut()) {
        *octet = digit(pair[0])? << 4 | digit(pair[1])?;
    }
    Some(length)
}

/// The octets of digit pairs, as many as there are.
pub fn read_all(digits: &[u8]) -> Option<Vec<u8>> {
    let mut octets = vec![0; digits.len() / 2];
    read(digits, &mut octets)?;
    Some(octets)
}

pub fn append(octets: &[u8], text: &mut String) {
    const DIGITS: &[u8; 16] = b"0123456789ABCDEF";
    for octet in octets {
        text.push(DIGITS[usize::from(octet >> 4)].into());
        text.push(DIGITS[usize::from(octet & 15)].into());
    }
}

pub fn text(octets: &[u8]) -> String {
    let mut text = String::with_capacity(octets.len() * 2);
    append(octets, &mut text);
    text
}

/// The octets of a literal in a test.
#[cfg(test)]
pub fn octets(text: &str) -> Vec<u8> {
    read_all(text.as_bytes()).expect("hexadecimal literal")
}
