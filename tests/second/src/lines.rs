//! Lines of a stream of any length, in memory of a fixed size.

use std::io::{self, ErrorKind, Read};

const CHUNK: usize = 1 << 16;

/// Hands each line, without its line feed, to `take`; a line of more than
/// `limit` characters is handed over as nothing. Text behind the last line
/// feed is a line if it is not empty.
pub fn for_each(
    input: &mut impl Read,
    limit: usize,
    mut take: impl FnMut(Option<&[u8]>) -> io::Result<()>,
) -> io::Result<()> {
    let mut chunk = vec![0; CHUNK];
    let mut begun = Vec::with_capacity(limit + 1);
    loop {
        let mut rest = match input.read(&mut chunk) {
            Ok(0) => break,
            Ok(length) => &chunk[..length],
            Err(error) if error.kind() == ErrorKind::Interrupted => continue,
            Err(error) => return Err(error),
        };
        while let Some(end) = rest.iter().position(|character| *character == b'\n') {
            if begun.is_empty() {
                take(fitting(&rest[..end], limit))?;
            } else {
                keep(&mut begun, &rest[..end], limit);
                take(fitting(&begun, limit))?;
                begun.clear();
            }
            rest = &rest[end + 1..];
        }
        keep(&mut begun, rest, limit);
    }
    if begun.is_empty() {
        return Ok(());
    }
    take(fitting(&begun, limit))
}

fn fitting(line: &[u8], limit: usize) -> Option<&[u8]> {
    (line.len() <= limit).then_some(line)
}

/// Keeps one character more than the limit, which is enough to know a long line.
fn keep(begun: &mut Vec<u8>, characters: &[u8], limit: usize) {
    let room = limit + 1 - begun.len();
    begun.extend_from_slice(&characters[..characters.len().min(room)]);
}

#[cfg(test)]
mod tests {
    use super::*;

    /// A reader that hands out a few octets at a time.
    struct Dripping<'a>(&'a [u8], usize);

    impl Read for Dripping<'_> {
        fn read(&mut self, room: &mut [u8]) -> io::Result<usize> {
            let length = self.1.min(self.0.len()).min(room.len());
            room[..length].copy_from_slice(&self.0[..length]);
            self.0 = &self.0[length..];
            Ok(length)
        }
    }

    #[test]
    fn lines_do_not_depend_on_the_pieces_read() {
        let text = b"\nabc\nabcd\nabcde\n\nabcdefghijk\nxy";
        let expected = [Some(""), Some("abc"), Some("abcd"), None, Some(""), None, Some("xy")];
        for piece in 1..=text.len() {
            let mut lines = Vec::new();
            for_each(&mut Dripping(text, piece), 4, |line| {
                lines.push(line.map(|line| String::from_utf8(line.to_vec()).unwrap()));
                Ok(())
            })
            .unwrap();
            let found: Vec<Option<&str>> = lines.iter().map(Option::as_deref).collect();
            assert_eq!(found, expected, "pieces of {piece}");
        }
    }
}
