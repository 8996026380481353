//! Words and octets that nobody would lend.

use second::random::Random;

/// A word: mostly small or at an edge, now and then any.
pub fn word(random: &mut Random) -> u32 {
    match random.below(8) {
        0 => random.word() as u32,
        1 => random.pick(&[u32::MAX, u32::MAX - 1, 1 << 31, 1 << 28, (1 << 28) - 1, 1 << 27]),
        2 => random.pick(&[127, 128, 255, 256, 257, 511, 512, 513, 65_535, 65_536]),
        3 => 0,
        _ => random.below(20) as u32,
    }
}

pub fn words(random: &mut Random, most: usize) -> Vec<u32> {
    (0..random.below(most + 1)).map(|_| word(random)).collect()
}

/// Octets of a length that is now and then the wanted one.
pub fn octets(random: &mut Random, wanted: usize, most: usize) -> Vec<u8> {
    let length = match random.below(4) {
        0 => random.below(most + 1),
        1 => random.pick(&[0, wanted.saturating_sub(1), wanted + 1]),
        _ => wanted,
    };
    random.octets(length)
}

/// Words with one of them changed, or one more or fewer.
pub fn damage(random: &mut Random, words: &mut Vec<u32>) {
    if words.is_empty() || random.one_in(12) {
        return words.push(word(random));
    }
    let place = random.below(words.len());
    match random.below(12) {
        0 => drop(words.pop()),
        1 => words[place] ^= 1 << random.below(32),
        2 => words[place] = words[place].wrapping_add(1),
        3 => words[place] = words[place].wrapping_sub(1),
        4 => words[place] = words[place].wrapping_add(256),
        5 => words[place] = words[place].wrapping_add(65_536),
        _ => words[place] = word(random),
    }
}
