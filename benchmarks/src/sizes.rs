//! Messages to read: one of each kind, and families that grow from 20 to 512 octets.

use second::hex;
use second::message::Lists;
use second::reading;

pub const SIZES: [usize; 6] = [20, 32, 64, 128, 256, 512];

fn read_by_second(octets: Vec<u8>) -> Vec<u8> {
    assert!(reading::read(&octets, &mut Lists::default()).is_ok(), "{}", hex::text(&octets));
    octets
}

/// A short message of each kind. The release, the set response and the VST are document 01's; the others were made for this.
pub fn kinds() -> Vec<(&'static str, Vec<u8>)> {
    let kinds = [
        ("action request (ECHO)", "05000F020A30313233343536373839"),
        ("action response", "1400020A30313233343536373839"),
        ("event request (release)", "200000"),
        ("event response", "3C010203"),
        ("set request", "490104AABBCCDD02050202414206020400112233"),
        ("set response", "540100"),
        ("get request", "6A0104AABBCCDD0405060708"),
        ("get response", "740102050202414206020433445566"),
        ("BST", "8000312345675F5E10000002010200"),
        ("VST", "900001C1010206112233445566800100058000"),
    ];
    let message = |digits: &str| read_by_second(hex::read_all(digits.as_bytes()).unwrap_or_default());
    kinds.map(|(name, digits)| (name, message(digits))).to_vec()
}

/// Shares `octets` among `parts` as evenly as can be.
fn share(octets: usize, parts: usize) -> impl Iterator<Item = usize> {
    (0..parts).map(move |part| octets / parts + usize::from(part < octets % parts))
}

/// A set request whose rows hold strings.
fn set_of_strings(size: usize, rows: usize) -> Vec<u8> {
    let mut octets = vec![0x41, 1, rows as u8];
    for length in share(size - 3 - 3 * rows, rows) {
        octets.extend([5, 2, length as u8]);
        octets.extend(vec![0xA5; length]);
    }
    read_by_second(octets)
}

/// As few rows as can be: up to 127 octets each.
fn long_strings(size: usize) -> Vec<u8> {
    set_of_strings(size, (size - 3).div_ceil(130))
}

/// A row for each 32 octets.
fn short_strings(size: usize) -> Vec<u8> {
    set_of_strings(size, (size / 32).max(1))
}

/// A set request of id lists, where nearly every octet is a number of its own. A row of lists holds those above 15.
fn id_lists(size: usize) -> Vec<u8> {
    let rows = (size - 3).div_ceil(19).max(1);
    let (outer, nested) = if rows > 15 { (15, rows - 15) } else { (rows, 0) };
    let ids = size - 3 - 3 * rows - 3 * usize::from(nested > 0);
    let mut octets = vec![0x41, 1, (outer + usize::from(nested > 0)) as u8];
    for (row, count) in share(ids, rows).enumerate() {
        if row == outer {
            octets.extend([5, 9, nested as u8]);
        }
        octets.extend([5, 8, count as u8]);
        octets.extend(vec![7; count]);
    }
    read_by_second(octets)
}

/// A BST of both lists, with an application of an eid and a mark for each 16 octets.
fn beacon(size: usize) -> Vec<u8> {
    let entries = (size / 16).clamp(1, 31);
    let mandatory = entries.div_ceil(2);
    let mut octets = vec![0x88, 0, 0x31, 0x23, 0x45, 0x67, 0x5F, 0x5E, 0x10, 0, 0, mandatory as u8];
    for (entry, mark) in share(size - 14 - 4 * entries, entries).enumerate() {
        if entry == mandatory {
            octets.push((entries - mandatory) as u8);
        }
        octets.extend([0xC1, 1, 2, mark as u8]);
        octets.extend(vec![0x5A; mark]);
    }
    octets.extend(vec![0; size - octets.len()]);
    read_by_second(octets)
}

/// The families by name.
pub const FAMILIES: [(&str, fn(usize) -> Vec<u8>); 4] = [
    ("set request, long strings", long_strings),
    ("set request, short strings", short_strings),
    ("set request, lists of ids", id_lists),
    ("BST, applications with marks", beacon),
];
