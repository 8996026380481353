//! Fragment calls on an empty and on a full table, each of which leaves the table as it was.

use std::hint::black_box;

use second::reassembly::{Table, MESSAGE_OCTETS, STORE_OCTETS};
use semuryeon::raw;

use crate::table::Row;
use crate::timing::{best, contender, copy, Effort};

const LENGTHS: [usize; 6] = [2, 8, 16, 32, 64, 128];
/// First octets of a fragment: alone, the first of two, the second of two.
const LONE: u8 = 0x91;
const OPENING: u8 = 0x11;
const CLOSING: u8 = 0x93;

fn lsdu(header: u8, length: usize) -> Vec<u8> {
    let mut octets = vec![0xA5; length];
    octets[0] = header;
    octets
}

/// Both programs, with so many messages open under other LIDs.
struct Both {
    words: [u32; 41],
    table: Table,
    store: Vec<u8>,
    output: Vec<u8>,
}

impl Both {
    fn new(open: u32) -> Self {
        let (store, output) = (vec![0; STORE_OCTETS], vec![0; MESSAGE_OCTETS]);
        let mut both = Both { words: [0; 41], table: Table::default(), store, output };
        for lid in 0..open {
            both.proved(100 + lid, &lsdu(OPENING, 8));
            both.plain(100 + lid, &lsdu(OPENING, 8));
        }
        both
    }

    fn proved(&mut self, lid: u32, lsdu: &[u8]) -> u64 {
        raw::fragment(lid, 7, lsdu, &mut self.words, &mut self.store, &mut self.output).0
    }

    fn plain(&mut self, lid: u32, lsdu: &[u8]) -> bool {
        self.table.fragment(&mut self.store, &mut self.output, lid, 7, lsdu).is_ok()
    }
}

/// The time of a list of fragments of one LID.
fn row(name: &str, open: u32, lid: u32, list: &[Vec<u8>], effort: Effort) -> Row {
    let (mut proved, mut plain) = (Both::new(open), Both::new(open));
    for lsdu in list {
        assert_eq!(proved.proved(lid, lsdu) & 255 == 0, plain.plain(lid, lsdu));
    }
    let all = list.concat();
    let contenders = [
        contender(|| {
            list.iter().map(|lsdu| black_box(proved.proved(black_box(lid), black_box(lsdu)))).sum::<u64>()
        }),
        contender(|| {
            list.iter().filter(|lsdu| black_box(plain.plain(black_box(lid), black_box(lsdu)))).count()
        }),
        copy(&all),
    ];
    let [proved, plain, copy] = best(contenders, effort);
    Row { name: name.into(), octets: all.len(), proved, plain, cleared: None, copy }
}

pub fn rows(effort: Effort) -> Vec<Row> {
    let mut rows = vec![row("refused 7, empty table", 0, 1, &[lsdu(LONE, 1)], effort)];
    for length in LENGTHS {
        rows.push(row("whole at once, empty table", 0, 1, &[lsdu(LONE, length)], effort));
    }
    for length in LENGTHS {
        rows.push(row("whole at once, full table", 8, 1, &[lsdu(LONE, length)], effort));
    }
    for length in LENGTHS {
        rows.push(row("held anew, one slot taken", 0, 1, &[lsdu(OPENING, length)], effort));
    }
    for length in LENGTHS {
        rows.push(row("held anew, full table", 8, 107, &[lsdu(OPENING, length)], effort));
    }
    for length in LENGTHS {
        let two = [lsdu(OPENING, length), lsdu(CLOSING, length)];
        rows.push(row("two fragments, empty table", 0, 1, &two, effort));
    }
    for length in LENGTHS {
        let two = [lsdu(OPENING, length), lsdu(CLOSING, length)];
        rows.push(row("two fragments, seven slots taken", 7, 1, &two, effort));
    }
    rows.push(row("refused 9, full table", 8, 1, &[lsdu(OPENING, 16)], effort));
    rows
}
