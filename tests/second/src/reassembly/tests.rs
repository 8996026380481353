use super::*;

fn busy_slot() -> Slot {
    Slot { lid: 1, number: 2, next_counter: 1, held: 1, opened: 9 }
}

fn table_of(slot: Slot) -> Table {
    let mut table = Table { busy: 1, ..Table::default() };
    table.slots[0] = slot;
    table
}

#[test]
fn soundness() {
    assert!(Table::default().is_sound());
    assert!(table_of(busy_slot()).is_sound());
    assert!(table_of(Slot { next_counter: 512, held: 512, ..busy_slot() }).is_sound());
    assert!(table_of(Slot { lid: LID_LIMIT - 1, number: 15, ..busy_slot() }).is_sound());
    for broken in [
        Slot { lid: LID_LIMIT, ..busy_slot() },
        Slot { number: 1, ..busy_slot() },
        Slot { number: 16, ..busy_slot() },
        Slot { next_counter: 0, ..busy_slot() },
        Slot { next_counter: 2, held: 1, ..busy_slot() },
        Slot { held: 513, ..busy_slot() },
        Slot::default(),
    ] {
        assert!(!table_of(broken).is_sound(), "{broken:?}");
    }
    assert!(!Table { busy: 256, ..Table::default() }.is_sound());
    assert!(!Table { busy: 0, ..table_of(busy_slot()) }.is_sound());
    let mut twice = table_of(busy_slot());
    twice.slots[5] = busy_slot();
    assert!(!twice.is_sound());
    twice.busy |= 32;
    assert!(!twice.is_sound());
    twice.slots[5].number = 3;
    assert!(twice.is_sound());
}

#[test]
fn an_unsound_table_refuses_every_call() {
    let mut table = Table { busy: 256, ..Table::default() };
    let (mut store, mut output) = ([0; STORE_OCTETS], [0; MESSAGE_OCTETS]);
    let refused = Refusal::plain(TABLE_UNSOUND);
    assert_eq!(table.fragment(&mut store, &mut output, 1 << 28, 0, &[]), Err(refused));
    assert_eq!(table.expire(0, 0), Err(refused));
    assert_eq!(table.release(1 << 28), Err(refused));
    table.busy = 0;
    assert_eq!(table.release(1 << 28), Err(Refusal::plain(LID_RANGE)));
}

#[test]
fn a_reopened_place_keeps_the_old_tail_in_the_store() {
    let mut table = Table::default();
    let (mut store, mut output) = ([0xEE; STORE_OCTETS], [0xDD; MESSAGE_OCTETS]);
    table.fragment(&mut store, &mut output, 1, 0, &[0x11, 1, 2, 3]).unwrap();
    table.fragment(&mut store, &mut output, 1, 4, &[0x11, 9]).unwrap();
    assert_eq!(store[..4], [9, 2, 3, 0xEE]);
    assert_eq!(table.slots[0].opened, 4);
    let answer = table.fragment(&mut store, &mut output, 1, 5, &[0x93, 7]);
    assert_eq!(answer, Ok(Answer::Whole { octets: 2, dropped: 0 }));
    assert_eq!(output[..3], [9, 7, 0xDD]);
    assert_eq!(store[..4], [9, 2, 3, 0xEE]);
    assert_eq!(table, Table::default());
}

#[test]
fn the_lowest_free_place_is_taken() {
    let mut table = Table::default();
    let (mut store, mut output) = ([0; STORE_OCTETS], [0; MESSAGE_OCTETS]);
    let mut take = |lid, lsdu: &[u8]| {
        table.fragment(&mut store, &mut output, lid, 0, lsdu).unwrap();
        table
    };
    for lid in 0..5 {
        take(lid, &[0x11, 1]);
    }
    take(3, &[0x93, 2]);
    assert_eq!(take(1, &[0x93, 2]).busy, 0b10101);
    take(4, &[0x11, 3]);
    assert_eq!(take(7, &[0x11, 4]).busy, 0b10111);
    let table = take(8, &[0x11, 5]);
    assert_eq!(table.slots.map(|slot| slot.lid), [0, 7, 2, 8, 4, 0, 0, 0]);
    let places = [0, 1, 2, 3, 4].map(|place| store[place * MESSAGE_OCTETS]);
    assert_eq!(places, [1, 4, 1, 5, 3]);
}
