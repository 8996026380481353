//! The functions of `include/semuryeon.h` over slices. Words and octets of any length and content are answered.
//!
//! Each call below is sound for the same reason: every pointer comes with the length of its slice, Rust's borrows keep what
//! is lent from overlapping, and the archive touches nothing else and keeps no pointer.

use crate::answer::Answer;

mod declared {
    extern "C" {
        pub fn semuryeon_header_read(octets: *const u8, length: usize) -> u64;
        pub fn semuryeon_header_write(
            last: u32,
            number: u32,
            counter: u32,
            output: *mut u8,
            room: usize,
        ) -> u64;
        pub fn semuryeon_fragment(
            lid: u32,
            tick: u32,
            lsdu: *const u8,
            length: usize,
            table: *mut u32,
            table_words: usize,
            store: *mut u8,
            store_octets: usize,
            output: *mut u8,
            room: usize,
        ) -> u64;
        pub fn semuryeon_expire(tick: u32, limit: u32, table: *mut u32, table_words: usize) -> u64;
        pub fn semuryeon_release(lid: u32, table: *mut u32, table_words: usize) -> u64;
        pub fn semuryeon_check(octets: *const u8, length: usize) -> u64;
        pub fn semuryeon_string(
            octets: *const u8,
            length: usize,
            field: u32,
            output: *mut u8,
            room: usize,
        ) -> u64;
        pub fn semuryeon_rewrite(octets: *const u8, length: usize, output: *mut u8, room: usize) -> u64;
        pub fn semuryeon_link_bst(
            octets: *const u8,
            length: usize,
            tick: u32,
            lid: u32,
            link: *mut u32,
            link_words: usize,
            elements: *const u32,
            element_words: usize,
            marks: *const u8,
            mark_octets: usize,
            equipment_class: u32,
            maker: u32,
            status: u32,
            output: *mut u8,
            room: usize,
        ) -> u64;
        pub fn semuryeon_link_release(lid: u32, link: *mut u32, link_words: usize) -> u64;
        pub fn semuryeon_link_tick(tick: u32, link: *mut u32, link_words: usize) -> u64;
        pub fn semuryeon_lookup(
            id: u32,
            rows: *const u32,
            row_words: usize,
            factory_octets: usize,
            writable_octets: usize,
            part: *mut u32,
            part_words: usize,
        ) -> u64;
        pub fn semuryeon_request(
            octets: *const u8,
            length: usize,
            eid: u32,
            credentials: *const u8,
            credential_octets: usize,
            rows: *const u32,
            row_words: usize,
            factory: *const u8,
            factory_octets: usize,
            writable: *mut u8,
            writable_octets: usize,
            output: *mut u8,
            room: usize,
        ) -> u64;
        pub fn semuryeon_bench_line(
            number: u64,
            line: *const u8,
            length: usize,
            table: *mut u32,
            table_words: usize,
            store: *mut u8,
            store_octets: usize,
            output: *mut u8,
            room: usize,
            text: *mut u8,
            text_octets: usize,
        ) -> u64;
    }
}

pub fn header_read(octets: &[u8]) -> Answer {
    Answer(unsafe { declared::semuryeon_header_read(octets.as_ptr(), octets.len()) })
}

pub fn header_write(last: u32, number: u32, counter: u32, output: &mut [u8]) -> Answer {
    let (at, room) = (output.as_mut_ptr(), output.len());
    Answer(unsafe { declared::semuryeon_header_write(last, number, counter, at, room) })
}

pub fn fragment(
    lid: u32,
    tick: u32,
    lsdu: &[u8],
    table: &mut [u32],
    store: &mut [u8],
    output: &mut [u8],
) -> Answer {
    Answer(unsafe {
        declared::semuryeon_fragment(
            lid,
            tick,
            lsdu.as_ptr(),
            lsdu.len(),
            table.as_mut_ptr(),
            table.len(),
            store.as_mut_ptr(),
            store.len(),
            output.as_mut_ptr(),
            output.len(),
        )
    })
}

pub fn expire(tick: u32, limit: u32, table: &mut [u32]) -> Answer {
    Answer(unsafe { declared::semuryeon_expire(tick, limit, table.as_mut_ptr(), table.len()) })
}

pub fn release(lid: u32, table: &mut [u32]) -> Answer {
    Answer(unsafe { declared::semuryeon_release(lid, table.as_mut_ptr(), table.len()) })
}

pub fn check(octets: &[u8]) -> Answer {
    Answer(unsafe { declared::semuryeon_check(octets.as_ptr(), octets.len()) })
}

pub fn string(octets: &[u8], field: u32, output: &mut [u8]) -> Answer {
    let (at, room) = (output.as_mut_ptr(), output.len());
    Answer(unsafe { declared::semuryeon_string(octets.as_ptr(), octets.len(), field, at, room) })
}

pub fn rewrite(octets: &[u8], output: &mut [u8]) -> Answer {
    let (at, room) = (output.as_mut_ptr(), output.len());
    Answer(unsafe { declared::semuryeon_rewrite(octets.as_ptr(), octets.len(), at, room) })
}

/// Elements are four words each; `configuration` is class, maker and status.
#[allow(clippy::too_many_arguments)]
pub fn link_bst(
    octets: &[u8],
    tick: u32,
    lid: u32,
    link: &mut [u32],
    elements: &[u32],
    marks: &[u8],
    configuration: [u32; 3],
    output: &mut [u8],
) -> Answer {
    let [class, maker, status] = configuration;
    Answer(unsafe {
        declared::semuryeon_link_bst(
            octets.as_ptr(),
            octets.len(),
            tick,
            lid,
            link.as_mut_ptr(),
            link.len(),
            elements.as_ptr(),
            elements.len(),
            marks.as_ptr(),
            marks.len(),
            class,
            maker,
            status,
            output.as_mut_ptr(),
            output.len(),
        )
    })
}

pub fn link_release(lid: u32, link: &mut [u32]) -> Answer {
    Answer(unsafe { declared::semuryeon_link_release(lid, link.as_mut_ptr(), link.len()) })
}

pub fn link_tick(tick: u32, link: &mut [u32]) -> Answer {
    Answer(unsafe { declared::semuryeon_link_tick(tick, link.as_mut_ptr(), link.len()) })
}

/// Rows are five words each; the part is area, start and length.
pub fn lookup(id: u32, rows: &[u32], factory: usize, writable: usize, part: &mut [u32]) -> Answer {
    Answer(unsafe {
        declared::semuryeon_lookup(
            id,
            rows.as_ptr(),
            rows.len(),
            factory,
            writable,
            part.as_mut_ptr(),
            part.len(),
        )
    })
}

pub fn request(
    octets: &[u8],
    eid: u32,
    credentials: &[u8],
    rows: &[u32],
    factory: &[u8],
    writable: &mut [u8],
    output: &mut [u8],
) -> Answer {
    Answer(unsafe {
        declared::semuryeon_request(
            octets.as_ptr(),
            octets.len(),
            eid,
            credentials.as_ptr(),
            credentials.len(),
            rows.as_ptr(),
            rows.len(),
            factory.as_ptr(),
            factory.len(),
            writable.as_mut_ptr(),
            writable.len(),
            output.as_mut_ptr(),
            output.len(),
        )
    })
}

pub fn bench_line(
    number: u64,
    line: &[u8],
    table: &mut [u32],
    store: &mut [u8],
    output: &mut [u8],
    text: &mut [u8],
) -> Answer {
    Answer(unsafe {
        declared::semuryeon_bench_line(
            number,
            line.as_ptr(),
            line.len(),
            table.as_mut_ptr(),
            table.len(),
            store.as_mut_ptr(),
            store.len(),
            output.as_mut_ptr(),
            output.len(),
            text.as_mut_ptr(),
            text.len(),
        )
    })
}
