//! Joins three fragments of one message and prints its text; then shows a refusal. The same as `examples/c/join.c`, without `unsafe`.

#![forbid(unsafe_code)]

use semuryeon::{write_header, Header, Joined, Refusal, Table, OUTPUT_OCTETS};

const LID: u32 = 0x0A1_B2C3;
const NUMBER: u32 = 2;

/// Puts a header in front of the text, hands the fragment over and says what became of it.
fn hear(table: &mut Table, counter: u32, last: bool, text: &str) -> Result<(), Refusal> {
    let mut header = [0; 3];
    let length = write_header(Header { last, number: NUMBER, counter }, &mut header)?;
    let lsdu = [&header[..length], text.as_bytes()].concat();

    let mut output = [0; OUTPUT_OCTETS];
    match table.fragment(LID, 1000 + counter, &lsdu, &mut output) {
        Err(refusal) => println!("fragment {counter}: {refusal}"),
        Ok(Joined::Held { octets, .. }) => println!("fragment {counter}: {octets} octets held"),
        Ok(Joined::Whole { message, .. }) => {
            println!("fragment {counter}: whole, \"{}\"", String::from_utf8_lossy(message));
        }
    }
    Ok(())
}

fn main() -> Result<(), Refusal> {
    let mut table = Table::new();
    hear(&mut table, 0, false, "tag ")?;
    hear(&mut table, 1, false, "not ")?;
    hear(&mut table, 2, true, "valid")?;
    hear(&mut table, 2, true, "valid") // refused 8: the message is no longer open
}
