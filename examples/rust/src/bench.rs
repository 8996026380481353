//! Lines of a recording through the joining, as the bench program takes them.

use crate::answer::Refusal;
use crate::raw;
use crate::table::{Table, OUTPUT_OCTETS};

/// The least room for a line of output.
pub const TEXT_OCTETS: usize = 128;

/// A recording in the making: the table and the number of its last line.
#[derive(Clone, Debug)]
pub struct Bench {
    table: Table,
    output: [u8; OUTPUT_OCTETS],
    lines: u64,
}

impl Bench {
    pub fn new() -> Self {
        Bench { table: Table::new(), output: [0; OUTPUT_OCTETS], lines: 0 }
    }

    /// Takes the next line, without its line feed; its line of output, with one, stands at the front of the text.
    /// Refuses with 22, and the line is then not counted.
    pub fn line<'t>(&mut self, line: &[u8], text: &'t mut [u8]) -> Result<&'t [u8], Refusal> {
        let Table { words, store } = &mut self.table;
        let answer =
            raw::bench_line(self.lines + 1, line, words, store, &mut self.output, text).accepted()?;
        self.lines += 1;
        Ok(&text[..answer.first()])
    }
}

impl Default for Bench {
    fn default() -> Self {
        Self::new()
    }
}
