//! The tag's link: whom it talks to, and what it answers to a BST.

use crate::answer::Refusal;
use crate::raw;

pub const LINK_WORDS: usize = 6;

/// One element of the tag; its mark is a part of the equipment's marks.
#[derive(Clone, Copy, Debug, PartialEq, Eq)]
pub struct Element {
    pub eid: u32,
    pub aid: u32,
    pub mark_start: u32,
    pub mark_length: u32,
}

#[derive(Clone, Copy, Debug, Default, PartialEq, Eq)]
pub struct Configuration {
    pub class: u32,
    pub maker: u32,
    pub status: u32,
}

/// What the tag itself brings to a BST.
#[derive(Clone, Debug)]
pub struct Equipment {
    elements: Vec<u32>,
    marks: Vec<u8>,
    configuration: [u32; 3],
}

impl Equipment {
    pub fn new(elements: &[Element], marks: &[u8], configuration: Configuration) -> Self {
        let words = |element: &Element| {
            let Element { eid, aid, mark_start, mark_length } = *element;
            [eid, aid, mark_start, mark_length]
        };
        let Configuration { class, maker, status } = configuration;
        Equipment {
            elements: elements.iter().flat_map(words).collect(),
            marks: marks.to_vec(),
            configuration: [class, maker, status],
        }
    }
}

/// What the tag does with a BST.
#[derive(Clone, Copy, Debug, PartialEq, Eq)]
pub enum Heard<'a> {
    Silent,
    Vst(&'a [u8]),
}

/// The link's state. A new one sleeps.
#[derive(Clone, Debug, Default, PartialEq, Eq)]
pub struct Link {
    words: [u32; LINK_WORDS],
}

impl Link {
    pub fn new() -> Self {
        Self::default()
    }

    /// Hears a BST; a VST stands at the front of the output. Refuses as `check`, with 23 for another message, then with 1, 3, 26, 23.
    pub fn hear<'o>(
        &mut self,
        bst: &[u8],
        tick: u32,
        fresh_lid: u32,
        equipment: &Equipment,
        output: &'o mut [u8],
    ) -> Result<Heard<'o>, Refusal> {
        let Equipment { elements, marks, configuration } = equipment;
        let words = &mut self.words;
        let answer = raw::link_bst(bst, tick, fresh_lid, words, elements, marks, *configuration, output);
        let answer = answer.accepted()?;
        Ok(match answer.kind() {
            0 => Heard::Silent,
            _ => Heard::Vst(&output[..answer.first()]),
        })
    }

    /// Ends the link of one LID. Refuses with 3, 25.
    pub fn release(&mut self, lid: u32) -> Result<(), Refusal> {
        raw::link_release(lid, &mut self.words).accepted().map(|_| ())
    }

    /// A tick passes; a tag that has heard nothing for 100 of them sleeps.
    pub fn tick(&mut self, tick: u32) -> Result<(), Refusal> {
        raw::link_tick(tick, &mut self.words).accepted().map(|_| ())
    }
}
