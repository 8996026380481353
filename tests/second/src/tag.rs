//! The tag at a terminal: a script in, an answer line for each call out.

use std::fmt;
use std::io::{self, Read, Write};

use crate::attributes::{self, Identity, Row, DIRECTORY_LIMIT};
use crate::hex;
use crate::lines;
use crate::link::{Configuration, Element, HeardBst, Link, Own, Phase, Reply, ELEMENT_LIMIT};
use crate::message::{Lists, Message, Part, MESSAGE_OCTETS};
use crate::reading;
use crate::refusal::Refusal;
use crate::script::{self, Call, Line, SetUp, LINE_LIMIT};

/// A line not of the script's forms, or a `bst` with another message.
const NO_SUCH_LINE: Refusal = Refusal::plain(0);

/// The tag with all that a script can set up. At first everything is empty or 0.
#[derive(Clone, Debug, Default)]
pub struct Tag {
    pub link: Link,
    pub configuration: Configuration,
    pub elements: Vec<Element>,
    /// The marks of all elements, one behind the other.
    pub marks: Vec<u8>,
    pub eid: u32,
    pub credentials: Vec<u8>,
    pub factory: Vec<u8>,
    pub writable: Vec<u8>,
    pub rows: Vec<Row>,
}

/// Reads `input` to its end and writes the heading and an answer for each call.
pub fn run(mut input: impl Read, output: &mut impl Write) -> io::Result<()> {
    let mut tag = Tag::default();
    let mut count = 0u64;
    writeln!(output, "line answer")?;
    lines::for_each(&mut input, LINE_LIMIT, |line| {
        count += 1;
        match tag.take(line.and_then(script::parse)) {
            Some(answer) => writeln!(output, "{count} {answer}"),
            None => Ok(()),
        }
    })
}

impl Tag {
    /// Takes a line, or one that is of no form; answers what is printed, if anything.
    pub fn take(&mut self, line: Option<Line>) -> Option<String> {
        let answer = match line {
            Some(Line::SetUp(set_up)) => {
                self.set_up(set_up);
                return None;
            }
            Some(Line::Call(call)) => self.call(call),
            None => Err(NO_SUCH_LINE),
        };
        Some(answer.unwrap_or_else(|refusal| refusal.to_string()))
    }

    fn set_up(&mut self, set_up: SetUp) {
        match set_up {
            SetUp::Configuration(configuration) => self.configuration = configuration,
            SetUp::Element { eid, aid, mark } => self.enter_element(eid, aid, &mark),
            SetUp::Eid(eid) => self.eid = eid,
            SetUp::Credentials(octets) => self.credentials = octets,
            SetUp::Factory(octets) => self.factory = octets,
            SetUp::Writable(octets) => self.writable = octets,
            SetUp::Row(row) => self.enter_row(row),
        }
    }

    /// One element above the limit is kept, which is enough for the list to stay unsound.
    fn enter_element(&mut self, eid: u32, aid: u32, mark: &[u8]) {
        if self.elements.len() <= ELEMENT_LIMIT {
            let mark_part = Part { start: self.marks.len(), length: mark.len() };
            self.elements.push(Element { eid, aid, mark: mark_part });
            self.marks.extend_from_slice(mark);
        }
    }

    /// One row above the limit is kept, as with elements.
    fn enter_row(&mut self, row: Row) {
        if self.rows.len() <= DIRECTORY_LIMIT {
            self.rows.push(row);
        }
    }

    fn call(&mut self, call: Call) -> Result<String, Refusal> {
        match call {
            Call::Bst { tick, lid, octets } => self.hear(tick, lid, &octets),
            Call::Release(lid) => self.link.release(lid).map(|()| format!("done {}", self.link)),
            Call::Tick(tick) => self.link.pass_tick(tick).map(|()| format!("done {}", self.link)),
            Call::Request(octets) => self.request(&octets),
            Call::Lookup(id) => self.lookup(id),
            Call::Show => Ok(format!("writable {}", hex::text(&self.writable))),
        }
    }

    fn hear(&mut self, tick: u32, lid: u32, octets: &[u8]) -> Result<String, Refusal> {
        let mut lists = Lists::default();
        let Message::Bst(bst) = reading::read(octets, &mut lists)? else {
            return Err(NO_SUCH_LINE);
        };
        let heard = HeardBst { bst, lists: &lists, octets };
        let own = Own { elements: &self.elements, marks: &self.marks, configuration: self.configuration };
        let mut output = [0; MESSAGE_OCTETS];
        let reply = self.link.hear(&heard, tick, lid, &own, &mut output)?;
        Ok(match reply {
            Reply::Silent => format!("silent {}", self.link),
            Reply::Vst(length) => format!("vst {} {}", hex::text(&output[..length]), self.link),
        })
    }

    fn request(&mut self, octets: &[u8]) -> Result<String, Refusal> {
        let identity = Identity { eid: self.eid, credentials: &self.credentials };
        let mut output = [0; MESSAGE_OCTETS];
        let reply = attributes::request(
            octets,
            &identity,
            &self.rows,
            &self.factory,
            &mut self.writable,
            &mut output,
        )?;
        Ok(reply.map_or("no-reply".into(), |length| format!("reply {}", hex::text(&output[..length]))))
    }

    fn lookup(&self, id: u32) -> Result<String, Refusal> {
        if !attributes::is_known(&self.rows, id, self.factory.len(), self.writable.len())? {
            return Ok("unknown".into());
        }
        let part = attributes::lookup(&self.rows, id, &self.factory, &self.writable);
        Ok(format!("known {}", hex::text(part)))
    }
}

impl fmt::Display for Link {
    fn fmt(&self, text: &mut fmt::Formatter<'_>) -> fmt::Result {
        match self.phase {
            Phase::Sleeping => write!(text, "phase=sleeping")?,
            Phase::Looking => write!(text, "phase=looking")?,
            Phase::Ready { beacon, lid } => {
                write!(text, "phase=ready:{}:{}:{lid:07X}", beacon.manufacturer, beacon.individual)?;
            }
        }
        write!(text, " time={} tick={}", self.time, self.tick)
    }
}

#[cfg(test)]
mod tests;
