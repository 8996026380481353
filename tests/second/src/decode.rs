//! The decode program: lines of hex in, the fields of each message out.

use std::fmt::Write as _;
use std::io::{self, Read, Write};

use crate::hex;
use crate::lines;
use crate::message::*;
use crate::reading;
use crate::writing;

pub const LINE_LIMIT: usize = 2048;

#[derive(Default)]
struct Totals {
    lines: u64,
    messages: u64,
    refused: u64,
    same: u64,
}

/// Reads `input` to its end and writes the heading, a line for each line, and the totals.
pub fn run(mut input: impl Read, output: &mut impl Write) -> io::Result<()> {
    let mut totals = Totals::default();
    let mut lists = Lists::default();
    writeln!(output, "line answer")?;
    lines::for_each(&mut input, LINE_LIMIT, |line| {
        totals.lines += 1;
        let answer = answer(line, &mut lists, &mut totals);
        writeln!(output, "{} {answer}", totals.lines)
    })?;
    let Totals { messages, refused, same, .. } = totals;
    writeln!(output, "messages {messages} refused {refused} same {same}")
}

fn answer(line: Option<&[u8]>, lists: &mut Lists, totals: &mut Totals) -> String {
    let mut room = [0; LINE_LIMIT / 2];
    let Some(length) = line.and_then(|line| hex::read(line, &mut room)) else {
        totals.refused += 1;
        return "refused-0".into();
    };
    let octets = &room[..length];
    match reading::read(octets, lists) {
        Err(refusal) => {
            totals.refused += 1;
            refusal.to_string()
        }
        Ok(message) => {
            totals.messages += 1;
            totals.same += u64::from(is_rewritten(&message, lists, octets));
            text(&message, lists, octets)
        }
    }
}

/// Whether the record, written again, gives the octets it was read from.
fn is_rewritten(message: &Message, lists: &Lists, octets: &[u8]) -> bool {
    let mut output = [0; MESSAGE_OCTETS];
    let length = writing::write(message, lists, octets, &mut output);
    length.is_ok_and(|length| output[..length] == *octets)
}

/// The kind and the present fields of a message that was read from `octets`.
pub fn text(message: &Message, lists: &Lists, octets: &[u8]) -> String {
    let mut printer = Printer { text: String::new(), lists, octets };
    printer.message(message);
    printer.text
}

struct Printer<'a> {
    text: String,
    lists: &'a Lists,
    octets: &'a [u8],
}

impl Printer<'_> {
    fn message(&mut self, message: &Message) {
        match message {
            Message::ActionRequest(command) => self.command("action-request", command),
            Message::ActionResponse(response) => self.action_response(response),
            Message::EventRequest(command) => self.command("event-request", command),
            Message::EventResponse(response) => self.status_response("event-response", response),
            Message::SetRequest(request) => self.set_request(request),
            Message::SetResponse(response) => self.status_response("set-response", response),
            Message::GetRequest(request) => self.get_request(request),
            Message::GetResponse(response) => self.get_response(response),
            Message::Bst(bst) => self.bst(bst),
            Message::Vst(vst) => self.vst(vst),
        }
    }

    fn command(&mut self, kind: &str, command: &Command) {
        self.text.push_str(kind);
        self.number("mode", command.mode);
        self.number("eid", command.eid);
        self.number("type", command.command_type);
        self.string("credentials", command.credentials);
        self.parameter(command.parameter);
        self.optional("iid", command.iid);
    }

    fn action_response(&mut self, response: &ActionResponse) {
        self.text.push_str("action-response");
        self.number("fill", response.fill);
        self.number("eid", response.eid);
        self.optional("iid", response.iid);
        self.parameter(response.parameter);
        self.optional("ret", response.status);
    }

    fn status_response(&mut self, kind: &str, response: &StatusResponse) {
        self.text.push_str(kind);
        self.number("fill", response.fill);
        self.number("eid", response.eid);
        self.optional("iid", response.iid);
        self.optional("ret", response.status);
    }

    fn set_request(&mut self, request: &SetRequest) {
        self.text.push_str("set-request");
        self.number("fill", request.fill);
        self.number("mode", request.mode);
        self.number("eid", request.eid);
        self.string("credentials", request.credentials);
        self.name("attributes");
        self.attributes(request.attributes);
        self.optional("iid", request.iid);
    }

    fn get_request(&mut self, request: &GetRequest) {
        self.text.push_str("get-request");
        self.number("fill", request.fill);
        self.number("eid", request.eid);
        self.string("credentials", request.credentials);
        self.optional("iid", request.iid);
        if let Some(ids) = request.ids {
            self.name("ids");
            self.ids(ids);
        }
    }

    fn get_response(&mut self, response: &GetResponse) {
        self.text.push_str("get-response");
        self.number("fill", response.fill);
        self.number("eid", response.eid);
        self.optional("iid", response.iid);
        if let Some(attributes) = response.attributes {
            self.name("attributes");
            self.attributes(attributes);
        }
        self.optional("ret", response.status);
    }

    fn bst(&mut self, bst: &Bst) {
        self.text.push_str("bst");
        self.number("manufacturer", bst.beacon.manufacturer);
        self.number("individual", bst.beacon.individual);
        self.number("time", bst.time);
        self.number("profile", bst.profile);
        self.applications("mandatory", bst.mandatory);
        if let Some(optional) = bst.optional {
            self.applications("optional", optional);
        }
        self.name("profiles");
        self.ids(bst.profiles);
    }

    fn vst(&mut self, vst: &Vst) {
        self.text.push_str("vst");
        self.number("fill", vst.fill);
        self.number("profile", vst.profile);
        self.applications("applications", vst.applications);
        self.number("class", vst.class);
        self.number("maker", vst.maker);
        self.optional("status", vst.status);
    }

    fn name(&mut self, name: &str) {
        self.text.push(' ');
        self.text.push_str(name);
        self.text.push('=');
    }

    fn decimal(&mut self, number: impl Into<u32>) {
        // Writing to a string cannot fail.
        let _ = write!(self.text, "{}", number.into());
    }

    fn number(&mut self, name: &str, number: impl Into<u32>) {
        self.name(name);
        self.decimal(number);
    }

    fn optional(&mut self, name: &str, number: Option<impl Into<u32>>) {
        if let Some(number) = number {
            self.number(name, number);
        }
    }

    fn string(&mut self, name: &str, part: Option<Part>) {
        if let Some(part) = part {
            self.name(name);
            self.hex(part);
        }
    }

    fn hex(&mut self, part: Part) {
        hex::append(part.of(self.octets).unwrap_or_default(), &mut self.text);
    }

    fn parameter(&mut self, parameter: Option<Container>) {
        if let Some(parameter) = parameter {
            self.name("parameter");
            self.container(parameter);
        }
    }

    fn container(&mut self, container: Container) {
        match container {
            Container::Octets(part) => {
                self.text.push_str("octets:");
                self.hex(part);
            }
            Container::Eid(eid) => {
                self.text.push_str("eid:");
                self.decimal(eid);
            }
            Container::Ids(run) => {
                self.text.push_str("ids:");
                self.ids(run);
            }
            Container::Attributes(run) => {
                self.text.push_str("attributes:");
                self.attributes(run);
            }
        }
    }

    /// Rows in brackets, parted by commas.
    fn list<Row: Copy>(&mut self, rows: &[Row], print: impl Fn(&mut Self, Row)) {
        self.text.push('[');
        for (index, row) in rows.iter().enumerate() {
            if index > 0 {
                self.text.push(',');
            }
            print(self, *row);
        }
        self.text.push(']');
    }

    fn ids(&mut self, run: Run) {
        let lists = self.lists;
        self.list(run.of(&lists.ids).unwrap_or_default(), Self::decimal);
    }

    fn attributes(&mut self, run: Run) {
        let lists = self.lists;
        self.list(run.of(&lists.attributes).unwrap_or_default(), |printer, row| {
            printer.decimal(row.id);
            printer.text.push('=');
            printer.container(row.value);
        });
    }

    fn applications(&mut self, name: &str, run: Run) {
        self.name(name);
        let lists = self.lists;
        self.list(run.of(&lists.applications).unwrap_or_default(), Self::application);
    }

    fn application(&mut self, entry: Application) {
        self.decimal(entry.aid);
        if let Some(eid) = entry.eid {
            self.text.push('/');
            self.decimal(eid);
        }
        if let Some(parameter) = entry.parameter {
            self.text.push('=');
            self.container(parameter);
        }
    }
}

#[cfg(test)]
mod tests;
