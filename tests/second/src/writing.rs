//! Writing a message to the front of an output.

use crate::message::*;
use crate::refusal::*;

const BROKEN: Refusal = Refusal::plain(RECORD_BROKEN);

/// Writes a message whose string parts lie in `octets`; answers its length.
/// Refuses with 23, then 21, then 22, and then leaves the output as it was.
pub fn write(message: &Message, lists: &Lists, octets: &[u8], output: &mut [u8]) -> Result<usize, Refusal> {
    let mut writer = Writer::new(lists, octets);
    writer.message(message)?;
    let written = writer.written()?;
    let room = output.get_mut(..written.len()).ok_or(Refusal::plain(OUTPUT_SMALL))?;
    room.copy_from_slice(written);
    Ok(written.len())
}

/// Whether a record keeps every range, limit and depth, and its strings lie in `octets`.
pub fn is_in_range(message: &Message, lists: &Lists, octets: &[u8]) -> bool {
    Writer::new(lists, octets).message(message).is_ok()
}

/// Gathers octets aside, so that a broken record is known before any output is touched.
struct Writer<'a> {
    lists: &'a Lists,
    octets: &'a [u8],
    written: [u8; MESSAGE_OCTETS],
    /// Octets of the message so far; may pass the room.
    length: usize,
    rows: usize,
}

type Written = Result<(), Refusal>;

fn require(condition: bool) -> Written {
    if condition {
        Ok(())
    } else {
        Err(BROKEN)
    }
}

/// A leading octet: the choice, then flags from bit 3 down, then the fill or mode bits.
fn lead(choice: u8, flags: &[bool], rest: u8) -> u8 {
    let flags = flags.iter().enumerate().map(|(index, flag)| u8::from(*flag) << (3 - index));
    choice << 4 | flags.sum::<u8>() | rest
}

impl<'a> Writer<'a> {
    fn new(lists: &'a Lists, octets: &'a [u8]) -> Self {
        Writer { lists, octets, written: [0; MESSAGE_OCTETS], length: 0, rows: 0 }
    }

    fn written(&self) -> Result<&[u8], Refusal> {
        self.written.get(..self.length).ok_or(Refusal::at(MESSAGE_LONG, MESSAGE_OCTETS))
    }

    fn message(&mut self, message: &Message) -> Written {
        match message {
            Message::ActionRequest(command) => self.command(0, command),
            Message::ActionResponse(response) => self.action_response(response),
            Message::EventRequest(command) => self.command(2, command),
            Message::EventResponse(response) => self.status_response(3, response),
            Message::SetRequest(request) => self.set_request(request),
            Message::SetResponse(response) => self.status_response(5, response),
            Message::GetRequest(request) => self.get_request(request),
            Message::GetResponse(response) => self.get_response(response),
            Message::Bst(bst) => self.bst(bst),
            Message::Vst(vst) => self.vst(vst),
        }
    }

    fn command(&mut self, choice: u8, command: &Command) -> Written {
        let Command { credentials, parameter, iid, .. } = command;
        let flags = [credentials.is_some(), parameter.is_some(), iid.is_some()];
        self.put(&[lead(choice, &flags, command.mode.into())]);
        self.number(command.eid)?;
        self.number(command.command_type)?;
        self.optional(credentials, Self::string)?;
        self.optional(parameter, Self::outermost)?;
        self.optional(iid, Self::number)
    }

    fn action_response(&mut self, response: &ActionResponse) -> Written {
        let ActionResponse { fill, eid, iid, parameter, status } = response;
        require(*fill <= 1)?;
        self.put(&[lead(1, &[iid.is_some(), parameter.is_some(), status.is_some()], *fill)]);
        self.number(*eid)?;
        self.optional(iid, Self::number)?;
        self.optional(parameter, Self::outermost)?;
        self.optional(status, Self::number)
    }

    fn status_response(&mut self, choice: u8, response: &StatusResponse) -> Written {
        let StatusResponse { fill, eid, iid, status } = response;
        require(*fill <= 3)?;
        self.put(&[lead(choice, &[iid.is_some(), status.is_some()], *fill)]);
        self.number(*eid)?;
        self.optional(iid, Self::number)?;
        self.optional(status, Self::number)
    }

    fn set_request(&mut self, request: &SetRequest) -> Written {
        let SetRequest { fill, mode, eid, credentials, attributes, iid } = request;
        require(*fill <= 1)?;
        self.put(&[lead(4, &[credentials.is_some(), iid.is_some()], fill << 1 | u8::from(*mode))]);
        self.number(*eid)?;
        self.optional(credentials, Self::string)?;
        self.attributes(*attributes, 1)?;
        self.optional(iid, Self::number)
    }

    fn get_request(&mut self, request: &GetRequest) -> Written {
        let GetRequest { fill, eid, credentials, iid, ids } = request;
        require(*fill <= 1)?;
        self.put(&[lead(6, &[credentials.is_some(), iid.is_some(), ids.is_some()], *fill)]);
        self.number(*eid)?;
        self.optional(credentials, Self::string)?;
        self.optional(iid, Self::number)?;
        self.optional(ids, Self::ids)
    }

    fn get_response(&mut self, response: &GetResponse) -> Written {
        let GetResponse { fill, eid, iid, attributes, status } = response;
        require(*fill <= 1)?;
        self.put(&[lead(7, &[iid.is_some(), attributes.is_some(), status.is_some()], *fill)]);
        self.number(*eid)?;
        self.optional(iid, Self::number)?;
        self.optional(attributes, |writer, run| writer.attributes(run, 1))?;
        self.optional(status, Self::number)
    }

    fn bst(&mut self, bst: &Bst) -> Written {
        let Beacon { manufacturer, individual } = bst.beacon;
        require(individual <= INDIVIDUAL_LIMIT)?;
        let lead = u64::from(lead(8, &[bst.optional.is_some()], 0)) << 40;
        let bits = lead | u64::from(manufacturer) << 27 | u64::from(individual);
        self.put(&bits.to_be_bytes()[2..]);
        self.put(&bst.time.to_be_bytes());
        self.number(bst.profile)?;
        self.applications(bst.mandatory)?;
        self.optional(&bst.optional, Self::applications)?;
        self.ids(bst.profiles)
    }

    fn vst(&mut self, vst: &Vst) -> Written {
        require(vst.fill <= 15 && vst.class <= CLASS_LIMIT)?;
        self.put(&[lead(9, &[], vst.fill)]);
        self.number(vst.profile)?;
        self.applications(vst.applications)?;
        self.put(&(u16::from(vst.status.is_some()) << 15 | vst.class).to_be_bytes());
        self.put(&vst.maker.to_be_bytes());
        if let Some(status) = vst.status {
            self.put(&status.to_be_bytes());
        }
        Ok(())
    }

    fn put(&mut self, octets: &[u8]) {
        let end = self.length + octets.len();
        if let Some(room) = self.written.get_mut(self.length..end) {
            room.copy_from_slice(octets);
        }
        self.length = end;
    }

    fn optional<T: Copy>(
        &mut self,
        field: &Option<T>,
        write: impl FnOnce(&mut Self, T) -> Written,
    ) -> Written {
        field.map_or(Ok(()), |field| write(self, field))
    }

    fn number(&mut self, number: u8) -> Written {
        require(number <= NUMBER_LIMIT)?;
        self.put(&[number]);
        Ok(())
    }

    fn count(&mut self, run: Run) -> Written {
        require(run.count <= COUNT_LIMIT)?;
        self.put(&[run.count as u8]);
        Ok(())
    }

    fn string(&mut self, part: Part) -> Written {
        require(part.length <= usize::from(NUMBER_LIMIT))?;
        let octets = part.of(self.octets).ok_or(BROKEN)?;
        self.put(&[part.length as u8]);
        self.put(octets);
        Ok(())
    }

    fn outermost(&mut self, container: Container) -> Written {
        self.container(container, 1)
    }

    fn container(&mut self, container: Container, depth: usize) -> Written {
        require(depth <= DEPTH_LIMIT)?;
        match container {
            Container::Octets(part) => {
                self.put(&[OCTETS_KIND]);
                self.string(part)
            }
            Container::Eid(eid) => {
                self.put(&[EID_KIND]);
                self.number(eid)
            }
            Container::Ids(run) => {
                self.put(&[IDS_KIND]);
                self.ids(run)
            }
            Container::Attributes(run) => {
                self.put(&[ATTRIBUTES_KIND]);
                self.attributes(run, depth + 1)
            }
        }
    }

    fn ids(&mut self, run: Run) -> Written {
        self.count(run)?;
        let ids = run.of(&self.lists.ids).ok_or(BROKEN)?;
        ids.iter().try_for_each(|id| self.number(*id))
    }

    fn attributes(&mut self, run: Run, depth: usize) -> Written {
        self.count(run)?;
        self.rows += run.count;
        require(self.rows <= ROW_LIMIT)?;
        let rows = run.of(&self.lists.attributes).ok_or(BROKEN)?;
        rows.iter().try_for_each(|row| {
            self.number(row.id)?;
            self.container(row.value, depth)
        })
    }

    fn applications(&mut self, run: Run) -> Written {
        self.count(run)?;
        let entries = run.of(&self.lists.applications).ok_or(BROKEN)?;
        entries.iter().try_for_each(|entry| self.application(entry))
    }

    fn application(&mut self, entry: &Application) -> Written {
        let Application { aid, eid, parameter } = entry;
        require(*aid <= AID_LIMIT)?;
        self.put(&[u8::from(eid.is_some()) << 7 | u8::from(parameter.is_some()) << 6 | aid]);
        self.optional(eid, Self::number)?;
        self.optional(parameter, Self::outermost)
    }
}

#[cfg(test)]
mod tests;
