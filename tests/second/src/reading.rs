//! Reading a message: left to right, the first fault decides.

use crate::message::*;
use crate::refusal::*;

/// Reads a whole message. The lists are the message's only if it is not refused.
/// Refuses with 21, then 13 and 15 to 19 by place, then 14.
pub fn read(octets: &[u8], lists: &mut Lists) -> Result<Message, Refusal> {
    if octets.len() > MESSAGE_OCTETS {
        return Err(Refusal::at(MESSAGE_LONG, MESSAGE_OCTETS));
    }
    lists.attribute_count = 0;
    lists.application_count = 0;
    lists.id_count = 0;
    let mut reader = Reader { octets, position: 0, lists };
    let message = reader.message()?;
    if reader.position < octets.len() {
        return Err(Refusal::at(OCTETS_LEFT, reader.position));
    }
    Ok(message)
}

struct Reader<'a> {
    octets: &'a [u8],
    position: usize,
    lists: &'a mut Lists,
}

type Read<T> = Result<T, Refusal>;

/// One bit of a leading octet.
fn bit(octet: u8, place: u8) -> bool {
    octet >> place & 1 == 1
}

impl Reader<'_> {
    fn message(&mut self) -> Read<Message> {
        let lead = self.octet()?;
        Ok(match lead >> 4 {
            0 => Message::ActionRequest(self.command(lead)?),
            1 => Message::ActionResponse(self.action_response(lead)?),
            2 => Message::EventRequest(self.command(lead)?),
            3 => Message::EventResponse(self.status_response(lead)?),
            4 => Message::SetRequest(self.set_request(lead)?),
            5 => Message::SetResponse(self.status_response(lead)?),
            6 => Message::GetRequest(self.get_request(lead)?),
            7 => Message::GetResponse(self.get_response(lead)?),
            8 => Message::Bst(self.bst(lead)?),
            9 => Message::Vst(self.vst(lead)?),
            _ => return Err(Refusal::at(UNKNOWN_CHOICE, 0)),
        })
    }

    // Struct fields are evaluated in the order written, which is the order on the wire.

    fn command(&mut self, lead: u8) -> Read<Command> {
        Ok(Command {
            mode: bit(lead, 0),
            eid: self.number()?,
            command_type: self.number()?,
            credentials: self.optional(bit(lead, 3), Self::string)?,
            parameter: self.optional(bit(lead, 2), Self::outermost)?,
            iid: self.optional(bit(lead, 1), Self::number)?,
        })
    }

    fn action_response(&mut self, lead: u8) -> Read<ActionResponse> {
        Ok(ActionResponse {
            fill: lead & 1,
            eid: self.number()?,
            iid: self.optional(bit(lead, 3), Self::number)?,
            parameter: self.optional(bit(lead, 2), Self::outermost)?,
            status: self.optional(bit(lead, 1), Self::number)?,
        })
    }

    fn status_response(&mut self, lead: u8) -> Read<StatusResponse> {
        Ok(StatusResponse {
            fill: lead & 3,
            eid: self.number()?,
            iid: self.optional(bit(lead, 3), Self::number)?,
            status: self.optional(bit(lead, 2), Self::number)?,
        })
    }

    fn set_request(&mut self, lead: u8) -> Read<SetRequest> {
        Ok(SetRequest {
            fill: lead >> 1 & 1,
            mode: bit(lead, 0),
            eid: self.number()?,
            credentials: self.optional(bit(lead, 3), Self::string)?,
            attributes: self.attributes(1)?,
            iid: self.optional(bit(lead, 2), Self::number)?,
        })
    }

    fn get_request(&mut self, lead: u8) -> Read<GetRequest> {
        Ok(GetRequest {
            fill: lead & 1,
            eid: self.number()?,
            credentials: self.optional(bit(lead, 3), Self::string)?,
            iid: self.optional(bit(lead, 2), Self::number)?,
            ids: self.optional(bit(lead, 1), Self::ids)?,
        })
    }

    fn get_response(&mut self, lead: u8) -> Read<GetResponse> {
        Ok(GetResponse {
            fill: lead & 1,
            eid: self.number()?,
            iid: self.optional(bit(lead, 3), Self::number)?,
            attributes: self.optional(bit(lead, 2), |reader| reader.attributes(1))?,
            status: self.optional(bit(lead, 1), Self::number)?,
        })
    }

    fn bst(&mut self, lead: u8) -> Read<Bst> {
        Ok(Bst {
            beacon: self.beacon(lead)?,
            time: u32::from_be_bytes(self.field()?),
            profile: self.number()?,
            mandatory: self.applications()?,
            optional: self.optional(bit(lead, 3), Self::applications)?,
            profiles: self.ids()?,
        })
    }

    fn vst(&mut self, lead: u8) -> Read<Vst> {
        let (fill, profile, applications) = (lead & 15, self.number()?, self.applications()?);
        let class = self.word()?;
        Ok(Vst {
            fill,
            profile,
            applications,
            class: class & CLASS_LIMIT,
            maker: self.word()?,
            status: self.optional(class > CLASS_LIMIT, Self::word)?,
        })
    }

    /// The 43 bits behind the choice and the presence bit of a BST.
    fn beacon(&mut self, lead: u8) -> Read<Beacon> {
        let rest: [u8; 5] = self.field()?;
        let bits = rest.iter().fold(u64::from(lead & 7), |bits, octet| bits << 8 | u64::from(*octet));
        Ok(Beacon { manufacturer: (bits >> 27) as u16, individual: bits as u32 & INDIVIDUAL_LIMIT })
    }

    fn cut_short(&self) -> Refusal {
        Refusal::at(CUT_SHORT, self.octets.len())
    }

    fn optional<T>(&mut self, present: bool, read: impl FnOnce(&mut Self) -> Read<T>) -> Read<Option<T>> {
        if present {
            read(self).map(Some)
        } else {
            Ok(None)
        }
    }

    fn octet(&mut self) -> Read<u8> {
        let octet = *self.octets.get(self.position).ok_or(self.cut_short())?;
        self.position += 1;
        Ok(octet)
    }

    fn field<const LENGTH: usize>(&mut self) -> Read<[u8; LENGTH]> {
        let rest = &self.octets[self.position..];
        let field = *rest.first_chunk().ok_or(self.cut_short())?;
        self.position += LENGTH;
        Ok(field)
    }

    fn word(&mut self) -> Read<u16> {
        self.field().map(u16::from_be_bytes)
    }

    /// A number 0 to 127, or 16 where its extension bit is set.
    fn number(&mut self) -> Read<u8> {
        let start = self.position;
        let octet = self.octet()?;
        if octet > NUMBER_LIMIT {
            return Err(Refusal::at(EXTENSION_BIT, start));
        }
        Ok(octet)
    }

    fn count(&mut self) -> Read<usize> {
        let start = self.position;
        let count = usize::from(self.number()?);
        if count > COUNT_LIMIT {
            return Err(Refusal::at(COUNT_HIGH, start));
        }
        Ok(count)
    }

    fn string(&mut self) -> Read<Part> {
        let length = usize::from(self.number()?);
        let start = self.position;
        if self.octets.len() - start < length {
            return Err(self.cut_short());
        }
        self.position += length;
        Ok(Part { start, length })
    }

    fn outermost(&mut self) -> Read<Container> {
        self.container(1)
    }

    fn container(&mut self, depth: usize) -> Read<Container> {
        let start = self.position;
        let kind = self.number()?;
        if depth > DEPTH_LIMIT {
            return Err(Refusal::at(TOO_DEEP, start));
        }
        match kind {
            OCTETS_KIND => self.string().map(Container::Octets),
            EID_KIND => self.number().map(Container::Eid),
            IDS_KIND => self.ids().map(Container::Ids),
            ATTRIBUTES_KIND => self.attributes(depth + 1).map(Container::Attributes),
            _ => Err(Refusal::at(CONTAINER_KIND, start)),
        }
    }

    /// A list of ids or of profiles.
    fn ids(&mut self) -> Read<Run> {
        let count = self.count()?;
        let first = self.lists.id_count;
        for _ in 0..count {
            let id = self.number()?;
            self.lists.ids[self.lists.id_count] = id;
            self.lists.id_count += 1;
        }
        Ok(Run { first, count })
    }

    /// An attribute list whose values are containers at `depth`. Its rows are
    /// taken from the pool as soon as they are declared.
    fn attributes(&mut self, depth: usize) -> Read<Run> {
        let start = self.position;
        let count = self.count()?;
        let first = self.lists.attribute_count;
        if first + count > ROW_LIMIT {
            return Err(Refusal::at(COUNT_HIGH, start));
        }
        self.lists.attribute_count += count;
        for row in first..first + count {
            let attribute = Attribute { id: self.number()?, value: self.container(depth)? };
            self.lists.attributes[row] = attribute;
        }
        Ok(Run { first, count })
    }

    fn applications(&mut self) -> Read<Run> {
        let count = self.count()?;
        let first = self.lists.application_count;
        for row in first..first + count {
            let application = self.application()?;
            self.lists.applications[row] = application;
        }
        self.lists.application_count += count;
        Ok(Run { first, count })
    }

    fn application(&mut self) -> Read<Application> {
        let start = self.position;
        let entry = self.octet()?;
        if bit(entry, 5) {
            return Err(Refusal::at(EXTENSION_BIT, start));
        }
        Ok(Application {
            aid: entry & AID_LIMIT,
            eid: self.optional(bit(entry, 7), Self::number)?,
            parameter: self.optional(bit(entry, 6), Self::outermost)?,
        })
    }
}
