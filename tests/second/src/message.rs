//! Records of the ten message kinds. Octet strings are parts of the lent message;
//! lists are runs of the pools that stand beside the record.

pub const MESSAGE_OCTETS: usize = 512;
pub const COUNT_LIMIT: usize = 16;
/// Attribute rows of one message, nested ones included.
pub const ROW_LIMIT: usize = 32;
pub const DEPTH_LIMIT: usize = 4;
pub const NUMBER_LIMIT: u8 = 127;
pub const AID_LIMIT: u8 = 31;
pub const INDIVIDUAL_LIMIT: u32 = (1 << 27) - 1;
pub const CLASS_LIMIT: u16 = 32_767;
/// Both lists of a BST.
pub const APPLICATION_ROOM: usize = 2 * COUNT_LIMIT;

/// Part of the lent octets.
#[derive(Clone, Copy, Debug, Default, PartialEq, Eq)]
pub struct Part {
    pub start: usize,
    pub length: usize,
}

impl Part {
    /// The octets of this part, or nothing if it lies outside.
    pub fn of<'a>(&self, octets: &'a [u8]) -> Option<&'a [u8]> {
        octets.get(self.start..self.start.checked_add(self.length)?)
    }
}

/// Neighbouring rows of a pool.
#[derive(Clone, Copy, Debug, Default, PartialEq, Eq)]
pub struct Run {
    pub first: usize,
    pub count: usize,
}

impl Run {
    /// The rows of this run, or nothing if it lies outside the pool.
    pub fn of<'a, Row>(&self, pool: &'a [Row]) -> Option<&'a [Row]> {
        pool.get(self.first..self.first.checked_add(self.count)?)
    }
}

#[derive(Clone, Copy, Debug, PartialEq, Eq)]
pub enum Container {
    Octets(Part),
    Eid(u8),
    Ids(Run),
    Attributes(Run),
}

pub const OCTETS_KIND: u8 = 2;
pub const EID_KIND: u8 = 7;
pub const IDS_KIND: u8 = 8;
pub const ATTRIBUTES_KIND: u8 = 9;

#[derive(Clone, Copy, Debug, PartialEq, Eq)]
pub struct Attribute {
    pub id: u8,
    pub value: Container,
}

/// An application entry of a BST or VST.
#[derive(Clone, Copy, Debug, Default, PartialEq, Eq)]
pub struct Application {
    pub aid: u8,
    pub eid: Option<u8>,
    pub parameter: Option<Container>,
}

/// The pools of a message. Ids and profiles share one, as each takes an octet of the message.
#[derive(Clone, Copy, Debug)]
pub struct Lists {
    pub attributes: [Attribute; ROW_LIMIT],
    pub attribute_count: usize,
    pub applications: [Application; APPLICATION_ROOM],
    pub application_count: usize,
    pub ids: [u8; MESSAGE_OCTETS],
    pub id_count: usize,
}

impl Default for Lists {
    fn default() -> Self {
        let nothing = Attribute { id: 0, value: Container::Octets(Part::default()) };
        Lists {
            attributes: [nothing; ROW_LIMIT],
            attribute_count: 0,
            applications: [Application::default(); APPLICATION_ROOM],
            application_count: 0,
            ids: [0; MESSAGE_OCTETS],
            id_count: 0,
        }
    }
}

/// An action request or an event request.
#[derive(Clone, Copy, Debug, PartialEq, Eq)]
pub struct Command {
    pub mode: bool,
    pub eid: u8,
    pub command_type: u8,
    pub credentials: Option<Part>,
    pub parameter: Option<Container>,
    pub iid: Option<u8>,
}

#[derive(Clone, Copy, Debug, PartialEq, Eq)]
pub struct ActionResponse {
    pub fill: u8,
    pub eid: u8,
    pub iid: Option<u8>,
    pub parameter: Option<Container>,
    pub status: Option<u8>,
}

/// An event response or a set response.
#[derive(Clone, Copy, Debug, PartialEq, Eq)]
pub struct StatusResponse {
    pub fill: u8,
    pub eid: u8,
    pub iid: Option<u8>,
    pub status: Option<u8>,
}

#[derive(Clone, Copy, Debug, PartialEq, Eq)]
pub struct SetRequest {
    pub fill: u8,
    pub mode: bool,
    pub eid: u8,
    pub credentials: Option<Part>,
    pub attributes: Run,
    pub iid: Option<u8>,
}

#[derive(Clone, Copy, Debug, PartialEq, Eq)]
pub struct GetRequest {
    pub fill: u8,
    pub eid: u8,
    pub credentials: Option<Part>,
    pub iid: Option<u8>,
    pub ids: Option<Run>,
}

#[derive(Clone, Copy, Debug, PartialEq, Eq)]
pub struct GetResponse {
    pub fill: u8,
    pub eid: u8,
    pub iid: Option<u8>,
    pub attributes: Option<Run>,
    pub status: Option<u8>,
}

#[derive(Clone, Copy, Debug, Default, PartialEq, Eq)]
pub struct Beacon {
    pub manufacturer: u16,
    pub individual: u32,
}

#[derive(Clone, Copy, Debug, PartialEq, Eq)]
pub struct Bst {
    pub beacon: Beacon,
    pub time: u32,
    pub profile: u8,
    pub mandatory: Run,
    pub optional: Option<Run>,
    pub profiles: Run,
}

#[derive(Clone, Copy, Debug, PartialEq, Eq)]
pub struct Vst {
    pub fill: u8,
    pub profile: u8,
    pub applications: Run,
    pub class: u16,
    pub maker: u16,
    pub status: Option<u16>,
}

#[derive(Clone, Copy, Debug, PartialEq, Eq)]
pub enum Message {
    ActionRequest(Command),
    ActionResponse(ActionResponse),
    EventRequest(Command),
    EventResponse(StatusResponse),
    SetRequest(SetRequest),
    SetResponse(StatusResponse),
    GetRequest(GetRequest),
    GetResponse(GetResponse),
    Bst(Bst),
    Vst(Vst),
}
