//! What calls give, and why they are refused.

use std::error::Error;
use std::fmt;

/// Why a call was refused. Nothing has changed.
#[derive(Clone, Copy, Debug, PartialEq, Eq, Hash)]
#[repr(u32)]
pub enum Refusal {
    /// Offset and width of a register are not allowed together.
    Access = 1,
    /// The register does not take the value.
    Value = 2,
    /// HEAD is TAIL: nothing is posted.
    Idle = 3,
    /// The guest has 65,536 credits to return.
    CreditsFull = 4,
    /// The descriptor is not inside guest memory.
    Descriptor = 5,
    /// The buffer is shorter than what goes there.
    Buffer = 6,
    /// Not 1 to 62 ports, or not a port of the device.
    Port = 7,
    /// Not 14 to 9,216 bytes, or a tag that is cut.
    Frame = 8,
    /// The list has fewer than 558 numbers.
    List = 9,
}

impl Refusal {
    const ALL: [Refusal; 9] = [
        Refusal::Access,
        Refusal::Value,
        Refusal::Idle,
        Refusal::CreditsFull,
        Refusal::Descriptor,
        Refusal::Buffer,
        Refusal::Port,
        Refusal::Frame,
        Refusal::List,
    ];

    /// The number of the answer, 1 to 9.
    pub fn number(self) -> u32 {
        self as u32
    }

    /// The refusal of an answer's number; none of 0, which is done, and of numbers above 9.
    pub fn of(number: u32) -> Option<Self> {
        Self::ALL.into_iter().find(|refusal| refusal.number() == number)
    }

    /// What a call that is done gives, or its refusal.
    pub(crate) fn or<T>(answer: u32, done: impl FnOnce() -> T) -> Result<T, Self> {
        match answer {
            0 => Ok(done()),
            _ => Err(Self::of(answer).expect("calls answer with 0 to 9")),
        }
    }
}

impl fmt::Display for Refusal {
    fn fmt(&self, f: &mut fmt::Formatter<'_>) -> fmt::Result {
        let why = match self {
            Refusal::Access => "access not allowed",
            Refusal::Value => "value not allowed",
            Refusal::Idle => "nothing is posted",
            Refusal::CreditsFull => "credits are full",
            Refusal::Descriptor => "descriptor not inside memory",
            Refusal::Buffer => "buffer too short",
            Refusal::Port => "port or port count not allowed",
            Refusal::Frame => "not a frame",
            Refusal::List => "list too short",
        };
        write!(f, "{}: {why}", self.number())
    }
}

impl Error for Refusal {}

/// What a register write did besides.
#[derive(Clone, Copy, Debug, Default, PartialEq, Eq)]
pub struct Written {
    /// Vector 0 is raised.
    pub raised: bool,
    /// The device was reset: its journal ends, and a new one begins with a header.
    pub reset: bool,
}

/// How a command was completed.
#[derive(Clone, Copy, Debug, PartialEq, Eq, Hash)]
#[repr(u16)]
pub enum Status {
    /// Carried out, and charged.
    Ok = 0,
    /// A mod or del of what is not there.
    Enoent = 2,
    /// The payload is misaligned or not inside guest memory.
    Enxio = 6,
    /// An add where all places are taken.
    Enomem = 12,
    /// An add of what is there.
    Eexist = 17,
    /// TLV_SIZE is above BUF_SIZE, the payload ill formed, or a field missing, given twice or not allowed.
    Einval = 22,
    /// The payload has more than 4,096 bytes.
    Emsgsize = 90,
    /// No such command, or no such table.
    Enotsup = 95,
}

impl Status {
    const ALL: [Status; 8] = [
        Status::Ok,
        Status::Enoent,
        Status::Enxio,
        Status::Enomem,
        Status::Eexist,
        Status::Einval,
        Status::Emsgsize,
        Status::Enotsup,
    ];

    /// The status of a completion, 0x8000 plus its code; none of any other number.
    pub fn of(completed: u16) -> Option<Self> {
        Self::ALL.into_iter().find(|status| status.completion() == completed)
    }

    /// The completion as it stands in descriptor and record.
    pub fn completion(self) -> u16 {
        0x8000 + self as u16
    }
}

/// A slot that was processed.
#[derive(Clone, Copy, Debug, PartialEq, Eq)]
pub struct Processed<'b> {
    /// Vector 0 is raised, once the record is safe.
    pub raised: bool,
    /// COMP_ERR as it was written into the descriptor.
    pub completed: u16,
    /// The journal's record, at the start of the buffer.
    pub record: &'b [u8],
}

impl Processed<'_> {
    /// How the command was completed.
    pub fn status(&self) -> Status {
        Status::of(self.completed).expect("a completion is 0x8000 plus a status")
    }
}

/// One output of a frame.
#[derive(Clone, Copy, Debug, PartialEq, Eq)]
pub struct Output {
    /// The port to send by; 0 is the host itself.
    pub port: u16,
    /// The VLAN that the copy leaves in.
    pub vlan: u16,
    /// The copy leaves without a tag; else with one of that VLAN.
    pub pop_vlan: bool,
    /// The new source MAC; of a bridged output 0.
    pub source: [u8; 6],
    /// The new destination MAC; of a bridged output 0.
    pub destination: [u8; 6],
}

impl Output {
    fn of(numbers: &[u16]) -> Self {
        let mac = |first: usize| {
            let [a, b, c] = [0, 1, 2].map(|k| numbers[first + k].to_be_bytes());
            [a[0], a[1], b[0], b[1], c[0], c[1]]
        };
        Output {
            port: numbers[0],
            vlan: numbers[1],
            pop_vlan: numbers[2] == 1,
            source: mac(3),
            destination: mac(6),
        }
    }

    /// Source and destination of a routed copy; none where it keeps its own, both being 0.
    pub fn macs(&self) -> Option<([u8; 6], [u8; 6])> {
        let routed = self.source != [0; 6] || self.destination != [0; 6];
        routed.then_some((self.source, self.destination))
    }
}

/// The outputs of a frame, at the start of its list.
#[derive(Clone, Copy, Debug, PartialEq, Eq)]
pub struct Outputs<'l>(&'l [u16]);

impl<'l> Outputs<'l> {
    /// The numbers of an output.
    pub const NUMBERS: usize = 9;

    pub(crate) fn of(numbers: &'l [u16]) -> Self {
        Outputs(numbers)
    }

    /// How many there are.
    pub fn len(&self) -> usize {
        self.0.len() / Self::NUMBERS
    }

    /// The frame goes nowhere.
    pub fn is_empty(&self) -> bool {
        self.0.is_empty()
    }

    /// Their numbers as they stand in the list, nine each.
    pub fn numbers(&self) -> &'l [u16] {
        self.0
    }

    /// One after the other.
    pub fn iter(&self) -> impl Iterator<Item = Output> + 'l {
        self.0.chunks_exact(Self::NUMBERS).map(Output::of)
    }
}
