//! Why a call was refused.
use std::collections::TryReserveError;
use std::error::Error;
use std::fmt;

/// The library ran out of memory.
#[derive(Clone, Copy, Debug, PartialEq, Eq, PartialOrd, Ord, Hash)]
pub struct OutOfMemory;

/// The first number of a configuration that is out of range, or out of memory.
#[derive(Clone, Copy, Debug, PartialEq, Eq, PartialOrd, Ord, Hash)]
pub enum ConfigError {
    /// The nodes are not 1 to 64.
    Nodes,
    /// The faults are not below the nodes.
    Faults,
    /// The choices are not 1 to the number of nodes.
    Choices,
    /// The item limit is not 1 to 4,096.
    ItemLimit,
    /// The log limit is not 1 to 65,536.
    LogLimit,
    /// The box size is not 1 to 4,096.
    BoxSize,
    /// The mode is uniform, and twice the faults are not below the nodes.
    Mode,
    /// The library ran out of memory.
    OutOfMemory,
}

/// Why an event is refused. A refused event changes nothing.
#[derive(Clone, Copy, Debug, PartialEq, Eq, PartialOrd, Ord, Hash)]
pub enum Refusal {
    /// 1: a node that doesn't exist.
    NoNode,
    /// 2: a link from a node to itself.
    SelfLink,
    /// 3: a node that has crashed.
    Crashed,
    /// 4: an order after the close of the stream.
    Closed,
    /// 5: a payload of more than 1,024 bytes.
    TooLong,
    /// 6: a second proposal of the node in this instance.
    AlreadyProposed,
    /// 7: an item that finds the stream full.
    StreamFull,
    /// 8: a slot that was not given.
    NoSlot,
    /// 9: a slot that was acknowledged.
    Acked,
    /// 10: the acknowledgement of a slot that was not taken.
    NotTaken,
    /// 11: a frame that was not made.
    NoFrame,
    /// 12: a frame of a node that can make no more.
    FramesFull,
}

/// A step or a round was refused, or ran out of memory.
#[derive(Clone, Copy, Debug, PartialEq, Eq, PartialOrd, Ord, Hash)]
pub enum StepError {
    /// It was refused.
    Refused(Refusal),
    /// The library ran out of memory. A step changed nothing; after a round, the events before remain.
    OutOfMemory,
}

/// A piece of a record was not judged.
#[derive(Clone, Copy, Debug, PartialEq, Eq, PartialOrd, Ord, Hash)]
pub enum JudgeError {
    /// All pieces together would reach 2^63 bytes.
    TooLong,
    /// The library ran out of memory, for this piece or an earlier one.
    OutOfMemory,
}

/// A script is refused, or memory ran out for its text.
#[derive(Clone, Copy, Debug, PartialEq, Eq, PartialOrd, Ord, Hash)]
pub enum TextError {
    /// The script has more than 67,108,864 bytes.
    TooLong,
    /// The script is no JSON.
    NotJson,
    /// This element, counted from 1, doesn't have its form; 0 is the script as a whole.
    Shape(u64),
    /// A number of its configuration is out of range.
    Config(ConfigError),
    /// The library ran out of memory.
    OutOfMemory,
}

/// A record is not migrated.
#[derive(Clone, Copy, Debug, PartialEq, Eq, PartialOrd, Ord, Hash)]
pub enum MigrateError {
    /// The text doesn't begin with a head of `cast/1`.
    NotV1,
    /// The library ran out of memory.
    OutOfMemory,
}

/// Why a peer isn't made, or takes no packet or order.
#[derive(Clone, Copy, Debug, PartialEq, Eq, PartialOrd, Ord, Hash)]
pub enum PeerError {
    /// A number of its configuration is out of range.
    Config(ConfigError),
    /// 1: bytes that don't begin as a packet does.
    Foreign,
    /// 2: a packet of another version.
    Version,
    /// 3: a packet of no known kind.
    Kind,
    /// 4: a packet that is too short for its kind.
    Short,
    /// 5: a packet that is too long for its kind.
    Long,
    /// 11: a packet of another group, or of another start of this one.
    OtherGroup,
    /// 12: a packet for another node.
    NotForMe,
    /// 13: a packet with the last stamp.
    LastStamp,
    /// 14: a packet that no peer of the group could have made.
    Impossible,
    /// 15: the log or the clock is full, so the node takes no more steps.
    Ended,
    /// From 21 on, at 20 and its code: the node refuses it.
    Refused(Refusal),
    /// The library ran out of memory. A packet that was not taken counts as lost.
    OutOfMemory,
}

const CONFIG_ERRORS: [ConfigError; 7] = [
    ConfigError::Nodes,
    ConfigError::Faults,
    ConfigError::Choices,
    ConfigError::ItemLimit,
    ConfigError::LogLimit,
    ConfigError::BoxSize,
    ConfigError::Mode,
];

const REFUSALS: [Refusal; 12] = [
    Refusal::NoNode,
    Refusal::SelfLink,
    Refusal::Crashed,
    Refusal::Closed,
    Refusal::TooLong,
    Refusal::AlreadyProposed,
    Refusal::StreamFull,
    Refusal::NoSlot,
    Refusal::Acked,
    Refusal::NotTaken,
    Refusal::NoFrame,
    Refusal::FramesFull,
];

/// The faults of a peer by their codes.
const PEER_ERRORS: [(u64, PeerError); 10] = [
    (1, PeerError::Foreign),
    (2, PeerError::Version),
    (3, PeerError::Kind),
    (4, PeerError::Short),
    (5, PeerError::Long),
    (11, PeerError::OtherGroup),
    (12, PeerError::NotForMe),
    (13, PeerError::LastStamp),
    (14, PeerError::Impossible),
    (15, PeerError::Ended),
];

/// The code of a refusal at a peer is its own, and this.
const REFUSED_AT: u64 = 20;

fn by_code<T: Copy>(all: &[T], code: u64) -> Option<T> {
    let place = usize::try_from(code).ok()?.checked_sub(1)?;
    all.get(place).copied()
}

impl ConfigError {
    /// The fault with this code, if there is one.
    pub fn from_code(code: u64) -> Option<ConfigError> {
        by_code(&CONFIG_ERRORS, code)
    }

    /// The number of the fault, 1 to 7; out of memory has none.
    pub fn code(self) -> Option<u64> {
        (self != ConfigError::OutOfMemory).then_some(self as u64 + 1)
    }
}

impl Refusal {
    /// The refusal with this code, if there is one.
    pub fn from_code(code: u64) -> Option<Refusal> {
        by_code(&REFUSALS, code)
    }

    /// The number of the refusal, 1 to 12.
    pub fn code(self) -> u64 {
        self as u64 + 1
    }
}

impl PeerError {
    /// The fault of an order or a packet with this code, if there is one.
    pub fn from_code(code: u64) -> Option<PeerError> {
        match PEER_ERRORS.iter().find(|known| known.0 == code) {
            Some(known) => Some(known.1),
            None => Refusal::from_code(code.checked_sub(REFUSED_AT)?).map(PeerError::Refused),
        }
    }

    /// The code of a fault of an order or a packet; the other variants have none.
    pub fn code(self) -> Option<u64> {
        match self {
            PeerError::Refused(refusal) => Some(REFUSED_AT + refusal.code()),
            _ => PEER_ERRORS.iter().find(|known| known.1 == self).map(|known| known.0),
        }
    }
}

impl fmt::Display for OutOfMemory {
    fn fmt(&self, f: &mut fmt::Formatter<'_>) -> fmt::Result {
        f.write_str("out of memory")
    }
}

impl fmt::Display for ConfigError {
    fn fmt(&self, f: &mut fmt::Formatter<'_>) -> fmt::Result {
        f.write_str(match self {
            ConfigError::Nodes => "the number of nodes is not 1 to 64",
            ConfigError::Faults => "the number of faults is not below the number of nodes",
            ConfigError::Choices => "the number of choices is not 1 to the number of nodes",
            ConfigError::ItemLimit => "the item limit is not 1 to 4096",
            ConfigError::LogLimit => "the log limit is not 1 to 65536",
            ConfigError::BoxSize => "the box size is not 1 to 4096",
            ConfigError::Mode => "uniform mode, and not fewer than half of the nodes may crash",
            ConfigError::OutOfMemory => "out of memory",
        })
    }
}

impl fmt::Display for Refusal {
    fn fmt(&self, f: &mut fmt::Formatter<'_>) -> fmt::Result {
        f.write_str(match self {
            Refusal::NoNode => "no such node",
            Refusal::SelfLink => "a link from a node to itself",
            Refusal::Crashed => "the node crashed",
            Refusal::Closed => "the stream is closed",
            Refusal::TooLong => "the payload is too long",
            Refusal::AlreadyProposed => "the node proposed in this instance before",
            Refusal::StreamFull => "the stream is full",
            Refusal::NoSlot => "no such slot",
            Refusal::Acked => "the slot was acknowledged",
            Refusal::NotTaken => "the slot was not taken",
            Refusal::NoFrame => "no such frame",
            Refusal::FramesFull => "the node can make no more frames",
        })
    }
}

impl fmt::Display for StepError {
    fn fmt(&self, f: &mut fmt::Formatter<'_>) -> fmt::Result {
        match self {
            StepError::Refused(refusal) => write!(f, "refused: {refusal}"),
            StepError::OutOfMemory => OutOfMemory.fmt(f),
        }
    }
}

impl fmt::Display for PeerError {
    fn fmt(&self, f: &mut fmt::Formatter<'_>) -> fmt::Result {
        f.write_str(match self {
            PeerError::Config(fault) => return write!(f, "the configuration is refused: {fault}"),
            PeerError::Foreign => "the bytes don't begin as a packet does",
            PeerError::Version => "a packet of another version",
            PeerError::Kind => "a packet of no known kind",
            PeerError::Short => "the packet is too short",
            PeerError::Long => "the packet is too long",
            PeerError::OtherGroup => "a packet of another group",
            PeerError::NotForMe => "a packet for another node",
            PeerError::LastStamp => "a packet with the last stamp",
            PeerError::Impossible => "a packet that no peer could have made",
            PeerError::Ended => "the log or the clock is full",
            PeerError::Refused(refusal) => return write!(f, "refused: {refusal}"),
            PeerError::OutOfMemory => return OutOfMemory.fmt(f),
        })
    }
}

impl fmt::Display for JudgeError {
    fn fmt(&self, f: &mut fmt::Formatter<'_>) -> fmt::Result {
        match self {
            JudgeError::TooLong => f.write_str("the record is too long"),
            JudgeError::OutOfMemory => OutOfMemory.fmt(f),
        }
    }
}

impl fmt::Display for TextError {
    fn fmt(&self, f: &mut fmt::Formatter<'_>) -> fmt::Result {
        match self {
            TextError::TooLong => f.write_str("the script is too long"),
            TextError::NotJson => f.write_str("the script is no JSON"),
            TextError::Shape(0) => f.write_str("the script as a whole is not of its form"),
            TextError::Shape(place) => write!(f, "element {place} of the script is not of its form"),
            TextError::Config(fault) => write!(f, "the configuration is refused: {fault}"),
            TextError::OutOfMemory => OutOfMemory.fmt(f),
        }
    }
}

impl fmt::Display for MigrateError {
    fn fmt(&self, f: &mut fmt::Formatter<'_>) -> fmt::Result {
        match self {
            MigrateError::NotV1 => f.write_str("the text doesn't begin with a head of cast/1"),
            MigrateError::OutOfMemory => OutOfMemory.fmt(f),
        }
    }
}

impl From<OutOfMemory> for StepError {
    fn from(_: OutOfMemory) -> StepError {
        StepError::OutOfMemory
    }
}

impl From<OutOfMemory> for PeerError {
    fn from(_: OutOfMemory) -> PeerError {
        PeerError::OutOfMemory
    }
}

impl From<TryReserveError> for OutOfMemory {
    fn from(_: TryReserveError) -> OutOfMemory {
        OutOfMemory
    }
}

impl Error for OutOfMemory {}
impl Error for ConfigError {}
impl Error for Refusal {}
impl Error for JudgeError {}
impl Error for MigrateError {}

impl Error for StepError {
    fn source(&self) -> Option<&(dyn Error + 'static)> {
        match self {
            StepError::Refused(refusal) => Some(refusal),
            StepError::OutOfMemory => None,
        }
    }
}

impl Error for PeerError {
    fn source(&self) -> Option<&(dyn Error + 'static)> {
        match self {
            PeerError::Config(fault) => Some(fault),
            PeerError::Refused(refusal) => Some(refusal),
            _ => None,
        }
    }
}

impl Error for TextError {
    fn source(&self) -> Option<&(dyn Error + 'static)> {
        match self {
            TextError::Config(fault) => Some(fault),
            _ => None,
        }
    }
}
