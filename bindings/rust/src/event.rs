//! What a group takes and returns.
use crate::raw;
use std::fmt;

/// When a message is delivered whose turn has come.
#[derive(Clone, Copy, Debug, Default, PartialEq, Eq, PartialOrd, Ord, Hash)]
pub enum Mode {
    /// As soon as the node holds it.
    #[default]
    Basic,
    /// As soon as the node knows that more nodes hold it than may crash.
    Uniform,
}

/// A configuration. Its numbers are checked when a group is made.
#[derive(Clone, Copy, Debug, PartialEq, Eq, PartialOrd, Ord, Hash)]
pub struct Config {
    /// The number of nodes, 1 to 64.
    pub nodes: u64,
    /// The number of nodes that may crash.
    pub faults: u64,
    /// The number of values that an instance may decide, if `faults` is below it.
    pub choices: u64,
    /// The most items of a stream, 1 to 4,096, including a close.
    pub item_limit: u64,
    /// The most entries in the log of a running node; a group as a value has no log.
    pub log_limit: u64,
    /// The most items in a box between threads; a group as a value has no boxes.
    pub box_size: u64,
    /// The first stamp of running nodes' clocks; a group as a value has no clocks.
    pub first_stamp: u64,
    /// When messages are delivered.
    pub mode: Mode,
}

/// What a node broadcasts. It is shown as a word of a record: `data:6162`, `prop:7:3` or `close`.
///
/// ```
/// use castgroup::Item;
///
/// assert_eq!(Item::from("ab").to_string(), "data:6162");
/// ```
#[derive(Clone, Debug, PartialEq, Eq, PartialOrd, Ord, Hash)]
pub enum Item {
    /// Bytes, at most 1,024.
    Data(Vec<u8>),
    /// A value that the node proposes in an instance, at most once in each.
    Propose {
        /// The number of the instance.
        instance: u64,
        /// The value.
        value: u64,
    },
    /// The last item of a stream.
    Close,
}

/// One step of one node. A frame without an arrival is lost. It is shown as an element of a script.
///
/// ```
/// use castgroup::{Event, Item};
///
/// assert_eq!(Event::order(0, "ab").to_string(), r#"["order",0,"data","6162"]"#);
/// assert_eq!(Event::order(1, Item::Close).to_string(), r#"["order",1,"close"]"#);
/// assert_eq!(Event::send(0, 1, 4), Event::Send { from: 0, to: 1, slot: 4 });
/// ```
#[derive(Clone, Debug, PartialEq, Eq, PartialOrd, Ord, Hash)]
pub enum Event {
    /// The node broadcasts an item.
    Order {
        /// The node.
        node: u8,
        /// The item.
        item: Item,
    },
    /// `from` makes a frame with the message in this slot of its link to `to`.
    Send {
        /// The maker of the frame.
        from: u8,
        /// Its target.
        to: u8,
        /// The slot, from 0.
        slot: u64,
    },
    /// `from` makes a frame by which it acknowledges this slot of the link from `to`.
    Ack {
        /// The maker of the frame.
        from: u8,
        /// Its target.
        to: u8,
        /// The slot, from 0.
        slot: u64,
    },
    /// The frame with this number, made by `from`, arrives at its target.
    Arrive {
        /// The maker of the frame.
        from: u8,
        /// Its number, from 0.
        seq: u64,
    },
    /// The node crashes: it takes no more steps.
    Crash {
        /// The node.
        node: u8,
    },
}

/// What one step of a node puts on the network.
#[derive(Clone, Copy, Debug, PartialEq, Eq, PartialOrd, Ord, Hash)]
pub enum Frame {
    /// A message: item `number` of `sender`.
    Carry {
        /// The target of the frame.
        to: u8,
        /// The slot of the message, in the link from the frame's maker to its target.
        slot: u64,
        /// The sender of the item.
        sender: u8,
        /// The number of the item in the sender's stream.
        number: u64,
    },
    /// An acknowledgement: its maker took what is in this slot.
    Took {
        /// The target of the frame.
        to: u8,
        /// The slot, in the link from the frame's target to its maker.
        slot: u64,
    },
}

/// What a step delivers and decides at its node. [`World::deliveries_of`](crate::World::deliveries_of) reads the items,
/// [`World::decisions_of`](crate::World::decisions_of) the decisions.
#[derive(Clone, Copy, Debug, Default, PartialEq, Eq, PartialOrd, Ord, Hash)]
pub struct Outcome {
    /// The sender of the delivered items, if there are any.
    pub sender: u8,
    /// The number of the first of them.
    pub first: u64,
    /// The number of delivered items, which have successive numbers.
    pub deliveries: u64,
    /// The number of decisions.
    pub decisions: u64,
}

/// The answer to an accepted event.
#[derive(Clone, Copy, Debug, PartialEq, Eq, PartialOrd, Ord, Hash)]
pub enum Reply {
    /// The item has this number in its node's stream.
    Ordered {
        /// The number, from 0.
        number: u64,
        /// What the step delivered and decided.
        outcome: Outcome,
    },
    /// The frame has this number among its maker's frames.
    Sent {
        /// The number, from 0.
        seq: u64,
    },
    /// The frame arrived.
    Arrived {
        /// The target.
        node: u8,
        /// What the step delivered and decided.
        outcome: Outcome,
    },
    /// The node has crashed.
    Down,
}

/// An item that a step delivered.
#[derive(Clone, Debug, PartialEq, Eq, PartialOrd, Ord, Hash)]
pub struct Delivery {
    /// The sender of the item.
    pub sender: u8,
    /// Its number in the sender's stream.
    pub number: u64,
    /// The item.
    pub item: Item,
}

/// A decision of a step.
#[derive(Clone, Copy, Debug, PartialEq, Eq, PartialOrd, Ord, Hash)]
pub struct Decision {
    /// The number of the instance.
    pub instance: u64,
    /// The value.
    pub value: u64,
}

/// The usual configuration for one node, without tolerated crashes.
impl Default for Config {
    fn default() -> Config {
        Config::of(1, 0)
    }
}

impl fmt::Display for Mode {
    fn fmt(&self, f: &mut fmt::Formatter<'_>) -> fmt::Result {
        f.write_str(match self {
            Mode::Basic => "basic",
            Mode::Uniform => "uniform",
        })
    }
}

/// The members of a script that make this configuration.
///
/// ```
/// assert!(castgroup::Config::of(3, 1).to_string().starts_with(r#""nodes":3,"faults":1,"choices":2,"mode":"basic","item_limit":4096"#));
/// ```
impl fmt::Display for Config {
    fn fmt(&self, f: &mut fmt::Formatter<'_>) -> fmt::Result {
        write!(f, r#""nodes":{},"faults":{},"choices":{},"mode":"{}","#, self.nodes, self.faults, self.choices, self.mode)?;
        write!(f, r#""item_limit":{},"log_limit":{},"#, self.item_limit, self.log_limit)?;
        write!(f, r#""box_size":{},"first_stamp":{}"#, self.box_size, self.first_stamp)
    }
}

fn put_hex(bytes: &[u8], f: &mut fmt::Formatter<'_>) -> fmt::Result {
    bytes.iter().try_for_each(|byte| write!(f, "{byte:02x}"))
}

impl fmt::Display for Item {
    fn fmt(&self, f: &mut fmt::Formatter<'_>) -> fmt::Result {
        match self {
            Item::Data(bytes) => {
                f.write_str("data:")?;
                put_hex(bytes, f)
            }
            Item::Propose { instance, value } => write!(f, "prop:{instance}:{value}"),
            Item::Close => f.write_str("close"),
        }
    }
}

impl fmt::Display for Event {
    fn fmt(&self, f: &mut fmt::Formatter<'_>) -> fmt::Result {
        match self {
            Event::Order { node, item } => match item {
                Item::Data(bytes) => {
                    write!(f, r#"["order",{node},"data",""#)?;
                    put_hex(bytes, f)?;
                    f.write_str(r#""]"#)
                }
                Item::Propose { instance, value } => write!(f, r#"["order",{node},"propose",{instance},{value}]"#),
                Item::Close => write!(f, r#"["order",{node},"close"]"#),
            },
            Event::Send { from, to, slot } => write!(f, r#"["send",{from},{to},{slot}]"#),
            Event::Ack { from, to, slot } => write!(f, r#"["ack",{from},{to},{slot}]"#),
            Event::Arrive { from, seq } => write!(f, r#"["arrive",{from},{seq}]"#),
            Event::Crash { node } => write!(f, r#"["crash",{node}]"#),
        }
    }
}

impl From<Vec<u8>> for Item {
    fn from(bytes: Vec<u8>) -> Item {
        Item::Data(bytes)
    }
}

impl From<&[u8]> for Item {
    fn from(bytes: &[u8]) -> Item {
        Item::Data(bytes.to_vec())
    }
}

impl<const N: usize> From<&[u8; N]> for Item {
    fn from(bytes: &[u8; N]) -> Item {
        Item::Data(bytes.to_vec())
    }
}

impl From<&str> for Item {
    fn from(text: &str) -> Item {
        Item::Data(text.as_bytes().to_vec())
    }
}

impl Frame {
    /// The node that the frame is for.
    pub fn to(&self) -> u8 {
        match *self {
            Frame::Carry { to, .. } | Frame::Took { to, .. } => to,
        }
    }

    pub(crate) fn of_numbers(told: &raw::Frame) -> Frame {
        let raw::Frame { kind, to, slot, sender, number } = *told;
        match kind {
            0 => Frame::Carry { to: to as u8, slot, sender: sender as u8, number },
            _ => Frame::Took { to: to as u8, slot },
        }
    }
}

impl Reply {
    /// The node that took the event, and what it delivered and decided, if the event can deliver.
    pub fn outcome(&self, event: &Event) -> Option<(u8, Outcome)> {
        match (*self, event) {
            (Reply::Ordered { outcome, .. }, Event::Order { node, .. }) => Some((*node, outcome)),
            (Reply::Arrived { node, outcome }, _) => Some((node, outcome)),
            _ => None,
        }
    }
}

impl Config {
    /// The usual configuration for this many nodes, of which `faults` may crash: `faults` + 1 values may be decided,
    /// and the mode is basic.
    pub fn of(nodes: u64, faults: u64) -> Config {
        Config {
            nodes,
            faults,
            choices: faults.saturating_add(1),
            item_limit: 4_096,
            log_limit: 65_536,
            box_size: 64,
            first_stamp: 0,
            mode: Mode::Basic,
        }
    }

    pub(crate) fn numbers(&self) -> raw::Config {
        raw::Config {
            nodes: self.nodes,
            faults: self.faults,
            choices: self.choices,
            item_limit: self.item_limit,
            log_limit: self.log_limit,
            box_size: self.box_size,
            first_stamp: self.first_stamp,
            mode: match self.mode {
                Mode::Basic => 0,
                Mode::Uniform => 1,
            },
        }
    }
}

impl Event {
    /// The node broadcasts an item: bytes, a text, or an [`Item`].
    pub fn order(node: u8, item: impl Into<Item>) -> Event {
        Event::Order { node, item: item.into() }
    }

    /// The node proposes a value in an instance.
    pub fn propose(node: u8, instance: u64, value: u64) -> Event {
        Event::Order { node, item: Item::Propose { instance, value } }
    }

    /// `from` makes a frame with the message in this slot of its link to `to`.
    pub fn send(from: u8, to: u8, slot: u64) -> Event {
        Event::Send { from, to, slot }
    }

    /// `from` makes a frame by which it acknowledges this slot of the link from `to`.
    pub fn ack(from: u8, to: u8, slot: u64) -> Event {
        Event::Ack { from, to, slot }
    }

    /// The frame with this number, made by `from`, arrives at its target.
    pub fn arrive(from: u8, seq: u64) -> Event {
        Event::Arrive { from, seq }
    }

    /// The node crashes: it takes no more steps.
    pub fn crash(node: u8) -> Event {
        Event::Crash { node }
    }

    /// The numbers of an event, and the bytes of its item.
    pub(crate) fn numbers(&self) -> (raw::Event, &[u8]) {
        let none = raw::Event::default();
        match *self {
            Event::Order { node, ref item } => {
                let order = raw::Event { kind: 0, node, ..none };
                match *item {
                    Item::Data(ref bytes) => (order, bytes),
                    Item::Propose { instance, value } => (raw::Event { item: 1, number: instance, value, ..order }, &[]),
                    Item::Close => (raw::Event { item: 2, ..order }, &[]),
                }
            }
            Event::Send { from, to, slot } => (raw::Event { kind: 1, node: from, to, number: slot, ..none }, &[]),
            Event::Ack { from, to, slot } => (raw::Event { kind: 2, node: from, to, number: slot, ..none }, &[]),
            Event::Arrive { from, seq } => (raw::Event { kind: 3, node: from, number: seq, ..none }, &[]),
            Event::Crash { node } => (raw::Event { kind: 4, node, ..none }, &[]),
        }
    }

    /// The event with these numbers, of the kinds that [`World::events_enabled`](crate::World::events_enabled) gives.
    pub(crate) fn of_numbers(told: &raw::Event) -> Event {
        let raw::Event { kind, node, to, number, .. } = *told;
        match kind {
            1 => Event::Send { from: node, to, slot: number },
            2 => Event::Ack { from: node, to, slot: number },
            _ => Event::Arrive { from: node, seq: number },
        }
    }

    /// The reply to this event that the numbers give.
    pub(crate) fn reply(&self, told: &raw::Reply) -> Reply {
        let outcome = Outcome {
            sender: told.sender as u8,
            first: told.first,
            deliveries: told.deliveries,
            decisions: told.decisions,
        };
        match self {
            Event::Order { .. } => Reply::Ordered { number: told.number, outcome },
            Event::Send { .. } | Event::Ack { .. } => Reply::Sent { seq: told.number },
            Event::Arrive { .. } => Reply::Arrived { node: told.number as u8, outcome },
            Event::Crash { .. } => Reply::Down,
        }
    }
}
