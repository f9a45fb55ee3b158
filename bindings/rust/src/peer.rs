//! A peer: a node of a group in a process of its own.
use crate::error::{ConfigError, OutOfMemory, PeerError};
use crate::event::{Config, Decision, Delivery, Event, Item};
use crate::raw;
use std::cell::UnsafeCell;
use std::fmt;
use std::io::{self, Write};

/// No packet has more bytes.
pub const MOST_PACKET: usize = 1_071;

/// The last line of the log of a node that did not crash.
pub const LOG_END: &[u8] = b"end\n";

/// The most bytes of a payload.
const MOST_BYTES: usize = 1_024;

/// The first buffer for a line of a log has this many bytes. A line with many deliveries is longer.
const FIRST_ROOM: usize = 4_096;

/// The fault of a new peer whose number is no node's. Faults of its configuration are lower.
const NO_NODE: u64 = 21;

/// When a peer gives out packets and reports news.
#[derive(Clone, Copy, Debug, Default, PartialEq, Eq, PartialOrd, Ord, Hash)]
pub enum Saving {
    /// After the entries that record them are saved. So a process that is killed leaves a log of all that anybody saw
    /// of it.
    #[default]
    First,
    /// At once: for tests.
    Never,
}

/// A packet for another node.
#[derive(Clone, Debug, PartialEq, Eq, PartialOrd, Ord, Hash)]
pub struct Packet {
    /// The node that it is for.
    pub to: u8,
    /// The place in the log of the line that records it.
    pub place: u64,
    /// The packet itself.
    pub bytes: Vec<u8>,
}

/// What is new to the application.
#[derive(Clone, Debug, PartialEq, Eq, PartialOrd, Ord, Hash)]
pub enum News {
    /// An item that was ordered here has this number in the node's stream.
    Ordered {
        /// The number, from 0.
        number: u64,
    },
    /// The node delivered an item.
    Delivered(Delivery),
    /// The node decided.
    Decided(Decision),
}

/// A node of a group in a process of its own, with its log and its clock. It takes the bytes that a network delivered,
/// and gives the bytes that a network is to carry. It knows neither sockets nor time.
///
/// A program around a peer keeps five rules:
///
/// 1. The log comes first. Call [`save`](Peer::save) with the log file, which writes the new lines and then tells the
///    peer. Until then, it gives out no packet and no news of these lines. So a killed process leaves a log of all that
///    anybody saw of it.
/// 2. Each number runs once. Make the log file with `create_new`, so that a process which starts again fails. Its node
///    has crashed.
/// 3. Each start of a group has a new group number, drawn at random. A peer drops the packets of another start.
/// 4. A packet is a datagram of at most [`MOST_PACKET`] bytes. It may get lost, or arrive twice or late. On a byte
///    stream, send the length of each packet before the packet.
/// 5. Ticks are yours, for example a hundred in a second. What isn't acknowledged is sent again after some ticks.
///
/// `castgroup merge` makes one run of the logs of all nodes, or names the line that does not fit. `examples/udp.rs` is
/// a node over UDP.
///
/// ```
/// use castgroup::{Config, Item, News, Peer, Saving};
///
/// let config = Config::of(2, 0);
/// let mut peers = [Peer::new(&config, 7, 0, Saving::First)?, Peer::new(&config, 7, 1, Saving::First)?];
/// let mut logs = [Vec::new(), Vec::new()];
/// peers[0].order("a")?;
/// while !peers.iter().all(Peer::is_quiet) {
///     for me in 0..2 {
///         while let Some(packet) = peers[me].next_packet()? {
///             peers[usize::from(packet.to)].receive(&packet.bytes)?;
///         }
///         peers[me].save(&mut logs[me])?;
///     }
/// }
/// let Some(News::Delivered(delivery)) = peers[1].next_news()? else { panic!("no delivery") };
/// assert_eq!((delivery.sender, delivery.number, delivery.item), (0, 0, Item::from("a")));
/// assert!(logs[1].starts_with(b"cast-log/1 2 0 1 basic 4096 7 1\n"));
/// # Ok::<(), Box<dyn std::error::Error>>(())
/// ```
///
/// It may go to another thread, but only one may use it at a time.
///
/// ```compile_fail
/// fn is_sync<T: Sync>() {}
/// is_sync::<castgroup::Peer>();
/// ```
pub struct Peer {
    // For each call, even a reader's, the library takes the peer out of its handle.
    handle: UnsafeCell<raw::Handle>,
    config: Config,
    group: u64,
    me: u8,
    // How many lines of the log were written by `save`.
    written: u64,
}

impl fmt::Debug for Peer {
    fn fmt(&self, f: &mut fmt::Formatter<'_>) -> fmt::Result {
        let mut shown = f.debug_struct("Peer");
        shown.field("config", &self.config).field("group", &self.group).field("me", &self.me);
        shown.field("log_length", &self.log_length()).finish_non_exhaustive()
    }
}

// SAFETY: a peer owns its memory. It is not `Sync`, so its calls run one after another.
unsafe impl Send for Peer {}

impl Peer {
    /// The node `me` of a group, with room for its whole log. Nobody may have made a peer with the same two numbers
    /// before.
    ///
    /// ```
    /// use castgroup::{Config, ConfigError, Peer, PeerError, Refusal, Saving};
    ///
    /// let fault = |nodes, me| Peer::new(&Config::of(nodes, 0), 7, me, Saving::First).err();
    /// assert_eq!(fault(65, 0), Some(PeerError::Config(ConfigError::Nodes)));
    /// assert_eq!(fault(2, 2), Some(PeerError::Refused(Refusal::NoNode)));
    /// ```
    pub fn new(config: &Config, group: u64, me: u8, saving: Saving) -> Result<Peer, PeerError> {
        let mut handle = raw::Handle::EMPTY;
        let mut fault = 0;
        // SAFETY: see `raw`.
        let status = unsafe {
            raw::cast_c_peer_new(&mut handle, &config.numbers(), group, me, saving.number(), &mut fault)
        };
        match status {
            raw::DONE => Ok(Peer { handle: UnsafeCell::new(handle), config: *config, group, me, written: 0 }),
            raw::REFUSED if fault < NO_NODE => {
                Err(PeerError::Config(ConfigError::from_code(fault).unwrap_or(ConfigError::Mode)))
            }
            _ => Err(refused(status, fault)),
        }
    }

    /// The configuration that it was made with.
    pub fn config(&self) -> &Config {
        &self.config
    }

    /// The number of the group.
    pub fn group(&self) -> u64 {
        self.group
    }

    /// The number of the node.
    pub fn me(&self) -> u8 {
        self.me
    }

    /// Broadcasts an item: bytes, a text, or an [`Item`]. [`next_news`](Peer::next_news) reports its number later. What
    /// the node refuses is logged too.
    ///
    /// ```
    /// use castgroup::{Config, Item, Peer, PeerError, Refusal, Saving};
    ///
    /// let mut peer = Peer::new(&Config::of(2, 0), 7, 0, Saving::First)?;
    /// peer.order(Item::Propose { instance: 7, value: 3 })?;
    /// peer.order(Item::Close)?;
    /// assert_eq!(peer.order("a"), Err(PeerError::Refused(Refusal::Closed)));
    /// # Ok::<(), PeerError>(())
    /// ```
    pub fn order(&mut self, item: impl Into<Item>) -> Result<(), PeerError> {
        let event = Event::order(self.me, item);
        let (numbers, bytes) = event.numbers();
        let mut fault = 0;
        // SAFETY: see `raw`.
        let status = unsafe {
            raw::cast_c_peer_order(self.handle.get_mut(), &numbers, bytes.as_ptr(), bytes.len(), &mut fault)
        };
        accept(status, fault)
    }

    /// Takes a packet, or says why it is dropped. A packet that came before brings nothing new.
    pub fn receive(&mut self, packet: &[u8]) -> Result<(), PeerError> {
        let mut fault = 0;
        // SAFETY: see `raw`.
        let status = unsafe {
            raw::cast_c_peer_receive(self.handle.get_mut(), packet.as_ptr(), packet.len(), &mut fault)
        };
        accept(status, fault)
    }

    /// The next packet to send. There is none if nothing is to be sent now, or if the log has to be saved first. So a
    /// turn goes on until there is nothing to send, and nothing to save:
    ///
    /// ```
    /// # use castgroup::{Config, Peer, Saving};
    /// # let mut peer = Peer::new(&Config::of(2, 0), 7, 0, Saving::First)?;
    /// # let (mut log, mut send) = (Vec::new(), |_packet| ());
    /// loop {
    ///     while let Some(packet) = peer.next_packet()? {
    ///         send(packet);
    ///     }
    ///     if !peer.save(&mut log)? {
    ///         break;
    ///     }
    /// }
    /// # Ok::<(), Box<dyn std::error::Error>>(())
    /// ```
    pub fn next_packet(&mut self) -> Result<Option<Packet>, OutOfMemory> {
        let mut told = raw::Packet::default();
        let mut room = [0; MOST_PACKET];
        loop {
            // SAFETY: see `raw`.
            let status = unsafe {
                raw::cast_c_peer_next(self.handle.get_mut(), &mut told, room.as_mut_ptr(), room.len())
            };
            match (status, told.kind) {
                (raw::DONE, 0) => break,
                (raw::DONE, 1) => {}
                (raw::DONE, _) => return Ok(None),
                _ => return Err(OutOfMemory),
            }
        }
        let bytes = copied(&room[..told.length as usize])?;
        Ok(Some(Packet { to: told.to as u8, place: told.place, bytes }))
    }

    /// The next news that was not reported. After `OutOfMemory`, it stays the next.
    pub fn next_news(&mut self) -> Result<Option<News>, OutOfMemory> {
        let mut told = raw::News::default();
        // The room is there before the library reports the news, so that none is lost.
        let mut room = Vec::new();
        room.try_reserve_exact(MOST_BYTES)?;
        room.resize(MOST_BYTES, 0);
        // SAFETY: see `raw`.
        let status = unsafe {
            raw::cast_c_peer_news(self.handle.get_mut(), &mut told, room.as_mut_ptr(), room.len())
        };
        match status {
            raw::DONE => Ok(news_of(&told, room)),
            _ => Err(OutOfMemory),
        }
    }

    /// Writes the lines of the log that no call wrote before, and notes that they are saved. Returns whether there were
    /// any. The first call writes the head of the log too.
    ///
    /// If it fails, the log may end in the middle of a line: stop the process. What is written has reached the system,
    /// and so outlives the process; call `sync_data` of a file if it shall outlive a crash of the machine too.
    pub fn save(&mut self, log: &mut impl Write) -> io::Result<bool> {
        let (mut lines, entries) = (Vec::new(), self.log_length());
        for place in self.written..=entries {
            self.append_line(place, &mut lines).map_err(|OutOfMemory| io::Error::from(io::ErrorKind::OutOfMemory))?;
        }
        log.write_all(&lines)?;
        log.flush()?;
        self.written = entries + 1;
        self.saved(entries);
        Ok(!lines.is_empty())
    }

    /// Notes how many entries of the log are saved, for a program that writes the log without [`save`](Peer::save). The
    /// number never falls, and is at most that of all entries.
    pub fn saved(&mut self, entries: u64) {
        // SAFETY: see `raw`.
        unsafe { raw::cast_c_peer_saved(self.handle.get_mut(), entries) };
    }

    /// Notes that time has passed. What isn't acknowledged is due again, each time after twice as many calls.
    pub fn tick(&mut self) {
        // SAFETY: see `raw`.
        unsafe { raw::cast_c_peer_tick(self.handle.get_mut()) };
    }

    /// Gives a node up for good: no message is sent to it any more. This may be a mistake: no promise depends on it.
    pub fn give_up(&mut self, node: u8) {
        // SAFETY: see `raw`.
        unsafe { raw::cast_c_peer_give_up(self.handle.get_mut(), node) };
    }

    /// Whether nothing is owed to any node that was not given up, no packet waits, and nothing is still to be
    /// acknowledged.
    pub fn is_quiet(&self) -> bool {
        let mut is_so = false;
        // SAFETY: see `raw`.
        unsafe { raw::cast_c_peer_is_quiet(self.handle.get(), &mut is_so) };
        is_so
    }

    /// How many entries the log has.
    pub fn log_length(&self) -> u64 {
        let mut count = 0;
        // SAFETY: see `raw`.
        unsafe { raw::cast_c_peer_log_length(self.handle.get(), &mut count) };
        count
    }

    /// A line of the log, with its line feed, if there is one at this place. The head of the log is at place 0, and its
    /// entries are at the places from 1 to [`log_length`](Peer::log_length).
    ///
    /// ```
    /// use castgroup::{Config, OutOfMemory, Peer, Saving};
    ///
    /// let peer = Peer::new(&Config::of(2, 0), 7, 1, Saving::First).unwrap();
    /// assert_eq!(peer.log_line(0)?, Some(b"cast-log/1 2 0 1 basic 4096 7 1\n".to_vec()));
    /// assert_eq!(peer.log_line(1)?, None);
    /// # Ok::<(), OutOfMemory>(())
    /// ```
    pub fn log_line(&self, place: u64) -> Result<Option<Vec<u8>>, OutOfMemory> {
        let mut line = Vec::new();
        let is_there = self.append_line(place, &mut line)?;
        Ok(is_there.then_some(line))
    }

    /// Appends a line of the log, and returns whether there is one at this place.
    fn append_line(&self, place: u64, lines: &mut Vec<u8>) -> Result<bool, OutOfMemory> {
        let (before, mut length, mut room) = (lines.len(), 0, FIRST_ROOM);
        loop {
            lines.try_reserve(room)?;
            lines.resize(before + room, 0);
            let free = &mut lines[before..];
            // SAFETY: see `raw`.
            let status = unsafe {
                raw::cast_c_peer_log(self.handle.get(), place, &mut length, free.as_mut_ptr(), free.len())
            };
            lines.truncate(before + if status == raw::DONE { length as usize } else { 0 });
            match status {
                raw::DONE => return Ok(true),
                raw::REFUSED => return Ok(false),
                raw::TOO_SHORT => room = length as usize,
                _ => return Err(OutOfMemory),
            }
        }
    }
}

impl Saving {
    fn number(self) -> u32 {
        match self {
            Saving::First => 0,
            Saving::Never => 1,
        }
    }
}

/// The news with these numbers, if there is one; the bytes of an item begin the room.
fn news_of(told: &raw::News, mut room: Vec<u8>) -> Option<News> {
    let raw::News { kind, sender, number, item, length, instance, value } = *told;
    Some(match kind {
        0 => return None,
        1 => News::Ordered { number },
        2 => {
            room.truncate(length as usize);
            let item = match item {
                0 => Item::Data(copied(&room).unwrap_or(room)),
                1 => Item::Propose { instance, value },
                _ => Item::Close,
            };
            News::Delivered(Delivery { sender: sender as u8, number, item })
        }
        _ => News::Decided(Decision { instance, value }),
    })
}

fn copied(bytes: &[u8]) -> Result<Vec<u8>, OutOfMemory> {
    let mut copy = Vec::new();
    copy.try_reserve_exact(bytes.len())?;
    copy.extend_from_slice(bytes);
    Ok(copy)
}

fn accept(status: u32, fault: u64) -> Result<(), PeerError> {
    match status {
        raw::DONE => Ok(()),
        _ => Err(refused(status, fault)),
    }
}

fn refused(status: u32, fault: u64) -> PeerError {
    match status {
        raw::REFUSED => PeerError::from_code(fault).unwrap_or(PeerError::OutOfMemory),
        _ => PeerError::OutOfMemory,
    }
}

impl Drop for Peer {
    fn drop(&mut self) {
        // SAFETY: see `raw`.
        unsafe { raw::cast_c_peer_drop(self.handle.get_mut()) }
    }
}
