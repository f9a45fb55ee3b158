//! A group as one value.
use crate::error::{ConfigError, OutOfMemory, Refusal, StepError};
use crate::event::{Config, Decision, Delivery, Event, Frame, Item, Outcome, Reply};
use crate::raw;
use std::cell::UnsafeCell;
use std::fmt;

/// The most bytes of a payload.
const MOST_BYTES: usize = 1_024;

/// The first buffer for events has this many places.
const FIRST_PLACES: usize = 256;

/// A group: it takes events and returns replies, and readers show what each node has delivered, decided and owes. It
/// may go to another thread, but only one may use it at a time. It is not `Sync`, since a reader too takes the group
/// out of its handle and puts it back.
///
/// ```compile_fail
/// fn is_sync<T: Sync>() {}
/// is_sync::<castgroup::World>();
/// ```
pub struct World {
    // For each call, even a reader's, the library takes the group out of its handle.
    handle: UnsafeCell<raw::Handle>,
    config: Config,
}

impl fmt::Debug for World {
    fn fmt(&self, f: &mut fmt::Formatter<'_>) -> fmt::Result {
        f.debug_struct("World").field("config", &self.config).field("at_rest", &self.at_rest()).finish_non_exhaustive()
    }
}

// SAFETY: a group owns its memory. It is not `Sync`, so its calls run one after another.
unsafe impl Send for World {}

impl World {
    /// A group in which nothing has happened.
    ///
    /// ```
    /// use castgroup::{Config, ConfigError, World};
    ///
    /// assert!(World::new(&Config::of(3, 1)).is_ok());
    /// assert_eq!(World::new(&Config::of(0, 0)).err(), Some(ConfigError::Nodes));
    /// ```
    pub fn new(config: &Config) -> Result<World, ConfigError> {
        let mut handle = raw::Handle::EMPTY;
        let mut fault = 0;
        // SAFETY: see `raw`.
        match unsafe { raw::cast_c_world_new(&mut handle, &config.numbers(), &mut fault) } {
            raw::DONE => Ok(World { handle: UnsafeCell::new(handle), config: *config }),
            raw::REFUSED => Err(ConfigError::from_code(fault).unwrap_or(ConfigError::Mode)),
            _ => Err(ConfigError::OutOfMemory),
        }
    }

    /// The configuration that it was made with.
    pub fn config(&self) -> &Config {
        &self.config
    }

    /// Takes one event. A refused event changes nothing.
    ///
    /// ```
    /// use castgroup::{Config, Event, Refusal, StepError, World};
    ///
    /// let mut world = World::new(&Config::of(2, 0)).unwrap();
    /// let crash = Event::Crash { node: 1 };
    /// assert!(world.step(&crash).is_ok());
    /// assert_eq!(world.step(&crash), Err(StepError::Refused(Refusal::Crashed)));
    /// ```
    pub fn step(&mut self, event: &Event) -> Result<Reply, StepError> {
        let (numbers, bytes) = event.numbers();
        let mut told = raw::Reply::default();
        // SAFETY: see `raw`.
        let status = unsafe {
            raw::cast_c_world_step(self.handle.get_mut(), &numbers, bytes.as_ptr(), bytes.len(), &mut told)
        };
        accept(status, &told)?;
        Ok(event.reply(&told))
    }

    /// Why the group would refuse the event now, if it would. A step may still run out of memory.
    ///
    /// ```
    /// use castgroup::{Config, Event, Refusal, World};
    ///
    /// let world = World::new(&Config::of(2, 0)).unwrap();
    /// let arrival = Event::Arrive { from: 0, seq: 0 };
    /// assert_eq!(world.fault(&arrival), Ok(Some(Refusal::NoFrame)));
    /// ```
    pub fn fault(&self, event: &Event) -> Result<Option<Refusal>, OutOfMemory> {
        let (numbers, bytes) = event.numbers();
        let mut code = 0;
        // SAFETY: see `raw`.
        let status = unsafe {
            raw::cast_c_world_fault(self.handle.get(), &numbers, bytes.as_ptr(), bytes.len(), &mut code)
        };
        match status {
            raw::DONE => Ok(Refusal::from_code(code)),
            _ => Err(OutOfMemory),
        }
    }

    /// Takes the events of one round: live nodes send, take and acknowledge all that they owe one another. Returns the
    /// number of frames made. After two accepted rounds the group is at rest.
    pub fn round(&mut self) -> Result<u64, StepError> {
        let mut told = raw::Reply::default();
        // SAFETY: see `raw`.
        let status = unsafe { raw::cast_c_world_round(self.handle.get_mut(), &mut told) };
        accept(status, &told)?;
        Ok(told.number)
    }

    /// The number of items that `node` delivered from `sender`, if both are nodes.
    pub fn delivered_count(&self, node: u8, sender: u8) -> Option<u64> {
        let mut count = 0;
        // SAFETY: see `raw`.
        let status = unsafe { raw::cast_c_world_delivered(self.handle.get(), node, sender, &mut count) };
        (status == raw::DONE).then_some(count)
    }

    /// The item with this number, from 0, of those that `node` delivered from `sender`.
    pub fn item(&self, node: u8, sender: u8, number: u64) -> Result<Option<Item>, OutOfMemory> {
        // SAFETY: see `raw`.
        read_item(|told, room| unsafe {
            raw::cast_c_world_item(self.handle.get(), node, sender, number, told, room.as_mut_ptr(), room.len())
        })
    }

    /// The items that `node` delivered from `sender`, in order; none if one of them is no node.
    ///
    /// ```
    /// use castgroup::{Config, Event, Item, World};
    ///
    /// let mut world = World::new(&Config::of(2, 0))?;
    /// world.step(&Event::order(0, "a"))?;
    /// world.round()?;
    /// assert_eq!(world.delivered(1, 0).collect::<Result<Vec<_>, _>>()?, [Item::from("a")]);
    /// # Ok::<(), Box<dyn std::error::Error>>(())
    /// ```
    pub fn delivered(&self, node: u8, sender: u8) -> impl Iterator<Item = Result<Item, OutOfMemory>> + '_ {
        (0..).map_while(move |number| self.item(node, sender, number).transpose())
    }

    /// The number of items that `node` broadcast, if it is a node.
    pub fn stream_count(&self, node: u8) -> Option<u64> {
        let mut count = 0;
        // SAFETY: see `raw`.
        let status = unsafe { raw::cast_c_world_stream(self.handle.get(), node, &mut count) };
        (status == raw::DONE).then_some(count)
    }

    /// The items that `node` broadcast, in order; none if it is no node.
    pub fn stream(&self, node: u8) -> impl Iterator<Item = Result<Item, OutOfMemory>> + '_ {
        (0..).map_while(move |number| self.stream_item(node, number).transpose())
    }

    fn stream_item(&self, node: u8, number: u64) -> Result<Option<Item>, OutOfMemory> {
        // SAFETY: see `raw`.
        read_item(|told, room| unsafe {
            raw::cast_c_world_stream_item(self.handle.get(), node, number, told, room.as_mut_ptr(), room.len())
        })
    }

    /// What a step delivered at `node`, given the outcome in its reply.
    pub fn deliveries_of(&self, node: u8, outcome: Outcome) -> impl Iterator<Item = Result<Delivery, OutOfMemory>> + '_ {
        let numbers = outcome.first..outcome.first + outcome.deliveries;
        numbers.map_while(move |number| {
            let item = self.item(node, outcome.sender, number).transpose()?;
            Some(item.map(|item| Delivery { sender: outcome.sender, number, item }))
        })
    }

    /// The decisions of a step at `node`, given the outcome in its reply, in the order of the deliveries that caused
    /// them. It must be called before the group takes another event.
    ///
    /// ```
    /// use castgroup::{Config, Decision, Event, World};
    ///
    /// let mut world = World::new(&Config::of(1, 0))?;
    /// let event = Event::propose(0, 7, 3);
    /// let (node, outcome) = world.step(&event)?.outcome(&event).unwrap();
    /// assert_eq!(world.decisions_of(node, outcome)?, [Decision { instance: 7, value: 3 }]);
    /// # Ok::<(), Box<dyn std::error::Error>>(())
    /// ```
    pub fn decisions_of(&self, node: u8, outcome: Outcome) -> Result<Vec<Decision>, OutOfMemory> {
        let mut decisions = Vec::new();
        decisions.try_reserve_exact(outcome.decisions as usize)?;
        if outcome.decisions == 0 {
            return Ok(decisions);
        }
        for delivery in self.deliveries_of(node, outcome) {
            let Item::Propose { instance, .. } = delivery?.item else {
                continue;
            };
            match self.decision(node, instance) {
                Some(value) if !self.had_decided(node, instance, outcome.sender)? => decisions.push(Decision { instance, value }),
                _ => {}
            }
        }
        Ok(decisions)
    }

    /// Whether a node had decided in an instance before it delivered this sender's proposal there: the first n - f
    /// proposals decide.
    fn had_decided(&self, node: u8, instance: u64, sender: u8) -> Result<bool, OutOfMemory> {
        let mut proposals = 0;
        for other in (0..self.config.nodes as u8).filter(|&other| other != sender) {
            for item in self.delivered(node, other) {
                if matches!(item?, Item::Propose { instance: found, .. } if found == instance) {
                    proposals += 1;
                    break;
                }
            }
        }
        Ok(proposals >= self.config.nodes - self.config.faults)
    }

    /// The value that `node` decided in the instance, if it did.
    pub fn decision(&self, node: u8, instance: u64) -> Option<u64> {
        let (mut is_decided, mut value) = (false, 0);
        // SAFETY: see `raw`.
        unsafe { raw::cast_c_world_decision(self.handle.get(), node, instance, &mut is_decided, &mut value) };
        is_decided.then_some(value)
    }

    /// The number of unacknowledged slots that `from` gave `to`, if both are nodes and differ.
    pub fn owed(&self, from: u8, to: u8) -> Option<u64> {
        let mut count = 0;
        // SAFETY: see `raw`.
        let status = unsafe { raw::cast_c_world_owed(self.handle.get(), from, to, &mut count) };
        (status == raw::DONE).then_some(count)
    }

    /// Whether `node` belongs to the group and has not crashed.
    pub fn live(&self, node: u8) -> bool {
        let mut is_so = false;
        // SAFETY: see `raw`.
        unsafe { raw::cast_c_world_live(self.handle.get(), node, &mut is_so) };
        is_so
    }

    /// Whether no live node owes a live node a slot. If so, live nodes have delivered the same.
    pub fn at_rest(&self) -> bool {
        let mut is_so = false;
        // SAFETY: see `raw`.
        unsafe { raw::cast_c_world_at_rest(self.handle.get(), &mut is_so) };
        is_so
    }

    /// The frame with this number, from 0, of those that `node` made, if it made one.
    ///
    /// ```
    /// use castgroup::{Config, Event, Frame, World};
    ///
    /// let mut world = World::new(&Config::of(2, 0))?;
    /// world.step(&Event::order(0, "a"))?;
    /// world.step(&Event::send(0, 1, 0))?;
    /// assert_eq!(world.frame(0, 0)?, Some(Frame::Carry { to: 1, slot: 0, sender: 0, number: 0 }));
    /// assert_eq!(world.frame(0, 1)?, None);
    /// # Ok::<(), Box<dyn std::error::Error>>(())
    /// ```
    pub fn frame(&self, node: u8, number: u64) -> Result<Option<Frame>, OutOfMemory> {
        let mut told = raw::Frame::default();
        // SAFETY: see `raw`.
        match unsafe { raw::cast_c_world_frame(self.handle.get(), node, number, &mut told) } {
            raw::DONE => Ok(Some(Frame::of_numbers(&told))),
            raw::REFUSED => Ok(None),
            _ => Err(OutOfMemory),
        }
    }

    /// The events that may happen next and yield something new, apart from orders and crashes. For each slot that a live
    /// node owes another, there is its send, and its acknowledgement if it was taken. After these, there is the arrival
    /// of each frame that tells a live node something. The group would refuse none of them.
    ///
    /// If there is no event, the group is at rest, or a live node can make no more frames. A call looks at every slot
    /// that is owed and at every frame that was made.
    ///
    /// ```
    /// use castgroup::{Config, Event, World};
    ///
    /// let mut world = World::new(&Config::of(3, 1))?;
    /// world.step(&Event::order(0, "a"))?;
    /// assert_eq!(world.events_enabled()?, [Event::send(0, 1, 0), Event::send(0, 2, 0)]);
    /// # Ok::<(), Box<dyn std::error::Error>>(())
    /// ```
    pub fn events_enabled(&self) -> Result<Vec<Event>, OutOfMemory> {
        read_events(|places, count| {
            // SAFETY: see `raw`.
            unsafe { raw::cast_c_world_enabled(self.handle.get(), places.as_mut_ptr(), places.len(), count) }
        })
    }

    /// The events that [`round`](World::round) would take now, in order: for each slot that a live node owes another, a
    /// send, its arrival, an acknowledgement, and its arrival. Frames are numbered as if a node could make any number of
    /// them.
    ///
    /// ```
    /// use castgroup::{Config, Event, World};
    ///
    /// let mut world = World::new(&Config::of(2, 0))?;
    /// world.step(&Event::order(0, "a"))?;
    /// let events = world.round_plan()?;
    /// assert_eq!(events, [Event::send(0, 1, 0), Event::arrive(0, 0), Event::ack(1, 0, 0), Event::arrive(1, 0)]);
    /// # Ok::<(), Box<dyn std::error::Error>>(())
    /// ```
    pub fn round_plan(&self) -> Result<Vec<Event>, OutOfMemory> {
        read_events(|places, count| {
            // SAFETY: see `raw`.
            unsafe { raw::cast_c_world_plan(self.handle.get(), places.as_mut_ptr(), places.len(), count) }
        })
    }
}

/// Reads events, and reads them again if the first buffer was too short.
fn read_events(mut read: impl FnMut(&mut [raw::Event], &mut u64) -> u32) -> Result<Vec<Event>, OutOfMemory> {
    let (mut places, mut count, mut room) = (Vec::new(), 0, FIRST_PLACES);
    loop {
        places.try_reserve_exact(room.saturating_sub(places.len()))?;
        places.resize_with(room, raw::Event::default);
        match read(&mut places, &mut count) {
            raw::DONE => break,
            raw::TOO_SHORT => room = count as usize,
            _ => return Err(OutOfMemory),
        }
    }
    places.truncate(count as usize);
    let mut events = Vec::new();
    events.try_reserve_exact(places.len())?;
    events.extend(places.iter().map(Event::of_numbers));
    Ok(events)
}

fn read_item(read: impl FnOnce(&mut raw::Item, &mut [u8]) -> u32) -> Result<Option<Item>, OutOfMemory> {
    let mut told = raw::Item::default();
    let mut room = [0; MOST_BYTES];
    if read(&mut told, &mut room) != raw::DONE {
        return Ok(None);
    }
    Ok(Some(match told.kind {
        0 => {
            let mut bytes = Vec::new();
            bytes.try_reserve_exact(told.length as usize)?;
            bytes.extend_from_slice(&room[..told.length as usize]);
            Item::Data(bytes)
        }
        1 => Item::Propose { instance: told.instance, value: told.value },
        _ => Item::Close,
    }))
}

fn accept(status: u32, told: &raw::Reply) -> Result<(), StepError> {
    if status != raw::DONE {
        return Err(StepError::OutOfMemory);
    }
    Refusal::from_code(told.code).map_or(Ok(()), |refusal| Err(StepError::Refused(refusal)))
}

impl Drop for World {
    fn drop(&mut self) {
        // SAFETY: see `raw`.
        unsafe { raw::cast_c_world_drop(self.handle.get_mut()) }
    }
}
