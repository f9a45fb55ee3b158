//! The lines of a record, for callers that write one step by step.
use crate::error::{OutOfMemory, StepError};
use crate::event::{Config, Event, Mode, Reply};
use crate::world::World;
use std::fmt::{self, Write};

/// The most nodes of a `cast/1` head.
const MOST_OF_FIRST: u64 = 16;

/// A text that grows, unless memory runs out.
struct Text<'a>(&'a mut String);

impl Write for Text<'_> {
    fn write_str(&mut self, words: &str) -> fmt::Result {
        self.0.try_reserve(words.len()).map_err(|_| fmt::Error)?;
        self.0.push_str(words);
        Ok(())
    }
}

fn line(record: &mut String, words: fmt::Arguments<'_>) -> Result<(), OutOfMemory> {
    let mut text = Text(record);
    text.write_fmt(words).and_then(|()| text.write_char('\n')).map_err(|_| OutOfMemory)
}

impl Config {
    /// Adds the head of the record of a group with this configuration.
    pub fn write_head(&self, record: &mut String) -> Result<(), OutOfMemory> {
        let Config { nodes, faults, choices, mode, .. } = self;
        if *mode == Mode::Basic && *nodes <= MOST_OF_FIRST {
            return line(record, format_args!("cast/1 {nodes} {faults} {choices}"));
        }
        line(record, format_args!("cast/2 {nodes} {faults} {choices} {mode}"))
    }
}

impl World {
    /// Adds the lines of a record that `run` writes for this event, element `index` of the script, and this answer. It
    /// must be called before the group takes another event. A record begins with [`Config::write_head`] and ends with
    /// the line `end`.
    ///
    /// ```
    /// use castgroup::{Config, Event, World};
    ///
    /// let config = Config::of(2, 0);
    /// let mut record = String::new();
    /// config.write_head(&mut record)?;
    /// let mut world = World::new(&config)?;
    /// for (index, event) in [Event::order(0, "a"), Event::crash(9)].iter().enumerate() {
    ///     let answer = world.step(event);
    ///     world.write_lines_of(index as u64, event, &answer, &mut record)?;
    /// }
    /// assert_eq!(record, "cast/1 2 0 1\nb 0 0 data:61\nd 0 0 0 data:61\nr 1 1\n");
    /// # Ok::<(), Box<dyn std::error::Error>>(())
    /// ```
    pub fn write_lines_of(
        &self,
        index: u64,
        event: &Event,
        answer: &Result<Reply, StepError>,
        record: &mut String,
    ) -> Result<(), OutOfMemory> {
        let reply = match answer {
            Ok(reply) => reply,
            Err(StepError::Refused(refusal)) => return line(record, format_args!("r {index} {}", refusal.code())),
            Err(StepError::OutOfMemory) => return Err(OutOfMemory),
        };
        match (event, reply) {
            (Event::Order { node, item }, Reply::Ordered { number, .. }) => line(record, format_args!("b {node} {number} {item}"))?,
            (Event::Crash { node }, Reply::Down) => line(record, format_args!("x {node}"))?,
            _ => {}
        }
        let Some((node, outcome)) = reply.outcome(event) else {
            return Ok(());
        };
        for delivery in self.deliveries_of(node, outcome) {
            let delivery = delivery?;
            line(record, format_args!("d {node} {} {} {}", delivery.sender, delivery.number, delivery.item))?;
        }
        for decision in self.decisions_of(node, outcome)? {
            line(record, format_args!("v {node} {} {}", decision.instance, decision.value))?;
        }
        Ok(())
    }
}
