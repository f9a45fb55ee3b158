//! Random scripts, how a group takes them event by event, and the program to compare with, which CASTGROUP names.
#![allow(dead_code)] // each test uses some of it
use castgroup::{Config, Event, Frame, Item, Mode, Outcome, Reply, StepError, World};
use std::collections::HashSet;
use std::io::Write;
use std::process::{Command, Stdio};

/// Random numbers, each made from the last (Marsaglia's xorshift).
pub struct Numbers(pub u64);

impl Numbers {
    pub fn below(&mut self, bound: u64) -> u64 {
        self.0 ^= self.0 << 13;
        self.0 ^= self.0 >> 7;
        self.0 ^= self.0 << 17;
        self.0 % bound
    }
}

/// An element of a script.
pub enum Element {
    Event(Event),
    Settle,
}

/// A script that grows with its group.
pub struct Group {
    pub config: Config,
    pub elements: Vec<Element>,
    pub record: String,
    /// The record so far, as the group writes it.
    pub written: String,
    pub world: World,
    // For each of a node's frames: the target, the slot, and whether it acknowledges.
    frames: Vec<Vec<(u8, u64, bool)>>,
    taken: HashSet<(u8, u8, u64)>,
    acked: HashSet<(u8, u8, u64)>,
    decided: HashSet<(u8, u64)>,
}

impl Group {
    pub fn new(config: Config) -> Group {
        let world = World::new(&config).expect("a good configuration");
        let (nodes, faults, choices) = (config.nodes, config.faults, config.choices);
        let head = match config.mode {
            Mode::Basic if nodes <= 16 => format!("cast/1 {nodes} {faults} {choices}\n"),
            Mode::Basic => format!("cast/2 {nodes} {faults} {choices} basic\n"),
            Mode::Uniform => format!("cast/2 {nodes} {faults} {choices} uniform\n"),
        };
        let frames = vec![Vec::new(); nodes as usize];
        let mut written = String::new();
        config.write_head(&mut written).expect("memory");
        Group {
            config,
            written,
            elements: Vec::new(),
            record: head,
            world,
            frames,
            taken: HashSet::new(),
            acked: HashSet::new(),
            decided: HashSet::new(),
        }
    }

    fn given(&self, from: u8, to: u8) -> u64 {
        let acked = self.acked.iter().filter(|key| (key.0, key.1) == (from, to)).count() as u64;
        self.world.owed(from, to).map_or(0, |owed| owed + acked)
    }

    /// Takes an event of the script, and writes its lines.
    pub fn take(&mut self, event: Event) {
        let index = self.elements.len();
        self.step(&event, index);
        self.elements.push(Element::Event(event));
    }

    /// Takes two rounds, slot by slot, up to a refused event.
    pub fn settle(&mut self) {
        self.look_ahead();
        let index = self.elements.len();
        self.elements.push(Element::Settle);
        for _ in 0..2 {
            for event in self.round() {
                if !self.step(&event, index) {
                    return;
                }
            }
        }
    }

    // The events of one round, as docs/FORMATS.md defines them.
    fn round(&self) -> Vec<Event> {
        let live: Vec<u8> = (0..self.config.nodes as u8).filter(|&node| self.world.live(node)).collect();
        let mut made: Vec<u64> = self.frames.iter().map(|row| row.len() as u64).collect();
        let mut events = Vec::new();
        for &from in &live {
            for &to in live.iter().filter(|&&to| to != from) {
                for slot in (0..self.given(from, to)).filter(|&slot| !self.acked.contains(&(from, to, slot))) {
                    events.push(Event::Send { from, to, slot });
                    events.push(Event::Arrive { from, seq: made[from as usize] });
                    events.push(Event::Ack { from: to, to: from, slot });
                    events.push(Event::Arrive { from: to, seq: made[to as usize] });
                    made[from as usize] += 1;
                    made[to as usize] += 1;
                }
            }
        }
        events
    }

    // The events that may happen next and yield something new: those that make a frame for a slot that is due, and the arrivals of
    // frames whose slot the target has not taken, or still owes.
    fn enabled(&self) -> Vec<Event> {
        let mut events = Vec::new();
        for event in self.round() {
            let Event::Send { from, to, slot } = event else { continue };
            events.push(event);
            events.extend(self.taken.contains(&(from, to, slot)).then_some(Event::Ack { from: to, to: from, slot }));
        }
        for (from, made) in (0..).zip(&self.frames) {
            for (seq, &(to, slot, acks)) in (0..).zip(made) {
                let is_known = if acks { self.acked.contains(&(to, from, slot)) } else { self.taken.contains(&(from, to, slot)) };
                events.extend((self.world.live(to) && !is_known).then_some(Event::Arrive { from, seq }));
            }
        }
        events
    }

    /// The group says what may happen next, and which events a round has.
    pub fn look_ahead(&self) {
        assert_eq!(self.world.events_enabled().expect("memory"), self.enabled());
        assert_eq!(self.world.round_plan().expect("memory"), self.round());
    }

    // Returns whether the event was accepted.
    fn step(&mut self, event: &Event, index: usize) -> bool {
        let answer = self.world.step(event);
        self.world.write_lines_of(index as u64, event, &answer, &mut self.written).expect("memory");
        let reply = match answer {
            Ok(reply) => reply,
            Err(StepError::Refused(refusal)) => {
                self.record += &format!("r {index} {}\n", refusal.code());
                return false;
            }
            Err(StepError::OutOfMemory) => panic!("out of memory"),
        };
        match (event, &reply) {
            (Event::Order { node, item }, Reply::Ordered { number, outcome }) => {
                self.record += &format!("b {node} {number} {}\n", word(item));
                self.tell(*node, outcome);
            }
            (Event::Send { from, to, slot }, Reply::Sent { seq }) => self.make(*from, *seq, (*to, *slot, false)),
            (Event::Ack { from, to, slot }, Reply::Sent { seq }) => self.make(*from, *seq, (*to, *slot, true)),
            (Event::Arrive { from, seq }, Reply::Arrived { node, outcome }) => {
                let (to, slot, acks) = self.frames[*from as usize][*seq as usize];
                assert_eq!(to, *node);
                if acks {
                    self.acked.insert((to, *from, slot));
                } else {
                    self.taken.insert((*from, to, slot));
                }
                self.tell(*node, outcome);
            }
            (Event::Crash { node }, Reply::Down) => self.record += &format!("x {node}\n"),
            _ => panic!("{event:?} was answered by {reply:?}"),
        }
        true
    }

    fn make(&mut self, from: u8, seq: u64, frame: (u8, u64, bool)) {
        let row = &mut self.frames[from as usize];
        assert_eq!(row.len() as u64, seq);
        row.push(frame);
        let told = match self.world.frame(from, seq).expect("memory").expect("a frame that was made") {
            Frame::Carry { to, slot, .. } => (to, slot, false),
            Frame::Took { to, slot } => (to, slot, true),
        };
        assert_eq!(told, frame);
    }

    fn tell(&mut self, node: u8, outcome: &Outcome) {
        let sender = outcome.sender;
        let mut decisions = Vec::new();
        for number in outcome.first..outcome.first + outcome.deliveries {
            let item = self.world.item(node, sender, number).ok().flatten().expect("a delivered item");
            self.record += &format!("d {node} {sender} {number} {}\n", word(&item));
            if let Item::Propose { instance, .. } = item {
                if let (Some(value), true) = (self.world.decision(node, instance), !self.decided.contains(&(node, instance))) {
                    self.decided.insert((node, instance));
                    decisions.push((instance, value));
                }
            }
        }
        assert_eq!(decisions.len() as u64, outcome.decisions);
        for (instance, value) in decisions {
            self.record += &format!("v {node} {instance} {value}\n");
        }
    }

    /// The script as JSON.
    pub fn script(&self) -> String {
        let mode = if self.config.mode == Mode::Basic { "basic" } else { "uniform" };
        let events: Vec<String> = self.elements.iter().map(json).collect();
        format!(
            r#"{{"nodes":{},"faults":{},"choices":{},"item_limit":{},"mode":"{mode}","events":[{}]}}"#,
            self.config.nodes,
            self.config.faults,
            self.config.choices,
            self.config.item_limit,
            events.join(",")
        )
    }
}

fn hex(bytes: &[u8]) -> String {
    bytes.iter().map(|byte| format!("{byte:02x}")).collect()
}

fn word(item: &Item) -> String {
    match item {
        Item::Data(bytes) => format!("data:{}", hex(bytes)),
        Item::Propose { instance, value } => format!("prop:{instance}:{value}"),
        Item::Close => "close".to_string(),
    }
}

fn json(element: &Element) -> String {
    match element {
        Element::Settle => r#"["settle"]"#.to_string(),
        Element::Event(Event::Order { node, item }) => match item {
            Item::Data(bytes) => format!(r#"["order",{node},"data","{}"]"#, hex(bytes)),
            Item::Propose { instance, value } => format!(r#"["order",{node},"propose",{instance},{value}]"#),
            Item::Close => format!(r#"["order",{node},"close"]"#),
        },
        Element::Event(Event::Send { from, to, slot }) => format!(r#"["send",{from},{to},{slot}]"#),
        Element::Event(Event::Ack { from, to, slot }) => format!(r#"["ack",{from},{to},{slot}]"#),
        Element::Event(Event::Arrive { from, seq }) => format!(r#"["arrive",{from},{seq}]"#),
        Element::Event(Event::Crash { node }) => format!(r#"["crash",{node}]"#),
    }
}

/// A group that took random events, some of them refused.
pub fn random_group(numbers: &mut Numbers) -> Group {
    let nodes = 1 + numbers.below(6);
    let faults = numbers.below(nodes);
    let uniform = 2 * faults < nodes && numbers.below(2) == 0;
    let mut group = Group::new(Config {
        choices: 1 + numbers.below(nodes),
        item_limit: 1 + numbers.below(12),
        mode: if uniform { Mode::Uniform } else { Mode::Basic },
        ..Config::of(nodes, faults)
    });
    for _ in 0..numbers.below(120) {
        let node = (numbers.below(20 * nodes + 1) % (nodes + 1)).min(numbers.below(nodes) + numbers.below(20) / 19) as u8;
        let to = numbers.below(nodes) as u8;
        match numbers.below(40) {
            0..=8 => {
                let item = random_item(numbers);
                group.take(Event::Order { node, item });
            }
            9..=19 => {
                let slot = numbers.below(group.given(node, to) + 1);
                group.take(Event::Send { from: node, to, slot });
            }
            20..=24 => {
                let slot = numbers.below(group.given(to, node) + 1);
                group.take(Event::Ack { from: node, to, slot });
            }
            25..=37 => {
                let made = group.frames.get(node as usize).map_or(0, |row| row.len() as u64);
                group.take(Event::Arrive { from: node, seq: numbers.below(made + 1) });
            }
            38 => group.settle(),
            _ => group.take(Event::Crash { node }),
        }
    }
    group.record += "end\n";
    group
}

fn random_item(numbers: &mut Numbers) -> Item {
    match numbers.below(12) {
        0 => Item::Close,
        1..=6 => Item::Propose { instance: numbers.below(3), value: numbers.below(9) },
        7 => Item::Data(vec![7; 1_020 + numbers.below(8) as usize]),
        _ => Item::Data((0..numbers.below(5)).map(|byte| byte as u8).collect()),
    }
}

/// What the program writes for an input, if CASTGROUP names it.
pub fn program(words: &[&str], input: &[u8]) -> Option<Vec<u8>> {
    let path = std::env::var_os("CASTGROUP")?;
    let mut child = Command::new(path).args(words).stdin(Stdio::piped()).stdout(Stdio::piped()).spawn().expect("the program");
    child.stdin.take().expect("its input").write_all(input).expect("it reads");
    Some(child.wait_with_output().expect("it ends").stdout)
}

/// The status and the summary of the program that merges these logs, if CASTGROUP names it.
pub fn merged(logs: &[Vec<u8>]) -> Option<(Option<i32>, String)> {
    let path = std::env::var_os("CASTGROUP")?;
    let folder = std::env::temp_dir().join(format!("castgroup-logs-{}", std::process::id()));
    std::fs::create_dir(&folder).expect("a folder");
    let names: Vec<_> = (0..logs.len()).map(|node| folder.join(format!("{node}.log"))).collect();
    for (name, log) in names.iter().zip(logs) {
        std::fs::write(name, log).expect("a file");
    }
    let done = Command::new(path).arg("merge").args(&names).output().expect("the program");
    std::fs::remove_dir_all(&folder).expect("a folder");
    Some((done.status.code(), String::from_utf8_lossy(&done.stdout).into_owned()))
}
