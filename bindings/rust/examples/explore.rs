//! Explores what can happen in a small group. It goes breadth first over the events that may come next, and checks each state.
//!
//! usage: explore [STATES]      looks at no more than this many states (5,000) for each check
//!
//! Nodes 0 and 1 of three broadcast an item each. Any frame may get lost or come late, and node 0 may crash. The first check
//! holds in each state, as is proved of every group. The second one does not: nodes deliver the items of two senders in any
//! order. The shortest list of events to a state where a check fails is written as a script, and `castgroup draw --html`
//! makes a page of it.
use castgroup::{Config, Event, OutOfMemory, World};
use std::collections::{BTreeSet, HashSet, VecDeque};
use std::error::Error;

/// A group, and the senders from which each node delivered, in order. Each sender has one item.
struct State {
    world: World,
    delivered: Vec<Vec<u8>>,
}

impl State {
    /// A group can't be copied, so a new one takes the events of the path.
    fn after(config: &Config, path: &[Event]) -> Result<State, Box<dyn Error>> {
        let mut state = State { world: World::new(config)?, delivered: vec![Vec::new(); config.nodes as usize] };
        for event in path {
            if let Some((node, outcome)) = state.world.step(event)?.outcome(event) {
                state.delivered[usize::from(node)].extend((0..outcome.deliveries).map(|_| outcome.sender));
            }
        }
        Ok(state)
    }

    /// What tells states apart: what was delivered, and what may come next. A frame is shown by what it carries, so a frame
    /// that is made again leads to no new state.
    fn shown(&self, next: &[Event]) -> Result<(Vec<Vec<u8>>, BTreeSet<String>), OutOfMemory> {
        let mut words = BTreeSet::new();
        for event in next {
            words.insert(match *event {
                Event::Arrive { from, seq } => format!("{from}: {:?}", self.world.frame(from, seq)?),
                _ => event.to_string(),
            });
        }
        Ok((self.delivered.clone(), words))
    }

    /// Whether live nodes have delivered the same, if the group is at rest.
    fn agrees_at_rest(&self) -> bool {
        let live = (0..).zip(&self.delivered).filter(|(node, _)| self.world.live(*node));
        let told: HashSet<_> = live.map(|(_, senders)| BTreeSet::from_iter(senders)).collect();
        !self.world.at_rest() || told.len() == 1
    }

    /// Whether no node delivered an item of sender 0 before one of sender 1, and another one the reverse.
    fn has_one_order(&self) -> bool {
        ![[0, 1], [1, 0]].iter().all(|order| self.delivered.iter().any(|senders| senders == order))
    }
}

/// Says in how many states the check holds, or writes the shortest list of events to one where it fails.
fn explore(name: &str, check: fn(&State) -> bool, most: usize) -> Result<(), Box<dyn Error>> {
    let config = Config::of(3, 1);
    let mut paths = VecDeque::from([vec![Event::order(0, "a"), Event::order(1, "b")]]);
    let mut seen = HashSet::new();
    while let Some(path) = paths.pop_front().filter(|_| seen.len() < most) {
        let state = State::after(&config, &path)?;
        let mut next = state.world.events_enabled()?;
        next.extend(state.world.live(0).then(|| Event::crash(0)));
        if !seen.insert(state.shown(&next)?) {
            continue;
        }
        if !check(&state) {
            eprintln!("{name}: false in state {}, after {} events", seen.len(), path.len());
            let events: Vec<String> = path.iter().map(Event::to_string).collect();
            println!("{{{config},\"events\":[{}]}}", events.join(","));
            return Ok(());
        }
        paths.extend(next.into_iter().map(|event| [path.as_slice(), &[event]].concat()));
    }
    eprintln!("{name}: true in {} states", seen.len());
    Ok(())
}

fn main() -> Result<(), Box<dyn Error>> {
    let most = std::env::args().nth(1).map_or(Ok(5_000), |word| word.parse())?;
    explore("at rest, live nodes have delivered the same", State::agrees_at_rest, most)?;
    explore("all nodes deliver in one order", State::has_one_order, most)
}
