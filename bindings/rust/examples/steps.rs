//! Measures how long a group takes for about a million events that Rust hands over one by one. It compares this with
//! `run`, the call of `castgroup run`, for the same events.
//!
//! usage: steps [NODES [ITEMS]]
//!
//! Each of the nodes (8) broadcasts this many items (640), and two rounds bring them to all nodes. `run` takes the
//! orders and a settle, so it reads and writes little; the time of the orders alone is subtracted from its time. The
//! program prints the least of five times each, and the time from Rust divided by that of `run` for the rounds alone.
use castgroup::{run, Config, Event, Item, World};
use std::time::{Duration, Instant};

const ROUNDS: usize = 5;

fn orders(nodes: u8, items: usize) -> Vec<Event> {
    let all = (0..items).flat_map(|_| 0..nodes);
    all.map(|node| Event::Order { node, item: Item::Data(b"abcdefgh".to_vec()) }).collect()
}

/// The orders, and the events of two rounds, in which no frame is lost.
fn events(nodes: u8, items: usize) -> Vec<Event> {
    let mut world = World::new(&Config::of(nodes.into(), 0)).expect("a configuration");
    let mut all = orders(nodes, items);
    for event in &all {
        world.step(event).expect("an order");
    }
    let count = usize::from(nodes);
    let (mut acked, mut made) = (vec![vec![0; count]; count], vec![0; count]);
    for _ in 0..2 {
        let due: Vec<_> = (0..nodes)
            .flat_map(|from| (0..nodes).map(move |to| (from, to)))
            .filter_map(|(from, to)| world.owed(from, to).map(|owed| (from, to, owed)))
            .collect();
        for (from, to, owed) in due {
            let (p, q) = (usize::from(from), usize::from(to));
            for slot in acked[p][q]..acked[p][q] + owed {
                let carry = [Event::Send { from, to, slot }, Event::Arrive { from, seq: made[p] }];
                let took = [Event::Ack { from: to, to: from, slot }, Event::Arrive { from: to, seq: made[q] }];
                made[p] += 1;
                made[q] += 1;
                for event in carry.into_iter().chain(took) {
                    world.step(&event).expect("an event of a round");
                    all.push(event);
                }
            }
            acked[p][q] += owed;
        }
    }
    assert!(world.at_rest());
    all
}

fn script(nodes: u8, items: usize, settle: &str) -> String {
    let order = |event: &Event| match event {
        Event::Order { node, .. } => format!(r#"["order",{node},"data","6162636465666768"]"#),
        _ => String::new(),
    };
    let mut events: Vec<String> = orders(nodes, items).iter().map(order).collect();
    events.extend((!settle.is_empty()).then(|| settle.to_string()));
    format!(r#"{{"nodes":{nodes},"faults":0,"choices":1,"events":[{}]}}"#, events.join(","))
}

fn least(mut run: impl FnMut()) -> Duration {
    let times = (0..ROUNDS).map(|_| {
        let begin = Instant::now();
        run();
        begin.elapsed()
    });
    times.min().unwrap_or_default()
}

fn main() {
    let words: Vec<String> = std::env::args().skip(1).collect();
    let word = |place: usize, usual: usize| words.get(place).map_or(usual, |word| word.parse().expect("a number"));
    let (nodes, items) = (word(0, 8) as u8, word(1, 640));
    let events = events(nodes, items);
    let stepped = least(|| {
        let mut world = World::new(&Config::of(nodes.into(), 0)).expect("a configuration");
        for event in &events {
            world.step(event).expect("an event");
        }
    });
    let (with, without) = (script(nodes, items, r#"["settle"]"#), script(nodes, items, ""));
    let taken = |script: &str| least(|| assert!(run(script.as_bytes()).is_ok()));
    let (settled, read) = (taken(&with), taken(&without));
    let played = settled.saturating_sub(read);
    println!("{} events: {stepped:.0?} from Rust; run {settled:.0?}, of which {read:.0?} with the orders alone", events.len());
    println!("{:.2} times what run takes for the rounds", stepped.as_secs_f64() / played.as_secs_f64());
}
