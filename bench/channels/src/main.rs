//! Threads that pass every item to every other through crossbeam's bounded channels: the baseline beside `castgroup
//! live`, without a protocol. Nothing is lost, logged or acknowledged, and no node passes on what it did not make. The
//! arguments are the numbers of nodes and of items per node. It prints deliveries, log entries (none), microseconds,
//! and that everything was delivered.

use crossbeam_channel::{bounded, Receiver, Sender};
use std::sync::Arc;
use std::thread;
use std::time::Instant;

/// How many items a channel holds: as many as a script's box by default.
const PLACES: usize = 64;

/// An item with its sender and its number; all copies share its payload of one byte.
#[derive(Clone)]
struct Message {
    sender: usize,
    number: u64,
    payload: Arc<[u8]>,
}

fn main() {
    let mut arguments = std::env::args()
        .skip(1)
        .map(|text| text.parse::<u64>().expect("an argument is no number"));
    let nodes = arguments.next().unwrap_or(2) as usize;
    let items = arguments.next().unwrap_or(1_000);
    let start = Instant::now();
    let deliveries = hand_all(nodes, items);
    let micros = start.elapsed().as_micros();
    let all = deliveries == nodes as u64 * nodes as u64 * items;
    println!("{deliveries} 0 {micros} {}", u64::from(all));
}

/// Runs a thread for each node, and returns how many messages all nodes delivered.
fn hand_all(nodes: usize, items: u64) -> u64 {
    let (senders, receivers): (Vec<Sender<Message>>, Vec<Receiver<Message>>) =
        (0..nodes).map(|_| bounded(PLACES)).unzip();
    let threads: Vec<_> = receivers
        .into_iter()
        .enumerate()
        .map(|(me, inbox)| {
            let peers = senders.clone();
            thread::spawn(move || run_node(me, items, &peers, &inbox))
        })
        .collect();
    drop(senders);
    threads
        .into_iter()
        .map(|node| node.join().expect("no node panics").len() as u64)
        .sum()
}

/// Broadcasts the items, each to all peers before the next, and delivers what arrives meanwhile. Returns what was
/// delivered.
fn run_node(me: usize, items: u64, peers: &[Sender<Message>], inbox: &Receiver<Message>) -> Vec<Message> {
    let wanted = peers.len() as u64 * items;
    let mut delivered = Vec::new();
    let payload: Arc<[u8]> = Arc::from(&b"a"[..]);
    for number in 0..items {
        let message = Message {
            sender: me,
            number,
            payload: Arc::clone(&payload),
        };
        for (to, peer) in peers.iter().enumerate() {
            if to != me {
                send(peer, message.clone(), inbox, &mut delivered);
            }
        }
        delivered.push(message);
    }
    while (delivered.len() as u64) < wanted {
        match inbox.recv() {
            Ok(message) => delivered.push(message),
            Err(_) => break,
        }
    }
    debug_assert!(in_order(&delivered));
    delivered
}

/// Sends when there is room, and meanwhile takes what arrives, so that no two nodes wait for each other.
fn send(peer: &Sender<Message>, message: Message, inbox: &Receiver<Message>, delivered: &mut Vec<Message>) {
    let mut message = message;
    while let Err(full) = peer.try_send(message) {
        message = full.into_inner();
        match inbox.try_recv() {
            Ok(taken) => delivered.push(taken),
            Err(_) => thread::yield_now(),
        }
    }
}

/// Whether each sender's messages are in the order of their numbers, each with its payload.
fn in_order(delivered: &[Message]) -> bool {
    let mut next = std::collections::HashMap::new();
    delivered.iter().all(|message| {
        let number = next.entry(message.sender).or_insert(0);
        *number += 1;
        message.number + 1 == *number && message.payload.len() == 1
    })
}
