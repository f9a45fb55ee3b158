//! A node of a group in a process of its own, over UDP on the loopback: a peer, with a socket, a clock and a log file
//! around it.
//!
//! usage: udp GROUP ME PORTS LOG ITEMS      node ME of as many nodes as there are PORTS, with commas between them
//!
//! The node broadcasts ITEMS items, at least one, and writes a line for each item that it delivers. It ends once it owes
//! nothing to any node that answers, and nothing came for a second. `castgroup merge` then makes one run of the logs of
//! all nodes. examples/peers/udp.py of the repository does the same in Python, so nodes of both may form a group. What
//! such a program must keep:
//!
//! 1. The log comes first: `save` writes its new lines and tells the peer, which gives out packets and news only then.
//! 2. Each number runs once: the log file must be new, so a process that starts again fails. Its node has crashed.
//! 3. Each start of a group has a new GROUP, drawn at random. A peer drops the packets of another start.
//! 4. A packet is a datagram. It may get lost, or come twice or late.
//! 5. Ticks are the program's: what isn't acknowledged is sent again after some of them.
use castgroup::{Config, Item, News, Peer, PeerError, Saving, LOG_END, MOST_PACKET};
use std::error::Error;
use std::fs::File;
use std::io::{ErrorKind, Write};
use std::net::{Ipv4Addr, SocketAddr, UdpSocket};
use std::time::{Duration, Instant};

const TICK: Duration = Duration::from_millis(10);
/// A packet is sent again after 64 ticks at the latest. So after this time without one, none is under way.
const LINGER: Duration = Duration::from_secs(1);
/// A node that was not heard of for so long is given up for good. That may be a mistake: no promise depends on it.
const PATIENCE: Duration = Duration::from_secs(10);
/// The most items that are ordered and not yet delivered.
const AHEAD: u64 = 8;

struct Node {
    peer: Peer,
    log: File,
    socket: UdpSocket,
    addresses: Vec<SocketAddr>,
    /// When each node was heard of.
    heard: Vec<Instant>,
    items: u64,
    ordered: u64,
    delivered: u64,
}

impl Node {
    /// Waits for a packet until a tick is over, and takes it.
    fn receive(&mut self) -> Result<(), Box<dyn Error>> {
        let mut packet = [0; MOST_PACKET + 1];
        let (length, from) = match self.socket.recv_from(&mut packet) {
            Ok(received) => received,
            // Nothing came, or a packet came back from a node that isn't there.
            Err(why) if matches!(why.kind(), ErrorKind::WouldBlock | ErrorKind::TimedOut | ErrorKind::ConnectionRefused) => return Ok(()),
            Err(why) => return Err(why.into()),
        };
        if let Some(node) = self.addresses.iter().position(|&address| address == from) {
            self.heard[node] = Instant::now();
        }
        match self.peer.receive(&packet[..length]) {
            Err(why @ (PeerError::Ended | PeerError::OutOfMemory)) => return Err(why.into()),
            Err(why) => eprintln!("a packet is dropped: {why}"),
            Ok(()) => {}
        }
        Ok(())
    }

    /// Orders, sends, saves and takes the news, until there is nothing to send and nothing to save.
    fn turn(&mut self) -> Result<(), Box<dyn Error>> {
        while self.ordered < self.items && self.ordered < self.delivered + AHEAD {
            self.peer.order(format!("item {} of node {}", self.ordered, self.peer.me()).into_bytes())?;
            self.ordered += 1;
        }
        loop {
            while let Some(packet) = self.peer.next_packet()? {
                // A packet that is not sent is lost.
                let _sent = self.socket.send_to(&packet.bytes, self.addresses[usize::from(packet.to)]);
            }
            if !self.peer.save(&mut self.log)? {
                break;
            }
        }
        while let Some(news) = self.peer.next_news()? {
            if let News::Delivered(delivery) = news {
                self.delivered += u64::from(delivery.sender == self.peer.me());
                let Item::Data(bytes) = &delivery.item else { continue };
                println!("{} {} {}", delivery.sender, delivery.number, String::from_utf8_lossy(bytes));
            }
        }
        Ok(())
    }

    fn tick(&mut self) {
        self.peer.tick();
        for (node, heard) in (0..).zip(&self.heard) {
            if node != self.peer.me() && heard.elapsed() > PATIENCE {
                self.peer.give_up(node);
            }
        }
    }

    fn has_ended(&self) -> bool {
        let is_silent = self.heard.iter().all(|heard| heard.elapsed() > LINGER);
        is_silent && self.delivered == self.items && self.peer.is_quiet()
    }
}

fn main() -> Result<(), Box<dyn Error>> {
    let words: Vec<String> = std::env::args().skip(1).collect();
    let [group, me, ports, path, items] = words.as_slice() else {
        return Err("usage: udp GROUP ME PORTS LOG ITEMS".into());
    };
    let ports: Vec<u16> = ports.split(',').map(str::parse).collect::<Result<_, _>>()?;
    let (me, nodes): (u8, u64) = (me.parse()?, ports.len() as u64);
    let addresses: Vec<SocketAddr> = ports.iter().map(|&port| (Ipv4Addr::LOCALHOST, port).into()).collect();
    let peer = Peer::new(&Config::of(nodes, (nodes - 1) / 2), group.parse()?, me, Saving::First)?;
    let log = File::options().write(true).create_new(true).open(path)?;
    let socket = UdpSocket::bind(addresses[usize::from(me)])?;
    socket.set_read_timeout(Some(TICK))?;
    let heard = vec![Instant::now(); addresses.len()];
    let mut node = Node { peer, log, socket, addresses, heard, items: items.parse()?, ordered: 0, delivered: 0 };
    let mut next_tick = Instant::now() + TICK;
    while !node.has_ended() {
        node.turn()?;
        node.receive()?;
        if Instant::now() >= next_tick {
            node.tick();
            next_tick = Instant::now() + TICK;
        }
    }
    node.log.write_all(LOG_END)?;
    Ok(())
}
