//! Peers: what is lost, repeated and reordered between them, what they drop, and what their logs hold.
mod common;

use castgroup::{Config, ConfigError, Decision, Item, News, OutOfMemory, Peer, PeerError, Refusal, Saving, LOG_END, MOST_PACKET};
use common::{merged, Numbers};
use std::error::Error;

const NODES: u8 = 3;
const GROUP: u64 = 0xfeed_beef;

fn peer(group: u64, me: u8) -> Peer {
    Peer::new(&Config::of(NODES.into(), 1), group, me, Saving::First).expect("a peer")
}

/// Peers whose packets come in any order; some are lost, and some come twice.
struct Network {
    peers: Vec<Peer>,
    logs: Vec<Vec<u8>>,
    news: Vec<Vec<News>>,
    under_way: Vec<(u8, Vec<u8>)>,
    numbers: Numbers,
}

impl Network {
    fn new(seed: u64) -> Network {
        let nodes = usize::from(NODES);
        Network {
            peers: (0..NODES).map(|me| peer(GROUP, me)).collect(),
            logs: vec![Vec::new(); nodes],
            news: vec![Vec::new(); nodes],
            under_way: Vec::new(),
            numbers: Numbers(seed),
        }
    }

    /// Takes all that a peer gives.
    fn turn(&mut self, node: usize) {
        let peer = &mut self.peers[node];
        loop {
            while let Some(packet) = peer.next_packet().expect("memory") {
                assert!(packet.place <= peer.log_length() && packet.bytes.len() <= MOST_PACKET);
                for _ in 0..[0, 1, 1, 2][self.numbers.below(4) as usize] {
                    self.under_way.push((packet.to, packet.bytes.clone()));
                }
            }
            if !peer.save(&mut self.logs[node]).expect("memory") {
                break;
            }
        }
        while let Some(news) = peer.next_news().expect("memory") {
            self.news[node].push(news);
        }
    }

    fn deliver(&mut self) {
        while !self.under_way.is_empty() {
            let place = self.numbers.below(self.under_way.len() as u64) as usize;
            let (to, bytes) = self.under_way.swap_remove(place);
            self.peers[usize::from(to)].receive(&bytes).expect("a packet of a peer");
        }
    }

    fn settle(&mut self) {
        for _ in 0..1_000 {
            (0..self.peers.len()).for_each(|node| self.turn(node));
            if self.peers.iter().all(Peer::is_quiet) {
                return;
            }
            self.deliver();
            self.peers.iter_mut().for_each(Peer::tick);
        }
        panic!("the peers did not come to rest");
    }

    fn delivered(&self, node: usize, sender: u8) -> Vec<&Item> {
        let of_sender = self.news[node].iter().filter_map(|news| match news {
            News::Delivered(delivery) if delivery.sender == sender => Some(&delivery.item),
            _ => None,
        });
        of_sender.collect()
    }
}

#[test]
fn peers_deliver_the_same_over_a_bad_network() {
    let mut network = Network::new(0x9e37_79b9_7f4a_7c15);
    let items = [Item::from("a"), Item::Data(vec![7; 1_024]), Item::Propose { instance: 9, value: 4 }, Item::Data(vec![]), Item::Close];
    for item in &items {
        network.peers.iter_mut().for_each(|peer| peer.order(item.clone()).expect("an order"));
    }
    network.settle();
    for node in 0..usize::from(NODES) {
        for sender in 0..NODES {
            assert_eq!(network.delivered(node, sender), items.iter().collect::<Vec<_>>());
        }
        let ordered: Vec<u64> = network.news[node].iter().filter_map(|news| match news {
            News::Ordered { number } => Some(*number),
            _ => None,
        }).collect();
        assert_eq!(ordered, [0, 1, 2, 3, 4]);
        assert!(network.news[node].contains(&News::Decided(Decision { instance: 9, value: 4 })));
    }
    let logs: Vec<Vec<u8>> = network.logs.iter().map(|log| [log, LOG_END].concat()).collect();
    if let Some((status, summary)) = merged(&logs) {
        assert_eq!((status, summary.ends_with("rest yes\nverdict good\n")), (Some(0), true), "{summary}");
    }
}

#[test]
fn nothing_goes_out_before_it_is_saved() {
    let mut first = peer(GROUP, 0);
    let mut log = Vec::new();
    first.order("a").unwrap();
    assert_eq!((first.next_packet(), first.next_news()), (Ok(None), Ok(None)));
    assert!(first.save(&mut log).unwrap() && !first.save(&mut log).unwrap());
    assert_eq!(first.next_news(), Ok(Some(News::Ordered { number: 0 })));
    assert_eq!(first.next_packet().unwrap().map(|packet| packet.bytes.len()), Some(48));
    let mut hasty = Peer::new(&Config::of(2, 0), GROUP, 0, Saving::Never).unwrap();
    hasty.order("a").unwrap();
    assert!(hasty.next_packet().unwrap().is_some() && hasty.next_news().unwrap().is_some());
    first.give_up(1);
    first.give_up(2);
    assert_eq!((first.is_quiet(), first.next_packet().map(|packet| packet.is_some())), (false, Ok(true)));
    assert!(first.is_quiet());
}

#[test]
fn the_log_has_a_line_for_each_entry() {
    let mut peer = peer(GROUP, 1);
    let mut log = Vec::new();
    assert!(peer.save(&mut log).unwrap());
    assert_eq!(log, format!("cast-log/1 3 1 2 basic 4096 {GROUP} 1\n").into_bytes());
    peer.order(vec![0xab; 1_024]).unwrap();
    assert_eq!(peer.order(vec![0; 1_025]), Err(PeerError::Refused(Refusal::TooLong)));
    assert_eq!((peer.log_length(), peer.log_line(3), peer.log_line(u64::MAX)), (2, Ok(None), Ok(None)));
    let lines: Vec<Vec<u8>> = (0..3).map(|place| peer.log_line(place).unwrap().unwrap()).collect();
    assert!(lines[1].len() > 4_096 && lines[1].ends_with(b"ab\n") && lines[2].ends_with(b" refused 5\n"));
    peer.save(&mut log).unwrap();
    assert_eq!(log, lines.concat());
    let full = peer.save(&mut [0; 0].as_mut_slice());
    assert_eq!(full.ok(), Some(false));
    peer.order("b").unwrap();
    assert!(peer.save(&mut [0; 4].as_mut_slice()).is_err());
}

#[test]
fn what_is_no_packet_for_it_is_dropped_for_its_cause() {
    let (mut maker, mut other) = (peer(GROUP, 0), peer(GROUP, 1));
    maker.order("a").unwrap();
    maker.next_packet().unwrap();
    maker.save(&mut Vec::new()).unwrap();
    let packet = std::iter::from_fn(|| maker.next_packet().unwrap()).find(|packet| packet.to == 1).unwrap().bytes;
    let mut changed = |place: usize, byte: u8| {
        let mut bytes = packet.clone();
        bytes[place] = byte;
        other.receive(&bytes).unwrap_err()
    };
    assert_eq!([changed(0, 0), changed(2, 2), changed(3, 9)], [PeerError::Foreign, PeerError::Version, PeerError::Kind]);
    assert_eq!([changed(4, 0), changed(21, 2), changed(20, 1)], [PeerError::OtherGroup, PeerError::NotForMe, PeerError::Impossible]);
    assert_eq!(changed(3, 0), PeerError::Long);
    let last = [&packet[..12], &[255; 8], &packet[20..]].concat();
    assert_eq!(other.receive(&last), Err(PeerError::LastStamp));
    assert_eq!(other.receive(&packet[..46]), Err(PeerError::Short));
    assert_eq!(other.receive(b""), Err(PeerError::Short));
    assert_eq!((other.receive(&packet), other.receive(&packet)), (Ok(()), Ok(())));
    assert!(!other.is_quiet() && format!("{other:?}").contains("me: 1"));
}

#[test]
fn an_ended_peer_and_a_wrong_one() {
    let config = Config { log_limit: 1, ..Config::of(2, 0) };
    let mut full = Peer::new(&config, GROUP, 0, Saving::First).unwrap();
    full.order("a").unwrap();
    assert_eq!((full.order("b"), full.config().log_limit), (Err(PeerError::Ended), 1));
    let wrong = Peer::new(&Config::of(2, 2), GROUP, 0, Saving::First).unwrap_err();
    assert_eq!(wrong, PeerError::Config(ConfigError::Faults));
    assert!(wrong.source().is_some() && PeerError::Ended.source().is_none());
    assert_eq!(wrong.to_string(), "the configuration is refused: the number of faults is not below the number of nodes");
}

#[test]
fn codes_and_threads() {
    for code in (1..=5).chain(11..=15).chain(21..=32) {
        assert_eq!(PeerError::from_code(code).and_then(PeerError::code), Some(code));
    }
    assert!([0, 6, 10, 16, 20, 33, u64::MAX].iter().all(|&code| PeerError::from_code(code).is_none()));
    assert_eq!((PeerError::OutOfMemory.code(), PeerError::from(OutOfMemory)), (None, PeerError::OutOfMemory));
    assert_eq!(PeerError::Refused(Refusal::Closed).to_string(), "refused: the stream is closed");
    let mut peer = peer(GROUP, 2);
    let peer = std::thread::spawn(move || peer.order(Item::Close).map(|()| peer)).join().unwrap().unwrap();
    assert_eq!((peer.group(), peer.me(), peer.log_length()), (GROUP, 2, 1));
}
