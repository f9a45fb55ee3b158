//! Calls everything once or more, with refusals: the program that is checked for leaks.
use castgroup::{draw, judge, migrate, page, run, Config, Event, Item, Judge, Peer, Saving, World};
use std::error::Error;

/// A peer that orders, and one that gets its packets, some of them spoilt.
fn exchange() -> Result<(), Box<dyn Error>> {
    let mut maker = Peer::new(&Config::of(2, 0), 7, 0, Saving::First)?;
    let mut taker = Peer::new(&Config::of(2, 0), 7, 1, Saving::Never)?;
    let refused = |nodes, me| Peer::new(&Config::of(nodes, 0), 7, me, Saving::First).err();
    println!("{:?} {:?}", refused(65, 0), refused(2, 2));
    maker.order("abc")?;
    maker.order(Item::Close)?;
    println!("{:?} {:?}", maker.order("a"), maker.next_packet()?);
    let mut log = Vec::new();
    maker.save(&mut log)?;
    while let Some(packet) = maker.next_packet()? {
        println!("{:?} {:?}", taker.receive(&packet.bytes[..40]), taker.receive(&packet.bytes));
    }
    while let Some(packet) = taker.next_packet()? {
        maker.receive(&packet.bytes)?;
    }
    maker.tick();
    taker.give_up(0);
    while let Some(news) = taker.next_news()? {
        println!("{news:?}");
    }
    println!("{} {:?} {:?} {maker:?}", maker.is_quiet(), maker.log_line(1)?.map(|line| line.len()), maker.log_line(99)?);
    Ok(())
}

fn main() -> Result<(), Box<dyn Error>> {
    let mut world = World::new(&Config::of(4, 1))?;
    for node in 0..4 {
        world.step(&Event::Order { node, item: Item::Data(vec![node; 1_000]) })?;
        world.step(&Event::Order { node, item: Item::Propose { instance: 1, value: u64::from(node) } })?;
        println!("{:?}", world.step(&Event::Order { node, item: Item::Data(vec![node; 1_025]) }));
    }
    println!("{:?}", world.step(&Event::Send { from: 0, to: 1, slot: 0 })?);
    println!("{:?} {:?} {}", world.frame(0, 0)?, world.frame(9, 0)?, world.events_enabled()?.len());
    println!("{:?} {}", world.step(&Event::Arrive { from: 0, seq: 0 })?, world.round_plan()?.len());
    world.step(&Event::Crash { node: 3 })?;
    let mut world = std::thread::spawn(move || world.round().map(|_| world)).join().expect("a thread")?;
    world.round()?;
    println!("{} {:?} {:?}", world.at_rest(), world.decision(1, 1), world.delivered(1, 0).count());
    println!("{:?} {:?} {:?}", world.owed(0, 1), world.item(2, 1, 9), World::new(&Config::of(4, 4)).err());
    let script = br#"{"nodes":2,"faults":0,"choices":1,"events":[["order",0,"data","61"],["settle"]]}"#;
    let record = run(script)?;
    println!("{:?} {} {:?}", judge(&record)?, draw(script, 0..=1)?.len() > 1_000, run(&script[1..]));
    println!("{} {:?}", page(script, ..)?.len() > 1_000, page(&script[1..], ..));
    println!("{} {:?}", migrate(&record)?.len() - record.len(), migrate(&record[1..]));
    let mut left = Judge::new()?;
    left.feed(&record[..20])?;
    let mut judge = Judge::new()?;
    judge.feed(&record)?;
    println!("{:?}", judge.finish()?);
    exchange()
}
