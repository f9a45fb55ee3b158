//! Refusals, errors, handles, and texts.
mod common;

use castgroup::{
    rule_text, Config, ConfigError, Event, Frame, Item, Judge, MigrateError, Mode, OutOfMemory, Refusal, Reply, StepError, TextError,
    World,
};
use common::program;
use std::error::Error;
use std::io::Write;

fn is_send<T: Send>() {}

#[test]
fn a_group_goes_to_another_thread() {
    is_send::<World>();
    is_send::<Judge>();
    let mut world = World::new(&Config::of(3, 1)).unwrap();
    world.step(&Event::Order { node: 0, item: Item::Data(vec![1, 2]) }).unwrap();
    let world = std::thread::spawn(move || {
        world.round().unwrap();
        world.round().unwrap();
        world
    })
    .join()
    .unwrap();
    assert!(world.at_rest());
    assert_eq!(world.delivered(2, 0).collect::<Vec<_>>(), [Ok(Item::Data(vec![1, 2]))]);
    assert_eq!(world.stream(0).collect::<Vec<_>>(), [Ok(Item::Data(vec![1, 2]))]);
    assert_eq!((world.stream_count(0), world.stream_count(64)), (Some(1), None));
}

#[test]
fn configurations_are_refused_by_their_first_fault() {
    let refused = |config: Config| World::new(&config).err();
    assert_eq!(refused(Config::of(65, 0)), Some(ConfigError::Nodes));
    assert_eq!(refused(Config::of(2, 2)), Some(ConfigError::Faults));
    assert_eq!(refused(Config { choices: 0, ..Config::of(2, 0) }), Some(ConfigError::Choices));
    assert_eq!(refused(Config { item_limit: 4_097, ..Config::of(2, 0) }), Some(ConfigError::ItemLimit));
    assert_eq!(refused(Config { log_limit: 0, ..Config::of(2, 0) }), Some(ConfigError::LogLimit));
    assert_eq!(refused(Config { box_size: u64::MAX, ..Config::of(2, 0) }), Some(ConfigError::BoxSize));
    assert_eq!(refused(Config { mode: Mode::Uniform, ..Config::of(2, 1) }), Some(ConfigError::Mode));
}

#[test]
fn refused_events_have_their_codes() {
    let mut world = World::new(&Config::of(2, 1)).unwrap();
    let mut code = |event| match world.step(&event) {
        Err(StepError::Refused(refusal)) => refusal.code(),
        _ => 0,
    };
    let data = |length| Item::Data(vec![0; length]);
    assert_eq!(code(Event::Order { node: 2, item: data(1) }), 1);
    assert_eq!(code(Event::Send { from: 1, to: 1, slot: 0 }), 2);
    assert_eq!(code(Event::Order { node: 0, item: data(1_025) }), 5);
    assert_eq!(code(Event::Order { node: 0, item: data(1_024) }), 0);
    assert_eq!(code(Event::Send { from: 0, to: 1, slot: 1 }), 8);
    assert_eq!(code(Event::Ack { from: 1, to: 0, slot: 0 }), 10);
    assert_eq!(code(Event::Arrive { from: 0, seq: 0 }), 11);
    assert_eq!(code(Event::Order { node: 0, item: Item::Close }), 0);
    assert_eq!(code(Event::Order { node: 0, item: Item::Close }), 4);
    assert_eq!(code(Event::Crash { node: 0 }), 0);
    assert_eq!(code(Event::Crash { node: 0 }), 3);
    assert_eq!(code(Event::Crash { node: 255 }), 1);
    assert!((1..=12).all(|code| Refusal::from_code(code).map(Refusal::code) == Some(code)));
    assert_eq!((Refusal::from_code(0), Refusal::from_code(13)), (None, None));
}

#[test]
fn readers_say_what_is_there() {
    let mut world = World::new(&Config::of(2, 0)).unwrap();
    let reply = world.step(&Event::Order { node: 0, item: Item::Propose { instance: 7, value: 3 } }).unwrap();
    let Reply::Ordered { number: 0, outcome } = reply else { panic!("{reply:?}") };
    assert_eq!((outcome.sender, outcome.first, outcome.deliveries, outcome.decisions), (0, 0, 1, 0));
    world.step(&Event::Order { node: 1, item: Item::Propose { instance: 7, value: 2 } }).unwrap();
    assert_eq!((world.owed(0, 1), world.owed(0, 0), world.owed(0, 2)), (Some(1), None, None));
    assert!(!world.at_rest());
    assert_eq!(world.round(), Ok(4));
    assert!(world.at_rest());
    assert_eq!((world.decision(0, 7), world.decision(1, 7), world.decision(1, 8)), (Some(2), Some(2), None));
    assert_eq!((world.delivered_count(0, 1), world.delivered_count(0, 2)), (Some(1), None));
    assert_eq!(world.item(1, 0, 0), Ok(Some(Item::Propose { instance: 7, value: 3 })));
    assert_eq!((world.item(1, 0, 1), world.item(1, 0, u64::MAX)), (Ok(None), Ok(None)));
    assert_eq!(world.config(), &Config::of(2, 0));
    assert!(format!("{world:?}").starts_with("World { config: Config { nodes: 2, "));
    assert!(world.live(1) && !world.live(2));
}

#[test]
fn a_group_says_what_may_happen_next() {
    let mut world = World::new(&Config::of(3, 1)).unwrap();
    assert_eq!((world.events_enabled(), world.round_plan()), (Ok(vec![]), Ok(vec![])));
    assert_eq!((world.frame(0, 0), world.frame(3, 0), world.frame(0, u64::MAX)), (Ok(None), Ok(None), Ok(None)));
    world.step(&Event::order(0, "a")).unwrap();
    world.step(&Event::order(0, "b")).unwrap();
    world.step(&Event::send(0, 1, 1)).unwrap();
    world.step(&Event::arrive(0, 0)).unwrap();
    world.step(&Event::ack(1, 0, 1)).unwrap();
    assert_eq!(world.frame(0, 0), Ok(Some(Frame::Carry { to: 1, slot: 1, sender: 0, number: 1 })));
    assert_eq!(world.frame(1, 0), Ok(Some(Frame::Took { to: 0, slot: 1 })));
    assert_eq!(world.frame(0, 0).unwrap().map(|frame| frame.to()), Some(1));
    let (send, ack) = (Event::send, Event::ack);
    let next = [send(0, 1, 0), send(0, 1, 1), ack(1, 0, 1), send(0, 2, 0), send(0, 2, 1), send(1, 2, 0), Event::arrive(1, 0)];
    assert_eq!(world.events_enabled().unwrap(), next);
    world.step(&Event::crash(2)).unwrap();
    let arrive = Event::arrive;
    let (first, second) = ([send(0, 1, 0), arrive(0, 1), ack(1, 0, 0), arrive(1, 1)], [send(0, 1, 1), arrive(0, 2), ack(1, 0, 1), arrive(1, 2)]);
    assert_eq!(world.round_plan().unwrap(), [first, second].concat());
}

#[test]
fn many_events_may_happen_next() {
    let mut world = World::new(&Config::of(8, 0)).unwrap();
    for node in 0..8 {
        for item in 0..20 {
            world.step(&Event::order(node, [node, item].as_slice())).unwrap();
        }
    }
    let (next, plan) = (world.events_enabled().unwrap(), world.round_plan().unwrap());
    assert_eq!((next.len(), plan.len()), (8 * 7 * 20, 4 * 8 * 7 * 20));
    assert!(next.iter().all(|event| world.fault(event) == Ok(None)));
    assert!(plan.iter().all(|event| world.step(event).is_ok()));
    assert_eq!(world.delivered_count(7, 0), Some(20));
}

#[test]
fn words_and_orders() {
    assert!((0..=6).all(|rule| rule_text(rule).is_some()) && rule_text(7).is_none());
    assert!(Event::crash(1) > Event::arrive(9, 9) && Item::Close > Item::from("a"));
    assert_eq!(Config::default(), Config::of(1, 0));
    assert_eq!(StepError::Refused(Refusal::NoSlot).to_string(), "refused: no such slot");
    assert_eq!(StepError::from(OutOfMemory), StepError::OutOfMemory);
    assert_eq!((ConfigError::Mode.code(), ConfigError::OutOfMemory.code()), (Some(7), None));
    assert_eq!(Event::propose(1, 7, 3).to_string(), r#"["order",1,"propose",7,3]"#);
    let all = [Event::send(0, 1, 2), Event::ack(0, 1, 2), Event::arrive(0, 2), Event::crash(0)].map(|event| event.to_string());
    assert_eq!(all, [r#"["send",0,1,2]"#, r#"["ack",0,1,2]"#, r#"["arrive",0,2]"#, r#"["crash",0]"#]);
}

#[test]
fn a_judge_is_a_writer_and_is_dropped_unasked() {
    let mut judge = Judge::new().unwrap();
    writeln!(judge, "cast/1 {} 0 1", 2).unwrap();
    drop(judge);
}

#[test]
fn texts_are_as_long_as_they_are() {
    let orders = r#"["order",0,"data","00112233"],"#.repeat(4_000);
    let script = format!(r#"{{"nodes":1,"faults":0,"choices":1,"events":[{orders}["crash",0]]}}"#);
    let record = castgroup::run(script.as_bytes()).unwrap();
    assert!(record.len() > 100_000 && record.ends_with(b"x 0\nend\n"));
    assert!(castgroup::draw(script.as_bytes(), 0..=9).unwrap().ends_with(b"</svg>\n"));
    assert_eq!(castgroup::run(b"{"), Err(TextError::NotJson));
    assert_eq!(castgroup::run(b"{}"), Err(TextError::Shape(0)));
    let wrong = br#"{"nodes":1,"faults":0,"choices":1,"events":[["crash",0],["crash"]]}"#;
    assert_eq!(castgroup::draw(wrong, 0..=9), Err(TextError::Shape(2)));
    let many = br#"{"nodes":65,"faults":0,"choices":1}"#;
    assert_eq!(castgroup::run(many), Err(TextError::Config(ConfigError::Nodes)));
    assert!(castgroup::run(many).unwrap_err().source().is_some());
    assert_eq!(castgroup::run(&vec![b' '; 67_108_865]), Err(TextError::TooLong));
    assert_eq!(OutOfMemory.to_string(), "out of memory");
}

#[test]
fn a_page_and_a_migrated_record_are_those_of_the_program() {
    let orders = r#"["order",0,"data","00112233"],"#.repeat(400);
    let script = format!(r#"{{"nodes":2,"faults":0,"choices":1,"events":[{orders}["settle"],["crash",0],["crash",0]]}}"#);
    let page = castgroup::page(script.as_bytes(), ..).unwrap();
    assert!(page.len() > 100_000 && page.starts_with(b"<!DOCTYPE html>\n") && page.ends_with(b"</html>\n"));
    assert_ne!(castgroup::page(script.as_bytes(), 0..=1), Ok(page.clone()));
    assert_eq!(castgroup::page(b"{", ..), Err(TextError::NotJson));
    assert_eq!(castgroup::page(br#"{"nodes":2,"faults":2,"choices":1}"#, ..), Err(TextError::Config(ConfigError::Faults)));
    let record = castgroup::run(script.as_bytes()).unwrap();
    let migrated = castgroup::migrate(&record).unwrap();
    assert_eq!(migrated, [b"cast/2 2 0 1 basic\n", &record[13..]].concat());
    if let (Some(drawn), Some(written)) = (program(&["draw", "--html"], script.as_bytes()), program(&["migrate"], &record)) {
        assert!(drawn == page && written == migrated);
    }
    assert_eq!(castgroup::migrate(&migrated), Err(MigrateError::NotV1));
    assert_eq!(castgroup::migrate(b""), Err(MigrateError::NotV1));
    let words = [MigrateError::NotV1, MigrateError::OutOfMemory].map(|error| error.to_string());
    assert_eq!(words, ["the text doesn't begin with a head of cast/1", "out of memory"]);
}
