//! Calls with each allocation of the crate itself refused in turn. None of them aborts: each says that it is out of memory.
use castgroup::{draw, migrate, page, run, Config, Event, MigrateError, OutOfMemory, TextError, World};
use std::alloc::{GlobalAlloc, Layout, System};
use std::cell::Cell;
use std::ptr::null_mut;

thread_local! {
    /// The number of allocations before the one that is refused; none is refused if it is below 0.
    static LEFT: Cell<i64> = const { Cell::new(-1) };
}

struct Refusing;

fn is_refused() -> bool {
    let left = LEFT.try_with(|left| left.replace((left.get() - 1).max(-1)));
    left == Ok(0)
}

// SAFETY: it does what the system's allocator does, or refuses.
unsafe impl GlobalAlloc for Refusing {
    unsafe fn alloc(&self, layout: Layout) -> *mut u8 {
        match is_refused() {
            true => null_mut(),
            false => unsafe { System.alloc(layout) },
        }
    }

    unsafe fn realloc(&self, block: *mut u8, layout: Layout, size: usize) -> *mut u8 {
        match is_refused() {
            true => null_mut(),
            false => unsafe { System.realloc(block, layout, size) },
        }
    }

    unsafe fn dealloc(&self, block: *mut u8, layout: Layout) {
        unsafe { System.dealloc(block, layout) }
    }
}

#[global_allocator]
static ALLOCATOR: Refusing = Refusing;

/// Repeats the call until none of its allocations is refused, and returns how many it has and what it says. Until then it must
/// say that it is out of memory.
fn each<T, E: PartialEq>(out_of_memory: E, call: impl Fn() -> Result<T, E>) -> (i64, T) {
    for given in 0..100 {
        LEFT.with(|left| left.set(given));
        let answer = call();
        let left = LEFT.with(|left| left.replace(-1));
        match answer {
            Ok(said) => {
                assert!(left >= 0, "allocation {given} was refused");
                return (given, said);
            }
            Err(error) => assert!(left < 0 && error == out_of_memory),
        }
    }
    panic!("the call never succeeds");
}

#[test]
fn readers_report_a_lack_of_memory() {
    let mut world = World::new(&Config::of(8, 0)).unwrap();
    for item in 0..160 {
        world.step(&Event::order(item % 8, &[item])).unwrap();
    }
    world.step(&Event::send(0, 1, 0)).unwrap();
    assert_eq!(each(OutOfMemory, || world.frame(0, 0)).0, 0);
    assert_eq!(each(OutOfMemory, || world.item(0, 0, 0)).0, 1);
    // (a buffer, a longer one, and the events)
    for (allocations, events) in [each(OutOfMemory, || world.events_enabled()), each(OutOfMemory, || world.round_plan())] {
        assert!(allocations == 3 && events.len() > 1_000);
    }
}

#[test]
fn texts_report_a_lack_of_memory() {
    let orders = r#"["order",0,"data","00112233"],"#.repeat(4_000);
    let script = format!(r#"{{"nodes":1,"faults":0,"choices":1,"events":[{orders}["crash",0]]}}"#);
    let (_, record) = each(TextError::OutOfMemory, || run(script.as_bytes()));
    let (_, picture) = each(TextError::OutOfMemory, || draw(script.as_bytes(), ..));
    let (_, steps) = each(TextError::OutOfMemory, || page(script.as_bytes(), ..));
    let (_, migrated) = each(MigrateError::OutOfMemory, || migrate(&record));
    // (a text that is longer than the first buffer takes another allocation)
    assert!([record, picture, steps, migrated].iter().all(|text| text.len() > 65_536));
}
