//! The library's functions as `castgroup.h` declares them, and the records that they take.

pub(crate) const DONE: u32 = 0;
pub(crate) const REFUSED: u32 = 2;
pub(crate) const BAD: u32 = 3;
pub(crate) const TOO_SHORT: u32 = 6;

/// A group, a judge or a peer in the library, or none.
#[repr(C)]
pub(crate) struct Handle {
    held: bool,
    at: *mut u8,
}

impl Handle {
    pub(crate) const EMPTY: Handle = Handle { held: false, at: std::ptr::null_mut() };
}

#[repr(C)]
#[derive(Default)]
pub(crate) struct Verdict {
    pub line: u64,
    pub rule: u64,
}

#[repr(C)]
pub(crate) struct Config {
    pub nodes: u64,
    pub faults: u64,
    pub choices: u64,
    pub item_limit: u64,
    pub log_limit: u64,
    pub box_size: u64,
    pub first_stamp: u64,
    pub mode: u64,
}

#[repr(C)]
#[derive(Default)]
pub(crate) struct Event {
    pub kind: u8,
    pub node: u8,
    pub to: u8,
    pub item: u8,
    pub number: u64,
    pub value: u64,
}

#[repr(C)]
#[derive(Default)]
pub(crate) struct Reply {
    pub code: u64,
    pub number: u64,
    pub sender: u64,
    pub first: u64,
    pub deliveries: u64,
    pub decisions: u64,
}

#[repr(C)]
#[derive(Default)]
pub(crate) struct Item {
    pub kind: u64,
    pub length: u64,
    pub instance: u64,
    pub value: u64,
}

#[repr(C)]
#[derive(Default)]
pub(crate) struct Frame {
    pub kind: u64,
    pub to: u64,
    pub slot: u64,
    pub sender: u64,
    pub number: u64,
}

#[repr(C)]
#[derive(Default)]
pub(crate) struct Packet {
    pub kind: u64,
    pub to: u64,
    pub place: u64,
    pub length: u64,
}

#[repr(C)]
#[derive(Default)]
pub(crate) struct News {
    pub kind: u64,
    pub sender: u64,
    pub number: u64,
    pub item: u64,
    pub length: u64,
    pub instance: u64,
    pub value: u64,
}

#[repr(C)]
#[derive(Default)]
pub(crate) struct Text {
    pub length: u64,
    pub fault: u64,
    pub place: u64,
}

// SAFETY of all calls: each pointer comes from a reference or a slice of this crate's callers. So it is not null, is
// not shared if it is written through, and leads to as many bytes or events as the call says. A handle begins empty, doesn't move
// during a call, and is never copied.
extern "C" {
    pub(crate) fn cast_c_version() -> u32;
    pub(crate) fn cast_c_judge(record: *const u8, count: usize, verdict: *mut Verdict) -> u32;
    pub(crate) fn cast_c_judge_new(judge: *mut Handle) -> u32;
    pub(crate) fn cast_c_judge_feed(judge: *mut Handle, piece: *const u8, count: usize) -> u32;
    pub(crate) fn cast_c_judge_so_far(judge: *mut Handle, lines: *mut u64, verdict: *mut Verdict) -> u32;
    pub(crate) fn cast_c_judge_finish(judge: *mut Handle, verdict: *mut Verdict) -> u32;
    pub(crate) fn cast_c_judge_drop(judge: *mut Handle);
    pub(crate) fn cast_c_world_new(world: *mut Handle, config: *const Config, fault: *mut u64) -> u32;
    pub(crate) fn cast_c_world_step(
        world: *mut Handle,
        event: *const Event,
        bytes: *const u8,
        count: usize,
        reply: *mut Reply,
    ) -> u32;
    pub(crate) fn cast_c_world_fault(
        world: *mut Handle,
        event: *const Event,
        bytes: *const u8,
        count: usize,
        code: *mut u64,
    ) -> u32;
    pub(crate) fn cast_c_world_round(world: *mut Handle, reply: *mut Reply) -> u32;
    pub(crate) fn cast_c_world_delivered(world: *mut Handle, node: u8, sender: u8, count: *mut u64) -> u32;
    pub(crate) fn cast_c_world_stream(world: *mut Handle, node: u8, count: *mut u64) -> u32;
    pub(crate) fn cast_c_world_stream_item(
        world: *mut Handle,
        node: u8,
        number: u64,
        item: *mut Item,
        bytes: *mut u8,
        room: usize,
    ) -> u32;
    pub(crate) fn cast_c_world_item(
        world: *mut Handle,
        node: u8,
        sender: u8,
        number: u64,
        item: *mut Item,
        bytes: *mut u8,
        room: usize,
    ) -> u32;
    pub(crate) fn cast_c_world_decision(
        world: *mut Handle,
        node: u8,
        instance: u64,
        is_decided: *mut bool,
        value: *mut u64,
    ) -> u32;
    pub(crate) fn cast_c_world_owed(world: *mut Handle, from: u8, to: u8, count: *mut u64) -> u32;
    pub(crate) fn cast_c_world_live(world: *mut Handle, node: u8, is_so: *mut bool) -> u32;
    pub(crate) fn cast_c_world_at_rest(world: *mut Handle, is_so: *mut bool) -> u32;
    pub(crate) fn cast_c_world_frame(world: *mut Handle, node: u8, number: u64, frame: *mut Frame) -> u32;
    pub(crate) fn cast_c_world_enabled(world: *mut Handle, events: *mut Event, room: usize, count: *mut u64) -> u32;
    pub(crate) fn cast_c_world_plan(world: *mut Handle, events: *mut Event, room: usize, count: *mut u64) -> u32;
    pub(crate) fn cast_c_world_drop(world: *mut Handle);
    pub(crate) fn cast_c_peer_new(
        peer: *mut Handle,
        config: *const Config,
        group: u64,
        me: u8,
        saving: u32,
        fault: *mut u64,
    ) -> u32;
    pub(crate) fn cast_c_peer_order(
        peer: *mut Handle,
        order: *const Event,
        bytes: *const u8,
        count: usize,
        fault: *mut u64,
    ) -> u32;
    pub(crate) fn cast_c_peer_receive(peer: *mut Handle, bytes: *const u8, count: usize, fault: *mut u64) -> u32;
    pub(crate) fn cast_c_peer_saved(peer: *mut Handle, count: u64) -> u32;
    pub(crate) fn cast_c_peer_tick(peer: *mut Handle) -> u32;
    pub(crate) fn cast_c_peer_give_up(peer: *mut Handle, node: u8) -> u32;
    pub(crate) fn cast_c_peer_next(peer: *mut Handle, packet: *mut Packet, buffer: *mut u8, room: usize) -> u32;
    pub(crate) fn cast_c_peer_news(peer: *mut Handle, news: *mut News, buffer: *mut u8, room: usize) -> u32;
    pub(crate) fn cast_c_peer_is_quiet(peer: *mut Handle, is_so: *mut bool) -> u32;
    pub(crate) fn cast_c_peer_log_length(peer: *mut Handle, count: *mut u64) -> u32;
    pub(crate) fn cast_c_peer_log(
        peer: *mut Handle,
        place: u64,
        length: *mut u64,
        buffer: *mut u8,
        room: usize,
    ) -> u32;
    pub(crate) fn cast_c_peer_drop(peer: *mut Handle);
    pub(crate) fn cast_c_run(script: *const u8, count: usize, out: *mut u8, room: usize, told: *mut Text) -> u32;
    pub(crate) fn cast_c_draw(
        script: *const u8,
        count: usize,
        from: u64,
        to: u64,
        out: *mut u8,
        room: usize,
        told: *mut Text,
    ) -> u32;
    pub(crate) fn cast_c_page(
        script: *const u8,
        count: usize,
        from: u64,
        to: u64,
        out: *mut u8,
        room: usize,
        told: *mut Text,
    ) -> u32;
    pub(crate) fn cast_c_migrate(
        record: *const u8,
        count: usize,
        out: *mut u8,
        room: usize,
        length: *mut u64,
    ) -> u32;
}
