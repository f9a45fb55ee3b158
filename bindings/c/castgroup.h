/* castgroup for C and C++: groups that broadcast numbered items, the judge of their records, texts of their scripts,
 * and peers, which are nodes in processes of their own. It is plain C99, and C++98.
 *
 * Link libcastgroup, which `bindings/library FOLDER` makes. Each function of this header checks for null pointers, and
 * then calls the library function with cast_c_ in place of cast_. What that returns is proved: the crate cast_c has the
 * clauses, in crates/cast_c/src. The texts of codes are plain C. So are cast_c_version and cast_c_world_steps in
 * castgroup.c; the latter calls cast_c_world_step for each event.
 *
 * Statuses are those of the program; each call says which it returns. Every call also returns CAST_MISUSED for a null
 * pointer. A result (a verdict, a reply, a count ..) is whole if the status is 0, or 3 for a verdict, or if a function
 * says so. Otherwise nothing in it counts.
 *
 * What a caller must keep to, since no function can check it:
 * - A handle begins as zeros (CAST_EMPTY). It is passed by its address and never copied, and its content is the
 *   library's.
 * - A pointer leads to what its type says, and bytes and events to as many as their count or their room, in less than
 *   2^63 bytes. What a call writes overlaps nothing else that the call is given.
 * - A handle is used by one thread at a time. Another may use it after a lock, or after a thread was started or joined.
 * - No call is made in a signal handler, nor in the forked child of a process with threads.
 * - malloc, realloc and free belong to one allocator, and align blocks as C says.
 * A group, a judge or a peer that is not dropped is never freed. */
#ifndef CASTGROUP_H
#define CASTGROUP_H

#include <stdbool.h>
#include <stddef.h>
#include <stdint.h>

/* The version of this header, as text and as a number: 10,000 * major + 100 * minor + patch. cast_version() is that
 * of the library. A library with the same major and minor version has at least what this header declares. */
#define CAST_VERSION_MAJOR 0
#define CAST_VERSION_MINOR 2
#define CAST_VERSION_PATCH 0
#define CAST_VERSION "0.2.0"
#define CAST_VERSION_NUMBER (10000 * CAST_VERSION_MAJOR + 100 * CAST_VERSION_MINOR + CAST_VERSION_PATCH)

#ifdef __cplusplus
extern "C" {
#endif

enum cast_status {
    CAST_DONE = 0,          /* done; from a judge: the record is good */
    CAST_MISUSED = 1,       /* a null pointer, a handle that holds nothing, or something where it should not, or an
                               unknown kind */
    CAST_REFUSED = 2,       /* a configuration, a script, a record, a packet, or the number of a node, an item or a frame
                               was refused */
    CAST_BAD = 3,           /* the record is bad */
    CAST_OUT_OF_MEMORY = 5, /* unless a function says otherwise, what a handle holds is unchanged */
    CAST_TOO_SHORT = 6      /* the buffer has no room */
};

/* Handles. */
struct cast_judging {
    bool held;
    void *at;
};
struct cast_world {
    bool held;
    void *at;
};
struct cast_peer {
    bool held;
    void *at;
};
#define CAST_EMPTY {false, NULL}

/* The first line that breaks a rule, counted from 1, and the least rule that it breaks (cast_rule_text); 0 and 0 for
 * a good record. */
struct cast_verdict {
    uint64_t line, rule;
};

/* The eight numbers of a configuration, in the ranges of docs/FORMATS.md. Mode 0 is basic, 1 is uniform. The usual
 * ones are CAST_CONFIG(nodes, faults). */
struct cast_config {
    uint64_t nodes, faults, choices, item_limit, log_limit, box_size, first_stamp, mode;
};
#define CAST_CONFIG(nodes, faults) \
    {(uint64_t)(nodes), (uint64_t)(faults), (uint64_t)(faults) + 1, 4096, 65536, 64, 0, 0}

enum cast_event_kind { CAST_ORDER = 0, CAST_SEND = 1, CAST_ACK = 2, CAST_ARRIVE = 3, CAST_CRASH = 4 };
enum cast_item_kind { CAST_DATA = 0, CAST_PROPOSE = 1, CAST_CLOSE = 2 };

/* An event. `node` takes the step; for an arrival, it made the frame. `to` is the target of a frame that is made.
 * `number` is a slot, the number of a frame, or an instance in which `value` is proposed. `item` is the kind of an
 * ordered item. */
struct cast_event {
    uint8_t kind, node, to, item;
    uint64_t number, value;
};

/* The reply to an event. `code` is 0, or that of its refusal (cast_refusal_text). `number` is that of the new item
 * or frame, or the node at which a frame arrived; for a round it is the number of frames made. Node `node` (for an
 * arrival `number`) delivered the items `first` to `first + deliveries - 1` of `sender`, and decided `decisions`
 * times. */
struct cast_reply {
    uint64_t code, number, sender, first, deliveries, decisions;
};

/* An item without its bytes, of which there are `length`. */
struct cast_item {
    uint64_t kind, length, instance, value;
};

/* What a frame for node `to` carries. CAST_CARRY: the item `number` of `sender`, in slot `slot` of the link to that node.
 * CAST_TOOK: that slot `slot` of the link from that node was taken; the last two are then 0. */
enum cast_frame_kind { CAST_CARRY = 0, CAST_TOOK = 1 };
struct cast_frame {
    uint64_t kind, to, slot, sender, number;
};

/* When a peer gives out packets and reports news: once the entries that record them are saved, or at once, for tests. */
enum cast_saving { CAST_SAVE_FIRST = 0, CAST_SAVE_NEVER = 1 };

/* What a peer gives next: a packet of `length` bytes for node `to`, which the line `place` of its log records; or that
 * it made and logged a packet, so ask again; or that packets wait until more of the log is saved; or nothing. */
enum cast_packet_kind { CAST_PACKET = 0, CAST_MADE = 1, CAST_UNSAVED = 2, CAST_NO_PACKET = 3 };
struct cast_packet {
    uint64_t kind, to, place, length;
};
/* The most bytes of a packet, and of an item. */
#define CAST_MOST_PACKET 1071
#define CAST_MOST_BYTES 1024

/* What is new to the application at a peer. CAST_ORDERED: an item that was ordered here has this `number`.
 * CAST_DELIVERED: the item of the kind `item` that `sender` gave this `number`; it has `length` bytes, or proposes
 * `value` in `instance`. CAST_DECIDED: the `value` of an `instance`. The other numbers are 0. */
enum cast_news_kind { CAST_NO_NEWS = 0, CAST_ORDERED = 1, CAST_DELIVERED = 2, CAST_DECIDED = 3 };
struct cast_news {
    uint64_t kind, sender, number, item, length, instance, value;
};
/* The last line of the log of a node that did not crash. */
#define CAST_LOG_END "end\n"

/* The length of a text, or why there is none. Fault 1: the script has more than 67,108,864 bytes. 2: it is no JSON.
 * 3: the element `place`, counted from 1, or 0 for the whole, does not have its form. 4: the configuration is
 * refused with code `place` (cast_config_text). */
struct cast_text {
    uint64_t length, fault, place;
};

/* The exports, which take no null pointer; bindings of other languages call these. */
uint32_t cast_c_judge(const uint8_t *record, size_t count, struct cast_verdict *verdict);
uint32_t cast_c_judge_new(struct cast_judging *judge);
uint32_t cast_c_judge_feed(struct cast_judging *judge, const uint8_t *piece, size_t count);
uint32_t cast_c_judge_so_far(struct cast_judging *judge, uint64_t *lines, struct cast_verdict *verdict);
uint32_t cast_c_judge_finish(struct cast_judging *judge, struct cast_verdict *verdict);
void cast_c_judge_drop(struct cast_judging *judge);
uint32_t cast_c_world_new(struct cast_world *world, const struct cast_config *config, uint64_t *fault);
uint32_t cast_c_world_step(struct cast_world *world, const struct cast_event *event, const uint8_t *bytes, size_t count,
                           struct cast_reply *reply);
uint32_t cast_c_world_fault(struct cast_world *world, const struct cast_event *event, const uint8_t *bytes, size_t count,
                            uint64_t *code);
uint32_t cast_c_world_round(struct cast_world *world, struct cast_reply *reply);
uint32_t cast_c_world_delivered(struct cast_world *world, uint8_t node, uint8_t sender, uint64_t *count);
uint32_t cast_c_world_item(struct cast_world *world, uint8_t node, uint8_t sender, uint64_t number, struct cast_item *item,
                           uint8_t *bytes, size_t room);
uint32_t cast_c_world_stream(struct cast_world *world, uint8_t node, uint64_t *count);
uint32_t cast_c_world_stream_item(struct cast_world *world, uint8_t node, uint64_t number, struct cast_item *item, uint8_t *bytes,
                                  size_t room);
uint32_t cast_c_world_decision(struct cast_world *world, uint8_t node, uint64_t instance, bool *is_decided, uint64_t *value);
uint32_t cast_c_world_owed(struct cast_world *world, uint8_t from, uint8_t to, uint64_t *count);
uint32_t cast_c_world_live(struct cast_world *world, uint8_t node, bool *is_so);
uint32_t cast_c_world_at_rest(struct cast_world *world, bool *is_so);
uint32_t cast_c_world_frame(struct cast_world *world, uint8_t node, uint64_t number, struct cast_frame *frame);
uint32_t cast_c_world_enabled(struct cast_world *world, struct cast_event *events, size_t room, uint64_t *count);
uint32_t cast_c_world_plan(struct cast_world *world, struct cast_event *events, size_t room, uint64_t *count);
void cast_c_world_drop(struct cast_world *world);
uint32_t cast_c_peer_new(struct cast_peer *peer, const struct cast_config *config, uint64_t group, uint8_t me, uint32_t saving,
                         uint64_t *fault);
uint32_t cast_c_peer_order(struct cast_peer *peer, const struct cast_event *order, const uint8_t *bytes, size_t count,
                           uint64_t *fault);
uint32_t cast_c_peer_receive(struct cast_peer *peer, const uint8_t *bytes, size_t count, uint64_t *fault);
uint32_t cast_c_peer_saved(struct cast_peer *peer, uint64_t count);
uint32_t cast_c_peer_tick(struct cast_peer *peer);
uint32_t cast_c_peer_give_up(struct cast_peer *peer, uint8_t node);
uint32_t cast_c_peer_next(struct cast_peer *peer, struct cast_packet *packet, uint8_t *buffer, size_t room);
uint32_t cast_c_peer_news(struct cast_peer *peer, struct cast_news *news, uint8_t *buffer, size_t room);
uint32_t cast_c_peer_is_quiet(struct cast_peer *peer, bool *is_so);
uint32_t cast_c_peer_log_length(struct cast_peer *peer, uint64_t *count);
uint32_t cast_c_peer_log(struct cast_peer *peer, uint64_t place, uint64_t *length, uint8_t *buffer, size_t room);
void cast_c_peer_drop(struct cast_peer *peer);
uint32_t cast_c_run(const uint8_t *script, size_t count, uint8_t *out, size_t room, struct cast_text *told);
uint32_t cast_c_draw(const uint8_t *script, size_t count, uint64_t from, uint64_t to, uint8_t *out, size_t room,
                     struct cast_text *told);
uint32_t cast_c_page(const uint8_t *script, size_t count, uint64_t from, uint64_t to, uint8_t *out, size_t room,
                     struct cast_text *told);
uint32_t cast_c_migrate(const uint8_t *record, size_t count, uint8_t *out, size_t room, uint64_t *length);

/* Two more, in plain C over these. */
uint32_t cast_c_version(void);
uint32_t cast_c_world_steps(struct cast_world *world, const struct cast_event *events, size_t count, const uint8_t *bytes,
                            size_t size, struct cast_reply *replies, uint64_t *taken);

/* The version of the library, as CAST_VERSION_NUMBER counts it. */
static inline uint32_t cast_version(void) { return cast_c_version(); }

/* What a code says, in English; "no such code" for an unknown one. */
static inline const char *cast_status_text(uint64_t status) {
    switch (status) {
    case CAST_DONE: return "done";
    case CAST_MISUSED: return "there is no such call";
    case CAST_REFUSED: return "it was refused";
    case CAST_BAD: return "the record is bad";
    case CAST_OUT_OF_MEMORY: return "out of memory";
    case CAST_TOO_SHORT: return "the buffer has no room";
    default: return "no such code";
    }
}
/* Why an event was refused: the `code` of a reply. */
static inline const char *cast_refusal_text(uint64_t code) {
    switch (code) {
    case 0: return "accepted";
    case 1: return "no such node";
    case 2: return "a link from a node to itself";
    case 3: return "the node crashed";
    case 4: return "the stream is closed";
    case 5: return "the payload is too long";
    case 6: return "the node proposed in this instance before";
    case 7: return "the stream is full";
    case 8: return "no such slot";
    case 9: return "the slot was acknowledged";
    case 10: return "the slot was not taken";
    case 11: return "no such frame";
    case 12: return "the node can make no more frames";
    default: return "no such code";
    }
}
/* What a bad line of a record did: the `rule` of a verdict. */
static inline const char *cast_rule_text(uint64_t rule) {
    switch (rule) {
    case 0: return "no line of a record, or a head or an end that is missing or stands again";
    case 1: return "a broadcast or a delivery out of turn, or a delivery of what was not broadcast";
    case 2: return "a broadcast after the sender's close";
    case 3: return "a decision that nobody proposed";
    case 4: return "more decided values in an instance than choices, where fewer nodes than choices may crash";
    case 5: return "a line of a node that has crashed";
    case 6: return "a second proposal of a node in an instance";
    default: return "no such code";
    }
}
/* Why a configuration was refused. */
static inline const char *cast_config_text(uint64_t fault) {
    switch (fault) {
    case 1: return "the number of nodes is not 1 to 64";
    case 2: return "the number of faults is not below the number of nodes";
    case 3: return "the number of choices is not 1 to the number of nodes";
    case 4: return "the item limit is not 1 to 4096";
    case 5: return "the log limit is not 1 to 65536";
    case 6: return "the box size is not 1 to 4096";
    case 7: return "no such mode; or uniform mode, and not fewer than half of the nodes may crash";
    default: return "no such code";
    }
}

/* Why a peer takes no packet or order: the `fault` of a call. From 20 on it is a refusal, at 20 and its code. */
static inline const char *cast_peer_text(uint64_t fault) {
    switch (fault) {
    case 1: return "the bytes do not begin as a packet does";
    case 2: return "a packet of another version";
    case 3: return "a packet of no known kind";
    case 4: return "the packet is too short";
    case 5: return "the packet is too long";
    case 11: return "a packet of another group";
    case 12: return "a packet for another node";
    case 13: return "a packet with the last stamp";
    case 14: return "a packet that no peer could have made";
    case 15: return "the log or the clock is full";
    default: return fault > 20 ? cast_refusal_text(fault - 20) : "no such code";
    }
}

/* A null buffer has no bytes; it is a misuse if it should have some. */
static inline bool cast_has(const void *bytes, size_t count) { return (bytes != NULL || count == 0) && count <= (size_t)-1 / 2; }
static inline uint8_t *cast_some(const void *bytes) {
    static uint8_t none;
    return bytes != NULL ? (uint8_t *)bytes : &none;
}
/* The same for a buffer of events. */
static inline bool cast_has_events(const struct cast_event *events, size_t room) {
    return (events != NULL || room == 0) && room <= (size_t)-1 / 2 / sizeof *events;
}
static inline struct cast_event *cast_some_events(struct cast_event *events) {
    static struct cast_event none;
    return events != NULL ? events : &none;
}

/* Judges a record. CAST_DONE: it is good; CAST_BAD: it is bad, and `verdict` says where; CAST_OUT_OF_MEMORY. */
static inline uint32_t cast_judge(const void *record, size_t count, struct cast_verdict *verdict) {
    if (!cast_has(record, count) || verdict == NULL) return CAST_MISUSED;
    return cast_c_judge(cast_some(record), count, verdict);
}

/* The same for a record that comes in pieces. A judge is made and fed, and then finished once, which drops it. After it
 * ran out of memory, it returns that alone.
 * CAST_DONE; CAST_MISUSED: the handle holds something; CAST_OUT_OF_MEMORY. */
static inline uint32_t cast_judge_new(struct cast_judging *judge) {
    if (judge == NULL) return CAST_MISUSED;
    return cast_c_judge_new(judge);
}
/* CAST_DONE; CAST_MISUSED: the handle holds no judge; CAST_REFUSED: the pieces would reach 2^63 bytes;
 * CAST_OUT_OF_MEMORY. */
static inline uint32_t cast_judge_feed(struct cast_judging *judge, const void *piece, size_t count) {
    if (judge == NULL || !cast_has(piece, count)) return CAST_MISUSED;
    return cast_c_judge_feed(judge, cast_some(piece), count);
}
/* What was found in the pieces so far. `lines` is the number of lines that break no rule. CAST_DONE: no line breaks one;
 * CAST_MISUSED: the handle holds no judge; CAST_BAD: this will be the verdict, whatever follows; CAST_OUT_OF_MEMORY: a
 * piece ran out of memory. */
static inline uint32_t cast_judge_so_far(struct cast_judging *judge, uint64_t *lines, struct cast_verdict *verdict) {
    if (judge == NULL || lines == NULL || verdict == NULL) return CAST_MISUSED;
    return cast_c_judge_so_far(judge, lines, verdict);
}
/* CAST_DONE: it is good; CAST_MISUSED: the handle holds no judge; CAST_BAD; CAST_OUT_OF_MEMORY: a piece ran out of
 * memory. */
static inline uint32_t cast_judge_finish(struct cast_judging *judge, struct cast_verdict *verdict) {
    if (judge == NULL || verdict == NULL) return CAST_MISUSED;
    return cast_c_judge_finish(judge, verdict);
}
static inline void cast_judge_drop(struct cast_judging *judge) {
    if (judge != NULL) cast_c_judge_drop(judge);
}

/* Makes a group in which nothing has happened. CAST_DONE; CAST_MISUSED: the handle holds something; CAST_REFUSED:
 * `fault` is 7 if there is no such mode, or else the code of the first number that is out of range;
 * CAST_OUT_OF_MEMORY. */
static inline uint32_t cast_world_new(struct cast_world *world, const struct cast_config *config, uint64_t *fault) {
    if (world == NULL || config == NULL || fault == NULL) return CAST_MISUSED;
    return cast_c_world_new(world, config, fault);
}

/* The group takes an event. The bytes are copied, and read only if it orders some. CAST_DONE, also for a refused
 * event, which changes nothing; CAST_MISUSED: the handle holds no group, or there is no such kind;
 * CAST_OUT_OF_MEMORY: nothing changed. */
static inline uint32_t cast_world_step(struct cast_world *world, const struct cast_event *event, const void *bytes, size_t count,
                                       struct cast_reply *reply) {
    if (world == NULL || event == NULL || !cast_has(bytes, count) || reply == NULL) return CAST_MISUSED;
    return cast_c_world_step(world, event, cast_some(bytes), count, reply);
}

/* Why the group would refuse the event now: `code` is 0 if it would not, or the refusal's. The group is as before.
 * CAST_DONE; CAST_MISUSED: the handle holds no group, or there is no such kind; CAST_OUT_OF_MEMORY. */
static inline uint32_t cast_world_fault(struct cast_world *world, const struct cast_event *event, const void *bytes, size_t count,
                                        uint64_t *code) {
    if (world == NULL || event == NULL || !cast_has(bytes, count) || code == NULL) return CAST_MISUSED;
    return cast_c_world_fault(world, event, cast_some(bytes), count, code);
}

/* Takes `count` events by cast_world_step, and writes a reply for each. For an order of bytes, `number` is where
 * they begin in `bytes`, and `value` is how many there are; they must be in `bytes`. The call stops at the first
 * event whose status is not CAST_DONE, and returns that status. `taken` is the number of events with a reply. A
 * refused event has its code there, and the next one is taken. */
static inline uint32_t cast_world_steps(struct cast_world *world, const struct cast_event *events, size_t count, const void *bytes,
                                        size_t size, struct cast_reply *replies, uint64_t *taken) {
    if (world == NULL || (count > 0 && (events == NULL || replies == NULL)) || !cast_has(bytes, size) || taken == NULL)
        return CAST_MISUSED;
    return cast_c_world_steps(world, events, count, cast_some(bytes), size, replies, taken);
}

/* Live nodes send, take and acknowledge all that they owe one another. CAST_DONE, also if `code` is 12;
 * CAST_MISUSED: the handle holds no group; CAST_OUT_OF_MEMORY. If a round is refused or runs out of memory, the
 * events before remain. */
static inline uint32_t cast_world_round(struct cast_world *world, struct cast_reply *reply) {
    if (world == NULL || reply == NULL) return CAST_MISUSED;
    return cast_c_world_round(world, reply);
}

/* Readers change nothing in the group. CAST_DONE; CAST_MISUSED: the handle holds no group; CAST_REFUSED: there is no
 * such node, link or item.
 * The number of items that `node` delivered from `sender`: CAST_DONE, CAST_MISUSED, CAST_REFUSED. */
static inline uint32_t cast_world_delivered(struct cast_world *world, uint8_t node, uint8_t sender, uint64_t *count) {
    if (world == NULL || count == NULL) return CAST_MISUSED;
    return cast_c_world_delivered(world, node, sender, count);
}
/* One of them, by its number: CAST_DONE, CAST_MISUSED, CAST_REFUSED, CAST_TOO_SHORT. In the last case `item` is
 * whole, and no byte is written. */
static inline uint32_t cast_world_item(struct cast_world *world, uint8_t node, uint8_t sender, uint64_t number,
                                       struct cast_item *item, void *bytes, size_t room) {
    if (world == NULL || item == NULL || !cast_has(bytes, room)) return CAST_MISUSED;
    return cast_c_world_item(world, node, sender, number, item, cast_some(bytes), room);
}

/* How many items `node` broadcast. CAST_DONE; CAST_MISUSED: the handle holds no group; CAST_REFUSED: it is no node. */
static inline uint32_t cast_world_stream(struct cast_world *world, uint8_t node, uint64_t *count) {
    if (world == NULL || count == NULL) return CAST_MISUSED;
    return cast_c_world_stream(world, node, count);
}
/* The item with this number, from 0, of those that `node` broadcast, with its bytes. CAST_DONE; CAST_MISUSED: the handle
 * holds no group; CAST_REFUSED: there is no such item; CAST_TOO_SHORT: `item` has the number of its bytes. */
static inline uint32_t cast_world_stream_item(struct cast_world *world, uint8_t node, uint64_t number, struct cast_item *item,
                                              void *bytes, size_t room) {
    if (world == NULL || item == NULL || !cast_has(bytes, room)) return CAST_MISUSED;
    return cast_c_world_stream_item(world, node, number, item, cast_some(bytes), room);
}
/* The value that a node decided in an instance, if there is such a node and it did: CAST_DONE, CAST_MISUSED. */
static inline uint32_t cast_world_decision(struct cast_world *world, uint8_t node, uint64_t instance, bool *is_decided,
                                           uint64_t *value) {
    if (world == NULL || is_decided == NULL || value == NULL) return CAST_MISUSED;
    return cast_c_world_decision(world, node, instance, is_decided, value);
}
/* The number of unacknowledged slots that `from` gave `to`: CAST_DONE, CAST_MISUSED, CAST_REFUSED. */
static inline uint32_t cast_world_owed(struct cast_world *world, uint8_t from, uint8_t to, uint64_t *count) {
    if (world == NULL || count == NULL) return CAST_MISUSED;
    return cast_c_world_owed(world, from, to, count);
}
/* Whether this is a node that has not crashed: CAST_DONE, CAST_MISUSED. */
static inline uint32_t cast_world_live(struct cast_world *world, uint8_t node, bool *is_so) {
    if (world == NULL || is_so == NULL) return CAST_MISUSED;
    return cast_c_world_live(world, node, is_so);
}
/* Whether no live node owes a live node a slot: CAST_DONE, CAST_MISUSED. */
static inline uint32_t cast_world_at_rest(struct cast_world *world, bool *is_so) {
    if (world == NULL || is_so == NULL) return CAST_MISUSED;
    return cast_c_world_at_rest(world, is_so);
}
/* The frame with this number, from 0, of those that `node` made: CAST_DONE; CAST_MISUSED; CAST_REFUSED: it made no such
 * frame; CAST_OUT_OF_MEMORY. */
static inline uint32_t cast_world_frame(struct cast_world *world, uint8_t node, uint64_t number, struct cast_frame *frame) {
    if (world == NULL || frame == NULL) return CAST_MISUSED;
    return cast_c_world_frame(world, node, number, frame);
}
/* The next two give events, and `events` has room for `room` of them. Each is a CAST_SEND, a CAST_ACK or a CAST_ARRIVE,
 * which cast_world_step and cast_world_steps take as it is. CAST_DONE: `count` is their number; CAST_MISUSED;
 * CAST_OUT_OF_MEMORY; CAST_TOO_SHORT: no event is written, and `count` says how much room they need, so an empty buffer
 * asks for that.
 * The events that may happen next and yield something new, apart from orders and crashes. For each slot that a live node
 * owes another, there is its send, and its acknowledgement if it was taken. After these, there is the arrival of each
 * frame that tells a live node something. The group would refuse none of them. If there is no event, the group is at
 * rest, or a live node can make no more frames. */
static inline uint32_t cast_world_enabled(struct cast_world *world, struct cast_event *events, size_t room, uint64_t *count) {
    if (world == NULL || !cast_has_events(events, room) || count == NULL) return CAST_MISUSED;
    return cast_c_world_enabled(world, cast_some_events(events), room, count);
}
/* The events that cast_world_round would take now, in order: for each slot that a live node owes another, a send, its
 * arrival, an acknowledgement, and its arrival. Frames are numbered as if a node could make any number of them. */
static inline uint32_t cast_world_plan(struct cast_world *world, struct cast_event *events, size_t room, uint64_t *count) {
    if (world == NULL || !cast_has_events(events, room) || count == NULL) return CAST_MISUSED;
    return cast_c_world_plan(world, cast_some_events(events), room, count);
}

static inline void cast_world_drop(struct cast_world *world) {
    if (world != NULL) cast_c_world_drop(world);
}

/* A peer: a node of a group between processes, with its log and its clock. It takes the bytes that a network delivered,
 * and gives those that a network is to carry. It knows neither sockets nor time. The program around it keeps five
 * rules:
 * 1. The log comes first. Append its lines to the log file in order, each of them once, and call cast_peer_saved. Until
 *    then, a peer made with CAST_SAVE_FIRST gives out no packet and no news of these lines. So a killed process leaves a
 *    log of all that anybody saw of it.
 * 2. Each number runs once. Make the log file with O_EXCL, so that a process which starts again fails. Its node has
 *    crashed.
 * 3. Each start of a group has a new number `group`, drawn at random. A peer drops the packets of another start.
 * 4. A packet is a datagram of at most CAST_MOST_PACKET bytes. It may get lost, or arrive twice or late. On a byte
 *    stream, send the length of each packet before the packet.
 * 5. Ticks are yours, for example a hundred in a second. What isn't acknowledged is sent again after some ticks.
 * In a turn, call cast_peer_next until it gives no more packet, save the new lines, and repeat that if there were any.
 * Then take the news. `castgroup merge` makes one run of the logs of all nodes, or names the line that does not fit. */

/* Makes the node `me` of a group, with room for its whole log. CAST_DONE; CAST_MISUSED: the handle holds something, or
 * there is no such `saving`; CAST_REFUSED: `fault` is 21 if there is no such node, or else the code of the
 * configuration (cast_config_text); CAST_OUT_OF_MEMORY. */
static inline uint32_t cast_peer_new(struct cast_peer *peer, const struct cast_config *config, uint64_t group, uint8_t me,
                                     enum cast_saving saving, uint64_t *fault) {
    if (peer == NULL || config == NULL || fault == NULL) return CAST_MISUSED;
    return cast_c_peer_new(peer, config, group, me, (uint32_t)saving, fault);
}
/* Broadcasts an item. Of `order` only `item`, and for a proposal `number` and `value`, are read. The bytes are copied,
 * and read only if it orders some. CAST_DONE: it is logged, and news says later which number it has; CAST_MISUSED: the
 * handle holds no peer, or there is no such item; CAST_REFUSED: `fault` says why (cast_peer_text), and the log has what
 * the node refused; CAST_OUT_OF_MEMORY: it is refused, and the log may have that. */
static inline uint32_t cast_peer_order(struct cast_peer *peer, const struct cast_event *order, const void *bytes, size_t count,
                                       uint64_t *fault) {
    if (peer == NULL || order == NULL || !cast_has(bytes, count) || fault == NULL) return CAST_MISUSED;
    return cast_c_peer_order(peer, order, cast_some(bytes), count, fault);
}
/* Takes a packet. CAST_DONE: its arrival is logged, or its content was known; CAST_MISUSED: the handle holds no peer;
 * CAST_REFUSED: it is dropped, and `fault` says why (cast_peer_text); CAST_OUT_OF_MEMORY: it counts as lost. */
static inline uint32_t cast_peer_receive(struct cast_peer *peer, const void *packet, size_t count, uint64_t *fault) {
    if (peer == NULL || !cast_has(packet, count) || fault == NULL) return CAST_MISUSED;
    return cast_c_peer_receive(peer, cast_some(packet), count, fault);
}
/* Gives the next packet, or makes and logs one, or says what has to be done first. CAST_DONE; CAST_MISUSED: the handle
 * holds no peer; CAST_TOO_SHORT: there is no room for CAST_MOST_PACKET bytes, and nothing changed;
 * CAST_OUT_OF_MEMORY: the log may have an entry more, and nothing is lost for good. */
static inline uint32_t cast_peer_next(struct cast_peer *peer, struct cast_packet *packet, void *buffer, size_t room) {
    if (peer == NULL || packet == NULL || !cast_has(buffer, room)) return CAST_MISUSED;
    return cast_c_peer_next(peer, packet, cast_some(buffer), room);
}
/* Notes how many entries of the log are saved. The number never falls, and is at most that of all entries. CAST_DONE,
 * CAST_MISUSED. */
static inline uint32_t cast_peer_saved(struct cast_peer *peer, uint64_t count) {
    if (peer == NULL) return CAST_MISUSED;
    return cast_c_peer_saved(peer, count);
}
/* Notes that time has passed. What isn't acknowledged is due again, each time after twice as many calls: CAST_DONE,
 * CAST_MISUSED. */
static inline uint32_t cast_peer_tick(struct cast_peer *peer) {
    if (peer == NULL) return CAST_MISUSED;
    return cast_c_peer_tick(peer);
}
/* Gives a node up for good: no message is sent to it any more. This may be a mistake: no promise depends on it.
 * CAST_DONE, CAST_MISUSED. */
static inline uint32_t cast_peer_give_up(struct cast_peer *peer, uint8_t node) {
    if (peer == NULL) return CAST_MISUSED;
    return cast_c_peer_give_up(peer, node);
}
/* Whether nothing is owed to any node that was not given up, no packet waits, and nothing is still to be acknowledged:
 * CAST_DONE, CAST_MISUSED. */
static inline uint32_t cast_peer_is_quiet(struct cast_peer *peer, bool *is_so) {
    if (peer == NULL || is_so == NULL) return CAST_MISUSED;
    return cast_c_peer_is_quiet(peer, is_so);
}
/* The next news that was not reported, with the bytes of a delivered item. CAST_DONE; CAST_MISUSED: the handle holds no
 * peer; CAST_TOO_SHORT: there is no room for CAST_MOST_BYTES bytes, and nothing changed; CAST_OUT_OF_MEMORY: the news
 * stays the next. */
static inline uint32_t cast_peer_news(struct cast_peer *peer, struct cast_news *news, void *buffer, size_t room) {
    if (peer == NULL || news == NULL || !cast_has(buffer, room)) return CAST_MISUSED;
    return cast_c_peer_news(peer, news, cast_some(buffer), room);
}
/* How many entries the log has: CAST_DONE, CAST_MISUSED. */
static inline uint32_t cast_peer_log_length(struct cast_peer *peer, uint64_t *count) {
    if (peer == NULL || count == NULL) return CAST_MISUSED;
    return cast_c_peer_log_length(peer, count);
}
/* A line of the log, with its line feed, and its length. The first line is at place 0, and the entries are at the
 * places from 1 to their number. The file of a node that stops ends with CAST_LOG_END. CAST_DONE; CAST_MISUSED: the
 * handle holds no peer; CAST_REFUSED: there is no such line; CAST_TOO_SHORT: no byte is written, and `length` says how
 * much room it needs; CAST_OUT_OF_MEMORY. */
static inline uint32_t cast_peer_log(struct cast_peer *peer, uint64_t place, uint64_t *length, void *buffer, size_t room) {
    if (peer == NULL || length == NULL || !cast_has(buffer, room)) return CAST_MISUSED;
    return cast_c_peer_log(peer, place, length, cast_some(buffer), room);
}
static inline void cast_peer_drop(struct cast_peer *peer) {
    if (peer != NULL) cast_c_peer_drop(peer);
}

/* The record of a script, and the picture of its events `from` to `to` (0 and UINT64_MAX: all), as SVG and as an HTML
 * page that steps through them. CAST_DONE; CAST_TOO_SHORT: nothing is written, and `told` has the length of the text, so
 * an empty buffer asks for that; CAST_REFUSED: `told` says why; CAST_OUT_OF_MEMORY. */
static inline uint32_t cast_run(const void *script, size_t count, void *out, size_t room, struct cast_text *told) {
    if (!cast_has(script, count) || !cast_has(out, room) || told == NULL) return CAST_MISUSED;
    return cast_c_run(cast_some(script), count, cast_some(out), room, told);
}
static inline uint32_t cast_draw(const void *script, size_t count, uint64_t from, uint64_t to, void *out, size_t room,
                                 struct cast_text *told) {
    if (!cast_has(script, count) || !cast_has(out, room) || told == NULL) return CAST_MISUSED;
    return cast_c_draw(cast_some(script), count, from, to, cast_some(out), room, told);
}
static inline uint32_t cast_page(const void *script, size_t count, uint64_t from, uint64_t to, void *out, size_t room,
                                 struct cast_text *told) {
    if (!cast_has(script, count) || !cast_has(out, room) || told == NULL) return CAST_MISUSED;
    return cast_c_page(cast_some(script), count, from, to, cast_some(out), room, told);
}

/* A record of format cast/1 with the head of cast/2, and otherwise the same bytes. CAST_DONE: `length` is the number of
 * its bytes; CAST_REFUSED: the text does not begin with a head of cast/1; CAST_OUT_OF_MEMORY; CAST_TOO_SHORT: nothing is written, and `length` says how much room it needs. */
static inline uint32_t cast_migrate(const void *record, size_t count, void *out, size_t room, uint64_t *length) {
    if (!cast_has(record, count) || !cast_has(out, room) || length == NULL) return CAST_MISUSED;
    return cast_c_migrate(cast_some(record), count, cast_some(out), room, length);
}

#ifdef __cplusplus
}
#endif
#endif
