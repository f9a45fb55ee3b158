/* Tests calls that no caller should make: null pointers, handles that hold nothing, or something where they should
 * not, buffers that are too short, unknown kinds, and events out of bounds. Also calls at their limits and one past
 * them, and the texts of codes. The exit status is 0, or the number of the first wrong line modulo 251, plus 1. */
#include "castgroup.h"
#include <string.h>

#define NEED(holds) do { if (!(holds)) return __LINE__ % 251 + 1; } while (0)

static const char SCRIPT[] = "{\"nodes\":2,\"faults\":0,\"choices\":1,\"events\":[[\"order\",0,\"data\",\"61\"]]}";
static const char RECORD[] = "cast/1 2 0 1\nb 0 0 data:61\nd 0 0 0 data:61\nend\n";

static int judges(void) {
    struct cast_verdict verdict = {9, 9};
    struct cast_judging judge = CAST_EMPTY;
    uint64_t lines = 0;
    NEED(cast_judge(NULL, 1, &verdict) == CAST_MISUSED && cast_judge(RECORD, 1, NULL) == CAST_MISUSED);
    NEED(cast_judge(RECORD, (size_t)-1, &verdict) == CAST_MISUSED);
    NEED(cast_judge(NULL, 0, &verdict) == CAST_BAD && verdict.line == 1 && verdict.rule == 0);
    verdict.rule = 9;
    NEED(cast_judge(RECORD, sizeof RECORD - 1, &verdict) == CAST_DONE && verdict.line == 0 && verdict.rule == 0);
    NEED(cast_judge_new(NULL) == CAST_MISUSED && cast_judge_feed(&judge, "a", 1) == CAST_MISUSED);
    NEED(cast_judge_finish(&judge, &verdict) == CAST_MISUSED);
    NEED(cast_judge_new(&judge) == CAST_DONE && cast_judge_new(&judge) == CAST_MISUSED);
    NEED(cast_judge_feed(NULL, "a", 1) == CAST_MISUSED && cast_judge_feed(&judge, NULL, 1) == CAST_MISUSED);
    NEED(cast_judge_feed(&judge, NULL, 0) == CAST_DONE && cast_judge_finish(&judge, NULL) == CAST_MISUSED);
    NEED(cast_judge_so_far(NULL, &lines, &verdict) == CAST_MISUSED && cast_judge_so_far(&judge, NULL, &verdict) == CAST_MISUSED);
    NEED(cast_judge_feed(&judge, RECORD, sizeof RECORD - 1) == CAST_DONE);
    NEED(cast_judge_so_far(&judge, &lines, &verdict) == CAST_DONE && lines > 1);
    verdict.line = verdict.rule = 9;
    NEED(cast_judge_finish(&judge, &verdict) == CAST_DONE && verdict.line == 0 && verdict.rule == 0);
    NEED(cast_judge_feed(&judge, "a", 1) == CAST_MISUSED && cast_judge_finish(&judge, &verdict) == CAST_MISUSED);
    NEED(cast_judge_new(&judge) == CAST_DONE && cast_judge_feed(&judge, "cast/1 2", 8) == CAST_DONE);
    cast_judge_drop(&judge);
    cast_judge_drop(&judge);
    cast_judge_drop(NULL);
    return 0;
}

/* Handles without a group answer alike: one that was never made, was refused, or was dropped. */
static int is_empty(struct cast_world *world) {
    struct cast_event event = {.kind = CAST_CRASH};
    struct cast_reply reply;
    struct cast_item item;
    struct cast_frame frame;
    uint64_t count;
    bool is_so = false;
    char bytes[4];
    NEED(cast_world_step(world, &event, NULL, 0, &reply) == CAST_MISUSED && cast_world_round(world, &reply) == CAST_MISUSED);
    NEED(cast_world_delivered(world, 0, 0, &count) == CAST_MISUSED && cast_world_owed(world, 0, 1, &count) == CAST_MISUSED);
    NEED(cast_world_item(world, 0, 0, 0, &item, bytes, sizeof bytes) == CAST_MISUSED);
    NEED(cast_world_decision(world, 0, 0, &is_so, &count) == CAST_MISUSED && cast_world_live(world, 0, &is_so) == CAST_MISUSED);
    NEED(cast_world_at_rest(world, &is_so) == CAST_MISUSED && cast_world_frame(world, 0, 0, &frame) == CAST_MISUSED);
    NEED(cast_world_enabled(world, &event, 1, &count) == CAST_MISUSED && cast_world_plan(world, &event, 1, &count) == CAST_MISUSED);
    cast_world_drop(world);
    return 0;
}

static int worlds(void) {
    struct cast_world world = CAST_EMPTY;
    struct cast_config config = CAST_CONFIG(2, 0), wrong = CAST_CONFIG(2, 1), odd = CAST_CONFIG(2, 0);
    struct cast_event event = {.kind = CAST_ORDER, .item = CAST_DATA};
    struct cast_reply reply;
    struct cast_item item;
    uint64_t fault, count, code;
    char bytes[4] = "zzz";
    wrong.mode = 1, odd.mode = 2;
    NEED(is_empty(NULL) == 0 && is_empty(&world) == 0);
    NEED(cast_world_new(NULL, &config, &fault) == CAST_MISUSED && cast_world_new(&world, NULL, &fault) == CAST_MISUSED);
    NEED(cast_world_new(&world, &config, NULL) == CAST_MISUSED);
    NEED(cast_world_new(&world, &wrong, &fault) == CAST_REFUSED && fault == 7 && is_empty(&world) == 0);
    NEED(cast_world_new(&world, &odd, &fault) == CAST_REFUSED && fault == 7);
    odd.nodes = 65, fault = 0;
    NEED(cast_world_new(&world, &odd, &fault) == CAST_REFUSED && fault == 7);
    NEED(cast_world_new(&world, &config, &fault) == CAST_DONE && cast_world_new(&world, &config, &fault) == CAST_MISUSED);
    NEED(cast_world_step(&world, NULL, NULL, 0, &reply) == CAST_MISUSED);
    NEED(cast_world_step(&world, &event, NULL, 0, NULL) == CAST_MISUSED);
    NEED(cast_world_step(&world, &event, NULL, 3, &reply) == CAST_MISUSED);
    event.item = 3;
    NEED(cast_world_step(&world, &event, "abc", 3, &reply) == CAST_MISUSED);
    event.kind = 5;
    NEED(cast_world_step(&world, &event, "abc", 3, &reply) == CAST_MISUSED);
    event.kind = CAST_ORDER, event.item = CAST_DATA;
    NEED(cast_world_step(&world, &event, "abc", 3, &reply) == CAST_DONE && reply.code == 0 && reply.deliveries == 1);
    event.node = 255;
    NEED(cast_world_step(&world, &event, "abc", 3, &reply) == CAST_DONE && reply.code == 1);
    NEED(cast_world_fault(&world, &event, "abc", 3, &code) == CAST_DONE && code == 1);
    NEED(cast_world_fault(NULL, &event, "abc", 3, &code) == CAST_MISUSED);
    NEED(cast_world_fault(&world, &event, "abc", 3, NULL) == CAST_MISUSED);
    NEED(cast_world_item(&world, 0, 0, 0, NULL, bytes, 4) == CAST_MISUSED);
    NEED(cast_world_item(&world, 0, 0, 0, &item, NULL, 4) == CAST_MISUSED);
    NEED(cast_world_item(&world, 0, 0, 0, &item, bytes, 2) == CAST_TOO_SHORT && item.length == 3 && strcmp(bytes, "zzz") == 0);
    NEED(cast_world_item(&world, 0, 0, 0, &item, NULL, 0) == CAST_TOO_SHORT && item.kind == CAST_DATA);
    NEED(cast_world_item(&world, 0, 0, 0, &item, bytes, 3) == CAST_DONE && strcmp(bytes, "abc") == 0);
    NEED(cast_world_item(&world, 0, 0, 1, &item, bytes, 3) == CAST_REFUSED);
    NEED(cast_world_stream(&world, 0, &count) == CAST_DONE && count == 1 && cast_world_stream(&world, 2, &count) == CAST_REFUSED);
    NEED(cast_world_stream_item(&world, 0, 0, &item, bytes, 2) == CAST_TOO_SHORT && item.length == 3);
    NEED(cast_world_stream_item(&world, 0, 0, &item, bytes, 3) == CAST_DONE && strcmp(bytes, "abc") == 0);
    NEED(cast_world_stream_item(&world, 0, 1, &item, bytes, 3) == CAST_REFUSED && cast_world_stream(&world, 0, NULL) == CAST_MISUSED);
    NEED(cast_world_delivered(&world, 0, 2, &count) == CAST_REFUSED && cast_world_owed(&world, 1, 1, &count) == CAST_REFUSED);
    NEED(cast_world_delivered(&world, 0, 0, NULL) == CAST_MISUSED && cast_world_round(&world, NULL) == CAST_MISUSED);
    cast_world_drop(&world);
    NEED(is_empty(&world) == 0);
    NEED(cast_world_new(&world, &config, &fault) == CAST_DONE);
    cast_world_drop(&world);
    return 0;
}

/* A group of 64 nodes, and not of 65; items of 1,024 bytes, and not of 1,025; a stream of 4,095 items and a close,
 * and a round of as many slots. */
static int limits(void) {
    struct cast_world world = CAST_EMPTY;
    struct cast_config many = CAST_CONFIG(65, 0), most = CAST_CONFIG(64, 0), pair = CAST_CONFIG(2, 0);
    struct cast_event order = {.kind = CAST_ORDER, .node = 63, .item = CAST_DATA};
    struct cast_reply reply;
    uint64_t fault, count;
    static char bytes[1025];
    NEED(cast_world_new(&world, &many, &fault) == CAST_REFUSED && fault == 1);
    NEED(cast_world_new(&world, &most, &fault) == CAST_DONE);
    NEED(cast_world_step(&world, &order, bytes, 1025, &reply) == CAST_DONE && reply.code == 5);
    NEED(cast_world_step(&world, &order, bytes, 1024, &reply) == CAST_DONE && reply.code == 0 && reply.deliveries == 1);
    NEED(cast_world_round(&world, &reply) == CAST_DONE && reply.code == 0 && reply.number == 2 * 63);
    NEED(cast_world_delivered(&world, 0, 63, &count) == CAST_DONE && count == 1);
    cast_world_drop(&world);
    order.node = 0;
    NEED(cast_world_new(&world, &pair, &fault) == CAST_DONE);
    for (int item = 0; item < 4095; item++)
        NEED(cast_world_step(&world, &order, bytes, 1, &reply) == CAST_DONE && reply.code == 0);
    NEED(cast_world_step(&world, &order, bytes, 1, &reply) == CAST_DONE && reply.code == 7);
    order.item = CAST_CLOSE;
    NEED(cast_world_step(&world, &order, NULL, 0, &reply) == CAST_DONE && reply.code == 0 && reply.number == 4095);
    NEED(cast_world_round(&world, &reply) == CAST_DONE && reply.code == 0 && reply.number == 2 * 4096);
    NEED(cast_world_delivered(&world, 1, 0, &count) == CAST_DONE && count == 4096);
    cast_world_drop(&world);
    return 0;
}

/* Many events at once: a refused one is skipped, and the first that is no event stops the call. */
static int many(void) {
    struct cast_world world = CAST_EMPTY;
    struct cast_config config = CAST_CONFIG(2, 0);
    struct cast_event events[] = {
        {CAST_ORDER, 0, 0, CAST_DATA, 1, 3},
        {CAST_SEND, 0, 1, 0, 9, 0},
        {CAST_ORDER, 1, 0, CAST_PROPOSE, UINT64_MAX, UINT64_MAX},
        {CAST_ORDER, 0, 0, CAST_DATA, 5, 0},
        {CAST_ORDER, 0, 0, CAST_DATA, 5, 1},
        {CAST_ORDER, 0, 0, CAST_DATA, UINT64_MAX, 2},
    };
    struct cast_reply replies[6];
    struct cast_item item;
    uint64_t fault, taken = 9;
    char bytes[4] = "";
    NEED(cast_world_steps(&world, events, 1, "abcde", 5, replies, &taken) == CAST_MISUSED && taken == 0);
    NEED(cast_world_new(&world, &config, &fault) == CAST_DONE);
    NEED(cast_world_steps(NULL, events, 1, "abcde", 5, replies, &taken) == CAST_MISUSED);
    NEED(cast_world_steps(&world, NULL, 1, "abcde", 5, replies, &taken) == CAST_MISUSED);
    NEED(cast_world_steps(&world, events, 1, NULL, 5, replies, &taken) == CAST_MISUSED);
    NEED(cast_world_steps(&world, events, 1, "abcde", 5, NULL, &taken) == CAST_MISUSED);
    NEED(cast_world_steps(&world, events, 1, "abcde", 5, replies, NULL) == CAST_MISUSED);
    NEED(cast_world_steps(&world, NULL, 0, NULL, 0, NULL, &taken) == CAST_DONE && taken == 0);
    NEED(cast_world_steps(&world, events, 5, "abcde", 5, replies, &taken) == CAST_MISUSED && taken == 4);
    NEED(replies[0].code == 0 && replies[1].code == 8 && replies[2].code == 0 && replies[3].number == 1);
    NEED(cast_world_item(&world, 0, 0, 0, &item, bytes, 3) == CAST_DONE && strcmp(bytes, "bcd") == 0);
    NEED(cast_world_steps(&world, events + 5, 1, "abcde", 5, replies, &taken) == CAST_MISUSED && taken == 0);
    events[5].kind = 9;
    NEED(cast_world_steps(&world, events + 5, 1, "abcde", 5, replies, &taken) == CAST_MISUSED && taken == 0);
    cast_world_drop(&world);
    return 0;
}

static bool is_event(const struct cast_event *event, int kind, int node, int to, uint64_t number) {
    return event->kind == kind && event->node == node && event->to == to && event->number == number && event->value == 0;
}

static bool is_frame(const struct cast_frame *frame, int kind, int to, uint64_t slot, uint64_t sender, uint64_t number) {
    return frame->kind == (uint64_t)kind && frame->to == (uint64_t)to && frame->slot == slot && frame->sender == sender &&
           frame->number == number;
}

/* What may happen next, and what a round takes: no room, too little of it, and enough. */
static int nexts(void) {
    struct cast_world world = CAST_EMPTY;
    struct cast_config config = CAST_CONFIG(3, 1);
    struct cast_event order = {.kind = CAST_ORDER, .item = CAST_DATA}, events[16];
    struct cast_event crash = {.kind = CAST_CRASH, .node = 2};
    struct cast_frame frame = {9, 9, 9, 9, 9};
    struct cast_reply reply, replies[4];
    uint64_t fault, count = 9, taken = 0;
    bool is_so = false;
    NEED(cast_world_new(&world, &config, &fault) == CAST_DONE);
    NEED(cast_world_enabled(&world, NULL, 0, &count) == CAST_DONE && count == 0);
    NEED(cast_world_plan(&world, NULL, 0, &count) == CAST_DONE && count == 0);
    NEED(cast_world_enabled(&world, NULL, 1, &count) == CAST_MISUSED && cast_world_plan(&world, NULL, 1, &count) == CAST_MISUSED);
    NEED(cast_world_enabled(&world, events, 16, NULL) == CAST_MISUSED && cast_world_plan(&world, events, 16, NULL) == CAST_MISUSED);
    NEED(cast_world_enabled(&world, events, (size_t)-1 / 16, &count) == CAST_MISUSED);
    NEED(cast_world_plan(&world, events, (size_t)-1 / 16, &count) == CAST_MISUSED);
    NEED(cast_world_frame(&world, 0, 0, NULL) == CAST_MISUSED && cast_world_frame(&world, 0, 0, &frame) == CAST_REFUSED);
    NEED(cast_world_frame(&world, 3, 0, &frame) == CAST_REFUSED && cast_world_frame(&world, 0, UINT64_MAX, &frame) == CAST_REFUSED);

    NEED(cast_world_step(&world, &order, "abc", 3, &reply) == CAST_DONE && reply.code == 0);
    memset(events, 'z', sizeof events);
    NEED(cast_world_enabled(&world, NULL, 0, &count) == CAST_TOO_SHORT && count == 2);
    NEED(cast_world_enabled(&world, events, 1, &count) == CAST_TOO_SHORT && count == 2 && events[0].kind == 'z');
    NEED(cast_world_enabled(&world, events, 2, &count) == CAST_DONE && count == 2 && events[2].kind == 'z');
    NEED(is_event(&events[0], CAST_SEND, 0, 1, 0) && is_event(&events[1], CAST_SEND, 0, 2, 0));
    memset(events, 'z', sizeof events);
    NEED(cast_world_plan(&world, NULL, 0, &count) == CAST_TOO_SHORT && count == 8);
    NEED(cast_world_plan(&world, events, 7, &count) == CAST_TOO_SHORT && count == 8 && events[0].kind == 'z');
    NEED(cast_world_plan(&world, events, 16, &count) == CAST_DONE && count == 8 && events[8].kind == 'z');
    NEED(is_event(&events[0], CAST_SEND, 0, 1, 0) && is_event(&events[1], CAST_ARRIVE, 0, 0, 0));
    NEED(is_event(&events[2], CAST_ACK, 1, 0, 0) && is_event(&events[3], CAST_ARRIVE, 1, 0, 0));
    NEED(is_event(&events[4], CAST_SEND, 0, 2, 0) && is_event(&events[5], CAST_ARRIVE, 0, 0, 1));
    NEED(is_event(&events[6], CAST_ACK, 2, 0, 0) && is_event(&events[7], CAST_ARRIVE, 2, 0, 0));

    NEED(cast_world_step(&world, &events[0], NULL, 0, &reply) == CAST_DONE && reply.code == 0);
    NEED(cast_world_frame(&world, 0, 0, &frame) == CAST_DONE && is_frame(&frame, CAST_CARRY, 1, 0, 0, 0));
    NEED(cast_world_enabled(&world, events, 16, &count) == CAST_DONE && count == 3 && is_event(&events[2], CAST_ARRIVE, 0, 0, 0));
    NEED(cast_world_step(&world, &events[2], NULL, 0, &reply) == CAST_DONE && reply.number == 1 && reply.deliveries == 1);
    NEED(cast_world_enabled(&world, events, 16, &count) == CAST_DONE && count == 4);
    NEED(is_event(&events[0], CAST_SEND, 0, 1, 0) && is_event(&events[1], CAST_ACK, 1, 0, 0));
    NEED(is_event(&events[2], CAST_SEND, 0, 2, 0) && is_event(&events[3], CAST_SEND, 1, 2, 0));
    NEED(cast_world_step(&world, &events[1], NULL, 0, &reply) == CAST_DONE && reply.code == 0);
    NEED(cast_world_frame(&world, 1, 0, &frame) == CAST_DONE && is_frame(&frame, CAST_TOOK, 0, 0, 0, 0));
    NEED(cast_world_step(&world, &crash, NULL, 0, &reply) == CAST_DONE && reply.code == 0);
    NEED(cast_world_enabled(&world, events, 16, &count) == CAST_DONE && count == 3 && is_event(&events[2], CAST_ARRIVE, 1, 0, 0));
    NEED(cast_world_step(&world, &events[2], NULL, 0, &reply) == CAST_DONE && reply.code == 0);
    NEED(cast_world_at_rest(&world, &is_so) == CAST_DONE && is_so);
    NEED(cast_world_enabled(&world, NULL, 0, &count) == CAST_DONE && count == 0);
    NEED(cast_world_plan(&world, events, 16, &count) == CAST_DONE && count == 0);
    NEED(cast_world_step(&world, &order, "d", 1, &reply) == CAST_DONE && reply.code == 0);
    NEED(cast_world_plan(&world, events, 16, &count) == CAST_DONE && count == 4);
    NEED(cast_world_steps(&world, events, 4, NULL, 0, replies, &taken) == CAST_DONE && taken == 4 && replies[1].deliveries == 1);
    NEED(cast_world_at_rest(&world, &is_so) == CAST_DONE && is_so);
    cast_world_drop(&world);
    return 0;
}

static int codes(void) {
    NEED(cast_version() == CAST_VERSION_NUMBER);
    NEED(strcmp(cast_refusal_text(12), "the node can make no more frames") == 0);
    NEED(strcmp(cast_refusal_text(13), "no such code") == 0 && strcmp(cast_refusal_text(0), "accepted") == 0);
    NEED(strcmp(cast_rule_text(6), "a second proposal of a node in an instance") == 0);
    NEED(strcmp(cast_rule_text(7), "no such code") == 0 && strcmp(cast_config_text(8), "no such code") == 0);
    NEED(strcmp(cast_config_text(1), "the number of nodes is not 1 to 64") == 0);
    NEED(strcmp(cast_status_text(CAST_TOO_SHORT), "the buffer has no room") == 0);
    NEED(strcmp(cast_status_text(4), "no such code") == 0);
    NEED(strcmp(cast_peer_text(14), "a packet that no peer could have made") == 0);
    NEED(strcmp(cast_peer_text(27), "the stream is full") == 0 && strcmp(cast_peer_text(33), "no such code") == 0);
    NEED(strcmp(cast_peer_text(20), "no such code") == 0 && strcmp(cast_peer_text(0), "no such code") == 0);
    return 0;
}

/* Handles without a peer answer alike. */
static int holds_no_peer(struct cast_peer *peer) {
    struct cast_event event = {.kind = CAST_ORDER, .item = CAST_CLOSE};
    struct cast_packet packet;
    struct cast_news news;
    uint64_t number;
    bool is_so = false;
    char bytes[4];
    NEED(cast_peer_order(peer, &event, NULL, 0, &number) == CAST_MISUSED && cast_peer_receive(peer, "a", 1, &number) == CAST_MISUSED);
    NEED(cast_peer_next(peer, &packet, bytes, 4) == CAST_MISUSED && cast_peer_news(peer, &news, bytes, 4) == CAST_MISUSED);
    NEED(cast_peer_saved(peer, 0) == CAST_MISUSED && cast_peer_tick(peer) == CAST_MISUSED && cast_peer_give_up(peer, 0) == CAST_MISUSED);
    NEED(cast_peer_is_quiet(peer, &is_so) == CAST_MISUSED && cast_peer_log_length(peer, &number) == CAST_MISUSED);
    NEED(cast_peer_log(peer, 0, &number, bytes, 4) == CAST_MISUSED);
    cast_peer_drop(peer);
    return 0;
}

static int peers(void) {
    struct cast_peer peer = CAST_EMPTY;
    struct cast_config config = CAST_CONFIG(2, 0), wrong = CAST_CONFIG(65, 0);
    struct cast_event event = {.kind = CAST_ORDER, .item = CAST_DATA};
    struct cast_packet packet;
    char bytes[CAST_MOST_PACKET];
    uint64_t fault = 0;
    bool is_so = false;
    NEED(holds_no_peer(NULL) == 0 && holds_no_peer(&peer) == 0);
    NEED(cast_peer_new(NULL, &config, 7, 0, CAST_SAVE_FIRST, &fault) == CAST_MISUSED);
    NEED(cast_peer_new(&peer, NULL, 7, 0, CAST_SAVE_FIRST, &fault) == CAST_MISUSED);
    NEED(cast_peer_new(&peer, &config, 7, 0, CAST_SAVE_FIRST, NULL) == CAST_MISUSED);
    NEED(cast_peer_new(&peer, &config, 7, 0, (enum cast_saving)2, &fault) == CAST_MISUSED);
    NEED(cast_peer_new(&peer, &wrong, 7, 0, CAST_SAVE_FIRST, &fault) == CAST_REFUSED && fault == 1);
    NEED(cast_peer_new(&peer, &config, 7, 2, CAST_SAVE_FIRST, &fault) == CAST_REFUSED && fault == 21 && holds_no_peer(&peer) == 0);
    NEED(cast_peer_new(&peer, &config, 7, 1, CAST_SAVE_FIRST, &fault) == CAST_DONE);
    NEED(cast_peer_new(&peer, &config, 7, 1, CAST_SAVE_FIRST, &fault) == CAST_MISUSED);
    NEED(cast_peer_order(&peer, NULL, "abc", 3, &fault) == CAST_MISUSED && cast_peer_order(&peer, &event, "abc", 3, NULL) == CAST_MISUSED);
    NEED(cast_peer_order(&peer, &event, NULL, 3, &fault) == CAST_MISUSED);
    event.item = 3;
    NEED(cast_peer_order(&peer, &event, "abc", 3, &fault) == CAST_MISUSED);
    NEED(cast_peer_receive(&peer, NULL, 1, &fault) == CAST_MISUSED && cast_peer_receive(&peer, "abcd", 4, NULL) == CAST_MISUSED);
    NEED(cast_peer_receive(&peer, NULL, 0, &fault) == CAST_REFUSED && fault == 4);
    NEED(cast_peer_receive(&peer, "abcd", 4, &fault) == CAST_REFUSED && fault == 1);
    NEED(cast_peer_next(&peer, NULL, NULL, 0) == CAST_MISUSED && cast_peer_next(&peer, &packet, NULL, 1) == CAST_MISUSED);
    NEED(cast_peer_next(&peer, &packet, bytes, sizeof bytes) == CAST_DONE && packet.kind == CAST_NO_PACKET);
    NEED(cast_peer_news(&peer, NULL, NULL, 0) == CAST_MISUSED && cast_peer_log_length(&peer, NULL) == CAST_MISUSED);
    NEED(cast_peer_is_quiet(&peer, NULL) == CAST_MISUSED && cast_peer_log(&peer, 0, NULL, NULL, 0) == CAST_MISUSED);
    NEED(cast_peer_is_quiet(&peer, &is_so) == CAST_DONE && is_so);
    cast_peer_drop(&peer);
    NEED(holds_no_peer(&peer) == 0);
    return 0;
}

/* What is saved first goes out, and a buffer that is too short loses nothing. The packet brings the item to a peer that saves
 * nothing; no other group, and no other node, takes it. */
static int packets(void) {
    struct cast_peer peer = CAST_EMPTY, other = CAST_EMPTY, foreign = CAST_EMPTY;
    struct cast_config config = CAST_CONFIG(2, 0);
    struct cast_event event = {.kind = CAST_ORDER, .item = CAST_DATA};
    struct cast_packet packet;
    struct cast_news news;
    uint64_t fault, length;
    char bytes[CAST_MOST_PACKET + 1] = "zzz";
    NEED(cast_peer_new(&peer, &config, 7, 0, CAST_SAVE_FIRST, &fault) == CAST_DONE);
    NEED(cast_peer_new(&other, &config, 7, 1, CAST_SAVE_NEVER, &fault) == CAST_DONE);
    NEED(cast_peer_new(&foreign, &config, 8, 1, CAST_SAVE_NEVER, &fault) == CAST_DONE);
    NEED(cast_peer_order(&peer, &event, bytes, 1025, &fault) == CAST_REFUSED && fault == 25);
    NEED(cast_peer_order(&peer, &event, "abc", 3, &fault) == CAST_DONE);
    NEED(cast_peer_next(&peer, &packet, bytes, sizeof bytes) == CAST_DONE && packet.kind == CAST_MADE);
    NEED(cast_peer_next(&peer, &packet, bytes, sizeof bytes) == CAST_DONE && packet.kind == CAST_UNSAVED);
    NEED(cast_peer_news(&peer, &news, bytes, CAST_MOST_BYTES) == CAST_DONE && news.kind == CAST_NO_NEWS);
    NEED(cast_peer_log_length(&peer, &length) == CAST_DONE && length == 3 && cast_peer_saved(&peer, 9) == CAST_DONE);
    NEED(cast_peer_next(&peer, &packet, bytes, CAST_MOST_PACKET - 1) == CAST_TOO_SHORT && strcmp(bytes, "zzz") == 0);
    NEED(cast_peer_next(&peer, &packet, bytes, CAST_MOST_PACKET) == CAST_DONE && packet.kind == CAST_PACKET && packet.to == 1);
    NEED(packet.place == 3 && packet.length == 50 && memcmp(bytes + 47, "abc", 3) == 0);
    NEED(cast_peer_receive(&foreign, bytes, 50, &fault) == CAST_REFUSED && fault == 11);
    NEED(cast_peer_receive(&peer, bytes, 50, &fault) == CAST_REFUSED && fault == 12);
    NEED(cast_peer_receive(&other, bytes, 50, &fault) == CAST_DONE);
    NEED(cast_peer_news(&other, &news, bytes, CAST_MOST_BYTES - 1) == CAST_TOO_SHORT);
    NEED(cast_peer_news(&other, &news, bytes, CAST_MOST_BYTES) == CAST_DONE && news.kind == CAST_DELIVERED);
    NEED(news.sender == 0 && news.number == 0 && news.item == CAST_DATA && news.length == 3 && memcmp(bytes, "abc", 3) == 0);
    NEED(cast_peer_news(&other, &news, bytes, sizeof bytes) == CAST_DONE && news.kind == CAST_NO_NEWS);
    cast_peer_drop(&peer), cast_peer_drop(&other), cast_peer_drop(&foreign);
    return 0;
}

/* The log has its first line at place 0, and then its entries. */
static int lines(void) {
    static const char HEAD[] = "cast-log/1 1 0 1 basic 4096 18446744073709551615 0\n", ENTRY[] = " order close d 0 0 close\n";
    struct cast_peer peer = CAST_EMPTY;
    struct cast_config config = CAST_CONFIG(1, 0);
    struct cast_event event = {.kind = CAST_ORDER, .item = CAST_CLOSE};
    struct cast_news news;
    uint64_t fault, length;
    char line[CAST_MOST_BYTES] = "zzz";
    NEED(cast_peer_new(&peer, &config, UINT64_MAX, 0, CAST_SAVE_FIRST, &fault) == CAST_DONE);
    NEED(cast_peer_log(&peer, 0, &length, line, sizeof HEAD - 2) == CAST_TOO_SHORT && length == sizeof HEAD - 1);
    NEED(strcmp(line, "zzz") == 0 && cast_peer_log(&peer, 1, &length, line, sizeof line) == CAST_REFUSED);
    NEED(cast_peer_log(&peer, 0, &length, line, sizeof line) == CAST_DONE && memcmp(line, HEAD, sizeof HEAD - 1) == 0);
    NEED(cast_peer_order(&peer, &event, NULL, 0, &fault) == CAST_DONE);
    NEED(cast_peer_log(&peer, 1, &length, line, sizeof line) == CAST_DONE && length > 0 && line[length - 1] == '\n');
    NEED(memcmp(strchr(line, ' '), ENTRY, sizeof ENTRY - 1) == 0);
    NEED(cast_peer_saved(&peer, 1) == CAST_DONE);
    NEED(cast_peer_news(&peer, &news, line, sizeof line) == CAST_DONE && news.kind == CAST_ORDERED && news.number == 0);
    NEED(cast_peer_news(&peer, &news, line, sizeof line) == CAST_DONE && news.kind == CAST_DELIVERED && news.item == CAST_CLOSE);
    cast_peer_drop(&peer);
    return 0;
}

static int texts(void) {
    struct cast_text told;
    char out[64];
    memset(out, 'z', sizeof out);
    NEED(cast_run(NULL, 1, out, sizeof out, &told) == CAST_MISUSED && cast_run(SCRIPT, 1, NULL, 1, &told) == CAST_MISUSED);
    NEED(cast_run(SCRIPT, sizeof SCRIPT - 1, out, sizeof out, NULL) == CAST_MISUSED);
    NEED(cast_run(SCRIPT, sizeof SCRIPT - 1, NULL, 0, &told) == CAST_TOO_SHORT && told.length == sizeof RECORD - 1);
    NEED(cast_run(SCRIPT, sizeof SCRIPT - 1, out, sizeof RECORD - 2, &told) == CAST_TOO_SHORT && out[0] == 'z');
    NEED(cast_run(SCRIPT, sizeof SCRIPT - 1, out, sizeof out, &told) == CAST_DONE && told.length == sizeof RECORD - 1);
    NEED(memcmp(out, RECORD, sizeof RECORD - 1) == 0 && out[sizeof RECORD - 1] == 'z');
    NEED(cast_run(NULL, 0, out, sizeof out, &told) == CAST_REFUSED && told.fault == 2);
    NEED(cast_draw(SCRIPT, 5, 0, 9, out, sizeof out, &told) == CAST_REFUSED && told.fault == 2);
    NEED(cast_draw(SCRIPT, sizeof SCRIPT - 1, 0, 9, out, sizeof out, &told) == CAST_TOO_SHORT && told.length > 1000);
    return 0;
}

static int pages(void) {
    static const char BEGIN[] = "<!DOCTYPE html>\n", END[] = "</html>\n";
    static char out[65536];
    struct cast_text told;
    memset(out, 'z', sizeof out);
    NEED(cast_page(NULL, 1, 0, 9, out, sizeof out, &told) == CAST_MISUSED && cast_page(SCRIPT, 1, 0, 9, NULL, 1, &told) == CAST_MISUSED);
    NEED(cast_page(SCRIPT, sizeof SCRIPT - 1, 0, 9, out, sizeof out, NULL) == CAST_MISUSED);
    NEED(cast_page(SCRIPT, 5, 0, 9, out, sizeof out, &told) == CAST_REFUSED && told.fault == 2);
    NEED(cast_page(SCRIPT, sizeof SCRIPT - 1, 0, 9, NULL, 0, &told) == CAST_TOO_SHORT && told.length > 1000);
    size_t length = told.length;
    NEED(length < sizeof out);
    NEED(cast_page(SCRIPT, sizeof SCRIPT - 1, 0, 9, out, length - 1, &told) == CAST_TOO_SHORT && told.length == length && out[0] == 'z');
    NEED(cast_page(SCRIPT, sizeof SCRIPT - 1, 0, 9, out, length, &told) == CAST_DONE && told.length == length && out[length] == 'z');
    NEED(memcmp(out, BEGIN, sizeof BEGIN - 1) == 0 && memcmp(out + length - (sizeof END - 1), END, sizeof END - 1) == 0);
    return 0;
}

static int migrations(void) {
    static const char NEW[] = "cast/2 2 0 1 basic\nb 0 0 data:61\nd 0 0 0 data:61\nend\n";
    uint64_t length = 0;
    char out[64];
    memset(out, 'z', sizeof out);
    NEED(cast_migrate(NULL, 1, out, sizeof out, &length) == CAST_MISUSED && cast_migrate(RECORD, 1, NULL, 1, &length) == CAST_MISUSED);
    NEED(cast_migrate(RECORD, sizeof RECORD - 1, out, sizeof out, NULL) == CAST_MISUSED);
    NEED(cast_migrate(RECORD, sizeof RECORD - 1, NULL, 0, &length) == CAST_TOO_SHORT && length == sizeof NEW - 1);
    NEED(cast_migrate(RECORD, sizeof RECORD - 1, out, sizeof NEW - 2, &length) == CAST_TOO_SHORT && out[0] == 'z');
    NEED(cast_migrate(RECORD, sizeof RECORD - 1, out, sizeof out, &length) == CAST_DONE && length == sizeof NEW - 1);
    NEED(memcmp(out, NEW, sizeof NEW - 1) == 0 && out[sizeof NEW - 1] == 'z');
    NEED(cast_migrate(NEW, sizeof NEW - 1, out, sizeof out, &length) == CAST_REFUSED);
    NEED(cast_migrate(NULL, 0, out, sizeof out, &length) == CAST_REFUSED && cast_migrate(RECORD, 9, out, sizeof out, &length) == CAST_REFUSED);
    return 0;
}

int main(void) {
    int wrong = judges();
    if (wrong == 0) wrong = worlds();
    if (wrong == 0) wrong = limits();
    if (wrong == 0) wrong = many();
    if (wrong == 0) wrong = nexts();
    if (wrong == 0) wrong = codes();
    if (wrong == 0) wrong = texts();
    if (wrong == 0) wrong = pages();
    if (wrong == 0) wrong = migrations();
    if (wrong == 0) wrong = peers();
    if (wrong == 0) wrong = packets();
    if (wrong == 0) wrong = lines();
    return wrong;
}
