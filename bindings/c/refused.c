/* Refuses each allocation of the library in turn. A call then returns CAST_OUT_OF_MEMORY, leaves what it was given
 * as it says, and leaks nothing. Link with --wrap=malloc and --wrap=realloc. The exit status is 0, or the number of
 * the first wrong line modulo 251, plus 1. */
#include "castgroup.h"
#include <string.h>

#define NEED(holds) do { if (!(holds)) return __LINE__ % 251 + 1; } while (0)

void *__real_malloc(size_t size);
void *__real_realloc(void *block, size_t size);

/* The number of allocations before the one that is refused. */
static long left;
static bool is_refused(void) { return left-- == 0; }

void *__wrap_malloc(size_t size) { return is_refused() ? NULL : __real_malloc(size); }
void *__wrap_realloc(void *block, size_t size) { return is_refused() ? NULL : __real_realloc(block, size); }

static const char SCRIPT[] =
    "{\"nodes\":3,\"faults\":1,\"choices\":2,\"events\":[[\"order\",0,\"data\",\"61\"],[\"order\",1,\"propose\",7,2],[\"settle\"]]}";
static const char RECORD[] = "cast/1 2 0 1\nb 0 0 data:61\nd 0 0 0 data:61\nd 1 0 0 data:61\nend\n";
static char out[65536];

static int judges(void) {
    struct cast_verdict verdict;
    struct cast_judging judge = CAST_EMPTY;
    uint32_t status = cast_judge(RECORD, sizeof RECORD - 1, &verdict), last = CAST_DONE;
    NEED(status == CAST_DONE || status == CAST_OUT_OF_MEMORY);
    status = cast_judge_new(&judge);
    NEED(status == CAST_DONE || (status == CAST_OUT_OF_MEMORY && cast_judge_new(&judge) == CAST_DONE));
    for (size_t at = 0; at < sizeof RECORD - 1; at += 5) {
        size_t rest = sizeof RECORD - 1 - at;
        status = cast_judge_feed(&judge, RECORD + at, rest < 5 ? rest : 5);
        NEED(status == CAST_OUT_OF_MEMORY || (status == CAST_DONE && last == CAST_DONE));
        last = status;
    }
    NEED(cast_judge_finish(&judge, &verdict) == last);
    return 0;
}

/* Readers that run out of memory leave the group as it was, so that the same call then answers. */
static int nexts(struct cast_world *world) {
    struct cast_event events[16];
    struct cast_frame frame;
    struct cast_reply reply;
    uint64_t count = 9, planned = 9;
    uint32_t status = cast_world_enabled(world, events, 16, &count);
    NEED(status == CAST_DONE || (status == CAST_OUT_OF_MEMORY && cast_world_enabled(world, events, 16, &count) == CAST_DONE));
    NEED(count == 6 && events[0].kind == CAST_SEND && events[0].node == 0 && events[0].to == 1);
    status = cast_world_step(world, &events[0], NULL, 0, &reply);
    NEED(status == CAST_DONE || (status == CAST_OUT_OF_MEMORY && cast_world_step(world, &events[0], NULL, 0, &reply) == CAST_DONE));
    status = cast_world_frame(world, 0, 0, &frame);
    NEED(status == CAST_DONE || (status == CAST_OUT_OF_MEMORY && cast_world_frame(world, 0, 0, &frame) == CAST_DONE));
    NEED(frame.kind == CAST_CARRY && frame.to == 1 && frame.slot == 0 && frame.sender == 0 && frame.number == 0);
    status = cast_world_plan(world, NULL, 0, &planned);
    NEED(status == CAST_TOO_SHORT || (status == CAST_OUT_OF_MEMORY && cast_world_plan(world, NULL, 0, &planned) == CAST_TOO_SHORT));
    NEED(planned == 24);
    return 0;
}

static int worlds(void) {
    struct cast_world world = CAST_EMPTY;
    struct cast_config config = CAST_CONFIG(3, 1);
    struct cast_event order = {.kind = CAST_ORDER, .item = CAST_DATA};
    struct cast_reply reply;
    struct cast_item item;
    uint64_t fault, count;
    bool is_so = false;
    uint32_t status = cast_world_new(&world, &config, &fault);
    NEED(status == CAST_DONE || (status == CAST_OUT_OF_MEMORY && cast_world_new(&world, &config, &fault) == CAST_DONE));
    for (uint8_t node = 0; node < 3; node++) {
        order.node = node;
        status = cast_world_step(&world, &order, "abcd", 4, &reply);
        if (status == CAST_OUT_OF_MEMORY) {
            NEED(cast_world_delivered(&world, node, node, &count) == CAST_DONE && count == 0);
            status = cast_world_step(&world, &order, "abcd", 4, &reply);
        }
        NEED(status == CAST_DONE && reply.code == 0 && reply.deliveries == 1);
    }
    int wrong = nexts(&world);
    if (wrong != 0) return wrong;
    for (int round = 0; round < 3; round++) {
        status = cast_world_round(&world, &reply);
        NEED(status == CAST_DONE || status == CAST_OUT_OF_MEMORY);
    }
    NEED(cast_world_at_rest(&world, &is_so) == CAST_DONE && is_so);
    NEED(cast_world_item(&world, 2, 0, 0, &item, out, 4) == CAST_DONE && memcmp(out, "abcd", 4) == 0);
    cast_world_drop(&world);
    return 0;
}

/* Saves the whole log of a peer, and gives its packets to the other. What ran out of memory is asked again. */
static int hand_on(struct cast_peer *peer, struct cast_peer *other) {
    struct cast_packet packet = {CAST_MADE, 0, 0, 0};
    uint64_t count, length, fault;
    while (packet.kind != CAST_NO_PACKET) {
        uint32_t status = cast_peer_next(peer, &packet, out, sizeof out);
        NEED(status == CAST_DONE || status == CAST_OUT_OF_MEMORY);
        NEED(cast_peer_log_length(peer, &count) == CAST_DONE && cast_peer_saved(peer, count) == CAST_DONE);
        if (status == CAST_OUT_OF_MEMORY) {
            packet.kind = CAST_MADE;
        } else if (packet.kind == CAST_PACKET) {
            status = cast_peer_receive(other, out, packet.length, &fault);
            NEED(status == CAST_DONE || status == CAST_OUT_OF_MEMORY);
        }
        status = cast_peer_log(peer, count, &length, out, sizeof out);
        NEED(status == CAST_DONE || status == CAST_OUT_OF_MEMORY);
    }
    return 0;
}

/* What was lost for want of memory is sent again. */
static int peers(void) {
    struct cast_peer peer = CAST_EMPTY, other = CAST_EMPTY;
    struct cast_config config = CAST_CONFIG(2, 0);
    struct cast_event order = {.kind = CAST_ORDER, .item = CAST_DATA};
    struct cast_news news = {CAST_NO_NEWS, 0, 0, 0, 0, 0, 0};
    uint64_t fault;
    bool is_quiet = false;
    uint32_t status = cast_peer_new(&peer, &config, 7, 0, CAST_SAVE_FIRST, &fault);
    NEED(status == CAST_DONE || (status == CAST_OUT_OF_MEMORY && cast_peer_new(&peer, &config, 7, 0, CAST_SAVE_FIRST, &fault) == CAST_DONE));
    status = cast_peer_new(&other, &config, 7, 1, CAST_SAVE_FIRST, &fault);
    NEED(status == CAST_DONE || (status == CAST_OUT_OF_MEMORY && cast_peer_new(&other, &config, 7, 1, CAST_SAVE_FIRST, &fault) == CAST_DONE));
    status = cast_peer_order(&peer, &order, "abcd", 4, &fault);
    NEED(status == CAST_DONE || (status == CAST_OUT_OF_MEMORY && cast_peer_order(&peer, &order, "abcd", 4, &fault) == CAST_DONE));
    for (int turn = 0; turn < 8; turn++) {
        int wrong = hand_on(&peer, &other);
        if (wrong == 0) wrong = hand_on(&other, &peer);
        if (wrong != 0) return wrong;
        NEED(cast_peer_tick(&peer) == CAST_DONE && cast_peer_tick(&other) == CAST_DONE);
    }
    NEED(cast_peer_is_quiet(&peer, &is_quiet) == CAST_DONE && is_quiet);
    status = cast_peer_news(&other, &news, out, sizeof out);
    NEED(status == CAST_DONE || (status == CAST_OUT_OF_MEMORY && cast_peer_news(&other, &news, out, sizeof out) == CAST_DONE));
    NEED(news.kind == CAST_DELIVERED && memcmp(out, "abcd", 4) == 0);
    cast_peer_drop(&peer), cast_peer_drop(&other);
    return 0;
}

static int texts(void) {
    struct cast_text told;
    uint64_t length;
    uint32_t status = cast_run(SCRIPT, sizeof SCRIPT - 1, out, sizeof out, &told);
    NEED(status == CAST_DONE || status == CAST_OUT_OF_MEMORY);
    status = cast_draw(SCRIPT, sizeof SCRIPT - 1, 0, 9, out, sizeof out, &told);
    NEED(status == CAST_DONE || status == CAST_OUT_OF_MEMORY);
    status = cast_page(SCRIPT, sizeof SCRIPT - 1, 0, 9, out, sizeof out, &told);
    NEED(status == CAST_DONE || status == CAST_OUT_OF_MEMORY);
    status = cast_migrate(RECORD, sizeof RECORD - 1, out, sizeof out, &length);
    NEED(status == CAST_DONE || status == CAST_OUT_OF_MEMORY);
    return 0;
}

/* Repeats the calls until none of their allocations is refused. */
static int each(int (*calls)(void)) {
    for (long given = 0; given < 100000; given++) {
        left = given;
        int wrong = calls();
        if (wrong != 0) return wrong;
        if (left >= 0) return given > 5 ? 0 : 254;
    }
    return 255;
}

int main(void) {
    int wrong = each(judges);
    if (wrong == 0) wrong = each(worlds);
    if (wrong == 0) wrong = each(peers);
    if (wrong == 0) wrong = each(texts);
    return wrong;
}
