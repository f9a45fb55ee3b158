/* What libcastgroup has besides the proved exports: its version, and a call that takes many events, for languages in
 * which each call is costly. */
#include "castgroup.h"

uint32_t cast_c_version(void) { return CAST_VERSION_NUMBER; }

static bool orders_bytes(const struct cast_event *event) { return event->kind == CAST_ORDER && event->item == CAST_DATA; }

uint32_t cast_c_world_steps(struct cast_world *world, const struct cast_event *events, size_t count, const uint8_t *bytes,
                            size_t size, struct cast_reply *replies, uint64_t *taken) {
    for (*taken = 0; *taken < count; *taken += 1) {
        const struct cast_event *event = &events[*taken];
        uint64_t first = 0, length = 0;
        uint32_t status;
        if (orders_bytes(event)) {
            first = event->number;
            length = event->value;
        }
        if (first > size || length > size - first) return CAST_MISUSED;
        status = cast_c_world_step(world, event, bytes + first, length, &replies[*taken]);
        if (status != CAST_DONE) return status;
    }
    return CAST_DONE;
}
