/* Windows: the units between two marks. A window but the last has at least `per` events, and each at most twice as many,
 * where no single unit has more. The mark is the first moment at which the fewest threads are asleep, and of these the
 * one with the fewest regions begun. */
#include <stdlib.h>
#include <string.h>

#include "writer.h"

/* What a mark behind each event costs: threads asleep first, and regions begun. */
static uint32_t *costs_of(const struct events *events) {
    uint32_t *costs = calloc(events->count + 1, sizeof *costs), asleep = 0, regions = 0;
    if (!costs) fail(STATUS_NOTHING, "there is not enough memory to write the recording");
    uint32_t sleep = name_of_word("sleep"), wake = name_of_word("wake"), timeout = name_of_word("timeout");
    for (uint64_t i = 0; i < events->count; i++) {
        const struct event *event = &events->list[i];
        bool is_operation = event->kind == AN_OPERATION;
        if (is_operation && event->name == sleep) asleep++;
        if (is_operation && (event->name == wake || event->name == timeout) && asleep) asleep--;
        if (event->kind == A_BEGIN) regions++;
        if (event->kind == AN_END && regions) regions--;
        costs[i] = asleep << 16 | (regions & 0xffff);
    }
    return costs;
}

static uint64_t end_of_window(const struct events *events, const uint32_t *costs, uint64_t begin, uint32_t per) {
    uint32_t size = 0, most = 2 * per < MOST_EVENTS ? 2 * per : MOST_EVENTS, best = UINT32_MAX;
    uint64_t place = 0, last = 0;
    for (uint64_t at = begin; at < events->count; at++) {
        const struct event *event = &events->list[at];
        if (event->kind == A_STRETCH && at > begin && size) return place && size > most ? place : at;
        size += is_event(event);
        if (size > most && (place || last)) return place ? place : last;
        if (!event->ends_unit) continue;
        last = at + 1;
        if (size < per || costs[at] >= best) continue;
        best = costs[at];
        place = at + 1;
    }
    return events->count;
}

static uint32_t size_of(const struct events *events, uint64_t begin, uint64_t end) {
    uint32_t size = 0;
    for (uint64_t at = begin; at < end; at++) size += is_event(&events->list[at]);
    return size;
}

struct windows cut_windows(const struct events *events, uint32_t per) {
    struct windows windows = {NULL, 0};
    uint32_t *costs = costs_of(events);
    for (uint64_t begin = 0, end; begin < events->count || !windows.count; begin = end) {
        end = end_of_window(events, costs, begin, per);
        struct window window = {begin, end, size_of(events, begin, end)};
        ADD(windows.list, windows.count, window);
        if (end == events->count) break;
    }
    free(costs);
    return windows;
}
