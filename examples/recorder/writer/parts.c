/* Parts of a run that are not wanted: before them the recording stops, and behind them it goes on with a window of its
 * own that brings the threads from where they stood to where they stand. */
#include <stdlib.h>
#include <string.h>

#include "writer.h"

struct hold {
    uint32_t lock;
    uint8_t thread;
    bool shared;
    uint64_t record; /* of where it was taken */
};

/* A region or a thread, and the record of its beginning. */
struct begun {
    uint32_t name;
    uint64_t record;
};

/* What is to be known of the moment between two events. */
struct state {
    struct hold *holds;
    size_t hold_count;
    struct begun *regions[MOST_THREADS + 1];
    size_t region_counts[MOST_THREADS + 1];
    struct begun starters[MOST_THREADS + 1]; /* of each thread, by which one it was started */
    uint64_t ended;
    int64_t *values;
    bool *known;
};

static void *array_of(size_t count, size_t size) {
    void *made = calloc(count + 1, size);
    if (!made) fail(STATUS_NOTHING, "there is not enough memory to write the recording");
    return made;
}

static void start_state(struct state *state) {
    memset(state, 0, sizeof *state);
    state->values = array_of(name_count(), sizeof *state->values);
    state->known = array_of(name_count(), sizeof *state->known);
}

static struct state copy_of(const struct state *state) {
    struct state copy = *state;
    copy.holds = NULL;
    copy.hold_count = 0;
    for (size_t i = 0; i < state->hold_count; i++) ADD(copy.holds, copy.hold_count, state->holds[i]);
    for (unsigned thread = 1; thread <= MOST_THREADS; thread++) {
        copy.regions[thread] = NULL;
        copy.region_counts[thread] = 0;
        for (size_t i = 0; i < state->region_counts[thread]; i++)
            ADD(copy.regions[thread], copy.region_counts[thread], state->regions[thread][i]);
    }
    copy.values = array_of(name_count(), sizeof *copy.values);
    copy.known = array_of(name_count(), sizeof *copy.known);
    memcpy(copy.values, state->values, name_count() * sizeof *copy.values);
    memcpy(copy.known, state->known, name_count() * sizeof *copy.known);
    return copy;
}

/* ---- One event ---- */

static bool is_hold(const struct hold *one, const struct hold *other) {
    return one->lock == other->lock && one->thread == other->thread && one->shared == other->shared;
}

static bool holds(const struct state *state, const struct hold *wanted) {
    for (size_t i = 0; i < state->hold_count; i++)
        if (is_hold(&state->holds[i], wanted)) return true;
    return false;
}

static void drop_hold(struct state *state, struct hold dropped) {
    for (size_t i = 0; i < state->hold_count; i++)
        if (is_hold(&state->holds[i], &dropped)) state->holds[i--] = state->holds[--state->hold_count];
}

static void step(struct state *state, const struct event *event) {
    unsigned thread = event->thread;
    struct hold hold = {event->name, event->thread, event->kind == AN_RACQUIRE || event->kind == AN_RRELEASE, event->record};
    struct begun begun = {event->name, event->record};
    switch (event->kind) {
    case A_SET:
    case A_WRITE:
        state->values[event->name] = event->value;
        state->known[event->name] = true;
        break;
    case AN_ACQUIRE:
    case AN_RACQUIRE: ADD(state->holds, state->hold_count, hold); break;
    case A_RELEASE:
    case AN_RRELEASE: drop_hold(state, hold); break;
    case A_START: state->starters[event->name] = (struct begun){thread, event->record}; break;
    case AN_EXIT: state->ended |= (uint64_t)1 << (thread - 1); break;
    case A_BEGIN: ADD(state->regions[thread], state->region_counts[thread], begun); break;
    case AN_END: state->region_counts[thread]--; break;
    default: break;
    }
}

/* ---- The bridge from one state to another ---- */

static struct event *bridge;
static uint64_t bridge_count;
static const struct event *left_out; /* the events for which it stands */
static uint64_t left_out_count;

static void add(unsigned thread, enum event_kind kind, uint32_t name, uint64_t record) {
    struct event event = {.kind = (uint8_t)kind, .thread = (uint8_t)thread, .name = name, .ends_unit = true, .is_made_up = true,
                          .record = record};
    ADD(bridge, bridge_count, event);
}

/* The end, among what is left out, of a lock's hold or a region. */
static void add_end(unsigned thread, enum event_kind kind, uint32_t name) {
    uint64_t at = 0;
    while (at < left_out_count && (left_out[at].thread != thread || left_out[at].kind != kind || left_out[at].name != name)) at++;
    add(thread, kind, name, at < left_out_count ? left_out[at].record : 0);
}

static void add_value(uint32_t name, int64_t value) {
    add(0, A_SET, name, 0);
    bridge[bridge_count - 1].value = value;
}

static void bridge_regions(const struct state *from, const struct state *to, unsigned thread) {
    const struct begun *before = from->regions[thread], *now = to->regions[thread];
    size_t same = 0;
    while (same < from->region_counts[thread] && same < to->region_counts[thread] && before[same].name == now[same].name) same++;
    for (size_t i = from->region_counts[thread]; i > same; i--) add_end(thread, AN_END, before[i - 1].name);
    for (size_t i = same; i < to->region_counts[thread]; i++) add(thread, A_BEGIN, now[i].name, now[i].record);
}

static void bridge_starts(const struct state *from, const struct state *to) {
    for (unsigned thread = 1; thread <= MOST_THREADS; thread++) {
        const struct begun *starter = &to->starters[thread];
        if (starter->name && !from->starters[thread].name) add(starter->name, A_START, thread, starter->record);
    }
}

static void add_bridge(const struct state *from, const struct state *to) {
    add(0, A_STRETCH, 0, 0);
    for (size_t i = 0; i < from->hold_count; i++)
        if (!holds(to, &from->holds[i]))
            add_end(from->holds[i].thread, from->holds[i].shared ? AN_RRELEASE : A_RELEASE, from->holds[i].lock);
    bridge_starts(from, to);
    for (size_t i = 0; i < to->hold_count; i++)
        if (!holds(from, &to->holds[i]))
            add(to->holds[i].thread, to->holds[i].shared ? AN_RACQUIRE : AN_ACQUIRE, to->holds[i].lock, to->holds[i].record);
    for (unsigned thread = 1; thread <= MOST_THREADS; thread++) bridge_regions(from, to, thread);
    for (unsigned thread = 1; thread <= MOST_THREADS; thread++)
        if ((to->ended & ~from->ended) >> (thread - 1) & 1) add(thread, AN_EXIT, 0, 0);
    add(0, A_STRETCH, 0, 0);
    for (uint32_t name = 0; name < name_count(); name++)
        if (to->known[name] && (!from->known[name] || from->values[name] != to->values[name])) add_value(name, to->values[name]);
}

/* ---- What is kept ---- */

static void put(struct events *kept, const struct event *event) { ADD(kept->list, kept->count, *event); }

/* In the place of so many events. */
static void put_bridge(struct events *kept, const struct state *from, const struct state *to, const struct event *events,
                       uint64_t count) {
    bridge_count = 0;
    left_out = events;
    left_out_count = count;
    add_bridge(from, to);
    for (uint64_t i = 0; i < bridge_count; i++) put(kept, &bridge[i]);
}

static void take(struct events *events, struct events kept) {
    free(events->list);
    events->list = kept.list;
    events->count = kept.count;
}

bool keep_wanted(struct events *events, const char *from) {
    struct state told, real;
    start_state(&told);
    start_state(&real);
    bool wanted = !from, begun = !from, paused = false;
    struct events kept = {0};
    uint64_t first = 0; /* of those that are left out */
    for (uint64_t i = 0; i < events->count; i++) {
        const struct event *event = &events->list[i];
        if (event->kind == A_PAUSE) paused = true;
        if (event->kind == A_STRETCH) paused = false;
        if (!begun && event->kind == AN_OPERATION) begun = !strcmp(name_text(event->name), from);
        bool is_now = begun && !paused;
        if (wanted && !is_now) told = copy_of(&real);
        if (wanted && !is_now) first = i;
        if (!wanted && is_now) put_bridge(&kept, &told, &real, &events->list[first], i - first);
        wanted = is_now;
        step(&real, event);
        if (wanted && event->kind < A_PAUSE) put(&kept, event);
    }
    take(events, kept);
    return begun;
}

void keep_last(struct events *events, uint64_t first) {
    struct state nothing, real;
    start_state(&nothing);
    start_state(&real);
    struct events kept = {0};
    for (uint64_t i = 0; i < first; i++) step(&real, &events->list[i]);
    put_bridge(&kept, &nothing, &real, events->list, first);
    for (uint64_t i = first; i < events->count; i++) put(&kept, &events->list[i]);
    take(events, kept);
}
