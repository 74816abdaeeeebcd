/* Loops that read the same values again, and change nothing: the first round is kept, and those behind it are counted.
 *
 * A round is a run of one thread's events, all of them reads or sections of locks that are taken and given back in it.
 * Leaving one out leaves every lock and every value as it was. */
#include <stdlib.h>

#include "writer.h"

enum { LONGEST_ROUND = 32 };

static const struct events *all;
static uint64_t *own; /* the events of the thread, by their places among all */
static size_t own_count;
static bool *dropped;

static const struct event *nth(size_t at) { return &all->list[own[at]]; }

static bool same(const struct event *one, const struct event *other) {
    return one->kind == other->kind && one->name == other->name && one->value == other->value &&
           one->ends_unit == other->ends_unit;
}

/* Whether the events from `at` on may be a round: its locks are given back in it, and it ends with a unit. */
static bool is_round(size_t at, size_t length) {
    int held = 0;
    for (size_t i = at; i < at + length; i++) {
        unsigned kind = nth(i)->kind;
        if (kind == AN_ACQUIRE || kind == AN_RACQUIRE) held++;
        if (kind == A_RELEASE || kind == AN_RRELEASE) held--;
        if (held < 0) return false;
    }
    return held == 0 && nth(at + length - 1)->ends_unit;
}

static bool changes_nothing(unsigned kind) {
    return kind == A_READ || kind == AN_ACQUIRE || kind == AN_RACQUIRE || kind == A_RELEASE || kind == AN_RRELEASE;
}

static bool repeats(size_t at, size_t length) {
    if (at + 2 * length > own_count) return false;
    for (size_t i = at; i < at + length; i++)
        if (!changes_nothing(nth(i)->kind) || !same(nth(i), nth(i + length))) return false;
    return is_round(at, length);
}

/* How many events behind the first round from `at` on are more rounds of the same. */
static size_t surplus(size_t at, size_t length) {
    size_t end = at;
    while (repeats(end, length)) end += length;
    return end - at;
}

static uint64_t fold_thread(void) {
    uint64_t folded = 0;
    for (size_t at = 0; at < own_count; at++) {
        for (size_t length = 1; length <= LONGEST_ROUND && changes_nothing(nth(at + length - 1)->kind); length++) {
            size_t more = surplus(at, length);
            for (size_t i = at; i < at + more; i++) dropped[own[i]] = true;
            folded += more;
            at += more;
            if (more || at + length >= own_count) break;
        }
    }
    return folded;
}

uint64_t fold_loops(struct events *events) {
    uint64_t folded = 0, kept = 0;
    all = events;
    dropped = calloc(events->count + 1, sizeof *dropped);
    if (!dropped) fail(STATUS_NOTHING, "there is not enough memory to write the recording");
    for (unsigned thread = 1; thread <= events->threads; thread++) {
        own_count = 0;
        for (uint64_t i = 0; i < events->count; i++)
            if (events->list[i].thread == thread) ADD(own, own_count, i);
        folded += fold_thread();
    }
    for (uint64_t i = 0; i < events->count; i++)
        if (!dropped[i]) events->list[kept++] = events->list[i];
    events->count = kept;
    free(dropped);
    return folded;
}
