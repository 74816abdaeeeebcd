/* Whether the recorded order of each window can happen, event for event, by the five rules of docs/FORMATS.md. */
#include <stdlib.h>
#include <string.h>

#include "writer.h"

static int64_t *values;
static uint8_t *holders;   /* of each lock, by its name: the thread that holds it alone, or 0 */
static uint64_t *readers;
static uint64_t started, exited;
static uint64_t left[MOST_THREADS + 1]; /* how many events of its segment a thread still has to do */

static uint64_t bit_of(unsigned thread) { return (uint64_t)1 << (thread - 1); }

/* The rule by which an event cannot happen, or 0. */
static unsigned rule_against(const struct event *event) {
    uint64_t bit = bit_of(event->thread);
    if (!(started & bit)) return 2;
    switch (event->kind) {
    case AN_ACQUIRE: return holders[event->name] || readers[event->name] ? 3 : 0;
    case AN_RACQUIRE: return holders[event->name] ? 3 : 0;
    case A_READ: return values[event->name] != event->value ? 4 : 0;
    case A_JOIN: return started & bit_of(event->name) && exited & bit_of(event->name) && !left[event->name] ? 0 : 5;
    default: return 0;
    }
}

static void happen(const struct event *event) {
    switch (event->kind) {
    case AN_ACQUIRE: holders[event->name] = event->thread; break;
    case A_RELEASE: holders[event->name] = 0; break;
    case AN_RACQUIRE: readers[event->name] |= bit_of(event->thread); break;
    case AN_RRELEASE: readers[event->name] &= ~bit_of(event->thread); break;
    case A_WRITE: values[event->name] = event->value; break;
    case A_START: started |= bit_of(event->name); break;
    default: break;
    }
    left[event->thread]--;
}

/* What holds at the beginning of a window: its values, and which threads end in it. */
static void begin_window(const struct events *events, const struct window *window) {
    memset(left, 0, sizeof left);
    for (uint64_t at = window->begin; at < window->end; at++) {
        const struct event *event = &events->list[at];
        if (event->kind == A_SET) values[event->name] = event->value;
        if (event->kind == AN_EXIT) exited |= bit_of(event->thread);
        if (is_event(event)) left[event->thread]++;
    }
}

static bool replay_window(const struct events *events, const struct window *window, uint64_t number) {
    begin_window(events, window);
    uint64_t place = 0;
    for (uint64_t at = window->begin; at < window->end; at++) {
        const struct event *event = &events->list[at];
        if (!is_event(event)) continue;
        unsigned rule = rule_against(event);
        if (rule) {
            char line[256];
            print_event(line, sizeof line, events, event);
            tell("the recorded order does not replay, and nothing is written: window %lu, place %lu, thread %u: rule %u: %s",
                 number, place, event->thread, rule, line);
            return false;
        }
        happen(event);
        place++;
    }
    return true;
}

bool replays(const struct events *events, const struct windows *windows, uint64_t count) {
    values = calloc(name_count() + 1, sizeof *values);
    holders = calloc(name_count() + 1, sizeof *holders);
    readers = calloc(name_count() + 1, sizeof *readers);
    if (!values || !holders || !readers) fail(STATUS_NOTHING, "there is not enough memory to write the recording");
    started = 1;
    exited = 0;
    for (uint64_t i = 0; i < count; i++)
        if (!replay_window(events, &windows->list[i], i + 1)) return false;
    return true;
}
