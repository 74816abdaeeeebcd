/* The script of a schedule. What a thread does in one call or access of the program, with no place at which it may wait,
 * is a unit: its events come at once. So a unit stands at the place of one of its events, and where it has to stand at
 * two, as another thread's event that has to do with it lies in between, the program cannot follow. */
#include <stdlib.h>
#include <string.h>

#include "writer.h"

struct unit {
    unsigned thread;
    uint64_t record; /* by which it is known of which call or access it comes */
    uint32_t *places; /* of its events in the schedule */
    size_t count;
    int64_t place;
    bool early; /* it began before the window, and is done by then */
};

static const struct log *log;
static const struct step *steps;
static const struct origins *origins;
static const struct recording *recording;
static const struct schedule *schedule;

static const struct event **own[MOST_THREADS + 1]; /* the events of each thread in the window */
static size_t own_count[MOST_THREADS + 1], used[MOST_THREADS + 1]; /* how many of them are in the schedule */
static uint64_t before[MOST_THREADS + 1]; /* the last record of each thread before the window */
static const struct event **order;                              /* the events of the schedule */
static bool *in_instance;
static uint32_t *unit_of; /* of each place of the schedule */
static struct unit *units;
static size_t unit_count;

static bool is_same_unit(uint64_t one, uint64_t other) {
    return log->records[one].thread == log->records[other].thread && steps[one].number == steps[other].number &&
           steps[one].phase == steps[other].phase;
}

static bool is_earlier(uint64_t one, uint64_t other) {
    if (steps[one].number != steps[other].number) return steps[one].number < steps[other].number;
    return steps[one].phase < steps[other].phase;
}

/* ---- The window ---- */

static void find_own(uint64_t number) {
    if (number > recording->folder.windows) fail(STATUS_NOTHING, "the recording has no window %lu", number);
    const struct window *window = &recording->windows.list[number - 1];
    for (uint64_t at = window->begin; at < window->end; at++) {
        const struct event *event = &recording->events.list[at];
        if (!is_event(event)) continue;
        if (event->is_made_up) fail(STATUS_NOTHING, "window %lu stands for what is not recorded: nothing of it is confirmed", number);
        ADD(own[event->thread], own_count[event->thread], event);
    }
}

static const struct event *event_of(struct pick pick) {
    if (!pick.thread || pick.thread > MOST_THREADS || pick.index >= own_count[pick.thread])
        fail(STATUS_NOTHING, "the report is of another recording: there is no event %u.%u", pick.thread, pick.index);
    return own[pick.thread][pick.index];
}

/* The last record of an event before the window; each thread's last one is kept. */
static uint64_t find_mark(void) {
    uint64_t first = UINT64_MAX, mark = 0;
    for (unsigned thread = 1; thread <= MOST_THREADS; thread++)
        if (own_count[thread] && own[thread][0]->record < first) first = own[thread][0]->record;
    for (size_t i = 0; i < recording->record_count && recording->records[i] < first; i++) {
        mark = recording->records[i];
        before[log->records[mark].thread] = mark;
    }
    return mark;
}

static bool begins_before(uint64_t record) {
    uint64_t last = before[log->records[record].thread];
    return last && is_same_unit(record, last);
}

/* ---- Units ---- */

static bool is_pick(struct pick one, struct pick other) { return one.thread == other.thread && one.index == other.index; }

static void find_units(void) {
    uint32_t last[MOST_THREADS + 1] = {0}; /* the last unit of each thread, with 1 added */
    for (uint32_t i = 0; i < schedule->count; i++) {
        unsigned thread = schedule->picks[i].thread;
        order[i] = event_of(schedule->picks[i]);
        used[thread]++;
        for (size_t k = 0; k < schedule->atoms; k++) in_instance[i] |= is_pick(schedule->picks[i], schedule->instance[k]);
        uint64_t origin = origin_of(origins, order[i]);
        if (!last[thread] || !is_same_unit(origin, units[last[thread] - 1].record)) {
            bool early = begins_before(origin);
            ADD(units, unit_count, (struct unit){.thread = thread, .record = origin, .early = early});
            last[thread] = (uint32_t)unit_count;
        }
        struct unit *unit = &units[last[thread] - 1];
        ADD(unit->places, unit->count, i);
        unit_of[i] = last[thread] - 1;
    }
}

static bool is_access(const struct event *event) { return event->kind == A_READ || event->kind == A_WRITE; }
static bool is_lock(const struct event *event) { return event->kind >= AN_ACQUIRE && event->kind <= AN_RRELEASE; }
static bool is_of_thread(const struct event *event) { return event->kind == A_START || event->kind == A_JOIN; }

static bool has_object(const struct event *operation, uint32_t name) {
    if (operation->kind != AN_OPERATION) return false;
    for (unsigned i = 0; i < operation->objects; i++)
        if (recording->events.objects[(uint64_t)operation->value + i] == name) return true;
    return false;
}

static bool share_object(const struct event *one, const struct event *other) {
    if (one->kind != AN_OPERATION) return false;
    for (unsigned i = 0; i < one->objects; i++)
        if (has_object(other, recording->events.objects[(uint64_t)one->value + i])) return true;
    return false;
}

static bool is_operation(const struct event *event, const char *name) {
    return event->kind == AN_OPERATION && event->name == name_of_word(name);
}

static bool is_notify(const struct event *event) { return is_operation(event, "notify") || is_operation(event, "notifyall"); }

/* A sleep may come before what others do with the condition that the schedule has before it: the wakes say who is woken. */
static bool may_sleep_before(const struct event *one, const struct event *other) {
    return is_operation(one, "sleep") && (is_notify(other) || is_operation(other, "sleep") || is_operation(other, "wake"));
}

/* Whether it matters which of the two comes first. */
static bool depend(uint32_t first, uint32_t second) {
    const struct event *one = order[first], *other = order[second];
    if (one->thread == other->thread) return false;
    if (in_instance[first] && in_instance[second]) return true;
    if (is_access(one) && is_access(other)) return one->name == other->name && (one->kind == A_WRITE || other->kind == A_WRITE);
    if (is_lock(one) && is_lock(other)) return one->name == other->name;
    if (is_of_thread(one) && one->name == other->thread) return true;
    if (is_of_thread(other) && other->name == one->thread) return true;
    if (is_access(one) && has_object(other, one->name)) return true;
    if (is_access(other) && has_object(one, other->name)) return true;
    return share_object(one, other) && !may_sleep_before(one, other) && !may_sleep_before(other, one);
}

/* ---- Where a unit stands ---- */

/* The place of one of its events that cannot stand at `place` with the others, or -1. */
static int64_t misfit(const struct unit *unit, int64_t place) {
    int64_t from = place < unit->places[0] ? place : unit->places[0], to = unit->places[unit->count - 1];
    for (int64_t at = from < 0 ? 0 : from; at < to; at++) {
        if (&units[unit_of[at]] == unit) continue;
        for (size_t i = 0; i < unit->count; i++)
            if ((unit->places[i] < at) != (place < at) && depend(unit->places[i], (uint32_t)at)) return unit->places[i];
    }
    return -1;
}

/* The place of its last access is tried first, and then the others from the last on. False where none is right. */
static bool place_unit(struct unit *unit) {
    unit->place = unit->early ? -1 : unit->places[unit->count - 1];
    for (size_t i = 0; i < unit->count && !unit->early; i++)
        if (is_access(order[unit->places[i]])) unit->place = unit->places[i];
    bool fits = misfit(unit, unit->place) < 0;
    for (size_t i = unit->count; i-- > 0 && !fits && !unit->early;) {
        fits = misfit(unit, unit->places[i]) < 0;
        if (fits) unit->place = unit->places[i];
    }
    return fits;
}

static int by_step(const void *one, const void *other) {
    const struct unit *first = *(struct unit *const *)one, *second = *(struct unit *const *)other;
    return is_earlier(first->record, second->record) ? -1 : is_earlier(second->record, first->record);
}

/* What a thread does without a synchronisation may be done in another order than its trace has it, where accesses were put
 * to records of earlier ones. Its units change places then. */
static void place_by_steps(unsigned thread) {
    struct unit **list = NULL;
    int64_t *places = NULL;
    size_t count = 0, place_count = 0;
    for (size_t i = 0; i < unit_count; i++) {
        if (units[i].thread != thread || units[i].early) continue;
        ADD(list, count, &units[i]);
        size_t at = place_count;
        ADD(places, place_count, units[i].place);
        for (; at > 0 && places[at - 1] > units[i].place; at--) places[at] = places[at - 1];
        places[at] = units[i].place;
    }
    if (count) qsort(list, count, sizeof *list, by_step);
    for (size_t i = 0; i < count; i++) list[i]->place = places[i];
    free(list);
    free(places);
}

/* The first unit of which an event comes behind another one that it has to precede, where each stands at its place. */
static const struct unit *find_turned(void) {
    for (uint32_t first = 0; first < schedule->count; first++)
        for (uint32_t second = first + 1; second < schedule->count; second++) {
            const struct unit *one = &units[unit_of[first]], *other = &units[unit_of[second]];
            if (one->place > other->place && depend(first, second)) return one->count > 1 ? one : other;
        }
    return NULL;
}

/* How many events come earlier or later than the schedule has them, as they are done at once with others. */
static uint32_t count_moved(void) {
    uint32_t moved = 0;
    for (uint32_t first = 0; first < schedule->count; first++)
        for (uint32_t second = first + 1; second < schedule->count; second++) {
            const struct event *one = order[first], *other = order[second];
            bool is_turned = units[unit_of[first]].place > units[unit_of[second]].place;
            moved += is_turned && is_notify(one) && is_operation(other, "sleep") && share_object(one, other);
        }
    return moved;
}

static int by_place(const void *one, const void *other) {
    int64_t first = ((const struct unit *)one)->place, second = ((const struct unit *)other)->place;
    return first < second ? -1 : first > second;
}

/* ---- Moves ---- */

static void add_deed(struct plan *plan, struct move *move, const struct event *event) {
    const struct record *record = &log->records[event->record];
    bool is_known = record->kind == WRITE && !steps[event->record].merged && !(record->more & UNSETTLED);
    uint8_t flags = (uint8_t)((event->kind == A_READ ? READS_OLD : 0) | (is_known ? EXACT : 0));
    if (place_of(record->address).kind == SYMBOL) flags |= FIXED;
    struct deed deed = {record->kind, event->mask ? event->mask : 0xff, flags, record->more & (READS | WRITES), record->address,
                        record->old, record->new};
    bool by_mask = record->kind == READ || record->kind == WRITE || record->kind == ATOMIC;
    struct deed *last = move->count ? &plan->deeds[plan->deed_count - 1] : NULL;
    static uint64_t last_record;
    if (last && last_record == event->record) {
        if (by_mask && is_access(event)) last->mask |= deed.mask;
        last->flags |= flags;
        return;
    }
    last_record = event->record;
    if (by_mask && !is_access(event)) deed.mask = record->mask;
    if (move->count == MOST_DEEDS) return;
    ADD(plan->deeds, plan->deed_count, deed);
    move->count++;
}

static void add_move(struct plan *plan, enum move_kind kind, uint64_t record, struct pick pick, const struct event *event) {
    const struct step *step = &steps[record];
    struct move move = {(uint8_t)kind, log->records[record].thread, (uint8_t)step->phase, (uint32_t)plan->deed_count, 0,
                        step->number, step->caller};
    size_t count = plan->move_count;
    ADD(plan->moves, plan->move_count, move);
    ADD(plan->tellings, count, (struct telling){pick, event});
}

static void add_unit(struct plan *plan, const struct unit *unit) {
    uint32_t told = unit->places[0];
    for (size_t i = unit->count; i-- > 0;)
        if (order[unit->places[i]]->kind == A_READ) told = unit->places[i];
    add_move(plan, MOVE, unit->record, schedule->picks[told], order[told]);
    for (size_t i = 0; i < unit->count; i++) {
        add_deed(plan, &plan->moves[plan->move_count - 1], order[unit->places[i]]);
        if (in_instance[unit->places[i]] && plan->head.pause == UINT32_MAX) plan->head.pause = (uint32_t)plan->move_count - 1;
    }
}

/* A thread of a cycle comes to the lock that it cannot have, and each other one to its first event out of the schedule. */
static void add_stops(struct plan *plan, const struct window *window) {
    size_t met[MOST_THREADS + 1] = {0};
    bool stopped[MOST_THREADS + 1] = {0};
    uint64_t last[MOST_THREADS + 1] = {0};
    for (size_t i = 0; i < unit_count; i++) {
        uint64_t *of_thread = &last[units[i].thread];
        if (!*of_thread || is_earlier(*of_thread, units[i].record)) *of_thread = units[i].record;
    }
    for (size_t i = 0; i < schedule->atoms && plan->is_cycle; i++) {
        const struct event *event = event_of(schedule->instance[i]);
        add_move(plan, ATTEMPT, origin_of(origins, event), schedule->instance[i], event);
        stopped[event->thread] = true;
    }
    for (uint64_t at = window->begin; at < recording->events.count; at++) {
        const struct event *event = &recording->events.list[at];
        unsigned thread = event->thread;
        if (!is_event(event) || stopped[thread] || event->is_made_up || met[thread]++ < used[thread]) continue;
        uint64_t origin = origin_of(origins, event);
        if ((last[thread] && !is_earlier(last[thread], origin)) || begins_before(origin)) continue;
        add_move(plan, STOP, origin, (struct pick){thread, (uint32_t)met[thread] - 1}, event);
        stopped[thread] = true;
    }
}

/* ---- All of it ---- */

static const char *text_of_split(const struct unit *unit) {
    static char text[256];
    const struct pick *first = &schedule->picks[unit->places[0]], *last = &schedule->picks[unit->places[unit->count - 1]];
    if (unit->early) {
        snprintf(text, sizeof text, "%u.%u: it is done at once with what lies before the window", first->thread, first->index);
    } else {
        snprintf(text, sizeof text, "%u.%u: the program does %u.%u to %u.%u at once", last->thread, last->index, first->thread,
                 first->index, last->thread, last->index);
    }
    return text;
}

static bool is_cycle(void) {
    for (size_t i = 0; i < schedule->count; i++)
        for (size_t k = 0; k < schedule->atoms; k++)
            if (is_pick(schedule->picks[i], schedule->instance[k])) return false;
    return true;
}

static void *array_of(size_t count, size_t size) {
    void *made = calloc(count + 1, size);
    if (!made) fail(STATUS_NOTHING, "there is not enough memory for the script");
    return made;
}

struct plan make_plan(const struct log *of_log, const struct origins *of_origins, const struct recording *of_recording,
                      const struct question *question, const struct schedule *of_schedule) {
    struct plan plan = {.is_cycle = false};
    log = of_log, origins = of_origins, steps = of_origins->steps, recording = of_recording, schedule = of_schedule;
    order = array_of(schedule->count, sizeof *order);
    in_instance = array_of(schedule->count, sizeof *in_instance);
    unit_of = array_of(schedule->count, sizeof *unit_of);
    find_own(question->window);
    uint64_t mark = find_mark();
    find_units();
    for (size_t i = 0; i < unit_count && !plan.split; i++)
        if (!place_unit(&units[i])) plan.split = text_of_split(&units[i]);
    for (unsigned thread = 1; thread <= MOST_THREADS && !plan.split; thread++) place_by_steps(thread);
    const struct unit *turned = plan.split ? NULL : find_turned();
    if (turned) plan.split = text_of_split(turned);
    plan.moved = count_moved();
    if (unit_count) qsort(units, unit_count, sizeof *units, by_place);
    plan.is_cycle = is_cycle();
    plan.head = (struct script){SCRIPT_MAGIC, mark, question->seed, question->limit, 0, 0, question->has_seed, UINT32_MAX};
    for (size_t i = 0; i < unit_count; i++)
        if (!units[i].early) add_unit(&plan, &units[i]);
    uint32_t before_attempts = (uint32_t)plan.move_count;
    add_stops(&plan, &recording->windows.list[question->window - 1]);
    if (plan.is_cycle) plan.head.pause = before_attempts;
    if (!question->debugger) plan.head.pause = UINT32_MAX;
    plan.head.move_count = (uint32_t)plan.move_count;
    plan.head.deed_count = (uint32_t)plan.deed_count;
    return plan;
}
