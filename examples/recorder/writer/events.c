/* Events: the lines of each record that is kept, with names, in the order in which they were done. A unit is what comes
 * of one record, and no other thread's event lies in it. */
#include <stdlib.h>
#include <string.h>

#include "writer.h"

enum { MOST_LIST = 1 << 23, MOST_TOLD = 40 };

static struct events events;
static uint64_t at_record; /* the record of which events are being made */

bool is_event(const struct event *event) { return event->kind != AN_EXIT && event->kind < A_SET; }

static void add(unsigned thread, enum event_kind kind, uint32_t name, int64_t value) {
    if (events.count >= MOST_LIST) {
        events.surplus++;
        return;
    }
    struct event event = {.kind = (uint8_t)kind, .thread = (uint8_t)thread, .name = name, .value = value,
                          .record = at_record};
    ADD(events.list, events.count, event);
}

static void end_unit(uint64_t first) {
    if (events.count > first) events.list[events.count - 1].ends_unit = true;
}

/* ---- Locks: those that are not taken and given back by the rules are left out whole ---- */

static struct lock {
    uint32_t name;
    uint32_t holder; /* who holds it alone, or 0 */
    uint64_t readers;
    bool wrong;
} *locks;
static size_t lock_count;
static uint32_t *lock_of_name; /* with 1 added */
static size_t lock_names;

static struct lock *lock_of(uint32_t name) {
    while (lock_names <= name) ADD(lock_of_name, lock_names, 0);
    if (!lock_of_name[name]) {
        ADD(locks, lock_count, (struct lock){.name = name});
        lock_of_name[name] = (uint32_t)lock_count;
    }
    return &locks[lock_of_name[name] - 1];
}

static void check_lock(struct lock *lock, const struct record *record) {
    uint64_t bit = (uint64_t)1 << (record->thread - 1);
    bool right = true;
    if (record->kind == ACQUIRE) {
        right = !lock->holder && !lock->readers;
        lock->holder = record->thread;
    } else if (record->kind == RACQUIRE) {
        right = !lock->holder;
        lock->readers |= bit;
    } else if (record->kind == RELEASE) {
        right = lock->holder == record->thread;
        lock->holder = 0;
    } else {
        right = lock->readers & bit;
        lock->readers &= ~bit;
    }
    lock->wrong |= !right;
}

static bool is_lock(const struct record *record) { return record->kind >= ACQUIRE && record->kind <= RRELEASE; }

static uint32_t name_at(const struct record *record) {
    return name_of_place(place_of(record->address), 0, OF_MEMORY);
}

static void find_wrong_locks(const struct log *log) {
    forget_objects();
    const struct record *end = log->records + log->count;
    for (const struct record *record = log->records + HEAD_RECORDS; record < end; record = behind(log, record)) {
        note_object(record);
        if (is_lock(record)) check_lock(lock_of(name_at(record)), record);
    }
}

void tell_wrong_locks(void) {
    for (size_t i = 0; i < lock_count; i++)
        if (locks[i].wrong)
            tell_left("the lock %s: a thread gave it back that did not hold it, or took it while it was held",
                 name_text(locks[i].name));
}

/* ---- Accesses ---- */

static uint32_t cell_name(uint32_t number) {
    struct cell *cell = cell_at(number);
    return name_of_place(cell->place, cell->generation, OF_MEMORY);
}

/* What a stretch of the recording begins with is a value of the window in which it is first met. */
static void set_fresh(const struct access *access) {
    for (unsigned i = 0; i < access->count; i++) {
        const struct part *part = &access->parts[i];
        if (cell_at(part->cell)->kept && part->fresh) add(0, A_SET, cell_name(part->cell), part->old);
    }
}

static void add_parts(unsigned thread, const struct access *access, bool written) {
    for (unsigned i = 0; i < access->count; i++) {
        const struct part *part = &access->parts[i];
        if (!cell_at(part->cell)->kept) continue;
        uint64_t before = events.count;
        add(thread, written ? A_WRITE : A_READ, cell_name(part->cell), written ? part->new : part->old);
        if (events.count > before) events.list[before].mask = part->mask;
    }
}

static bool has_kept(const struct access *access) {
    for (unsigned i = 0; i < access->count; i++)
        if (cell_at(access->parts[i].cell)->kept) return true;
    return false;
}

static void add_plain(const struct record *record, const struct access *access) {
    uint64_t first = events.count;
    set_fresh(access);
    add_parts(record->thread, access, record->kind == WRITE);
    end_unit(first);
}

/* An atomic access is made of one record for each granule: all of it lies in one hold of the lock of its name. */
static void add_atomic(const struct record *record, const struct access *access) {
    static struct access whole[4];
    static unsigned count;
    static struct place place;
    static unsigned flags;
    if (!count) {
        place = place_of(record->address + (unsigned)__builtin_ctz(record->mask));
        flags = record->more;
    }
    if (count < 4) whole[count++] = *access;
    if (record->more & CONTINUES) return;
    uint64_t first = events.count;
    bool kept = false;
    for (unsigned i = 0; i < count; i++) {
        kept |= has_kept(&whole[i]);
        set_fresh(&whole[i]);
    }
    uint32_t lock = kept ? name_of_place(place, 0, OF_MEMORY) : 0;
    if (kept) add(record->thread, AN_ACQUIRE, lock, 0);
    for (unsigned i = 0; i < count && flags & READS; i++) add_parts(record->thread, &whole[i], false);
    for (unsigned i = 0; i < count && flags & WRITES; i++) add_parts(record->thread, &whole[i], true);
    if (kept) add(record->thread, A_RELEASE, lock, 0);
    end_unit(first);
    count = 0;
}

/* ---- Numbers of objects, descriptors ---- */

/* What the number was before, where nobody changed it by a call that is recorded. */
static int64_t *numbers;
static size_t numbers_known;

static void set_number(uint32_t name, int64_t found) {
    while (numbers_known <= name) ADD(numbers, numbers_known, INT64_MIN);
    if (numbers[name] == INT64_MIN) add(0, A_SET, name, found);
}

static void add_count(const struct record *record) {
    uint64_t first = events.count;
    struct place place = place_of(record->address);
    static uint32_t generation;
    uint32_t name = name_of_place(place, generation, OF_NUMBER);
    set_number(name, (int64_t)record->old);
    while (numbers[name] != INT64_MIN && numbers[name] != (int64_t)record->old) {
        name = name_of_place(place, ++generation, OF_NUMBER);
        set_number(name, (int64_t)record->old);
    }
    generation = 0;
    add(record->thread, AN_ACQUIRE, name, 0);
    add(record->thread, A_READ, name, (int64_t)record->old);
    if (record->new != record->old) add(record->thread, A_WRITE, name, (int64_t)record->new);
    add(record->thread, A_RELEASE, name, 0);
    numbers[name] = (int64_t)record->new;
    end_unit(first);
}

static void add_descriptor(const struct record *record) {
    if (!is_shared_descriptor(record->address)) return;
    uint32_t name = name_of_descriptor(record->address);
    uint64_t first = events.count;
    int64_t found = (int64_t)(record->kind == DESCRIPTOR_OPENED ? record->old : record->new - 1);
    set_number(name, found);
    numbers[name] = 0;
    if (record->kind == DESCRIPTOR_OPENED) add(record->thread, A_READ, name, found);
    if (record->kind == DESCRIPTOR_CLOSED) add(record->thread, A_WRITE, name, (int64_t)record->new);
    end_unit(first);
}

/* ---- Operations ---- */

static void add_operation(unsigned thread, uint32_t operation, const uint32_t *objects, unsigned count) {
    uint64_t first = events.count;
    add(thread, AN_OPERATION, operation, (int64_t)events.object_count);
    if (events.count == first) return;
    events.list[first].objects = (uint8_t)count;
    for (unsigned i = 0; i < count; i++) ADD(events.objects, events.object_count, objects[i]);
    end_unit(first);
}

static void add_operation_on(unsigned thread, const char *operation, uint32_t object) {
    add_operation(thread, name_of_word(operation), &object, 1);
}

static void add_told_operation(const struct log *log, const struct record *record) {
    uint32_t objects[4];
    unsigned count = 0;
    for (; count < record->mask && count < 4; count++) {
        const struct record *object = record + 1 + count;
        objects[count] = object->kind == OBJECT_AT ? name_at(object) : name_of_word(word_at(log, object->more));
    }
    add_operation(record->thread, name_of_word(word_at(log, record->more)), objects, count);
}

static void add_free(const struct record *record) {
    uint32_t *ended;
    size_t count = cells_of_block(record, &ended);
    for (size_t i = 0; i < count; i++)
        if (cell_at(ended[i])->kept) add_operation_on(record->thread, "free", cell_name(ended[i]));
}

/* ---- Regions: an end that is not of the last one begun is left out ---- */

static struct {
    uint32_t *names;
    size_t count;
} begun[MOST_THREADS + 1];

static void add_region(const struct log *log, const struct record *record) {
    uint32_t name = name_of_word(word_at(log, record->more));
    unsigned thread = record->thread;
    uint64_t first = events.count;
    if (record->kind == BEGIN) {
        ADD(begun[thread].names, begun[thread].count, name);
    } else if (begun[thread].count && begun[thread].names[begun[thread].count - 1] == name) {
        begun[thread].count--;
    } else {
        tell_left("thread %u ends the region %s, which is not the last one it began", thread, name_text(name));
        return;
    }
    add(thread, record->kind == BEGIN ? A_BEGIN : AN_END, name, 0);
    end_unit(first);
}

/* ---- The whole log ---- */

static void add_lock(const struct record *record) {
    static const uint8_t kinds[] = {AN_ACQUIRE, A_RELEASE, AN_RACQUIRE, AN_RRELEASE};
    uint32_t name = name_at(record);
    uint64_t first = events.count;
    if (lock_of(name)->wrong) return;
    add(record->thread, kinds[record->kind - ACQUIRE], name, 0);
    end_unit(first);
}

static void add_thread(const struct record *record) {
    static const uint8_t kinds[] = {A_START, A_JOIN, AN_EXIT};
    uint64_t first = events.count;
    if (record->kind == START && record->more > events.threads) events.threads = record->more;
    add(record->thread, kinds[record->kind - START], record->more, 0);
    end_unit(first);
}

static void add_signal(const struct record *record) {
    static const char *const operations[] = {"sleep", "wake", "timeout", "notify", "notifyall", "destroy"};
    add_operation_on(record->thread, operations[record->kind - SLEEP], name_at(record));
}

static void add_record(const struct log *log, const struct record *record) {
    struct access access = walk(record);
    if (record->kind == READ || record->kind == WRITE) add_plain(record, &access);
    if (record->kind == ATOMIC) add_atomic(record, &access);
    if (record->kind == COUNT) add_count(record);
    if (record->kind == DESCRIPTOR_OPENED || record->kind == DESCRIPTOR_CLOSED) add_descriptor(record);
    if (is_lock(record)) add_lock(record);
    if (record->kind >= START && record->kind <= EXIT) add_thread(record);
    if (record->kind >= SLEEP && record->kind <= DESTROY) add_signal(record);
    if (record->kind == OPERATION) add_told_operation(log, record);
    if (record->kind == BEGIN || record->kind == END) add_region(log, record);
}

struct events make_events(const struct log *log) {
    find_wrong_locks(log);
    begin_walk();
    forget_objects();
    events.threads = 1;
    const struct record *end = log->records + log->count;
    for (const struct record *record = log->records + HEAD_RECORDS; record < end; record = behind(log, record)) {
        at_record = (uint64_t)(record - log->records);
        if (record->kind == FREE) add_free(record);
        if (record->kind == PAUSED) add(0, A_PAUSE, 0, 0);
        if (record->kind == RESUMED) add(0, A_STRETCH, 0, 0);
        note_object(record);
        add_record(log, record);
    }
    return events;
}

/* ---- The lines ---- */

int print_event(char *to, size_t room, const struct events *all, const struct event *event) {
    static const char *const words[] = {"exit", "read", "write", "acquire", "release", "racquire", "rrelease", "start", "join",
                                        "op", "begin", "end"};
    const char *word = words[event->kind];
    if (event->kind == AN_EXIT) return snprintf(to, room, "exit\n");
    if (event->kind == A_START || event->kind == A_JOIN) return snprintf(to, room, "%s %u\n", word, event->name);
    const char *name = name_text(event->name);
    if (event->kind == A_READ || event->kind == A_WRITE) return snprintf(to, room, "%s %s %ld\n", word, name, event->value);
    int length = snprintf(to, room, "%s %s", word, name);
    for (unsigned i = 0; i < event->objects; i++)
        length += snprintf(to + length, room - (size_t)length, " %s", name_text(all->objects[(uint64_t)event->value + i]));
    return length + snprintf(to + length, room - (size_t)length, "\n");
}

/* ---- The names to ask about ---- */

static void tell_names(const char *use, const uint8_t *uses, unsigned which) {
    char line[MOST_TOLD * (MOST_NAME + 1) + 1];
    size_t length = 0;
    unsigned count = 0;
    for (uint32_t name = 0; name < name_count(); name++) {
        if (!(uses[name] >> which & 1) || count++ >= MOST_TOLD) continue;
        length += (size_t)snprintf(line + length, sizeof line - length, " %s", name_text(name));
    }
    if (count > MOST_TOLD) tell("%s:%s and %u more", use, line, count - MOST_TOLD);
    if (count && count <= MOST_TOLD) tell("%s:%s", use, line);
}

void tell_used(const struct events *all) {
    static const char *const titles[] = {"regions", "locks", "cells", "operations", "objects"};
    uint8_t *uses = calloc(name_count() + 1, 1);
    if (!uses) return;
    for (uint64_t i = 0; i < all->count; i++) {
        const struct event *event = &all->list[i];
        if (event->kind == A_BEGIN) uses[event->name] |= 1;
        if (event->kind == AN_ACQUIRE || event->kind == AN_RACQUIRE) uses[event->name] |= 2;
        if (event->kind == A_READ || event->kind == A_WRITE) uses[event->name] |= 4;
        if (event->kind != AN_OPERATION) continue;
        uses[event->name] |= 8;
        for (unsigned k = 0; k < event->objects; k++) uses[all->objects[(uint64_t)event->value + k]] |= 16;
    }
    for (uint32_t name = 0; name < name_count(); name++)
        if (uses[name] & 4) uses[name] &= (uint8_t)~2;
    for (unsigned which = 0; which < 5; which++) tell_names(titles[which], uses, which);
    free(uses);
}
