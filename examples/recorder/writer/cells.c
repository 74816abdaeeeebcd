/* Cells: runs of at most eight bytes in which no access begins or ends.
 *
 * A granule that comes to life (its first access, since its block was made) is an instance. The walk over the log finds
 * the instance of each record, and of an instance that matters the cells; it is made twice, and finds the same in the
 * same order each time. An instance matters where two threads touch it and somebody writes, be it code that is not
 * recorded. */
#include <stdlib.h>
#include <string.h>

#include "../shadow.h"
#include "writer.h"

struct instance {
    uint64_t threads, value;
    uint32_t kept; /* its number among those that matter, from 1, or 0 */
    uint8_t cuts, seen; /* of which bytes the value is known */
    bool written;
};

SHADOW(instance, uint32_t, fail(STATUS_NOTHING, "there is not enough memory to write the recording"))

static struct instance *instances;
static size_t instance_count, born, kept_count;
static struct {
    uint32_t cells[GRANULE]; /* the cell that begins at each byte, with 1 added; 0 where none is yet */
} *current;
static struct cell *cells;
static size_t cell_count, met;
static uint32_t *stretches; /* of each cell: in which stretch of the recording it was last touched */
static int64_t *now;
static uint32_t stretch, segments[MOST_THREADS + 1];
static bool collecting;
static uint64_t unshared;
static struct {
    uint64_t threads;
    bool written;
} *descriptors;
static size_t descriptor_count;

static uint64_t bit_of(unsigned thread) { return (uint64_t)1 << (thread - 1); }
static bool is_access(const struct record *record) { return record->kind == READ || record->kind == WRITE || record->kind == ATOMIC; }
static bool is_write(const struct record *record) {
    return record->kind == WRITE || (record->kind == ATOMIC && record->more & WRITES);
}
static bool is_undone(const struct record *record) { return record->kind == WRITE && record->more & UNSETTLED; }
static bool is_by_several(uint64_t threads) { return threads & (threads - 1); }

/* ---- Instances ---- */

static void forget_instances(void) {
    if (!instance_top) return;
    for (size_t i = 0; i < PIECES; i++)
        if (instance_top[i]) munmap(instance_top[i], PIECE_GRANULES * sizeof **instance_top);
    munmap(instance_top, PIECES * sizeof *instance_top);
    instance_top = NULL;
}

static uint32_t instance_at(uint64_t granule) {
    uint32_t *place = instance_of(granule);
    if (!*place) *place = (uint32_t)++born;
    return *place;
}

/* Where an access begins and ends in its granule, apart from its own marks. */
static uint8_t edges_of(uint8_t mask) { return (uint8_t)(mask ^ mask << 1); }

static uint64_t bytes_of(unsigned mask) {
    uint64_t bytes = 0;
    for (unsigned i = 0; i < GRANULE; i++)
        if (mask >> i & 1) bytes |= (uint64_t)0xff << 8 * i;
    return bytes;
}

static bool is_found_changed(const struct instance *instance, const struct record *record) {
    bool old_known = !(record->kind == WRITE && record->more & OLD_UNKNOWN);
    return old_known && (record->old ^ instance->value) & bytes_of(instance->seen & record->mask);
}

static void count_access(const struct record *record) {
    uint32_t number = instance_at(record->address);
    while (instance_count <= number) ADD(instances, instance_count, (struct instance){0});
    struct instance *instance = &instances[number];
    instance->threads |= bit_of(record->thread);
    instance->cuts |= record->cuts | edges_of(record->mask);
    instance->written |= is_write(record) || is_found_changed(instance, record);
    uint64_t bytes = bytes_of(record->mask);
    instance->value = (instance->value & ~bytes) | ((is_write(record) ? record->new : record->old) & bytes);
    instance->seen |= record->mask;
}

#define EACH_GRANULE(at, record) \
    for (uint64_t at = (record)->address & ~(uint64_t)(GRANULE - 1); at < (record)->address + (record)->old; at += GRANULE)

static void count_free(const struct record *record) {
    EACH_GRANULE(at, record) {
        uint32_t number = *instance_of(at);
        if (!number) continue;
        instances[number].threads |= bit_of(record->thread);
        instances[number].written = true;
    }
}

static void count_descriptor(const struct record *record) {
    while (descriptor_count <= record->address) {
        descriptors = room_for(descriptors, descriptor_count, sizeof *descriptors);
        memset(&descriptors[descriptor_count++], 0, sizeof *descriptors);
    }
    descriptors[record->address].threads |= bit_of(record->thread);
    descriptors[record->address].written |= record->kind == DESCRIPTOR_CLOSED;
}

bool is_shared_descriptor(uint64_t descriptor) {
    return descriptor < descriptor_count && is_by_several(descriptors[descriptor].threads) && descriptors[descriptor].written;
}

static bool ends_memory(const struct record *record) {
    return record->kind == FREE || record->kind == BLOCK || record->kind == STACK;
}

static void find_instances(const struct log *log) {
    const struct record *end = log->records + log->count;
    ADD(instances, instance_count, (struct instance){0});
    for (const struct record *record = log->records + HEAD_RECORDS; record < end; record = behind(log, record)) {
        if (is_access(record) && !is_undone(record)) count_access(record);
        if (record->kind == FREE) count_free(record);
        if (record->kind == DESCRIPTOR_OPENED || record->kind == DESCRIPTOR_CLOSED) count_descriptor(record);
        if (ends_memory(record)) instance_clear(record->address, record->old);
    }
    for (size_t i = 1; i < instance_count; i++)
        if (is_by_several(instances[i].threads) && instances[i].written) instances[i].kept = (uint32_t)++kept_count;
}

/* ---- The walk ---- */

void begin_walk(void) {
    forget_instances();
    born = met = 0;
    stretch = 1;
    memset(segments, 0, sizeof segments);
    if (!current) current = fresh_memory((kept_count + 1) * sizeof *current);
    memset(current, 0, (kept_count + 1) * sizeof *current);
    if (stretches) memset(stretches, 0, cell_count * sizeof *stretches);
}

static int64_t number_of(uint64_t granule, unsigned begin, unsigned size) {
    uint64_t bits = granule >> 8 * begin << 8 * (GRANULE - size);
    return (int64_t)bits >> 8 * (GRANULE - size);
}

/* The next cell, which begins at this byte of the instance. */
static uint32_t meet_cell(const struct record *record, unsigned begin, unsigned size, uint32_t generation) {
    uint32_t number = (uint32_t)met++;
    if (!collecting) return number;
    struct cell cell = {.place = place_of(record->address + begin), .generation = generation, .size = (uint8_t)size};
    ADD(cells, cell_count, cell);
    stretches = room_for(stretches, number, sizeof *stretches);
    now = room_for(now, number, sizeof *now);
    stretches[number] = 0;
    return number;
}

/* On a stack, a write, or any access of the stack's own thread, that finds a value that nobody wrote begins a new
 * variable there. */
static bool begins_variable(const struct record *record, uint32_t cell, int64_t old) {
    bool only_writes = record->kind == WRITE || (record->kind == ATOMIC && !(record->more & READS));
    bool may_begin = cells[cell].place.kind == LOCAL && (only_writes || cells[cell].place.object == record->thread);
    return may_begin && stretches[cell] == stretch && now[cell] != old &&
           !(record->kind == WRITE && record->more & OLD_UNKNOWN);
}

static uint64_t mixed(uint64_t hash, uint64_t word) {
    hash = (hash ^ word) * 0x9e3779b97f4a7c15u;
    return hash ^ hash >> 32;
}

static void collect(const struct record *record, struct part part, bool old_known) {
    struct cell *cell = &cells[part.cell];
    cell->threads |= bit_of(record->thread);
    cell->written |= is_write(record);
    cell->accesses++;
    cell->signature = mixed(mixed(cell->signature, (uint64_t)segments[record->thread] << 8 | record->thread), record->kind);
    if (!part.fresh && old_known && now[part.cell] != part.old && !cell->changed) {
        cell->changed = true;
        cell->known = now[part.cell];
        cell->found = part.old;
    }
}

static struct part part_of(const struct record *record, uint32_t *place, unsigned begin, unsigned size) {
    bool old_known = !(record->kind == WRITE && record->more & OLD_UNKNOWN);
    int64_t old = number_of(record->old, begin, size), new = number_of(record->new, begin, size);
    if (!*place) *place = meet_cell(record, begin, size, 0) + 1;
    if (begins_variable(record, *place - 1, old)) *place = meet_cell(record, begin, size, cells[*place - 1].generation + 1) + 1;
    uint8_t mask = (uint8_t)(((1u << size) - 1) << begin);
    struct part part = {*place - 1, old, is_write(record) ? new : old, mask, stretches[*place - 1] != stretch};
    if (collecting) collect(record, part, old_known);
    if (!old_known) part.old = part.fresh ? 0 : now[part.cell];
    stretches[part.cell] = stretch;
    now[part.cell] = part.new;
    return part;
}

static struct access walk_access(const struct record *record) {
    struct access access = {.count = 0};
    const struct instance *instance = &instances[instance_at(record->address)];
    if (!instance->kept) unshared += collecting;
    if (!instance->kept) return access;
    for (unsigned begin = 0, end; begin < GRANULE; begin = end) {
        end = begin + 1;
        while (end < GRANULE && !(instance->cuts >> end & 1)) end++;
        if (record->mask >> begin & 1)
            access.parts[access.count++] = part_of(record, &current[instance->kept].cells[begin], begin, end - begin);
    }
    return access;
}

size_t cells_of_block(const struct record *record, uint32_t **found) {
    static uint32_t *list;
    size_t count = 0;
    EACH_GRANULE(at, record) {
        uint32_t kept = instances[*instance_of(at)].kept;
        for (unsigned i = 0; kept && i < GRANULE; i++)
            if (current[kept].cells[i]) ADD(list, count, current[kept].cells[i] - 1);
    }
    *found = list;
    return count;
}

static void collect_free(const struct record *record) {
    uint32_t *ended;
    size_t count = cells_of_block(record, &ended);
    for (size_t i = 0; i < count; i++) {
        cells[ended[i]].threads |= bit_of(record->thread);
        cells[ended[i]].written = true;
        cells[ended[i]].signature = mixed(cells[ended[i]].signature, FREE);
    }
}

struct access walk(const struct record *record) {
    struct access access = {.count = 0};
    if (is_synchronisation(record)) segments[record->thread]++;
    if (record->kind == RESUMED) stretch++;
    if (is_access(record) && !is_undone(record)) access = walk_access(record);
    if (is_undone(record)) unshared += collecting;
    if (record->kind == FREE && collecting) collect_free(record);
    if (ends_memory(record)) instance_clear(record->address, record->old);
    return access;
}

/* ---- Which cells are kept: of an object not more than some that are accessed all alike ---- */

enum { MOST_TOLD = 10 };

static uint64_t alike_count, alike_accesses, first_alike;

static int by_object_and_history(const void *one, const void *other) {
    const struct cell *first = &cells[*(const uint32_t *)one], *second = &cells[*(const uint32_t *)other];
    if (first->place.kind != second->place.kind) return first->place.kind < second->place.kind ? -1 : 1;
    if (first->place.object != second->place.object) return first->place.object < second->place.object ? -1 : 1;
    if (first->signature != second->signature) return first->signature < second->signature ? -1 : 1;
    return *(const uint32_t *)one < *(const uint32_t *)other ? -1 : 1;
}

static bool are_alike(const struct cell *one, const struct cell *other) {
    return one->place.kind == other->place.kind && one->place.object == other->place.object && one->signature == other->signature;
}

static void choose_cells(uint64_t most_alike) {
    uint32_t *order = NULL;
    size_t count = 0;
    for (uint32_t i = 0; i < cell_count; i++)
        if (is_by_several(cells[i].threads) && cells[i].written && !cells[i].changed) ADD(order, count, i);
    if (count) qsort(order, count, sizeof *order, by_object_and_history);
    uint64_t run = 0;
    for (size_t i = 0; i < count; i++) {
        run = i && are_alike(&cells[order[i]], &cells[order[i - 1]]) ? run + 1 : 0;
        cells[order[i]].kept = run < most_alike;
        if (run < most_alike) continue;
        if (!alike_count++) first_alike = order[i - run];
        alike_accesses += cells[order[i]].accesses;
    }
    free(order);
}

void find_cells(const struct log *log, uint64_t most_alike) {
    read_modules(log);
    find_instances(log);
    begin_walk();
    collecting = true;
    const struct record *end = log->records + log->count;
    forget_objects();
    for (const struct record *record = log->records + HEAD_RECORDS; record < end; record = behind(log, record)) {
        if (record->kind == FREE) {
            walk(record);
            note_object(record);
        } else {
            note_object(record);
            walk(record);
        }
    }
    collecting = false;
    choose_cells(most_alike);
}

uint64_t unshared_accesses(void) { return unshared; }
struct cell *cell_at(uint32_t cell) { return &cells[cell]; }

/* ---- What is left out of it ---- */

static const char *cell_name(const struct cell *cell) {
    return name_text(name_of_place(cell->place, cell->generation, OF_MEMORY));
}

static void tell_changed(void) {
    uint64_t count = 0, accesses = 0;
    for (uint32_t i = 0; i < cell_count; i++) {
        const struct cell *cell = &cells[i];
        if (!cell->changed || !is_by_several(cell->threads)) continue;
        accesses += cell->accesses;
        if (++count <= MOST_TOLD)
            tell_left("the cell %s: something that is not recorded changed it from %ld to %ld", cell_name(cell), cell->known,
                      cell->found);
    }
    if (count > MOST_TOLD) tell_left("%lu more such cells; in all %lu accesses to them", count - MOST_TOLD, accesses);
}

void tell_cells(void) {
    if (alike_count)
        tell_left("%lu accesses to %lu cells that are accessed just as others of their object, as %s is; --alike keeps more",
                  alike_accesses, alike_count, cell_name(&cells[first_alike]));
    tell_changed();
}
