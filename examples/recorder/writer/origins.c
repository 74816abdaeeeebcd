/* The calls and accesses of which records come, as the file beside the log has them. */
#include <fcntl.h>
#include <stdlib.h>
#include <sys/mman.h>
#include <sys/stat.h>
#include <unistd.h>

#include "writer.h"

static int by_widened(const void *one, const void *other) {
    const struct record *first = *(const struct record *const *)one, *second = *(const struct record *const *)other;
    if (first->old != second->old) return first->old < second->old ? -1 : 1;
    return first < second ? -1 : 1;
}

struct origins find_origins(const struct log *log, const char *steps) {
    struct origins origins = {.log = log};
    struct stat status;
    int file = open(steps, O_RDONLY | O_CLOEXEC);
    if (file < 0 || fstat(file, &status)) fail(STATUS_NOTHING, "the steps of the run cannot be read");
    void *made = mmap(NULL, (size_t)status.st_size, PROT_READ, MAP_PRIVATE, file, 0);
    close(file);
    if (made == MAP_FAILED) fail(STATUS_NOTHING, "the steps of the run cannot be read");
    origins.steps = made;
    const struct record *end = log->records + log->count;
    for (const struct record *record = log->records + HEAD_RECORDS; record < end; record = behind(log, record)) {
        if (record->kind == WIDENED) ADD(origins.widened, origins.count, record);
        if (record->kind == SITE) ADD(origins.sites, origins.site_count, record);
    }
    if (origins.count) qsort(origins.widened, origins.count, sizeof *origins.widened, by_widened);
    return origins;
}

uint64_t origin_of(const struct origins *origins, const struct event *event) {
    const struct record *found = NULL;
    size_t low = 0, high = origins->count;
    while (low < high) {
        size_t middle = (low + high) / 2;
        if (origins->widened[middle]->old < event->record) {
            low = middle + 1;
        } else {
            high = middle;
        }
    }
    uint8_t first = origins->log->records[event->record].mask;
    for (size_t i = low; i < origins->count && origins->widened[i]->old == event->record && event->mask; i++) {
        const struct record *widened = origins->widened[i];
        first &= (uint8_t)~widened->mask;
        if (!found && widened->mask & event->mask) found = widened;
    }
    return found && !(first & event->mask) ? (uint64_t)(found - origins->log->records) : event->record;
}

struct calls calls_of(const struct origins *origins, uint32_t site) {
    const struct record *found = origins->sites[site - 1];
    return (struct calls){(const uint64_t *)(found + 1), found->more / sizeof(uint64_t)};
}
