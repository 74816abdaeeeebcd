/* The files `places`, `t1.places` and so on: where in the program each event is. */
#include <stdlib.h>
#include <string.h>

#include "writer.h"

enum { MOST_PLACES = 65536, MOST_FILES = 1024, MOST_PLACE_BYTES = 1048576 };

static void *some(void *made) {
    if (!made) fail(STATUS_NOTHING, "there is not enough memory to write the recording");
    return made;
}

/* ---- The place of a row of calls ---- */

/* What is told of the call behind which the program goes on at an address, which is looked up once; NULL for nothing. */
static const struct spot *spot_behind(uint64_t address) {
    static struct known {
        uint64_t address;
        struct spot *spot;
    } *known;
    static size_t count;
    size_t at = FIRST_ABOVE(known, count, address, address);
    if (at && known[at - 1].address == address) return known[at - 1].spot;
    struct spot spot, *told = NULL;
    uint64_t in_file;
    const struct debug *debug = debug_of(address, &in_file);
    if (debug && find_spot(debug, in_file - 1, &spot)) {
        told = some(malloc(sizeof *told));
        *told = spot;
    }
    struct known met = {address, told};
    ADD(known, count, met);
    memmove(&known[at + 1], &known[at], (count - 1 - at) * sizeof *known);
    known[at] = met;
    return told;
}

/* The innermost of the user's own files, or else the innermost of which anything is told. */
static const struct spot *spot_of(struct calls calls) {
    const struct spot *found = NULL;
    for (size_t i = 0; i < calls.count; i++) {
        const struct spot *spot = spot_behind(calls.list[i]);
        if (spot && (!found || spot->is_own)) found = spot;
        if (found && found->is_own) break;
    }
    return found;
}

/* ---- The events ---- */

/* Those that the folder has, thread by thread mixed; a window's end is a mark of each thread. */
static const struct events *events;
static const struct origins *origins;
static uint64_t event_count; /* up to the end of the last window that is written */

static uint32_t site_of(const struct event *event) {
    return event->record ? origins->steps[origin_of(origins, event)].site : 0;
}

struct sight {
    const struct spot *spot;
    uint32_t site;
};

/* The sites of all events of which a place is told, each once. */
static size_t find_sights(struct sight **sights) {
    bool *is_met = some(calloc(origins->site_count + 1, sizeof *is_met));
    size_t count = 0;
    for (uint64_t at = 0; at < event_count; at++) {
        const struct event *event = &events->list[at];
        uint32_t site = is_event(event) ? site_of(event) : 0;
        if (!site || is_met[site]) continue;
        is_met[site] = true;
        const struct spot *spot = spot_of(calls_of(origins, site));
        if (spot) ADD(*sights, count, (struct sight){spot, site});
    }
    free(is_met);
    return count;
}

/* ---- The places, in the order of their files, lines and functions ---- */

static int compare(const struct spot *one, const struct spot *other) {
    int order = strcmp(one->file, other->file);
    if (!order) order = one->line < other->line ? -1 : one->line > other->line;
    return order ? order : strcmp(one->function, other->function);
}

static int by_spot(const void *one, const void *other) {
    return compare(((const struct sight *)one)->spot, ((const struct sight *)other)->spot);
}

struct list {
    FILE *files, *places;
    char *file_text, *place_text;
    size_t file_size, place_size, file_count, place_count, left_out;
};

static const char head[] = "gpplaces 1\n";

/* Whether the file has room for a place, and for its own file where that is new. */
static bool has_room(const struct list *list, const struct spot *spot, bool is_new_file) {
    fflush(list->files);
    fflush(list->places);
    size_t most = strlen(spot->function) + (is_new_file ? strlen(spot->file) : 0) + sizeof "file \nplace 65536 4294967295 \n";
    return list->place_count < MOST_PLACES && list->file_count + is_new_file <= MOST_FILES &&
           sizeof head + list->file_size + list->place_size + most <= MOST_PLACE_BYTES;
}

/* Adds a place behind the last one that has room; false where it has none. */
static bool add_place(struct list *list, const struct spot *spot, const struct spot *last) {
    bool is_new_file = !last || strcmp(last->file, spot->file);
    if (!has_room(list, spot, is_new_file)) return false;
    if (is_new_file) fprintf(list->files, "file %s\n", spot->file);
    list->file_count += is_new_file;
    list->place_count++;
    fprintf(list->places, "place %zu %lu %s\n", list->file_count, spot->line, spot->function);
    return true;
}

/* Gives the sites their places' numbers. */
static void add_places(struct list *list, const struct sight *sights, size_t count, uint32_t *numbers) {
    const struct spot *last = NULL, *refused = NULL;
    for (size_t i = 0; i < count; i++) {
        const struct spot *spot = sights[i].spot;
        bool is_new = (!last || compare(last, spot)) && (!refused || compare(refused, spot));
        if (is_new && !add_place(list, spot, last)) {
            refused = spot;
            list->left_out++;
        } else if (is_new) {
            last = spot;
        }
        if (last && !compare(last, spot)) numbers[sights[i].site] = (uint32_t)list->place_count;
    }
}

static void write_list(const char *folder, const struct list *list) {
    FILE *file = open_file(folder, "places");
    fputs(head, file);
    fwrite(list->file_text, 1, list->file_size, file);
    fwrite(list->place_text, 1, list->place_size, file);
    close_file(file, "places");
    if (list->left_out) tell("not written: %zu places in the program, as the file has no room for them", list->left_out);
}

/* ---- The numbers of each thread's events ---- */

struct numbers {
    FILE *to;
    char *text;
    size_t size;
};

static void add_numbers(struct numbers *threads, const struct windows *windows, uint64_t count, const uint32_t *numbers) {
    for (uint64_t i = 0; i < count; i++) {
        for (unsigned thread = 1; i && thread <= events->threads; thread++) fputs("mark\n", threads[thread].to);
        for (uint64_t at = windows->list[i].begin; at < windows->list[i].end; at++) {
            const struct event *event = &events->list[at];
            if (is_event(event)) fprintf(threads[event->thread].to, "%u\n", numbers[site_of(event)]);
        }
    }
}

static void write_numbers(const char *folder, unsigned thread, const struct numbers *numbers) {
    char name[32];
    snprintf(name, sizeof name, "t%u.places", thread);
    if (numbers->size > MOST_PLACE_BYTES) {
        tell("not written: %s, as a file of places has at most %d bytes", name, MOST_PLACE_BYTES);
        return;
    }
    FILE *file = open_file(folder, name);
    if (numbers->size) fwrite(numbers->text, 1, numbers->size, file);
    close_file(file, name);
}

static void write_threads(const char *folder, const struct recording *recording, const uint32_t *numbers) {
    static struct numbers threads[MOST_THREADS + 1];
    for (unsigned thread = 1; thread <= events->threads; thread++)
        threads[thread].to = some(open_memstream(&threads[thread].text, &threads[thread].size));
    add_numbers(threads, &recording->windows, recording->folder.windows, numbers);
    for (unsigned thread = 1; thread <= events->threads; thread++) {
        if (fclose(threads[thread].to)) some(NULL);
        write_numbers(folder, thread, &threads[thread]);
        free(threads[thread].text);
    }
}

void write_places(const char *folder, const struct recording *recording, const struct origins *of_origins) {
    struct sight *sights = NULL;
    struct list list = {.file_count = 0};
    events = &recording->events, origins = of_origins;
    event_count = recording->windows.list[recording->folder.windows - 1].end;
    size_t count = find_sights(&sights);
    if (!count) return;
    qsort(sights, count, sizeof *sights, by_spot);
    uint32_t *numbers = some(calloc(origins->site_count + 1, sizeof *numbers));
    list.files = some(open_memstream(&list.file_text, &list.file_size));
    list.places = some(open_memstream(&list.place_text, &list.place_size));
    add_places(&list, sights, count, numbers);
    if (fclose(list.files) | fclose(list.places)) some(NULL);
    write_list(folder, &list);
    write_threads(folder, recording, numbers);
    free(list.file_text);
    free(list.place_text);
    free(sights);
    free(numbers);
}
