/* The folder: the manifest, a trace for each thread, the recorded order of a window, and the properties. */
#include <dirent.h>
#include <errno.h>
#include <stdlib.h>
#include <string.h>
#include <sys/stat.h>
#include <unistd.h>

#include "writer.h"

enum { LONGEST_LINE = 256, HEAD_ROOM = 400, EVENTS_A_LINE = 100 };

static uint64_t *rooms;

static void put(struct folder *folder, unsigned file, const char *line, size_t length) {
    if (folder->sizes[file] + length > rooms[file]) {
        rooms[file] = 2 * rooms[file] + LONGEST_LINE;
        folder->texts[file] = realloc(folder->texts[file], rooms[file]);
        if (!folder->texts[file]) fail(STATUS_NOTHING, "there is not enough memory to write the recording");
    }
    memcpy(folder->texts[file] + folder->sizes[file], line, length);
    folder->sizes[file] += length;
}

/* ---- Values at the beginning of a window ---- */

static int64_t *now, *before;
static bool *is_known, *is_listed;
static uint32_t *listed; /* names whose value may be another one than at the last beginning */
static size_t listed_count;

static void set(uint32_t name, int64_t value) {
    is_known[name] = true;
    now[name] = value;
    if (!is_listed[name]) ADD(listed, listed_count, name);
    is_listed[name] = true;
}

static int by_text(const void *one, const void *other) {
    return strcmp(name_text(*(const uint32_t *)one), name_text(*(const uint32_t *)other));
}

static void put_value(struct folder *folder, uint64_t window, uint32_t name) {
    char line[LONGEST_LINE];
    if (now[name] == before[name]) return;
    int length = snprintf(line, sizeof line, "value %lu %s %ld\n", window, name_text(name), now[name]);
    put(folder, 0, line, (size_t)length);
    before[name] = now[name];
}

/* What a variable has where it is first met it had from the beginning on, so that the windows before lead to this one. */
static void put_first_value(struct folder *folder, uint32_t name, int64_t value) {
    is_known[name] = true;
    now[name] = value;
    put_value(folder, 1, name);
}

static void put_values(struct folder *folder, uint64_t window) {
    if (listed_count) qsort(listed, listed_count, sizeof *listed, by_text);
    for (size_t i = 0; i < listed_count; i++) {
        is_listed[listed[i]] = false;
        put_value(folder, window, listed[i]);
    }
    listed_count = 0;
}

/* ---- Windows, as long as the files have room ---- */

static void put_window(struct folder *folder, const struct events *events, const struct window *window) {
    char line[LONGEST_LINE];
    for (uint64_t at = window->begin; at < window->end; at++) {
        const struct event *event = &events->list[at];
        if (event->kind != A_SET) continue;
        if (is_known[event->name]) set(event->name, event->value);
        else put_first_value(folder, event->name, event->value);
    }
    put_values(folder, folder->windows + 1);
    for (unsigned thread = 1; folder->windows && thread <= events->threads; thread++) put(folder, thread, "mark\n", 5);
    for (uint64_t at = window->begin; at < window->end; at++) {
        const struct event *event = &events->list[at];
        if (event->kind >= A_SET) continue;
        put(folder, event->thread, line, (size_t)print_event(line, sizeof line, events, event));
        if (event->kind == A_WRITE) set(event->name, event->value);
        folder->shared |= event->kind == AN_RACQUIRE;
    }
}

static bool has_room(const struct folder *folder, unsigned threads) {
    if (folder->windows == MOST_WINDOWS || folder->sizes[0] > MOST_MANIFEST - HEAD_ROOM) return false;
    for (unsigned thread = 1; thread <= threads; thread++)
        if (folder->sizes[thread] > MOST_TRACE) return false;
    return true;
}

static void *array_of(size_t count, size_t size) {
    void *made = calloc(count + 1, size);
    if (!made) fail(STATUS_NOTHING, "there is not enough memory to write the recording");
    return made;
}

struct folder make_folder(const struct events *events, const struct windows *windows) {
    unsigned files = events->threads + 1;
    struct folder folder = {array_of(files, sizeof(char *)), array_of(files, sizeof(uint64_t)), 0, 0, 0, 0, false};
    rooms = array_of(files, sizeof *rooms);
    now = array_of(name_count(), sizeof *now);
    before = array_of(name_count(), sizeof *before);
    is_known = array_of(name_count(), sizeof *is_known);
    is_listed = array_of(name_count(), sizeof *is_listed);
    uint64_t *kept = array_of(files, sizeof *kept);
    for (uint64_t i = 0; i < windows->count; i++) {
        memcpy(kept, folder.sizes, files * sizeof *kept);
        put_window(&folder, events, &windows->list[i]);
        if (!has_room(&folder, events->threads)) {
            memcpy(folder.sizes, kept, files * sizeof *kept);
            for (; i < windows->count; i++) folder.cut += windows->list[i].size;
            break;
        }
        folder.windows++;
        folder.events += windows->list[i].size;
        if (windows->list[i].size > folder.largest) folder.largest = windows->list[i].size;
    }
    folder.cut += events->surplus;
    free(kept);
    return folder;
}

/* ---- Files ---- */

FILE *open_file(const char *folder, const char *name) {
    char path[4200];
    snprintf(path, sizeof path, "%s/%s", folder, name);
    FILE *file = fopen(path, "w");
    if (!file) fail(STATUS_NOTHING, "%s cannot be written: %s", path, strerror(errno));
    return file;
}

void close_file(FILE *file, const char *name) {
    if (ferror(file) | fclose(file)) fail(STATUS_NOTHING, "%s cannot be written", name);
}

static bool is_old(const char *name) {
    unsigned number;
    int end = 0;
    static const char *const names[] = {"schedule", "report", "run", "confirmed", "names", "places"};
    for (size_t i = 0; i < sizeof names / sizeof *names; i++)
        if (!strcmp(name, names[i])) return true;
    bool is_trace = sscanf(name, "t%u.trace%n", &number, &end) == 1 && end && !name[end];
    end = 0;
    return is_trace || (sscanf(name, "t%u.places%n", &number, &end) == 1 && end && !name[end]);
}

static void clear_folder(const char *folder) {
    char path[4200];
    if (mkdir(folder, 0777) && errno != EEXIST) fail(STATUS_NOTHING, "%s cannot be made: %s", folder, strerror(errno));
    DIR *names = opendir(folder);
    if (!names) fail(STATUS_NOTHING, "%s cannot be read: %s", folder, strerror(errno));
    for (struct dirent *entry; (entry = readdir(names));) {
        if (!is_old(entry->d_name)) continue;
        snprintf(path, sizeof path, "%s/%s", folder, entry->d_name);
        unlink(path);
    }
    closedir(names);
}

static void copy_to(FILE *file, const char *from) {
    char bytes[4096];
    FILE *source = fopen(from, "r");
    if (!source) fail(STATUS_WORDS, "there is no file %s", from);
    for (size_t got; (got = fread(bytes, 1, sizeof bytes, source));) fwrite(bytes, 1, got, file);
    fclose(source);
}

/* The file of properties that is given, and behind it those of the questions that are asked, by their names. */
static void write_props(const struct words *words) {
    if (!words->props && !words->asked) return;
    FILE *file = open_file(words->folder, "props");
    if (words->props) copy_to(file, words->props);
    for (const char *name = words->asked; name && *name;) {
        char path[4200];
        int length = (int)strcspn(name, ",");
        question_file(path, sizeof path, name, length);
        fputc('\n', file);
        copy_to(file, path);
        name += length + (name[length] == ',');
    }
    close_file(file, "props");
}

static void write_schedule(const struct words *words, const struct events *events, const struct window *window) {
    FILE *file = open_file(words->folder, "schedule");
    uint32_t counts[MOST_THREADS + 1] = {0}, written = 0;
    fprintf(file, "window %lu", words->schedule);
    for (uint64_t at = window->begin; at < window->end; at++) {
        unsigned thread = events->list[at].thread;
        if (!is_event(&events->list[at])) continue;
        fprintf(file, "%c%u.%u", written++ % EVENTS_A_LINE ? ' ' : '\n', thread, counts[thread]++);
    }
    fputc('\n', file);
    close_file(file, "schedule");
}

static int head_lines(char *to, const struct folder *folder, const struct events *events) {
    return snprintf(to, HEAD_ROOM, "gptrace %d\nthreads %u\nepochs %lu\nroots 1\n", folder->shared ? 2 : 1, events->threads,
                    folder->windows);
}

/* Whether a file has just these bytes, in two parts. */
static bool has_bytes(const char *folder, const char *name, const char *first, size_t length, const char *rest, size_t size) {
    char path[4200];
    snprintf(path, sizeof path, "%s/%s", folder, name);
    FILE *file = fopen(path, "r");
    char *found = array_of(length + size + 1, 1);
    size_t got = file ? fread(found, 1, length + size + 1, file) : SIZE_MAX;
    bool same = got == length + size && !memcmp(found, first, length) && (!size || !memcmp(found + length, rest, size));
    if (file) fclose(file);
    free(found);
    return same;
}

const char *other_file(const struct words *words, const struct folder *folder, const struct events *events) {
    static char name[32] = "manifest";
    char lines[HEAD_ROOM];
    size_t length = (size_t)head_lines(lines, folder, events);
    if (!has_bytes(words->folder, name, lines, length, folder->texts[0], folder->sizes[0])) return name;
    for (unsigned thread = 1; thread <= events->threads; thread++) {
        snprintf(name, sizeof name, "t%u.trace", thread);
        if (!has_bytes(words->folder, name, "", 0, folder->texts[thread], folder->sizes[thread])) return name;
    }
    return NULL;
}

void write_names(const char *folder) {
    FILE *file = open_file(folder, "names");
    print_names(file);
    close_file(file, "names");
}

void write_folder(const struct words *words, const struct folder *folder, const struct events *events,
                  const struct windows *windows) {
    char name[32], lines[HEAD_ROOM];
    clear_folder(words->folder);
    FILE *file = open_file(words->folder, "manifest");
    fwrite(lines, 1, (size_t)head_lines(lines, folder, events), file);
    fwrite(folder->texts[0], 1, folder->sizes[0], file);
    close_file(file, "manifest");
    for (unsigned thread = 1; thread <= events->threads; thread++) {
        snprintf(name, sizeof name, "t%u.trace", thread);
        file = open_file(words->folder, name);
        if (folder->sizes[thread]) fwrite(folder->texts[thread], 1, folder->sizes[thread], file);
        close_file(file, name);
    }
    write_props(words);
    file = open_file(words->folder, "run");
    write_run(words, file);
    close_file(file, "run");
    write_names(words->folder);
    if (words->schedule) write_schedule(words, events, &windows->list[words->schedule - 1]);
}
