/* Places in the source of a program: the functions that the code at an address belongs to, and their lines. */
#include <stdlib.h>
#include <string.h>

#include "dwarf.h"

enum { MOST_FRAMES = 64, LONGEST_FUNCTION = 200, LONGEST_FILE = 1000 };

/* A function, by its entry, and where in it the code is, or the call that one more function was built into. */
struct frame {
    uint64_t function, file, line;
};

struct frames {
    const struct unit *unit;
    struct frame list[MOST_FRAMES]; /* from the outermost one on */
    size_t count;
};

/* Of a function that has no entry, as where there are lines alone. */
static bool find_line_alone(const struct debug *debug, uint64_t address, struct frames *frames) {
    struct line line;
    for (size_t i = 0; i < debug->unit_count; i++) {
        if (!find_line(&debug->units[i], address, &line)) continue;
        frames->unit = &debug->units[i];
        frames->list[frames->count++] = (struct frame){0, line.file, line.number};
        return true;
    }
    return false;
}

/* The functions that were built into each other at an address; false where nothing is known of it. */
static bool find_frames(const struct debug *debug, uint64_t address, struct frames *found) {
    const struct thing *function = thing_at(&debug->functions, address);
    struct frame *frames = found->list;
    struct entry entry;
    struct line line;
    found->count = 0;
    if (!function || address >= function->end || !entry_at(debug, function->entry, &entry))
        return find_line_alone(debug, address, found);
    if (!find_line(entry.unit, address, &line)) return false;
    found->unit = entry.unit;
    size_t count = 0;
    frames[count++] = (struct frame){.function = entry.at};
    for (unsigned depth = 0; count < MOST_FRAMES && next_entry(&entry, &depth);) {
        if (entry.tag != INLINED || !has_address(&entry, address)) continue;
        frames[count - 1].file = entry.values[CALL_FILE].number;
        frames[count - 1].line = entry.values[CALL_LINE].number;
        frames[count++] = (struct frame){.function = entry.at};
    }
    frames[count - 1].file = line.file;
    frames[count - 1].line = line.number;
    found->count = count;
    return true;
}

/* ---- Names of files ---- */

static void *some(void *made) {
    if (!made) fail(STATUS_NOTHING, "there is not enough memory to write the recording");
    return made;
}

static char *joined(const char *folder, const char *name) {
    char *made = NULL;
    if (*name == '/' || !*folder) return some(strdup(name));
    return some(asprintf(&made, "%s/%s", folder, name) < 0 ? NULL : made);
}

/* Without its `.`, and without each `..` that leads out of a folder of it. */
static char *simple(const char *path) {
    char *made = some(malloc(strlen(path) + 2));
    size_t length = 0;
    for (const char *at = path; *at; at += strspn(at, "/")) {
        size_t size = strcspn(at, "/");
        made[length] = 0;
        const char *last = strrchr(made, '/');
        bool is_up = size == 2 && !strncmp(at, "..", 2);
        if (is_up && last && strcmp(last, "/..")) {
            length = (size_t)(last - made);
        } else if (size && (size > 1 || *at != '.') && !(is_up && *path == '/')) {
            made[length++] = '/';
            memcpy(made + length, at, size);
            length += size;
        }
        at += size;
    }
    made[length] = 0;
    if (*path != '/' && length) memmove(made, made + 1, length);
    return made;
}

/* A path as it is seen from a folder, where it lies in it; else its last part. */
static const char *seen_from(const char *folder, const char *path) {
    size_t length = strlen(folder);
    const char *last = strrchr(path, '/');
    if (*path != '/' && !length && strncmp(path, "..", 2)) return path;
    return !strncmp(path, folder, length) && path[length] == '/' ? path + length + 1 : last ? last + 1 : path;
}

static bool is_of_system(const char *path) {
    return !strncmp(path, "/usr/include/", strlen("/usr/include/")) || !strncmp(path, "/usr/lib/", strlen("/usr/lib/"));
}

/* ---- What is told of them ---- */

static bool is_plain(char letter) { return letter > ' ' && letter <= '~' && letter != '%'; }

/* As one word, with %XX for each byte that is none of a word; of a longer one the beginning. */
static char *escaped(const char *text, size_t most) {
    char *made = some(malloc(3 * strlen(text) + 1));
    size_t length = 0;
    for (; *text && length + (is_plain(*text) ? 1 : 3) <= most; text++) {
        if (is_plain(*text)) made[length++] = *text;
        else length += (size_t)sprintf(made + length, "%%%02X", (unsigned char)*text);
    }
    made[length] = 0;
    return made;
}

static size_t escaped_length(const char *text) {
    size_t length = 0;
    for (; *text; text++) length += is_plain(*text) ? 1 : 3;
    return length;
}

static char *file_word(const char *name) {
    while (escaped_length(name) > LONGEST_FILE) name++;
    return escaped(name, LONGEST_FILE);
}

static char *function_word(const struct debug *debug, uint64_t function) {
    char *name = NULL;
    size_t size;
    struct entry entry;
    FILE *to = some(open_memstream(&name, &size));
    if (entry_at(debug, function, &entry)) write_whole_name(to, &entry);
    else fputc('?', to);
    if (fclose(to)) some(NULL);
    char *made = escaped(name, LONGEST_FUNCTION);
    free(name);
    return made;
}

/* False where the file of a frame is not known. */
static bool tell_frame(const struct unit *unit, const struct frame *frame, struct spot *spot) {
    const char *folder, *name = name_of_file(unit, frame->file, &folder);
    if (!name || !*name) return false;
    char *lies_in = joined(unit->folder, folder), *whole = joined(lies_in, name);
    char *path = simple(whole), *from = simple(unit->folder);
    uint64_t line = frame->line <= UINT32_MAX ? frame->line : 0;
    *spot = (struct spot){file_word(seen_from(from, path)), function_word(unit->debug, frame->function), line, !is_of_system(path)};
    free(lies_in);
    free(whole);
    free(path);
    free(from);
    return *spot->file && *spot->function;
}

bool find_spot(const struct debug *debug, uint64_t address, struct spot *spot) {
    struct frames frames;
    bool is_found = false;
    struct spot told;
    if (!find_frames(debug, address, &frames)) return false;
    for (size_t i = frames.count; i > 0; i--) {
        if (!tell_frame(frames.unit, &frames.list[i - 1], &told)) continue;
        if (!is_found || told.is_own) *spot = told;
        is_found = true;
        if (told.is_own) break;
    }
    return is_found;
}
