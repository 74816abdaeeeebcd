/* The schedule of an instance, as a report tells it. */
#include <stdlib.h>
#include <string.h>

#include "writer.h"

static char *line;
static size_t room;

static bool next_line(FILE *file) { return getline(&line, &room, file) >= 0; }

static bool is_word(const char *word, const char *text) {
    size_t length = strlen(word);
    return !strncmp(text, word, length) && (text[length] == ' ' || text[length] == '\n');
}

/* The events of a line from `text` on, into `picks`, at most so many; how many there were. */
static size_t read_picks(const char *text, struct pick *picks, size_t most) {
    size_t count = 0;
    int length;
    while (count < most && sscanf(text, "%u.%u%n", &picks[count].thread, &picks[count].index, &length) == 2) {
        text += length;
        count++;
    }
    return count;
}

/* Goes on to the line of the instance; false where there is none. */
static bool find_instance(FILE *file, const struct question *question) {
    uint64_t window = 0, instance;
    bool is_property = false;
    char name[MOST_NAME + 1];
    while (next_line(file)) {
        if (sscanf(line, "window %lu", &window) == 1) is_property = false;
        if (sscanf(line, "property %32s", name) == 1) is_property = !strcmp(name, question->property);
        if (window == question->window && is_property && sscanf(line, "instance %lu", &instance) == 1 &&
            instance == question->instance)
            return true;
    }
    return false;
}

static void read_found(FILE *file, struct schedule *schedule) {
    size_t count;
    if (!next_line(file) || sscanf(line, "found %zu", &count) != 1 || count > MOST_EVENTS)
        fail(STATUS_NOTHING, "there is nothing to confirm: the instance is %.*s", (int)strcspn(line, " \n"), line);
    schedule->picks = calloc(count + 1, sizeof *schedule->picks);
    if (!schedule->picks) fail(STATUS_NOTHING, "there is not enough memory for the schedule");
    while (schedule->count < count && next_line(file)) {
        size_t got = read_picks(line, schedule->picks + schedule->count, count - schedule->count);
        if (!got) break;
        schedule->count += got;
    }
    if (schedule->count < count) fail(STATUS_NOTHING, "the report ends in the schedule");
}

struct schedule read_schedule(const struct question *question) {
    char path[4200];
    snprintf(path, sizeof path, "%s/report", question->folder);
    const char *name = question->report ? question->report : path;
    FILE *file = fopen(name, "r");
    if (!file) fail(STATUS_NOTHING, "there is no report %s", name);
    bool is_report = next_line(file) && (is_word("gpredict", line) || is_word("gpnotify", line));
    if (!is_report) fail(STATUS_NOTHING, "%s is no report", name);
    if (!find_instance(file, question))
        fail(STATUS_NOTHING, "there is nothing to confirm: the report has no instance %lu of %s in window %lu",
             question->instance, question->property, question->window);
    struct schedule schedule = {0};
    const char *events = strchr(line + strlen("instance "), ' ');
    if (events) schedule.atoms = read_picks(events, schedule.instance, MOST_ATOMS);
    read_found(file, &schedule);
    fclose(file);
    return schedule;
}
