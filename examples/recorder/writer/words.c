/* The words of the command. */
#include <stdlib.h>
#include <string.h>
#include <sys/stat.h>

#include "writer.h"

static const char usage[] =
    "gprecord run [OPTIONS] DIR PROGRAM ARGS..\n"
    "  --seed S      where the choice of who runs when begins (1)\n"
    "  --switch N    how many turn points a thread passes on average before another one gets its turn (10)\n"
    "  --per N       how many events a window has at least, and at most twice as many (1000)\n"
    "  --last N      only the last N windows\n"
    "  --from NAME   only what comes from the first operation of this name on\n"
    "  --for SECONDS the program is asked to end then, by SIGTERM\n"
    "  --alike N     how many cells of an object are kept that are accessed all alike (8)\n"
    "  --log MIB     how long the log may become (16384)\n"
    "  --strict      status 4 where anything is left out\n"
    "  --props FILE  a file of properties, to be copied into the folder\n"
    "  --ask NAMES   ready-made questions, to be put behind it: names of examples/recorder/questions, with commas between\n"
    "  --schedule K  writes the recorded order of window K there\n"
    "0: recorded. 1: recorded, and the run did not end well. 2: wrong words. 3: nothing is recorded. 4: see --strict.\n";

static const char usage_of_confirm[] =
    "gprecord confirm [OPTIONS] DIR K PROPERTY INSTANCE PROGRAM ARGS..\n"
    "  --report FILE    the report that has the schedule (DIR/report)\n"
    "  --seed S         where the choice of who runs begins behind the schedule (it goes on as it stands)\n"
    "  --limit SECONDS  how long the program may come to no event of the schedule (10)\n"
    "  --debugger       the process stops itself before the first event of the instance, and has no limit of time\n"
    "0: confirmed. 1: the program left the schedule. 2: wrong words. 3: there is nothing to confirm.\n";

static bool confirms;

_Noreturn static void stop(const char *word) {
    if (word) tell("wrong: %s", word);
    fputs(confirms ? usage_of_confirm : usage, stderr);
    exit(STATUS_WORDS);
}

static uint64_t number(const char *option, const char *word, uint64_t least, uint64_t most) {
    char *end;
    uint64_t value = strtoull(word, &end, 10);
    if (!*word || *word < '0' || *word > '9' || *end || value < least || value > most) stop(option);
    return value;
}

static bool take_number(struct words *words, const char *option, const char *word) {
    if (!strcmp(option, "--seed")) {
        words->seed = number(option, word, 0, UINT64_MAX);
    } else if (!strcmp(option, "--switch")) {
        words->switch_every = (uint32_t)number(option, word, 1, UINT32_MAX);
    } else if (!strcmp(option, "--per")) {
        words->per = (uint32_t)number(option, word, 1, MOST_EVENTS);
    } else if (!strcmp(option, "--last")) {
        words->last = number(option, word, 1, MOST_WINDOWS - 1);
    } else if (!strcmp(option, "--for")) {
        words->seconds = number(option, word, 1, 1000000);
    } else if (!strcmp(option, "--alike")) {
        words->alike = number(option, word, 1, UINT64_MAX);
    } else if (!strcmp(option, "--log")) {
        words->log_mib = (uint32_t)number(option, word, 16, 65536);
    } else if (!strcmp(option, "--schedule")) {
        words->schedule = number(option, word, 1, MOST_WINDOWS);
    } else {
        return false;
    }
    return true;
}

static void take(struct words *words, const char *option, const char *word) {
    if (take_number(words, option, word)) return;
    if (!strcmp(option, "--props")) {
        words->props = word;
    } else if (!strcmp(option, "--ask")) {
        words->asked = word;
    } else if (!strcmp(option, "--from")) {
        words->from = word;
    } else {
        stop(option);
    }
}

void question_file(char *path, size_t room, const char *name, int length) {
    const char *folder = getenv("GPRECORD_QUESTIONS");
    snprintf(path, room, "%s/%.*s.props", folder ? folder : "questions", length, name);
}

static void check_asked(const char *name) {
    struct stat status;
    char path[4200];
    while (name && *name) {
        int length = (int)strcspn(name, ",");
        question_file(path, sizeof path, name, length);
        if (stat(path, &status)) fail(STATUS_WORDS, "there is no question %.*s", length, name);
        name += length + (name[length] == ',');
    }
}

struct words read_words(int count, char **given) {
    struct words words = {.seed = 1, .alike = 8, .per = 1000, .switch_every = 10, .log_mib = 16384};
    int at = 1;
    for (; at < count && given[at][0] == '-'; at++) {
        char *value = strchr(given[at], '=');
        if (!strcmp(given[at], "--strict")) {
            words.strict = true;
        } else if (value) {
            *value = 0;
            take(&words, given[at], value + 1);
        } else {
            if (at + 1 == count) stop(given[at]);
            take(&words, given[at], given[at + 1]);
            at++;
        }
    }
    if (count - at < 2) stop(NULL);
    struct stat status;
    if (words.props && stat(words.props, &status)) fail(STATUS_WORDS, "there is no file %s", words.props);
    check_asked(words.asked);
    words.folder = given[at];
    words.program = given + at + 1;
    return words;
}

/* ---- Those of a confirmation ---- */

static void take_of_question(struct question *question, const char *option, const char *word) {
    if (!strcmp(option, "--seed")) {
        question->seed = number(option, word, 0, UINT64_MAX);
        question->has_seed = true;
    } else if (!strcmp(option, "--limit")) {
        question->limit = number(option, word, 1, 1000000);
    } else if (!strcmp(option, "--report")) {
        question->report = word;
    } else {
        stop(option);
    }
}

struct question read_question(int count, char **given) {
    struct question question = {.limit = 10};
    int at = 1;
    confirms = true;
    for (; at < count && given[at][0] == '-'; at++) {
        char *value = strchr(given[at], '=');
        if (!strcmp(given[at], "--debugger")) {
            question.debugger = true;
        } else if (value) {
            *value = 0;
            take_of_question(&question, given[at], value + 1);
        } else {
            if (at + 1 == count) stop(given[at]);
            take_of_question(&question, given[at], given[at + 1]);
            at++;
        }
    }
    if (count - at < 5) stop(NULL);
    question.folder = given[at];
    question.window = number("K", given[at + 1], 1, MOST_WINDOWS);
    question.property = given[at + 2];
    question.instance = number("INSTANCE", given[at + 3], 0, UINT32_MAX);
    question.program = given + at + 4;
    return question;
}

/* ---- The file `run`: how a recording was made ---- */

void write_run(const struct words *words, FILE *file) {
    fprintf(file, "gprun 1\nseed %lu\nswitch %u\nper %u\nlast %lu\n", words->seed, words->switch_every, words->per, words->last);
    fprintf(file, "for %lu\nalike %lu\nlog %u\n", words->seconds, words->alike, words->log_mib);
    if (words->from) fprintf(file, "from %s\n", words->from);
}

struct words read_run(const char *folder) {
    struct words words = {.folder = folder};
    static char path[4200], from[4096];
    snprintf(path, sizeof path, "%s/run", folder);
    FILE *file = fopen(path, "r");
    if (!file) fail(STATUS_NOTHING, "there is no file %s, which says how the recording was made; record it anew", path);
    int found = fscanf(file, "gprun 1 seed %lu switch %u per %u last %lu for %lu alike %lu log %u", &words.seed,
                       &words.switch_every, &words.per, &words.last, &words.seconds, &words.alike, &words.log_mib);
    if (found != 7) fail(STATUS_NOTHING, "%s does not say how the recording was made", path);
    if (fscanf(file, " from %4095s", from) == 1) words.from = from;
    fclose(file);
    return words;
}
