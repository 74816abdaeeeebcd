/* Runs a program that has the recorder in it, and writes the folder of the recording. */
#include <stdlib.h>
#include <string.h>
#include <unistd.h>

#include "writer.h"

/* ---- How the run ended ---- */

static void tell_calls(const struct log *log) {
    for (unsigned thread = 1; thread <= MOST_THREADS; thread++)
        if (log->head->call_of[thread]) tell("thread %u is in the call %s", thread, word_at(log, log->head->call_of[thread]));
}

static void tell_wait(const struct record *record) {
    static const char *const kinds[] = {"lock", "condition", "semaphore", "thread", "barrier", "futex", "time"};
    if (record->mask == FOR_THREAD) {
        tell("thread %u waits for the end of thread %u", record->thread, record->more);
    } else {
        enum name_use use = record->mask == FOR_SEMAPHORE || record->mask == FOR_BARRIER ? OF_NUMBER : OF_MEMORY;
        tell("thread %u waits for the %s %s", record->thread, kinds[record->mask],
             name_text(name_of_place(place_of(record->address), 0, use)));
    }
}

/* True where the log says that the run did not come to its end. */
static bool tell_end(const struct log *log) {
    bool stopped = false;
    const struct record *end = log->records + log->count;
    for (const struct record *record = log->records + HEAD_RECORDS; record < end; record = behind(log, record)) {
        if (record->kind == CUT) {
            const char *why = word_at(log, record->more);
            tell_left("what came behind the recording's end: %s", *why ? why : "the log was full");
        }
        if (record->kind == GAVE_UP) tell("thread %u ended the run: %s", record->thread, word_at(log, record->more));
        if (record->kind == WAITS && !stopped) tell("the run came to a stop, as each thread waits for another one:");
        if (record->kind == WAITS) tell_wait(record);
        stopped |= record->kind == WAITS || record->kind == GAVE_UP;
    }
    return stopped;
}

void tell_ending(const struct log *log, struct ending ending) {
    if (tell_end(log)) return;
    if (ending.signal) {
        unsigned thread = log->head->running;
        if (thread) tell("the program ended by signal %d, %s, while thread %u ran", ending.signal, strsignal(ending.signal), thread);
        if (!thread) tell("the program ended by signal %d, %s, while no thread ran", ending.signal, strsignal(ending.signal));
        tell_calls(log);
    } else if (ending.status) {
        tell("the program ended with status %d", ending.status);
    }
}

/* ---- Wakes whose sleep lies before their window ---- */

static void tell_unpaired(const struct events *events, const struct windows *windows, uint64_t count) {
    uint64_t asleep[MOST_THREADS + 1] = {0}, told = 0, first = 0;
    uint32_t sleep = name_of_word("sleep"), wake = name_of_word("wake");
    for (uint64_t window = 0; window < count; window++) {
        bool is_told = false;
        for (uint64_t at = windows->list[window].begin; at < windows->list[window].end; at++) {
            const struct event *event = &events->list[at];
            if (event->kind != AN_OPERATION || (event->name != sleep && event->name != wake)) continue;
            is_told |= event->name == wake && asleep[event->thread] != window + 1;
            asleep[event->thread] = event->name == sleep ? window + 1 : 0;
        }
        if (is_told && !told++) first = window + 1;
    }
    if (told)
        tell("%lu windows, %lu the first, have a wake whose sleep lies before them; task notify leaves them out: another --per may "
             "place the marks better",
             told, first);
}

/* ---- From the log to the folder ---- */

/* What no answer can miss. */
static void tell_count(uint64_t count, const char *what) {
    if (count) tell("not written: %lu %s", count, what);
}

static void tell_all(const struct words *words, const struct log *log, const struct folder *folder, const struct events *events,
                     uint64_t folded) {
    const struct log_head *head = log->head;
    tell("%s: %u threads, %lu events; windows: %lu, of at most %u events", words->folder, events->threads, folder->events,
         folder->windows, folder->largest);
    tell_used(events);
    tell_wrong_locks();
    tell_cells();
    if (folder->cut) tell_left("%lu events at the end, as a recording has no room for them", folder->cut);
    if (head->paused_accesses) tell_left("%lu accesses in pauses", head->paused_accesses);
    if (head->inner_accesses) tell_left("%lu accesses by what the recorder's own calls called", head->inner_accesses);
    if (head->stray_accesses) tell_left("%lu accesses by threads that pthread_create did not start", head->stray_accesses);
    tell_count(head->early_accesses, "accesses before a second thread was started");
    tell_count(head->private_accesses + unshared_accesses(), "accesses to cells that no two threads touch, or nobody writes");
    tell_count(head->repeated_reads, "reads of what the thread had read before, with no call and no write in between");
    tell_count(folded, "events of loops that read the same values again and changed nothing, whose first round is there");
    if (head->outside) tell("threads made calls that wait outside of the program: this run may not repeat by its seed");
}

struct recording make_recording(const struct words *words, const struct log *log) {
    struct recording made = {0};
    find_cells(log, words->alike);
    struct events *events = &made.events;
    *events = make_events(log);
    for (uint64_t i = 0; words->counts && i < events->count; i++)
        if (is_event(&events->list[i])) ADD(made.records, made.record_count, events->list[i].record);
    if (!keep_wanted(events, words->from)) fail(STATUS_NOTHING, "there is no operation %s", words->from);
    made.folded = fold_loops(events);
    made.windows = cut_windows(events, words->per);
    if (words->last && words->last < made.windows.count) {
        keep_last(events, made.windows.list[made.windows.count - words->last].begin);
        made.windows = cut_windows(events, words->per);
    }
    made.folder = make_folder(events, &made.windows);
    if (!made.folder.windows) fail(STATUS_NOTHING, "the first window alone is longer than a recording may be");
    return made;
}

static int write_recording(const struct words *words, const struct log *log, const struct origins *origins,
                           struct ending ending) {
    struct recording made = make_recording(words, log);
    if (!replays(&made.events, &made.windows, made.folder.windows)) return STATUS_NOTHING;
    if (words->schedule > made.folder.windows) fail(STATUS_WORDS, "there is no window %lu", words->schedule);
    write_folder(words, &made.folder, &made.events, &made.windows);
    tell_all(words, log, &made.folder, &made.events, made.folded);
    tell_unpaired(&made.events, &made.windows, made.folder.windows);
    write_places(words->folder, &made, origins);
    tell_ending(log, ending);
    write_names(words->folder);
    if (ending.signal || ending.status) return STATUS_NOT_WELL;
    return words->strict && is_anything_left() ? STATUS_LEFT_OUT : STATUS_RECORDED;
}

void make_file(char *path, size_t room) {
    const char *top = getenv("TMPDIR");
    snprintf(path, room, "%s/gprecord.XXXXXX", top && *top ? top : "/tmp");
    int file = mkstemp(path);
    if (file < 0) fail(STATUS_NOTHING, "no log can be made at %s", path);
    close(file);
}

static int record(int count, char **given) {
    struct words words = read_words(count, given);
    char path[4096], steps[4096];
    make_file(path, sizeof path);
    make_file(steps, sizeof steps);
    words.steps = steps;
    struct ending ending = run_program(&words, path);
    struct log log;
    bool mapped = map_log(path, &log);
    struct origins origins = {0};
    if (mapped) origins = find_origins(&log, steps);
    unlink(path);
    unlink(steps);
    if (!mapped && !ending.started) return STATUS_NOTHING;
    if (!mapped) fail(STATUS_NOTHING, "%s has no recorder in it; build it by gprecord cc", words.program[0]);
    return write_recording(&words, &log, &origins, ending);
}

int main(int count, char **given) {
    bool confirms = count > 1 && !strcmp(given[1], "confirm");
    return (confirms ? confirm : record)(count - 1, given + 1);
}
