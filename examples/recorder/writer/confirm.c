/* Runs a program by the schedule of a finding: first as it was recorded, to see that it repeats, and to learn which call
 * or access each event is; then by the script that is made of this. */
#include <signal.h>
#include <stdlib.h>
#include <string.h>
#include <time.h>
#include <unistd.h>

#include "writer.h"

enum { CONFIRMED, LEFT };

static char log_path[4096], steps_path[4096], script_path[4096];

static void remove_files(void) {
    if (*log_path) unlink(log_path);
    if (*steps_path) unlink(steps_path);
    if (*script_path) unlink(script_path);
}

/* ---- The two runs ---- */

static struct ending run(const struct words *words, struct log *log) {
    struct ending ending = run_program(words, log_path);
    if (!ending.started) fail(STATUS_NOTHING, "%s does not run", words->program[0]);
    if (!map_log(log_path, log)) fail(STATUS_NOTHING, "%s has no recorder in it; build it by gprecord cc", words->program[0]);
    return ending;
}

static struct recording record_again(struct words words, struct log *log) {
    words.quiet = true;
    run(&words, log);
    struct recording made = make_recording(&words, log);
    const char *other = other_file(&words, &made.folder, &made.events);
    if (!other) return made;
    printf("does not repeat\n");
    fail(STATUS_NOTHING, "the same seed gives another run: %s is another one now", other);
}

static void write_script(const struct plan *plan) {
    FILE *file = fopen(script_path, "w");
    if (!file) fail(STATUS_NOTHING, "%s cannot be written", script_path);
    fwrite(&plan->head, sizeof plan->head, 1, file);
    fwrite(plan->moves, sizeof *plan->moves, plan->move_count, file);
    fwrite(plan->deeds, sizeof *plan->deeds, plan->deed_count, file);
    if (ferror(file) | fclose(file)) fail(STATUS_NOTHING, "%s cannot be written", script_path);
}

/* ---- What is told ---- */

static void print_told(const struct plan *plan, const struct recording *recording, uint32_t move) {
    char line[256];
    const struct telling *telling = &plan->tellings[move];
    print_event(line, sizeof line, &recording->events, telling->event);
    printf("%u.%u is: %s", telling->pick.thread, telling->pick.index, line);
}

/* The function and the line of a place in the program, as far as they are known. */
static void print_place(const struct log *log, uint64_t caller) {
    uint64_t base = 0;
    const char *path = "";
    char command[3 * LONGEST_WORD], function[256] = "", line[512] = "", kept[LONGEST_WORD + 1];
    const struct record *end = log->records + log->count;
    for (const struct record *record = log->records + HEAD_RECORDS; record < end; record = behind(log, record)) {
        if (record->kind != MODULE || record->address > caller || record->address < base) continue;
        base = record->address;
        snprintf(kept, sizeof kept, "%s", word_at(log, record->more));
        path = kept;
    }
    if (!caller || !*path || strchr(path, '\'')) return;
    snprintf(command, sizeof command, "addr2line -s -f -C -e '%s' %#lx 2>/dev/null", path, caller - 1 - base);
    FILE *lines = popen(command, "r");
    if (lines && fgets(function, sizeof function, lines) && fgets(line, sizeof line, lines) && *function != '?') {
        function[strcspn(function, "\n")] = 0;
        line[strcspn(line, " \n")] = 0;
        printf(", in %s, %s", function, *line == '?' ? "of which no line is known" : line);
    }
    if (lines) pclose(lines);
}

/* What a thread did first from a moment on, where it did so at this place of the program. */
static void print_deed(const struct log *log, const struct step *steps, const struct follow *follow) {
    static const char *const kinds[] = {[READ] = "a read of", [WRITE] = "a write of", [ATOMIC] = "an atomic access to",
        [COUNT] = "an atomic change of", [ACQUIRE] = "an acquire of", [RELEASE] = "a release of", [RACQUIRE] = "an acquire of",
        [RRELEASE] = "a release of", [START] = "a start of a thread", [JOIN] = "a join of a thread", [EXIT] = "its end",
        [SLEEP] = "a sleep on", [WAKE] = "a wake of", [TIMEOUT] = "the end of a time limit on", [NOTIFY] = "a notify of",
        [NOTIFYALL] = "a notify of all on", [DESTROY] = "the end of", [OPERATION] = "an operation",
        [BEGIN] = "a region's beginning", [END] = "a region's end", [FREE] = "the end of a block"};
    const struct record *end = log->records + log->count, *found = NULL;
    for (const struct record *record = log->records + HEAD_RECORDS; record < end && !found; record = behind(log, record)) {
        uint64_t at = (uint64_t)(record - log->records);
        note_object(record);
        bool is_told = record->kind < sizeof kinds / sizeof *kinds && kinds[record->kind];
        if (at >= follow->left_at && record->thread == follow->left_thread && is_told) found = record;
    }
    if (!found || steps[found - log->records].caller != follow->left_caller) return;
    printf(": %s", kinds[found->kind]);
    bool has_name = found->kind < START || (found->kind >= SLEEP && found->kind <= DESTROY);
    uint64_t address = found->address + (found->kind <= ATOMIC && found->mask ? (unsigned)__builtin_ctz(found->mask) : 0);
    if (has_name) printf(" %s", name_text(name_of_place(place_of(address), 0, found->kind == COUNT ? OF_NUMBER : OF_MEMORY)));
}

static void print_wait(const struct follow *follow) {
    static const char *const kinds[] = {"a lock", "a condition", "a semaphore", "the end of a thread", "a barrier", "a futex",
                                        "time"};
    enum name_use use = follow->left_wait == FOR_SEMAPHORE || follow->left_wait == FOR_BARRIER ? OF_NUMBER : OF_MEMORY;
    bool has_name = follow->left_wait <= FOR_BARRIER && follow->left_wait != FOR_THREAD;
    printf("thread %u waits for %s", follow->left_thread, kinds[follow->left_wait]);
    if (has_name) printf(", %s", name_text(name_of_place(place_of(follow->left_place), 0, use)));
    if (follow->left_holder) printf(follow->left_wait == FOR_LOCK ? ", which thread %u holds" : ", %u", follow->left_holder);
}

static int64_t value_of(uint64_t granule, uint8_t mask) {
    unsigned begin = (unsigned)__builtin_ctz(mask), size = (unsigned)__builtin_popcount(mask);
    return (int64_t)(granule >> 8 * begin << 8 * (GRANULE - size)) >> 8 * (GRANULE - size);
}

static void print_why(const struct log *log, const struct step *steps, const struct plan *plan) {
    const struct follow *follow = &log->head->follow;
    unsigned thread = follow->left_thread;
    switch (follow->left) {
    case LEFT_ELSEWHERE:
    case LEFT_UNDONE:
    case LEFT_PAST:
        printf("thread %u did something else", thread);
        print_deed(log, steps, follow);
        break;
    case LEFT_VALUE: {
        uint8_t mask = plan->tellings[follow->left_move].event->mask;
        printf("thread %u found another value", thread);
        if (mask) printf(": %ld", value_of(follow->left_found, mask));
        break;
    }
    case LEFT_WAITING: print_wait(follow); break;
    case LEFT_OUTSIDE: printf("thread %u is in the call %s", thread, word_at(log, follow->left_call)); break;
    case LEFT_ENDED: printf("thread %u has ended, or was not started", thread); break;
    case LEFT_TOOK: printf("thread %u took the lock", thread); break;
    default: printf("thread %u came to no event of the schedule for long", thread);
    }
    if (follow->left != LEFT_ENDED) print_place(log, follow->left_caller);
    putchar('\n');
}

static void text_of_ending(char *to, size_t room, const struct log *log, struct ending ending) {
    if (ending.signal) {
        snprintf(to, room, "signal %d, %s, while thread %u ran", ending.signal, strsignal(ending.signal), log->head->running);
    } else {
        snprintf(to, room, "status %d", ending.status);
    }
}

/* ---- The verdict ---- */

static void note_confirmed(const struct question *question, const char *verdict, const char *ended) {
    char path[4200], date[64];
    time_t now = time(NULL);
    strftime(date, sizeof date, "%Y-%m-%d %H:%M:%S UTC", gmtime(&now));
    snprintf(path, sizeof path, "%s/confirmed", question->folder);
    FILE *file = fopen(path, "a");
    if (!file) fail(STATUS_NOTHING, "%s cannot be written", path);
    fprintf(file, "window %lu property %s instance %lu %s %s ended %s\n", question->window, question->property,
            question->instance, verdict, date, ended);
    fclose(file);
}

static void print_cycle(const struct question *question, const struct plan *plan, const struct follow *follow) {
    for (uint32_t i = 0; i < follow->waiters; i++) {
        size_t move = 0;
        while (plan->moves[move].kind != ATTEMPT || plan->moves[move].thread != follow->waiter[i]) move++;
        const struct telling *telling = &plan->tellings[move];
        printf("thread %u waits at %u.%u", follow->waiter[i], telling->pick.thread, telling->pick.index);
        print_spot(question->folder, question->window, telling->pick.thread, telling->pick.index);
        printf(" for the lock %s, which thread %u holds\n", name_text(telling->event->name), follow->holder[i]);
    }
}

static int print_confirmed(const struct question *question, const struct plan *plan, const struct log *log,
                           struct ending ending) {
    const struct follow *follow = &log->head->follow;
    const char *verdict = plan->is_cycle ? "stuck" : "confirmed";
    char ended[256];
    text_of_ending(ended, sizeof ended, log, ending);
    printf("%s\n", verdict);
    if (plan->is_cycle) print_cycle(question, plan, follow);
    if (plan->moved)
        printf("%u times a sleep came before a notify that the schedule has before it, at once with its release\n", plan->moved);
    if (follow->freed) printf("%u reads of memory that was freed found other values than recorded\n", follow->freed);
    printf("the program ended with %s\n", ended);
    fflush(stdout);
    tell_ending(log, ending);
    note_confirmed(question, verdict, ended);
    return CONFIRMED;
}

/* Where the run ended at the last move, by a signal or of itself, that move was begun, and nothing was wrong with it. */
static bool is_confirmed(const struct plan *plan, const struct follow *follow, struct ending ending) {
    uint32_t wanted = 0;
    while (wanted < plan->move_count && plan->moves[wanted].kind != STOP) wanted++;
    bool is_at_last = !follow->left && !plan->is_cycle && follow->begun >= wanted && ending.signal != SIGKILL;
    return follow->over || is_at_last;
}

static int print_left(const struct plan *plan, const struct recording *recording, const struct log *log, struct ending ending) {
    const struct follow *follow = &log->head->follow;
    uint32_t move = follow->left ? follow->left_move : follow->done;
    const struct pick *pick = &plan->tellings[move].pick;
    char ended[256];
    printf("left the schedule at %u.%u\n", pick->thread, pick->index);
    print_told(plan, recording, move);
    if (follow->left) {
        print_why(log, find_origins(log, steps_path).steps, plan);
    } else {
        text_of_ending(ended, sizeof ended, log, ending);
        printf("the program ended before, with %s\n", ended);
    }
    fflush(stdout);
    tell_ending(log, ending);
    return LEFT;
}

int confirm(int count, char **given) {
    struct question question = read_question(count, given);
    struct words words = read_run(question.folder);
    struct schedule schedule = read_schedule(&question);
    words.program = question.program;
    words.steps = steps_path;
    words.counts = true; /* also of the run by the script, so that both logs have the same records up to the mark */
    words.limit = 2 * question.limit;
    make_file(log_path, sizeof log_path);
    make_file(steps_path, sizeof steps_path);
    make_file(script_path, sizeof script_path);
    atexit(remove_files);
    struct log log;
    struct recording recording = record_again(words, &log);
    struct origins origins = find_origins(&log, steps_path);
    unlink(log_path);
    unlink(steps_path);
    struct plan plan = make_plan(&log, &origins, &recording, &question, &schedule);
    if (plan.split) {
        printf("left the schedule at %s\n", plan.split);
        return LEFT;
    }
    write_script(&plan);
    words.script = script_path;
    if (question.debugger) words.limit = 0;
    struct ending ending = run(&words, &log);
    forget_objects();
    if (is_confirmed(&plan, &log.head->follow, ending)) return print_confirmed(&question, &plan, &log, ending);
    return print_left(&plan, &recording, &log, ending);
}
