/* What the files of the writer share: it runs the program, reads the log of the run, and writes the folder.
 *
 * The log is gone through three times. First it is found which granules two threads touch and one of them writes; then
 * these are made into cells, and what is known of each is collected; then the events are made. */
#ifndef WRITER_H
#define WRITER_H

#include <stdbool.h>
#include <stddef.h>
#include <stdint.h>
#include <stdio.h>

#include "../format.h"

enum { MOST_NAME = 32, MOST_EVENTS = 2048, MOST_WINDOWS = 4096, MOST_TRACE = 2097152, MOST_MANIFEST = 1048576 };
/* Of a confirmation 0 to 3: confirmed, left the schedule, wrong words, nothing to confirm. */
enum { STATUS_RECORDED, STATUS_NOT_WELL, STATUS_WORDS, STATUS_NOTHING, STATUS_LEFT_OUT };

/* ---- Words of the command ---- */

struct words {
    uint64_t seed, last, schedule, seconds, alike;
    uint32_t per, switch_every, log_mib;
    bool strict;
    const char *props, *asked, *from, *folder;
    char **program;
    const char *steps; /* the file beside the log */
    /* Of a run that is made to confirm a finding. */
    const char *script;
    uint64_t limit; /* it is ended where it does nothing for as many seconds, or 0 */
    bool counts;    /* the calls and hooks of each thread are counted */
    bool quiet;     /* what it prints is not shown */
};

/* Those of `gprecord confirm`. */
struct question {
    const char *folder, *report, *property;
    uint64_t window, instance, seed, limit;
    bool has_seed, debugger;
    char **program;
};

struct words read_words(int count, char **given);
struct question read_question(int count, char **given);
/* What the file `run` of a folder says of how it was recorded. */
struct words read_run(const char *folder);
/* Where the file of a question lies, whose name has so many letters. */
void question_file(char *path, size_t room, const char *name, int length);
void write_run(const struct words *words, FILE *file);

/* ---- Telling, and memory that grows ---- */

void tell(const char *format, ...) __attribute__((format(printf, 1, 2)));
/* As `tell`, of something that is left out and that an answer may miss. */
void tell_left(const char *format, ...) __attribute__((format(printf, 1, 2)));
bool is_anything_left(void);
_Noreturn void fail(int status, const char *format, ...) __attribute__((format(printf, 2, 3)));
/* The same array with room for one more element behind `count`. */
void *room_for(void *array, size_t count, size_t size);

/* The first element of an array whose member is above a value, in an array that has them in order. */
#define FIRST_ABOVE(array, count, member, value) \
    ({ \
        size_t low_ = 0, high_ = (count); \
        while (low_ < high_) { \
            size_t middle_ = (low_ + high_) / 2; \
            if ((array)[middle_].member <= (value)) { \
                low_ = middle_ + 1; \
            } else { \
                high_ = middle_; \
            } \
        } \
        low_; \
    })

#define ADD(array, count, ...) ((array) = room_for(array, count, sizeof *(array)), (array)[(count)++] = (__VA_ARGS__))

/* ---- The run ---- */

struct ending {
    bool started;
    int status, signal;
};

struct ending run_program(const struct words *words, const char *log);

/* ---- The log ---- */

struct log {
    const struct log_head *head;
    const struct record *records;
    uint64_t count;
};

bool map_log(const char *path, struct log *log);
const char *word_at(const struct log *log, uint32_t word);
const struct record *behind(const struct log *log, const struct record *record);
bool is_synchronisation(const struct record *record);

/* ---- What the debug information of a file of the program tells ---- */

struct debug;

/* Of a variable, or a piece of it that begins so many bytes into it; or of the blocks that a place makes. */
struct told {
    const struct debug *debug;
    uint64_t type, offset;
    const char *name, *file; /* of the variable where it is a piece; of the type of a block or the function that makes it */
    uint64_t line;
};

struct debug *open_debug(const char *path);
/* A place in the source: the words by which a file, a function and a line are told; and whether the file is the user's. */
struct spot {
    char *file, *function;
    uint64_t line;
    bool is_own;
};

/* Of the functions that were built into each other at an address of the file, the innermost of the user's own files, or
 * else the innermost; false where nothing is known of it. */
bool find_spot(const struct debug *debug, uint64_t address, struct spot *spot);
/* Prints the place of an event in a window of a recording, in parentheses, where its folder tells it. */
void print_spot(const char *folder, unsigned long window, unsigned thread, unsigned index);
/* What begins at an address of the file; false where nothing is known of it. */
bool find_variable(const struct debug *debug, uint64_t address, struct told *told);
/* The place of a call behind which the program goes on at an address of the file. */
bool find_maker(const struct debug *debug, uint64_t behind, struct told *told);
/* The members and elements down to a byte of a variable; of a block that has so many bytes. */
void write_path(FILE *to, const struct told *told, uint64_t offset);
void write_block_path(FILE *to, const struct told *told, uint64_t size, uint64_t offset);

/* ---- Objects: what lies where, as the log goes on ---- */

enum object_kind { SYMBOL, HEAP, LOCAL, OTHER };

struct place {
    enum object_kind kind;
    uint32_t size; /* of a block */
    uint64_t object, offset;
};

/* The files of the program, with their symbols and their debug information. */
void read_modules(const struct log *log);
/* That of the file in which an address of the run lies, and the address in that file; NULL where there is none. */
const struct debug *debug_of(uint64_t address, uint64_t *in_file);
void forget_objects(void);
void note_object(const struct record *record);
struct place place_of(uint64_t address);
/* Whether the place that made a block is known. */
bool is_told_block(struct place place);
/* The two parts of a long name, of a symbol or such a block; the back also of any other block. */
void write_front(FILE *to, struct place place);
void write_back(FILE *to, struct place place);

/* ---- Names ---- */

/* Numbers and memory that stand at one place have names of their own. */
enum name_use { OF_MEMORY, OF_NUMBER };

uint32_t name_of_place(struct place place, uint32_t generation, enum name_use use);
uint32_t name_of_word(const char *word);
uint32_t name_of_descriptor(uint64_t descriptor);
const char *name_text(uint32_t name);
uint32_t name_count(void);
/* The lines of the file `names`: each name of a place, and its long name. */
void print_names(FILE *file);

/* ---- Cells ---- */

struct cell {
    struct place place;
    uint32_t generation, accesses;
    uint64_t threads, signature;
    int64_t known, found; /* at the first change that is not recorded */
    uint8_t size;
    bool written, changed, kept;
};

/* One cell's part in an access. */
struct part {
    uint32_t cell;
    int64_t old, new;
    uint8_t mask; /* which bytes of the granule it is */
    bool fresh; /* the first one in this stretch of the recording: what was found is what the stretch begins with */
};

struct access {
    struct part parts[GRANULE];
    unsigned count;
};

void find_cells(const struct log *log, uint64_t alike);
void begin_walk(void);
/* Takes the walk over the cells past a record; its parts, where it is an access to granules that matter. */
struct access walk(const struct record *record);
/* The cells that a FREE record ends, to be asked for before the walk goes past it. */
size_t cells_of_block(const struct record *record, uint32_t **cells);
struct cell *cell_at(uint32_t cell);
void tell_cells(void);
/* How many accesses in the log are to cells that no two threads touch, or nobody writes. */
uint64_t unshared_accesses(void);
bool is_shared_descriptor(uint64_t descriptor);

/* ---- Events ---- */

enum event_kind { AN_EXIT, A_READ, A_WRITE, AN_ACQUIRE, A_RELEASE, AN_RACQUIRE, AN_RRELEASE, A_START, A_JOIN, AN_OPERATION,
                  A_BEGIN, AN_END, A_SET, A_PAUSE, A_STRETCH };

/* The last three are no events: a variable's value at the beginning of its window; nothing is wanted from here on; it is
 * again, in a new window. */
struct event {
    uint8_t kind, thread, objects;
    bool ends_unit, is_made_up; /* the latter of one that stands for what is not recorded */
    uint8_t mask;  /* of an access: which bytes of its granule */
    uint32_t name; /* or the thread of a start or a join */
    uint64_t record; /* the number in the log of the record that it came of or stands for, or 0 */
    int64_t value; /* or, of an operation, where its objects are */
};

struct events {
    struct event *list;
    uint64_t count;
    uint32_t *objects;
    uint64_t object_count;
    unsigned threads;
    uint64_t surplus; /* events for which there was no room */
};

struct events make_events(const struct log *log);
/* Without the rounds of loops that read what they read before, and change nothing; how many events these had. */
uint64_t fold_loops(struct events *events);
/* Without what lies in pauses, and before the first operation of a name, where one is given; false where there is none. */
bool keep_wanted(struct events *events, const char *from);
/* Without what lies before event `first`. */
void keep_last(struct events *events, uint64_t first);
void tell_used(const struct events *events);
void tell_wrong_locks(void);
bool is_event(const struct event *event);
int print_event(char *to, size_t room, const struct events *events, const struct event *event);

/* ---- Windows: [begin, end) of the events ---- */

struct window {
    uint64_t begin, end;
    uint32_t size;
};

struct windows {
    struct window *list;
    uint64_t count;
};

struct windows cut_windows(const struct events *events, uint32_t per);

/* ---- Where records come from ---- */

/* The calls and accesses of which records come, as they are known beside a log. */
struct origins {
    const struct log *log;
    const struct step *steps;
    const struct record **widened, **sites; /* the WIDENED records, by the records that they widen; the SITE records */
    size_t count, site_count;
};

/* Addresses behind calls in the program, from the innermost one on. */
struct calls {
    const uint64_t *list;
    size_t count;
};

struct origins find_origins(const struct log *log, const char *steps);
/* The record by which it is known of which access an event comes: bytes may have come to its own record later. */
uint64_t origin_of(const struct origins *origins, const struct event *event);
/* Those of a site, by its number from 1. */
struct calls calls_of(const struct origins *origins, uint32_t site);

/* ---- The folder ---- */

struct folder {
    char **texts; /* of each thread's trace, and at 0 of the manifest's values */
    uint64_t *sizes;
    uint64_t windows, events, cut;
    uint32_t largest;
    bool shared;
};

struct folder make_folder(const struct events *events, const struct windows *windows);
/* The first event that cannot happen in the recorded order, told; true where all can. */
bool replays(const struct events *events, const struct windows *windows, uint64_t count);
/* The first of its files that is another one than in the folder, or NULL. */
const char *other_file(const struct words *words, const struct folder *folder, const struct events *events);
void write_folder(const struct words *words, const struct folder *folder, const struct events *events,
                  const struct windows *windows);
/* Once more behind all that is told, as there may be other names in that. */
void write_names(const char *folder);
FILE *open_file(const char *folder, const char *name);
void close_file(FILE *file, const char *name);

/* ---- A recording, as it is made of a log ---- */

struct recording {
    struct events events;
    struct windows windows;
    struct folder folder;
    uint64_t folded;
    uint64_t *records; /* those of which events came, also events that are not kept, as they follow each other */
    size_t record_count;
};

struct recording make_recording(const struct words *words, const struct log *log);
/* Where in the program each event is, as far as that is known. */
void write_places(const char *folder, const struct recording *recording, const struct origins *origins);
void tell_ending(const struct log *log, struct ending ending);
/* Makes a file of its own for the time of the run; its path. */
void make_file(char *path, size_t room);

/* ---- A schedule that is to be confirmed ---- */

enum { MOST_ATOMS = 6 };

/* An event of a window, by its thread and its index there. */
struct pick {
    unsigned thread;
    uint32_t index;
};

struct schedule {
    struct pick *picks;
    size_t count;
    struct pick instance[MOST_ATOMS];
    size_t atoms;
};

struct schedule read_schedule(const struct question *question);

/* A move of a script, with the event that it is told by. */
struct telling {
    struct pick pick;
    const struct event *event;
};

struct plan {
    struct script head;
    struct move *moves;
    struct deed *deeds;
    struct telling *tellings; /* of each move */
    size_t move_count, deed_count;
    bool is_cycle;
    uint32_t moved; /* how many notifies come behind a sleep that the schedule has behind them */
    const char *split; /* where the program does at once what the schedule has apart: which events */
};

struct plan make_plan(const struct log *log, const struct origins *origins, const struct recording *recording,
                      const struct question *question, const struct schedule *schedule);

int confirm(int count, char **given);

#endif
