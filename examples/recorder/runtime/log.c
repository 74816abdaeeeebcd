/* The log: a file that grows by pieces, mapped into memory that is reserved once for all of it. */
#include <fcntl.h>
#include <link.h>
#include <stdio.h>
#include <stdlib.h>
#include <string.h>
#include <sys/mman.h>
#include <unistd.h>

#include "runtime.h"

#define LOG_ROOM ((uint64_t)1 << 36) /* bytes of address space */
#define LOG_PIECE ((uint64_t)1 << 24)
enum { MOST_WORDS = 1 << 14 };
enum { HIGH_DESCRIPTOR = 900 };
enum { NOWHERE = HEAD_RECORDS - 1 }; /* a place in the head for what comes after the log is closed */

struct step *steps;

bool recording, log_open, counting;
struct log_head *head;
struct record *records;

static int journal = -1, journal_of_steps = -1;
static uint64_t room, most = UINT64_MAX; /* in records */
static uint32_t segments;
static struct {
    char *text;
    uint32_t record;
} words[MOST_WORDS];

/* ---- The file ---- */

static bool add_steps(uint64_t size) {
    if (posix_fallocate(journal_of_steps, (off_t)size, (off_t)LOG_PIECE / 2)) return false;
    return mmap((char *)steps + size, LOG_PIECE / 2, PROT_READ | PROT_WRITE, MAP_SHARED | MAP_FIXED, journal_of_steps,
                (off_t)size) != MAP_FAILED;
}

static bool add_piece(void) {
    uint64_t size = room * RECORD_BYTES;
    if (size + LOG_PIECE > LOG_ROOM || posix_fallocate(journal, (off_t)size, (off_t)LOG_PIECE)) return false;
    void *made = mmap((char *)records + size, LOG_PIECE, PROT_READ | PROT_WRITE, MAP_SHARED | MAP_FIXED, journal, (off_t)size);
    if (made == MAP_FAILED || !add_steps(size / 2)) return false;
    room += LOG_PIECE / RECORD_BYTES;
    return true;
}

/* The low descriptors are the program's. */
static int open_high(const char *path) {
    int file = open(path, O_RDWR | O_CREAT | O_TRUNC | O_CLOEXEC, 0600);
    int high = fcntl(file, F_DUPFD_CLOEXEC, HIGH_DESCRIPTOR);
    if (high >= 0) close(file);
    return high < 0 ? file : high;
}

/* Address space for the log and the steps. */
static bool reserve(void) {
    records = mmap(NULL, LOG_ROOM + LOG_ROOM / 2, PROT_NONE, MAP_PRIVATE | MAP_ANONYMOUS | MAP_NORESERVE, -1, 0);
    if (records == MAP_FAILED) return false;
    steps = (struct step *)((char *)records + LOG_ROOM);
    return true;
}

bool open_log(const char *path) {
    const char *limit = getenv("GPRECORD_LOG_MIB"), *beside = getenv("GPRECORD_STEPS"), *counts = getenv("GPRECORD_COUNTS");
    if (limit) most = strtoull(limit, NULL, 10) * (1048576 / RECORD_BYTES);
    journal = open_high(path);
    if (beside) journal_of_steps = open_high(beside);
    if (journal < 0 || journal_of_steps < 0 || !reserve() || !add_piece() || !open_sites()) return false;
    counting = counts && *counts == '1';
    head = (struct log_head *)records;
    memcpy(head->magic, LOG_MAGIC, sizeof head->magic);
    head->used = HEAD_RECORDS;
    head->running = 1;
    head->process = (uint32_t)getpid();
    return log_open = true;
}

void close_log(void) {
    recording = log_open = false;
}

void grow_log(void) {
    if (room < most && add_piece()) return;
    const char *why = room < most ? "there is no room for a longer log" : "the log is as long as --log says";
    most = UINT64_MAX; /* the last record has room in the piece behind */
    uint64_t used = head->used;
    head->used = used - 1;
    records[used - 1] = (struct record){.kind = CUT, .thread = 1};
    dprintf(STDERR_FILENO, "gprecord: %s\n", why);
    head->used = used;
    close_log();
}

/* ---- Records ---- */

static struct record *next_record(void) {
    if (!log_open) return &records[NOWHERE];
    if (__builtin_expect(head->used == room, 0)) grow_log();
    if (!log_open) return &records[NOWHERE];
    return &records[head->used++];
}

static struct step step_of(const struct thread *me, uint32_t site) {
    return (struct step){.site = site, .number = me->steps, .caller = me->caller, .phase = (uint8_t)me->phase};
}

/* Of blocks the place is in their own record, and most of their ends are no events; the others come by no call. */
static bool has_site(enum kind kind) { return kind <= END && kind != EXIT && kind != OBJECT_WORD && kind != OBJECT_AT; }

struct record *append(struct thread *me, enum kind kind, const volatile void *address) {
    uint32_t site = has_site(kind) ? site_of(me, true) : 0;
    struct record *record = next_record();
    *record = (struct record){.kind = (uint8_t)kind, .thread = (uint8_t)me->number, .address = (uint64_t)address};
    me->last_record = (uint64_t)(record - records);
    steps[record - records] = step_of(me, site);
    if (following && kind >= DESCRIPTOR_OPENED) do_deed(me, kind, (uint64_t)address, 0xff, 0, 0);
    return record;
}

void note_far_site(struct thread *me, struct record *record) { steps[record - records].site = site_of(me, true); }

/* Where steps are not counted, it does not matter which of several accesses at one place of the program it was. */
void note_merged(struct thread *me, struct record *record, unsigned mask) {
    steps[record - records].merged = 1;
    uint32_t site = mask ? site_of(me, true) : 0;
    if (!mask || (!counting && site == steps[record - records].site)) return;
    struct record *made = next_record();
    *made = (struct record){.kind = WIDENED, .thread = (uint8_t)me->number, .mask = (uint8_t)mask};
    made->old = (uint64_t)(record - records);
    steps[made - records] = step_of(me, site);
}

uint32_t new_segment(void) { return ++segments; }

struct record *note(struct thread *me, enum kind kind, const volatile void *address) {
    me->segment = new_segment();
    return append(me, kind, address);
}

/* ---- Words ---- */

uint32_t log_bytes(enum kind kind, const void *bytes, size_t size) {
    struct record *record = next_record();
    uint32_t number = (uint32_t)(record - records);
    *record = (struct record){.kind = (uint8_t)kind, .more = (uint32_t)size};
    for (size_t done = 0; done < size && log_open; done += RECORD_BYTES) {
        struct record *piece = next_record();
        memset(piece, 0, sizeof *piece);
        memcpy(piece, (const char *)bytes + done, size - done < RECORD_BYTES ? size - done : RECORD_BYTES);
    }
    return number;
}

static uint32_t log_word(const char *text) { return log_bytes(WORD, text, strnlen(text, LONGEST_WORD)); }

uint32_t word_of(const char *text) {
    if (!log_open) return 0;
    uint32_t hash = 2166136261u;
    for (const char *at = text; *at; at++) hash = (hash ^ (unsigned char)*at) * 16777619u;
    for (uint32_t tries = 0; tries < MOST_WORDS; tries++) {
        uint32_t place = (hash + tries) % MOST_WORDS;
        if (words[place].text && !strcmp(words[place].text, text)) return words[place].record;
        if (words[place].text) continue;
        words[place].text = strdup(text);
        return words[place].record = log_word(text);
    }
    return log_word(text);
}

/* ---- What lies where ---- */

void log_stack(struct thread *me) {
    pthread_attr_t attributes;
    void *low;
    size_t size;
    if (pthread_getattr_np(pthread_self(), &attributes)) return;
    if (!pthread_attr_getstack(&attributes, &low, &size)) {
        me->stack_low = (uintptr_t)low;
        me->stack_high = (uintptr_t)low + size;
        forget_range((uintptr_t)low, size);
        struct record *record = append(me, STACK, low);
        record->old = size;
    }
    pthread_attr_destroy(&attributes);
}

/* A module is logged where it lies when it is first seen. */
static int log_module(struct dl_phdr_info *module, UNUSED size_t size, void *me) {
    static ElfW(Addr) logged[512];
    static unsigned count;
    static char program[LONGEST_WORD];
    for (unsigned i = 0; i < count; i++)
        if (logged[i] == module->dlpi_addr + 1) return 0;
    if (count == sizeof logged / sizeof *logged) return 0;
    const char *path = module->dlpi_name;
    if (!*path && count) return 0;
    logged[count++] = module->dlpi_addr + 1;
    if (!*path) path = readlink("/proc/self/exe", program, sizeof program - 1) > 0 ? program : "";
    uint32_t word = word_of(path);
    struct record *record = append(me, MODULE, (void *)module->dlpi_addr);
    record->more = word;
    return 0;
}

void log_modules(void) { dl_iterate_phdr(log_module, self); }

/* ---- The ends of recording ---- */

void cut_log(struct thread *me, const char *why) {
    if (!log_open) return;
    uint32_t word = word_of(why);
    append(me, CUT, NULL)->more = word;
    close_log();
}

/* The run cannot be recorded any further: what was done until now is, and the program is stopped. */
_Noreturn void give_up(const char *format, const char *word) {
    char line[256];
    snprintf(line, sizeof line, format, word);
    if (self) self->inside = 1;
    if (self && log_open) {
        uint32_t text = word_of(line);
        append(self, GAVE_UP, NULL)->more = text;
    }
    close_log();
    fflush(NULL);
    dprintf(STDERR_FILENO, "gprecord: thread %u: %s\n", self ? self->number : 0, line);
    _exit(ENDED_GIVEN_UP);
}

static bool begun, paused;

bool has_begun(void) { return begun; }

void accesses_begin(void) {
    begun = true;
    recording = log_open && !paused;
}

void set_recording(struct thread *me, bool wanted) {
    if (!log_open || paused == !wanted) return;
    note(me, wanted ? RESUMED : PAUSED, NULL);
    paused = !wanted;
    recording = begun && wanted;
}
