/* What programs tell the thread sanitizer of themselves: an order between two threads is a number that one of them
 * changes and the other one reads, atomically; the rest says nothing that a recording could hold. */
#include "runtime.h"

enum { MOST_ORDERS = 4096 };

static struct {
    const void *place;
    uint64_t releases;
} orders[MOST_ORDERS];

static uint64_t *releases_at(const void *place) {
    unsigned first = (unsigned)((uintptr_t)place >> 3) % MOST_ORDERS;
    for (unsigned i = 0; i < MOST_ORDERS; i++) {
        unsigned at = (first + i) % MOST_ORDERS;
        if (!orders[at].place) orders[at].place = place;
        if (orders[at].place == place) return &orders[at].releases;
    }
    give_up("there are more annotated places than %s", "the recorder has room for");
}

API void __tsan_acquire(void *place);
API void __tsan_release(void *place);

void __tsan_acquire(void *place) {
    struct thread *me = enter_call();
    if (!me) return;
    uint64_t now = *releases_at(place);
    note_count(me, place, now, now);
    leave(me);
}

void __tsan_release(void *place) {
    struct thread *me = enter_call();
    if (!me) return;
    uint64_t *releases = releases_at(place);
    note_count(me, place, *releases, *releases + 1);
    ++*releases;
    leave(me);
}

#define ORDER(name, order) \
    API void name(UNUSED const char *file, UNUSED int line, void *place); \
    void name(UNUSED const char *file, UNUSED int line, void *place) { order(place); }
#define SILENT(name) \
    API void name(void); \
    void name(void) {}

ORDER(AnnotateHappensBefore, __tsan_release)
ORDER(AnnotateHappensAfter, __tsan_acquire)
SILENT(AnnotateIgnoreReadsBegin) SILENT(AnnotateIgnoreReadsEnd) SILENT(AnnotateIgnoreWritesBegin)
SILENT(AnnotateIgnoreWritesEnd) SILENT(AnnotateIgnoreSyncBegin) SILENT(AnnotateIgnoreSyncEnd)
SILENT(AnnotateRWLockCreate) SILENT(AnnotateRWLockCreateStatic) SILENT(AnnotateRWLockDestroy)
SILENT(AnnotateRWLockAcquired) SILENT(AnnotateRWLockReleased) SILENT(AnnotateBenignRace)
SILENT(AnnotateBenignRaceSized) SILENT(AnnotateThreadName) SILENT(AnnotateNewMemory) SILENT(AnnotateCondVarSignal)
SILENT(AnnotateFlushState) SILENT(AnnotateMemoryIsInitialized) SILENT(AnnotateMemoryIsUninitialized)
SILENT(__tsan_mutex_create) SILENT(__tsan_mutex_destroy) SILENT(__tsan_mutex_pre_lock) SILENT(__tsan_mutex_post_lock)
SILENT(__tsan_mutex_pre_unlock) SILENT(__tsan_mutex_post_unlock) SILENT(__tsan_mutex_pre_signal)
SILENT(__tsan_mutex_post_signal) SILENT(__tsan_mutex_pre_divert) SILENT(__tsan_mutex_post_divert)
SILENT(__tsan_ignore_thread_begin) SILENT(__tsan_ignore_thread_end)
