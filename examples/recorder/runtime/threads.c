/* Threads: the beginning of the run, start, end and join of each, and the end of the run. */
#include <dlfcn.h>
#include <limits.h>
#include <link.h>
#include <stdio.h>
#include <stdlib.h>
#include <string.h>
#include <threads.h>
#include <unistd.h>

#include "../shadow.h"
#include "runtime.h"

static unsigned thread_count;
static struct thread *unjoined;
static pthread_key_t at_end;

void *next_definition(const char *name) {
    void *found = dlsym(RTLD_NEXT, name);
    if (!found) {
        dprintf(STDERR_FILENO, "gprecord: the program calls %s, and no library has it\n", name);
        _exit(ENDED_GIVEN_UP);
    }
    return found;
}

/* ---- Beginnings and ends ---- */

static struct thread *new_thread(void) {
    struct thread *thread = fresh_memory(sizeof *thread);
    if (!thread) give_up("there is no memory for %s", "a thread");
    thread->number = ++thread_count;
    thread->next = unjoined;
    return unjoined = thread;
}

static void drop_thread(struct thread *thread) {
    struct thread **at = &unjoined;
    while (*at != thread) at = &(*at)->next;
    *at = thread->next;
    munmap(thread, sizeof *thread);
}

/* Comes in each round in which what is to be done at a thread's end is done; the last round is the end. */
static void end_thread(void *ended) {
    struct thread *me = ended;
    if (self != me) return;
    if (++me->end_rounds < PTHREAD_DESTRUCTOR_ITERATIONS) {
        pthread_setspecific(at_end, me);
        return;
    }
    me->inside = 1;
    me->frame = NULL;
    settle_all(me);
    append(me, EXIT, NULL);
    me->state = ENDED;
    self = NULL;
    wake_waiting(FOR_THREAD, me, UINT_MAX);
    finish_turn(me);
}

static void *run_thread(void *thread) {
    struct thread *me = thread;
    me->inside = 1;
    self = me;
    await_turn(me);
    pthread_setspecific(at_end, me);
    log_stack(me);
    leave(me);
    return me->function(me->argument);
}

/* Where the C library lies: it may call for memory when some thread is the first to print, or to ask for the time. */
static int find_foreign_part(struct dl_phdr_info *module, UNUSED size_t size, void *address) {
    for (unsigned i = 0; i < module->dlpi_phnum; i++) {
        const ElfW(Phdr) *part = &module->dlpi_phdr[i];
        uintptr_t low = module->dlpi_addr + part->p_vaddr;
        if (part->p_type != PT_LOAD || !(part->p_flags & PF_X) || (uintptr_t)address - low >= part->p_memsz) continue;
        foreign_low = low;
        foreign_size = part->p_memsz;
        return 1;
    }
    return 0;
}

static void find_foreign(void) { dl_iterate_phdr(find_foreign_part, (void *)REAL(fflush)); }

void end_game(void) {
    close_log();
    self = NULL;
}

static void begin_run(const char *path) {
    const char *seed = getenv("GPRECORD_SEED"), *every = getenv("GPRECORD_SWITCH"), *script = getenv("GPRECORD_SCRIPT");
    if (every) switch_every = (unsigned)strtoul(every, NULL, 10);
    if (!switch_every) switch_every = 1;
    if (!open_log(path)) give_up("the log %s cannot be written", path);
    if (script && !open_script(script)) give_up("the script %s cannot be read", script);
    find_foreign();
    if (pthread_key_create(&at_end, end_thread)) give_up("there is no %s", "key for the end of threads");
    struct thread *me = new_thread();
    me->inside = 1;
    me->segment = new_segment();
    me->handle = pthread_self();
    self = me;
    start_game(me, seed ? strtoull(seed, NULL, 10) : 1);
    pthread_setspecific(at_end, me);
    pthread_atfork(NULL, NULL, end_game);
    log_modules();
    log_stack(me);
    leave(me);
}

/* The first process in which there is a recorder takes the log; those that it starts find none. */
__attribute__((constructor(101))) static void begin(void) {
    const char *path = getenv("GPRECORD_LOG");
    if (!path) return;
    char kept[PATH_MAX];
    snprintf(kept, sizeof kept, "%s", path);
    unsetenv("GPRECORD_LOG");
    begin_run(kept);
}

__attribute__((destructor(101))) static void finish(void) {
    struct thread *me = enter();
    if (!me) return;
    if (following) await_end_of_script(me);
    log_modules();
    append(me, FINISHED, NULL);
    end_game();
}

/* ---- Start ---- */

API int pthread_create(pthread_t *handle, const pthread_attr_t *attributes, void *(*function)(void *), void *argument) {
    struct thread *me = enter_call();
    if (!me) return REAL(pthread_create)(handle, attributes, function, argument);
    if (thread_count == MOST_THREADS) cut_log(me, "a recording has at most 64 threads");
    accesses_begin();
    struct thread *thread = new_thread();
    thread->segment = new_segment();
    thread->function = function;
    thread->argument = argument;
    int detached = PTHREAD_CREATE_JOINABLE;
    if (attributes) pthread_attr_getdetachstate(attributes, &detached);
    thread->detached = detached == PTHREAD_CREATE_DETACHED;
    note_write(me, handle, sizeof *handle);
    int failed = REAL(pthread_create)(handle, attributes, run_thread, thread);
    settle_all(me);
    if (failed) {
        thread_count--;
        drop_thread(thread);
        LEAVE_WITH(me, failed);
    }
    thread->handle = *handle;
    note(me, START, NULL)->more = thread->number;
    add_thread(thread);
    LEAVE_WITH(me, 0);
}

/* ---- Join ---- */

static struct thread *thread_of(pthread_t handle) {
    for (struct thread *thread = unjoined; thread; thread = thread->next)
        if (!thread->detached && pthread_equal(thread->handle, handle)) return thread;
    return NULL;
}

/* Waits for the thread's end; ETIMEDOUT where the time was up before. */
static int join_by(struct thread *me, pthread_t handle, void **result, uint64_t deadline) {
    struct thread *other = thread_of(handle);
    if (!other || other == me) return REAL(pthread_join)(handle, result);
    while (other->state != ENDED)
        if (!wait_for(me, FOR_THREAD, other, deadline) && other->state != ENDED) return ETIMEDOUT;
    if (result) note_write(me, result, sizeof *result);
    int failed = REAL(pthread_join)(handle, result);
    settle_all(me);
    if (failed) return failed;
    note(me, JOIN, NULL)->more = other->number;
    drop_thread(other);
    return 0;
}

API int pthread_join(pthread_t handle, void **result) {
    struct thread *me = enter_call();
    if (!me) return REAL(pthread_join)(handle, result);
    LEAVE_WITH(me, join_by(me, handle, result, NEVER));
}

API int pthread_tryjoin_np(pthread_t handle, void **result) {
    struct thread *me = enter_call();
    if (!me) return REAL(pthread_tryjoin_np)(handle, result);
    struct thread *other = thread_of(handle);
    if (other && other->state != ENDED) LEAVE_WITH(me, EBUSY);
    LEAVE_WITH(me, join_by(me, handle, result, NEVER));
}

API int pthread_timedjoin_np(pthread_t handle, void **result, const struct timespec *limit) {
    struct thread *me = enter_call();
    if (!me) return REAL(pthread_timedjoin_np)(handle, result, limit);
    LEAVE_WITH(me, join_by(me, handle, result, deadline_at(CLOCK_REALTIME, limit)));
}

API int pthread_clockjoin_np(pthread_t handle, void **result, clockid_t clock, const struct timespec *limit) {
    struct thread *me = enter_call();
    if (!me) return REAL(pthread_clockjoin_np)(handle, result, clock, limit);
    LEAVE_WITH(me, join_by(me, handle, result, deadline_at(clock, limit)));
}

API int pthread_detach(pthread_t handle) {
    struct thread *me = enter_call();
    if (!me) return REAL(pthread_detach)(handle);
    struct thread *other = thread_of(handle);
    if (other) other->detached = true;
    LEAVE_WITH(me, REAL(pthread_detach)(handle));
}

/* ---- The threads of <threads.h>, which glibc builds on the same handles ---- */

struct start {
    thrd_start_t function;
    void *argument;
};

static void *run_start(void *given) {
    struct start start = *(struct start *)given;
    free(given);
    return (void *)(intptr_t)start.function(start.argument);
}

static int as_thrd(int failed) {
    if (failed == EBUSY) return thrd_busy;
    if (failed == ETIMEDOUT) return thrd_timedout;
    if (failed == ENOMEM || failed == EAGAIN) return thrd_nomem;
    return failed ? thrd_error : thrd_success;
}

API int thrd_create(thrd_t *handle, thrd_start_t function, void *argument) {
    if (!self || self->inside) return REAL(thrd_create)(handle, function, argument);
    struct start *start = malloc(sizeof *start);
    if (!start) return thrd_nomem;
    *start = (struct start){function, argument};
    int failed = pthread_create(handle, NULL, run_start, start);
    if (failed) free(start);
    return as_thrd(failed);
}

API int thrd_join(thrd_t handle, int *result) {
    if (!self || self->inside) return REAL(thrd_join)(handle, result);
    void *left;
    int failed = pthread_join(handle, &left);
    if (!failed && result) *result = (int)(intptr_t)left;
    return as_thrd(failed);
}

API int thrd_detach(thrd_t handle) {
    return self && !self->inside ? as_thrd(pthread_detach(handle)) : REAL(thrd_detach)(handle);
}
