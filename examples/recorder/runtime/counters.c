/* What is a number in the recording: semaphores, and barriers as the number of arrivals at each. */
#include <limits.h>
#include <semaphore.h>

#include "../shadow.h"
#include "runtime.h"

/* ---- Semaphores: an atomic change of their number ---- */

static int note_semaphore(struct thread *me, sem_t *semaphore, int taken_off) {
    int now;
    if (!sem_getvalue(semaphore, &now)) note_count(me, semaphore, (uint64_t)(now + taken_off), (uint64_t)now);
    return 0;
}

static int take_semaphore(struct thread *me, sem_t *semaphore, uint64_t deadline) {
    while (REAL(sem_trywait)(semaphore)) {
        if (errno != EAGAIN) return -1;
        if (wait_for(me, FOR_SEMAPHORE, semaphore, deadline)) continue;
        errno = ETIMEDOUT;
        return -1;
    }
    return note_semaphore(me, semaphore, 1);
}

#define CALL(name, parameters, arguments, modelled) \
    API int name parameters { \
        struct thread *me = enter_call(); \
        if (!me) return REAL(name) arguments; \
        LEAVE_WITH(me, modelled); \
    }

CALL(sem_wait, (sem_t * semaphore), (semaphore), take_semaphore(me, semaphore, NEVER))
CALL(sem_timedwait, (sem_t * semaphore, const struct timespec *limit), (semaphore, limit),
     take_semaphore(me, semaphore, deadline_at(CLOCK_REALTIME, limit)))
CALL(sem_clockwait, (sem_t * semaphore, clockid_t clock, const struct timespec *limit), (semaphore, clock, limit),
     take_semaphore(me, semaphore, deadline_at(clock, limit)))

/* A try that fails has seen that the number is 0. */
static int try_semaphore(struct thread *me, sem_t *semaphore) {
    if (!REAL(sem_trywait)(semaphore)) return note_semaphore(me, semaphore, 1);
    if (errno == EAGAIN) note_count(me, semaphore, 0, 0);
    errno = EAGAIN;
    return -1;
}

CALL(sem_trywait, (sem_t * semaphore), (semaphore), try_semaphore(me, semaphore))

static int post_semaphore(struct thread *me, sem_t *semaphore) {
    if (REAL(sem_post)(semaphore)) return -1;
    note_semaphore(me, semaphore, -1);
    wake_waiting(FOR_SEMAPHORE, semaphore, UINT_MAX);
    return 0;
}

CALL(sem_post, (sem_t * semaphore), (semaphore), post_semaphore(me, semaphore))

static int destroy_semaphore(struct thread *me, sem_t *semaphore) {
    append(me, DESTROY, semaphore);
    return REAL(sem_destroy)(semaphore);
}

CALL(sem_destroy, (sem_t * semaphore), (semaphore), destroy_semaphore(me, semaphore))

/* ---- Barriers: each arrival adds one to a number, and who goes on has read a number that is high enough ---- */

enum { MOST_BARRIERS = 1024 };

static struct barrier {
    const volatile void *place;
    unsigned wanted;
    uint64_t arrived;
} barriers[MOST_BARRIERS];

static struct barrier *barrier_at(const volatile void *place) {
    struct barrier *free_one = NULL;
    for (struct barrier *barrier = barriers; barrier < barriers + MOST_BARRIERS; barrier++) {
        if (barrier->place == place) return barrier;
        if (!barrier->place && !free_one) free_one = barrier;
    }
    if (!free_one) give_up("there are more barriers than %s", "the recorder has room for");
    return free_one;
}

static int make_barrier(pthread_barrier_t *barrier, unsigned count, int failed) {
    if (!failed) *barrier_at(barrier) = (struct barrier){barrier, count, 0};
    return failed;
}

CALL(pthread_barrier_init, (pthread_barrier_t * barrier, const pthread_barrierattr_t *attributes, unsigned count),
     (barrier, attributes, count),
     make_barrier(barrier, count, REAL(pthread_barrier_init)(barrier, attributes, count)))

static int arrive(struct thread *me, pthread_barrier_t *place) {
    struct barrier *barrier = barrier_at(place);
    if (!barrier->wanted) return EINVAL;
    uint64_t round = barrier->arrived / barrier->wanted + 1, enough = round * barrier->wanted;
    note_count(me, place, barrier->arrived, barrier->arrived + 1);
    bool last = ++barrier->arrived == enough;
    if (last) wake_waiting(FOR_BARRIER, place, UINT_MAX);
    begin_phase(me);
    while (barrier->arrived < enough) wait_for(me, FOR_BARRIER, place, NEVER);
    note_count(me, place, barrier->arrived, barrier->arrived);
    return last ? PTHREAD_BARRIER_SERIAL_THREAD : 0;
}

CALL(pthread_barrier_wait, (pthread_barrier_t * barrier), (barrier), arrive(me, barrier))

static int destroy_barrier(struct thread *me, pthread_barrier_t *barrier) {
    append(me, DESTROY, barrier);
    *barrier_at(barrier) = (struct barrier){NULL, 0, 0};
    return REAL(pthread_barrier_destroy)(barrier);
}

CALL(pthread_barrier_destroy, (pthread_barrier_t * barrier), (barrier), destroy_barrier(me, barrier))
