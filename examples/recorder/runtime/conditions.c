/* Conditions: the release comes before the sleep, and the acquire behind the wake. */
#include <limits.h>
#include <threads.h>

#include "runtime.h"

static int sleep_on(struct thread *me, pthread_cond_t *condition, pthread_mutex_t *mutex, uint64_t deadline) {
    int failed = give_back_mutex(me, mutex);
    if (failed) return failed;
    note(me, SLEEP, condition);
    me->phase++;
    bool woken = wait_for(me, FOR_CONDITION, condition, deadline);
    note(me, woken ? WAKE : TIMEOUT, condition);
    begin_phase(me);
    failed = take_mutex(me, mutex, NEVER);
    return failed || woken ? failed : ETIMEDOUT;
}

static int notify(struct thread *me, pthread_cond_t *condition, enum kind kind, unsigned most) {
    note(me, kind, condition);
    wake_waiting(FOR_CONDITION, condition, most);
    return 0;
}

#define CALL(name, parameters, arguments, modelled) \
    API int name parameters { \
        struct thread *me = enter_call(); \
        if (!me) return REAL(name) arguments; \
        LEAVE_WITH(me, modelled); \
    }

CALL(pthread_cond_wait, (pthread_cond_t * condition, pthread_mutex_t *mutex), (condition, mutex),
     sleep_on(me, condition, mutex, NEVER))
CALL(pthread_cond_clockwait,
     (pthread_cond_t * condition, pthread_mutex_t *mutex, clockid_t clock, const struct timespec *limit),
     (condition, mutex, clock, limit), sleep_on(me, condition, mutex, deadline_at(clock, limit)))
CALL(pthread_cond_signal, (pthread_cond_t * condition), (condition), notify(me, condition, NOTIFY, 1))
CALL(pthread_cond_broadcast, (pthread_cond_t * condition), (condition), notify(me, condition, NOTIFYALL, UINT_MAX))

/* The clock of a condition is a bit of its flags in glibc. */
static clockid_t clock_of(const pthread_cond_t *condition) {
    return condition->__data.__wrefs & 2 ? CLOCK_MONOTONIC : CLOCK_REALTIME;
}

CALL(pthread_cond_timedwait, (pthread_cond_t * condition, pthread_mutex_t *mutex, const struct timespec *limit),
     (condition, mutex, limit), sleep_on(me, condition, mutex, deadline_at(clock_of(condition), limit)))

static int destroy(struct thread *me, pthread_cond_t *condition) {
    append(me, DESTROY, condition);
    return REAL(pthread_cond_destroy)(condition);
}

CALL(pthread_cond_destroy, (pthread_cond_t * condition), (condition), destroy(me, condition))

/* ---- The conditions of <threads.h>, which are those of pthreads in glibc ---- */

static int as_thrd(int failed) {
    if (failed == ETIMEDOUT) return thrd_timedout;
    return failed ? thrd_error : thrd_success;
}

#define PTHREADS (pthread_cond_t *)condition, (pthread_mutex_t *)mutex

CALL(cnd_wait, (cnd_t * condition, mtx_t *mutex), (condition, mutex), as_thrd(sleep_on(me, PTHREADS, NEVER)))
CALL(cnd_timedwait, (cnd_t * condition, mtx_t *mutex, const struct timespec *limit), (condition, mutex, limit),
     as_thrd(sleep_on(me, PTHREADS, deadline_at(CLOCK_REALTIME, limit))))
CALL(cnd_signal, (cnd_t * condition), (condition), notify(me, (pthread_cond_t *)condition, NOTIFY, 1))
CALL(cnd_broadcast, (cnd_t * condition), (condition), notify(me, (pthread_cond_t *)condition, NOTIFYALL, UINT_MAX))

API void cnd_destroy(cnd_t *condition) {
    struct thread *me = enter_call();
    if (!me) {
        REAL(cnd_destroy)(condition);
        return;
    }
    destroy(me, (pthread_cond_t *)condition);
    leave(me);
}
