/* Locks: the outermost hold of each is what is logged.
 *
 * A lock is taken by trying it; where it is held the thread waits in the game, and tries again once it was given back. */
#include <limits.h>
#include <threads.h>

#include "runtime.h"

static struct held *find_held(struct thread *me, const volatile void *lock) {
    for (int i = me->held_count - 1; i >= 0; i--)
        if (me->held[i].lock == lock) return &me->held[i];
    return NULL;
}

/* What a try at a lock came to: where it was taken, that is noted. */
int note_taken(struct thread *me, const volatile void *lock, bool shared, int failed) {
    if (failed && failed != EOWNERDEAD) return failed;
    struct held *held = find_held(me, lock);
    if (held) {
        held->depth++;
        return failed;
    }
    if (me->held_count == MOST_HELD) give_up("holds more locks than %s", "the recorder has room for");
    me->held[me->held_count++] = (struct held){lock, 1, shared};
    note(me, shared ? RACQUIRE : ACQUIRE, lock);
    return failed;
}

/* What giving a lock back came to: where it is free, that is noted, and who waits for it may try. */
int note_given_back(struct thread *me, const volatile void *lock, int failed) {
    if (failed) return failed;
    struct held *held = find_held(me, lock);
    if (held && --held->depth > 0) return 0;
    note(me, held && held->shared ? RRELEASE : RELEASE, lock);
    if (held) *held = me->held[--me->held_count];
    wake_waiting(FOR_LOCK, lock, UINT_MAX);
    return 0;
}

/* The name of a lock's kind, its type, and what tries it. */
#define TAKE(name, type, shared, try) \
    static int name##_by(struct thread *me, type *lock, uint64_t deadline) { \
        int failed; \
        while ((failed = REAL(try)(lock)) == EBUSY) \
            if (!wait_for(me, FOR_LOCK, lock, deadline)) return ETIMEDOUT; \
        return note_taken(me, lock, shared, failed); \
    }

#define CALL(name, type, parameters, arguments, modelled) \
    API int name parameters { \
        struct thread *me = enter_call(); \
        if (!me) return REAL(name) arguments; \
        LEAVE_WITH(me, modelled); \
    }

#define LOCK(name, type, modelled) CALL(name, type, (type * lock), (lock), modelled)
#define TIMED(name, type, modelled) CALL(name, type, (type * lock, const struct timespec *limit), (lock, limit), modelled)
#define CLOCKED(name, type, modelled) \
    CALL(name, type, (type * lock, clockid_t clock, const struct timespec *limit), (lock, clock, limit), modelled)

#define BY_LIMIT deadline_at(CLOCK_REALTIME, limit)
#define BY_CLOCK deadline_at(clock, limit)

/* ---- Mutexes ---- */

TAKE(waited_for_mutex, pthread_mutex_t, false, pthread_mutex_trylock)

/* A mutex that tells of its errors tells the thread that holds it already. */
int take_mutex(struct thread *me, pthread_mutex_t *mutex, uint64_t deadline) {
    if ((mutex->__data.__kind & 3) == PTHREAD_MUTEX_ERRORCHECK && find_held(me, mutex)) return EDEADLK;
    return waited_for_mutex_by(me, mutex, deadline);
}

int give_back_mutex(struct thread *me, pthread_mutex_t *mutex) {
    return note_given_back(me, mutex, REAL(pthread_mutex_unlock)(mutex));
}

static int try_mutex(struct thread *me, pthread_mutex_t *mutex) {
    return note_taken(me, mutex, false, REAL(pthread_mutex_trylock)(mutex));
}

LOCK(pthread_mutex_lock, pthread_mutex_t, take_mutex(me, lock, NEVER))
LOCK(pthread_mutex_trylock, pthread_mutex_t, try_mutex(me, lock))
LOCK(pthread_mutex_unlock, pthread_mutex_t, give_back_mutex(me, lock))
TIMED(pthread_mutex_timedlock, pthread_mutex_t, take_mutex(me, lock, BY_LIMIT))
CLOCKED(pthread_mutex_clocklock, pthread_mutex_t, take_mutex(me, lock, BY_CLOCK))

static int destroyed(struct thread *me, const volatile void *object, int failed) {
    if (!failed) append(me, DESTROY, object);
    return failed;
}

LOCK(pthread_mutex_destroy, pthread_mutex_t, destroyed(me, lock, REAL(pthread_mutex_destroy)(lock)))

/* ---- Spin locks ---- */

TAKE(spin, pthread_spinlock_t, false, pthread_spin_trylock)
LOCK(pthread_spin_lock, pthread_spinlock_t, spin_by(me, lock, NEVER))
LOCK(pthread_spin_trylock, pthread_spinlock_t, note_taken(me, lock, false, REAL(pthread_spin_trylock)(lock)))
LOCK(pthread_spin_unlock, pthread_spinlock_t, note_given_back(me, lock, REAL(pthread_spin_unlock)(lock)))

/* ---- Locks of readers and writers ---- */

TAKE(reader, pthread_rwlock_t, true, pthread_rwlock_tryrdlock)
TAKE(writer, pthread_rwlock_t, false, pthread_rwlock_trywrlock)
LOCK(pthread_rwlock_rdlock, pthread_rwlock_t, reader_by(me, lock, NEVER))
LOCK(pthread_rwlock_wrlock, pthread_rwlock_t, writer_by(me, lock, NEVER))
LOCK(pthread_rwlock_tryrdlock, pthread_rwlock_t, note_taken(me, lock, true, REAL(pthread_rwlock_tryrdlock)(lock)))
LOCK(pthread_rwlock_trywrlock, pthread_rwlock_t, note_taken(me, lock, false, REAL(pthread_rwlock_trywrlock)(lock)))
LOCK(pthread_rwlock_unlock, pthread_rwlock_t, note_given_back(me, lock, REAL(pthread_rwlock_unlock)(lock)))
LOCK(pthread_rwlock_destroy, pthread_rwlock_t, destroyed(me, lock, REAL(pthread_rwlock_destroy)(lock)))
TIMED(pthread_rwlock_timedrdlock, pthread_rwlock_t, reader_by(me, lock, BY_LIMIT))
TIMED(pthread_rwlock_timedwrlock, pthread_rwlock_t, writer_by(me, lock, BY_LIMIT))
CLOCKED(pthread_rwlock_clockrdlock, pthread_rwlock_t, reader_by(me, lock, BY_CLOCK))
CLOCKED(pthread_rwlock_clockwrlock, pthread_rwlock_t, writer_by(me, lock, BY_CLOCK))

/* ---- The mutexes of <threads.h>, which are those of pthreads in glibc ---- */

static int as_thrd(int failed) {
    if (failed == EBUSY) return thrd_busy;
    if (failed == ETIMEDOUT) return thrd_timedout;
    return failed ? thrd_error : thrd_success;
}

LOCK(mtx_lock, mtx_t, as_thrd(take_mutex(me, (pthread_mutex_t *)lock, NEVER)))
LOCK(mtx_trylock, mtx_t, as_thrd(try_mutex(me, (pthread_mutex_t *)lock)))
LOCK(mtx_unlock, mtx_t, as_thrd(give_back_mutex(me, (pthread_mutex_t *)lock)))
TIMED(mtx_timedlock, mtx_t, as_thrd(take_mutex(me, (pthread_mutex_t *)lock, BY_LIMIT)))

API void mtx_destroy(mtx_t *lock) {
    struct thread *me = enter_call();
    REAL(mtx_destroy)(lock);
    if (!me) return;
    append(me, DESTROY, lock);
    leave(me);
}
