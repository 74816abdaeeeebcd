/* What is done once: inside of a lock. Byte 0 of a guard tells that it is done, byte 1 that somebody does it, which is
 * the lock; this holds for the guards of C++ statics and, as ours are the only calls, for pthread_once_t. */
#include <limits.h>
#include <threads.h>

#include "runtime.h"

API int __cxa_guard_acquire(uint8_t *guard);
API void __cxa_guard_release(uint8_t *guard);
API void __cxa_guard_abort(uint8_t *guard);

static int begin_once(struct thread *me, uint8_t *guard) {
    while (guard[1]) wait_for(me, FOR_LOCK, guard + 1, NEVER);
    if (!guard[0]) {
        guard[1] = 1;
        note_taken(me, guard + 1, false, 0);
    }
    note_atomic(me, guard, 1, guard, READS);
    return guard[1];
}

static void end_once(struct thread *me, uint8_t *guard, uint8_t done) {
    uint8_t before = guard[0];
    guard[0] = done;
    if (done) note_atomic(me, guard, 1, &before, WRITES);
    guard[1] = 0;
    note_given_back(me, guard + 1, 0);
}

API int __cxa_guard_acquire(uint8_t *guard) {
    struct thread *me = enter_call();
    if (!me) return REAL(__cxa_guard_acquire)(guard);
    LEAVE_WITH(me, begin_once(me, guard));
}

API void __cxa_guard_release(uint8_t *guard) {
    struct thread *me = enter();
    if (!me) {
        REAL(__cxa_guard_release)(guard);
        return;
    }
    end_once(me, guard, 1);
    leave(me);
}

API void __cxa_guard_abort(uint8_t *guard) {
    struct thread *me = enter();
    if (!me) {
        REAL(__cxa_guard_abort)(guard);
        return;
    }
    end_once(me, guard, 0);
    leave(me);
}

API int pthread_once(pthread_once_t *once, void (*function)(void)) {
    struct thread *me = enter_call();
    if (!me) return REAL(pthread_once)(once, function);
    int is_mine = begin_once(me, (uint8_t *)once);
    leave(me);
    if (!is_mine) return 0;
    function();
    me->inside = 1;
    settle_all(me);
    begin_step(me);
    end_once(me, (uint8_t *)once, 2);
    LEAVE_WITH(me, 0);
}

API void call_once(once_flag *once, void (*function)(void)) {
    if (self && !self->inside) {
        pthread_once((pthread_once_t *)once, function);
    } else {
        REAL(call_once)(once, function);
    }
}
