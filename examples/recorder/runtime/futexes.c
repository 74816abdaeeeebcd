/* syscall: the waits and wakes of futexes are modelled, as std::future and std::atomic::wait are made of them. */
#include <limits.h>
#include <linux/futex.h>
#include <stdarg.h>
#include <sys/syscall.h>
#include <unistd.h>

#include "outside.h"

struct futex_call {
    uint32_t *word;
    long operation, value;
    const struct timespec *limit;
};

static uint64_t limit_of(const struct futex_call *call) {
    if (!call->limit) return NEVER;
    if ((call->operation & FUTEX_CMD_MASK) == FUTEX_WAIT) return deadline_in(call->limit);
    return deadline_at(call->operation & FUTEX_CLOCK_REALTIME ? CLOCK_REALTIME : CLOCK_MONOTONIC, call->limit);
}

static long fail(int error) {
    errno = error;
    return -1;
}

static long wait_on(struct thread *me, const struct futex_call *call) {
    if (__atomic_load_n(call->word, __ATOMIC_SEQ_CST) != (uint32_t)call->value) return fail(EAGAIN);
    return wait_for(me, FOR_FUTEX, call->word, limit_of(call)) ? 0 : fail(ETIMEDOUT);
}

static bool is_modelled(long number, long operation) {
    long command = operation & FUTEX_CMD_MASK;
    return number == SYS_futex && (command == FUTEX_WAIT || command == FUTEX_WAIT_BITSET || command == FUTEX_WAKE ||
                                   command == FUTEX_WAKE_BITSET);
}

API long syscall(long number, ...) {
    va_list words;
    va_start(words, number);
    long given[6];
    for (int i = 0; i < 6; i++) given[i] = va_arg(words, long);
    va_end(words);
    struct thread *me = enter_call();
    if (!me) return REAL(syscall)(number, given[0], given[1], given[2], given[3], given[4], given[5]);
    if (!is_modelled(number, given[1]))
        LEAVE_WITH(me, OUTSIDE_GAME(me, syscall, number, given[0], given[1], given[2], given[3], given[4], given[5]));
    struct futex_call call = {(uint32_t *)given[0], given[1], given[2], (const struct timespec *)given[3]};
    long command = call.operation & FUTEX_CMD_MASK;
    if (command == FUTEX_WAIT || command == FUTEX_WAIT_BITSET) LEAVE_WITH(me, wait_on(me, &call));
    LEAVE_WITH(me, (long)wake_waiting(FOR_FUTEX, call.word, call.value > INT_MAX ? UINT_MAX : (unsigned)call.value));
}
