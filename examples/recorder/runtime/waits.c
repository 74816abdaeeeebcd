/* Calls that wait for something outside of the program, for a signal, for another process, or for a time. */
#include <poll.h>
#include <sched.h>
#include <stdio.h>
#include <stdlib.h>
#include <sys/epoll.h>
#include <sys/select.h>
#include <sys/stat.h>
#include <sys/wait.h>
#include <threads.h>
#include <unistd.h>

#include "outside.h"

bool may_block(int descriptor) {
    struct stat status;
    return fstat(descriptor, &status) == 0 && !S_ISREG(status.st_mode) && !S_ISDIR(status.st_mode);
}

/* ---- Signals and processes ---- */

BLOCKING(int, sigwait, (const sigset_t *set, int *signal), set, signal)
BLOCKING(int, sigwaitinfo, (const sigset_t *set, siginfo_t *info), set, info)
BLOCKING(int, sigtimedwait, (const sigset_t *set, siginfo_t *info, const struct timespec *span), set, info, span)
BLOCKING(int, sigsuspend, (const sigset_t *set), set)
BLOCKING(int, pause, (void))
BLOCKING(pid_t, wait, (int *status), status)
BLOCKING(pid_t, waitpid, (pid_t process, int *status, int flags), process, status, flags)
BLOCKING(pid_t, wait4, (pid_t process, int *status, int flags, struct rusage *usage), process, status, flags, usage)
BLOCKING(int, waitid, (idtype_t type, id_t process, siginfo_t *info, int flags), type, process, info, flags)
BLOCKING(int, system, (const char *command), command)
BLOCKING(int, pclose, (FILE * stream), stream)

/* ---- Many descriptors at once: what the kernel tells of them is written ---- */

#define TOLD(type, name, parameters, arguments, place, size) \
    API type name parameters { \
        struct thread *me = enter_call(); \
        if (!me) return REAL(name) arguments; \
        type made = OUTSIDE_GAME_LIST(me, name, arguments); \
        int error = errno; \
        if (made > 0) note_written(me, place, size); \
        errno = error; \
        LEAVE_WITH(me, made); \
    }
#define UNPACK(...) __VA_ARGS__
#define OUTSIDE_GAME_LIST(me, name, arguments) OUTSIDE_GAME(me, name, UNPACK arguments)

TOLD(int, epoll_wait, (int descriptor, struct epoll_event *events, int most, int time), (descriptor, events, most, time),
     events, (size_t)made * sizeof *events)
TOLD(int, epoll_pwait, (int descriptor, struct epoll_event *events, int most, int time, const sigset_t *mask),
     (descriptor, events, most, time, mask), events, (size_t)made * sizeof *events)
TOLD(int, poll, (struct pollfd * events, nfds_t count, int time), (events, count, time), events, count * sizeof *events)
TOLD(int, ppoll, (struct pollfd * events, nfds_t count, const struct timespec *span, const sigset_t *mask),
     (events, count, span, mask), events, count * sizeof *events)
BLOCKING(int, select, (int count, fd_set *reads, fd_set *writes, fd_set *others, struct timeval *span), count, reads, writes,
         others, span)
BLOCKING(int, pselect,
         (int count, fd_set *reads, fd_set *writes, fd_set *others, const struct timespec *span, const sigset_t *mask), count,
         reads, writes, others, span, mask)

/* ---- Time: who sleeps does so while others can run, and no longer ---- */

static int sleep_for(struct thread *me, const struct timespec *span) {
    struct timespec second = {1, 0};
    wait_for(me, FOR_TIME, NULL, deadline_in(span ? span : &second));
    return 0;
}

API int nanosleep(const struct timespec *span, struct timespec *left) {
    struct thread *me = enter_call();
    if (!me) return REAL(nanosleep)(span, left);
    LEAVE_WITH(me, sleep_for(me, span));
}

API int clock_nanosleep(clockid_t clock, int flags, const struct timespec *span, struct timespec *left) {
    struct thread *me = enter_call();
    if (!me) return REAL(clock_nanosleep)(clock, flags, span, left);
    uint64_t deadline = flags & TIMER_ABSTIME ? deadline_at(clock, span) : deadline_in(span);
    wait_for(me, FOR_TIME, NULL, deadline);
    LEAVE_WITH(me, 0);
}

API int usleep(useconds_t time) {
    struct thread *me = enter_call();
    if (!me) return REAL(usleep)(time);
    struct timespec span = {(time_t)(time / 1000000), (long)(time % 1000000) * 1000};
    LEAVE_WITH(me, sleep_for(me, &span));
}

API unsigned sleep(unsigned time) {
    struct thread *me = enter_call();
    if (!me) return REAL(sleep)(time);
    struct timespec span = {(time_t)time, 0};
    sleep_for(me, &span);
    LEAVE_WITH(me, 0u);
}

API int thrd_sleep(const struct timespec *span, struct timespec *left) {
    struct thread *me = enter_call();
    if (!me) return REAL(thrd_sleep)(span, left);
    LEAVE_WITH(me, sleep_for(me, span));
}

static int give_turn(struct thread *me) {
    game_clock += 1000;
    yield_turn(me);
    return 0;
}

API int sched_yield(void) {
    struct thread *me = enter();
    if (!me) return REAL(sched_yield)();
    LEAVE_WITH(me, give_turn(me));
}

API void thrd_yield(void) { sched_yield(); }
