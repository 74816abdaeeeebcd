/* Signals: a handler runs where its thread has the turn and is not in the runtime's own code. One that comes in between
 * is kept until then; one that comes to a thread outside, or that waits, asks for the turn first. */
#include <string.h>
#include <unistd.h>

#include "runtime.h"

static struct sigaction handlers[NSIG];

static void call_handler(int signal, siginfo_t *info, void *context) {
    const struct sigaction *handler = &handlers[signal];
    if (handler->sa_flags & SA_SIGINFO) {
        handler->sa_sigaction(signal, info, context);
    } else if (handler->sa_handler != SIG_IGN && handler->sa_handler != SIG_DFL) {
        handler->sa_handler(signal);
    }
}

/* The handler runs as code of the program, at a place at which the thread may be in one of our calls. */
static void run_handler(struct thread *me, int signal, siginfo_t *info, void *context) {
    int inside = me->inside, error = errno;
    struct wait wait = me->wait;
    const uintptr_t *frame = me->frame;
    struct pending pending[MOST_PENDING];
    unsigned pending_count = me->pending_count;
    memcpy(pending, me->pending, sizeof pending);
    me->pending_count = 0;
    me->inside = 0;
    call_handler(signal, info, context);
    me->inside = inside;
    if (me->pending_count) settle_all(me);
    memcpy(me->pending, pending, sizeof pending);
    me->pending_count = pending_count;
    me->wait = wait;
    me->frame = frame;
    errno = error;
}

void run_signals(struct thread *me) {
    unsigned count = atomic_exchange(&me->signals.count, 0);
    siginfo_t kept[MOST_SIGNALS];
    memcpy(kept, me->signals.queue, sizeof kept);
    for (unsigned i = 0; i < count; i++) run_handler(me, kept[i].si_signo, &kept[i], NULL);
}

static void keep_signal(struct thread *me, const siginfo_t *info) {
    unsigned place = me->signals.count;
    if (place == MOST_SIGNALS) return;
    me->signals.queue[place] = *info;
    atomic_store(&me->signals.count, place + 1);
    atomic_fetch_or(&me->turn, SIGNALLED);
}

static bool is_of_the_code(int signal) {
    return signal == SIGSEGV || signal == SIGBUS || signal == SIGFPE || signal == SIGILL || signal == SIGTRAP ||
           signal == SIGABRT || signal == SIGSYS;
}

static void on_signal(int signal, siginfo_t *info, void *context) {
    struct thread *me = self;
    if (!me || is_of_the_code(signal)) {
        call_handler(signal, info, context);
    } else if (!me->inside) {
        run_handler(me, signal, info, context);
    } else if (me->in_call) {
        uint32_t word = head->call_of[me->number <= MOST_THREADS ? me->number : 0];
        come_back(me);
        run_handler(me, signal, info, context);
        step_out(me, &word, "a call");
    } else {
        keep_signal(me, info);
    }
}

static bool is_handler(const struct sigaction *action) {
    return action->sa_flags & SA_SIGINFO || (action->sa_handler != SIG_DFL && action->sa_handler != SIG_IGN);
}

/* The kernel is told of our handler in the place of the program's, which ours calls. */
static int set_handler(int signal, const struct sigaction *new, struct sigaction *old) {
    if (signal <= 0 || signal >= NSIG) return REAL(sigaction)(signal, new, old);
    struct sigaction before = handlers[signal], ours, replaced;
    if (new) ours = *new;
    if (new && is_handler(new)) {
        handlers[signal] = *new;
        ours.sa_sigaction = on_signal;
        ours.sa_flags |= SA_SIGINFO;
    }
    if (REAL(sigaction)(signal, new ? &ours : NULL, &replaced)) return -1;
    if (old) *old = replaced.sa_sigaction == on_signal ? before : replaced;
    return 0;
}

API int sigaction(int signal, const struct sigaction *new, struct sigaction *old) {
    struct thread *me = enter();
    if (!me) return REAL(sigaction)(signal, new, old);
    LEAVE_WITH(me, set_handler(signal, new, old));
}

API __sighandler_t signal(int number, __sighandler_t handler) {
    struct thread *me = enter();
    if (!me) return REAL(signal)(number, handler);
    struct sigaction new = {.sa_handler = handler, .sa_flags = SA_RESTART}, old;
    int failed = set_handler(number, &new, &old);
    LEAVE_WITH(me, failed ? SIG_ERR : old.sa_handler);
}
