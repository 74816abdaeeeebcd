/* Whose turn it is.
 *
 * The thread that has the turn hands it over by choosing among those that are ready. Threads that come back from a
 * call outside ask for it; where nobody has it, they take it. What all this changes is kept by the gate, which is
 * held for some instructions at a time.
 *
 * The game has a clock of its own: a turn point takes a microsecond. Where nobody can run it goes on with the real
 * one while some thread is outside, and else it jumps to the next deadline. */
#include <fcntl.h>
#include <linux/futex.h>
#include <stdio.h>
#include <sys/syscall.h>
#include <unistd.h>

#include "../shadow.h"
#include "runtime.h"

enum { MOST_LIVE = 1 << 16 };
enum { MILLISECOND = 1000000, TICK = 20000000 };

__thread struct thread *self __attribute__((tls_model("initial-exec")));
unsigned switch_every = 10;
uint64_t game_clock;

struct thread **live;
unsigned live_count, outside_count;

static uint64_t generator;
static struct thread *running; /* NULL where all that live are blocked or outside */
static uint64_t idle_since, idle_clock;

/* ---- The gate ---- */

/* Gives what the system says, an error as a negative number, and leaves errno as it is. */
static long futex(atomic_int *word, int operation, int value, const struct timespec *limit) {
    int error = errno;
    long result = REAL(syscall)(SYS_futex, word, operation | FUTEX_PRIVATE_FLAG, value, limit, NULL, 0);
    if (result < 0) result = -errno;
    errno = error;
    return result;
}

static atomic_int gate; /* 0 open, 1 held, 2 held and waited for */

static void hold_gate(void) {
    int state = 0;
    if (atomic_compare_exchange_strong(&gate, &state, 1)) return;
    while (atomic_exchange(&gate, 2)) futex(&gate, FUTEX_WAIT, 2, NULL);
}

static void open_gate(void) {
    if (atomic_exchange(&gate, 0) == 2) futex(&gate, FUTEX_WAKE, 1, NULL);
}

/* ---- The clock ---- */

uint64_t real_clock(void) {
    struct timespec now;
    clock_gettime(CLOCK_MONOTONIC, &now);
    return (uint64_t)now.tv_sec * 1000000000 + (uint64_t)now.tv_nsec;
}

uint64_t deadline_in(const struct timespec *span) {
    return game_clock + (uint64_t)span->tv_sec * 1000000000 + (uint64_t)span->tv_nsec;
}

/* How long it is to a moment of a clock, rounded up to milliseconds, so that a run repeats. */
uint64_t deadline_at(clockid_t clock, const struct timespec *limit) {
    struct timespec now;
    clock_gettime(clock, &now);
    int64_t left = (limit->tv_sec - now.tv_sec) * 1000000000 + limit->tv_nsec - now.tv_nsec;
    if (left < 0) left = 0;
    return game_clock + (uint64_t)((left + MILLISECOND - 1) / MILLISECOND * MILLISECOND);
}

/* Brings the clock on by the time for which nobody had the turn. */
static void pass_idle_time(void) {
    uint64_t now = idle_clock + (real_clock() - idle_since);
    if (now > game_clock) game_clock = now;
}

/* ---- The choice ---- */

void seed_draws(uint64_t seed) { generator = seed; }

unsigned draw(unsigned below) {
    generator = generator * 6364136223846793005u + 1442695040888963407u;
    return (unsigned)(generator >> 33) % below;
}

void make_ready(struct thread *thread, bool timed_out) {
    thread->wait.done = true;
    thread->wait.timed_out = timed_out;
    if (thread->state == BLOCKED) thread->state = READY;
}

static void wake_those_due(void) {
    for (unsigned i = 0; i < live_count; i++)
        if (live[i]->state == BLOCKED && live[i]->wait.deadline <= game_clock) make_ready(live[i], true);
}

struct thread *earliest_sleeper(void) {
    struct thread *found = NULL;
    for (unsigned i = 0; i < live_count; i++) {
        struct thread *thread = live[i];
        if (thread->state == BLOCKED && thread->wait.deadline != NEVER &&
            (!found || thread->wait.deadline < found->wait.deadline))
            found = thread;
    }
    return found;
}

/* One of the threads that are ready, other than `not_this`, as the generator says. */
static struct thread *pick_ready(const struct thread *not_this) {
    unsigned count = 0;
    for (unsigned i = 0; i < live_count; i++) count += live[i]->state == READY && live[i] != not_this;
    if (!count) return NULL;
    unsigned wanted = draw(count);
    for (unsigned i = 0;; i++)
        if (live[i]->state == READY && live[i] != not_this && !wanted--) return live[i];
}

/* Who runs next; NULL where nobody can. */
struct thread *choose(void) {
    if (following) return choose_by_script(true);
    wake_those_due();
    struct thread *next = pick_ready(NULL);
    if (next || outside_count) return next;
    next = earliest_sleeper();
    if (!next) return NULL;
    game_clock = next->wait.deadline;
    wake_those_due();
    return pick_ready(NULL);
}

/* ---- Handing over ---- */

static void set_running(struct thread *thread) {
    running = thread;
    head->running = thread ? thread->number : 0;
    if (!thread) {
        idle_since = real_clock();
        idle_clock = game_clock;
    }
}

static void wake_up(struct thread *thread) {
    atomic_fetch_or(&thread->turn, TURN);
    futex(&thread->turn, FUTEX_WAKE, 1, NULL);
}

/* The run cannot go on: each thread waits for another one. */
_Noreturn static void stop_stuck(void) {
    for (unsigned i = 0; i < live_count; i++) {
        struct thread *thread = live[i];
        if (thread->state != BLOCKED) continue;
        const volatile void *what = thread->wait.what;
        if (thread->wait.kind == FOR_THREAD) what = NULL;
        struct record *record = append(thread, WAITS, what);
        record->mask = (uint8_t)thread->wait.kind;
        if (thread->wait.kind == FOR_THREAD) record->more = ((const struct thread *)thread->wait.what)->number;
    }
    fflush(NULL);
    close_log();
    _exit(ENDED_STUCK);
}

/* Hands the turn to one that is ready. The gate is held, and is open behind it. True where it came to `me` itself. */
static bool pass_turn(const struct thread *me, struct thread *next) {
    if (!next && !outside_count && live_count) stop_stuck();
    set_running(next);
    open_gate();
    if (next && next != me) wake_up(next);
    return next == me;
}

void pass_on(struct thread *me) {
    hold_gate();
    if (!pass_turn(me, choose())) await_turn(me);
}

void hand_over(struct thread *me) {
    if (live_count == 1 || following) return;
    pass_on(me);
    if (scripted) checkpoint(me);
}

void yield_turn(struct thread *me) {
    if (following) return;
    hold_gate();
    wake_those_due();
    struct thread *other = pick_ready(me);
    if (!pass_turn(me, other ? other : me)) await_turn(me);
    if (scripted) checkpoint(me);
}

/* Takes the turn where nobody has it. The gate is held. */
static bool take_free_turn(struct thread *me) {
    if (running) return false;
    set_running(me);
    return true;
}

/* A thread that is blocked comes to its deadline, or has a signal to handle, while nobody has the turn. */
static bool stops_waiting(struct thread *me) {
    hold_gate();
    if (!running) pass_idle_time();
    bool signalled = me->signals.count && me->state == BLOCKED;
    bool due = me->state == BLOCKED && !running && me->wait.deadline <= game_clock;
    if (due) make_ready(me, true);
    if (signalled) me->state = READY;
    bool taken = (due || signalled) && take_free_turn(me);
    open_gate();
    return taken;
}

/* In a script somebody has to look from time to time whether those that are outside still come back. */
static bool goes_on_idle(struct thread *me) {
    hold_gate();
    bool is_idle = following && !running && real_clock() - idle_since >= TICK;
    struct thread *next = is_idle ? choose_by_script(false) : NULL;
    if (next) {
        pass_turn(me, next);
    } else {
        open_gate();
    }
    return next == me;
}

/* How long a thread may wait in one go: to its deadline, where it has one. */
static const struct timespec *patience(const struct thread *me, struct timespec *span) {
    *span = (struct timespec){0, TICK};
    if (following) return span;
    if (me->state != BLOCKED || me->wait.deadline == NEVER) return NULL;
    uint64_t left = me->wait.deadline > game_clock ? me->wait.deadline - game_clock : 0;
    if (left < MILLISECOND) left = MILLISECOND;
    *span = (struct timespec){(time_t)(left / 1000000000), (long)(left % 1000000000)};
    return span;
}

void await_turn(struct thread *me) {
    struct timespec span;
    for (;;) {
        int told = atomic_exchange(&me->turn, 0);
        if (told & TURN) return;
        if (told & SIGNALLED && stops_waiting(me)) return;
        if (futex(&me->turn, FUTEX_WAIT, 0, patience(me, &span)) != -ETIMEDOUT) continue;
        if (following ? goes_on_idle(me) : stops_waiting(me)) return;
    }
}

/* The thread stands still until what it waits for is there; false where its time was up. A signal's handler runs
 * in between, where one comes. */
bool wait_for(struct thread *me, enum waits kind, const volatile void *what, uint64_t deadline) {
    me->wait = (struct wait){kind, what, deadline, false, false};
    if (following) begin_wait(me, kind, what);
    while (!me->wait.done) {
        me->state = BLOCKED;
        hold_gate();
        if (!pass_turn(me, choose())) await_turn(me);
        me->state = READY;
        if (me->signals.count) run_signals(me);
        if (kind == FOR_LOCK || kind == FOR_THREAD) break;
    }
    if (scripted) checkpoint(me);
    return !me->wait.timed_out;
}

/* Wakes up to so many of those that wait for this, each drawn; how many there were. */
unsigned wake_waiting(enum waits kind, const volatile void *what, unsigned most) {
    unsigned woken = 0;
    for (; woken < most; woken++) {
        unsigned count = 0;
        struct thread *found = NULL;
        for (unsigned i = 0; i < live_count; i++) {
            const struct wait *wait = &live[i]->wait;
            if (wait->done || wait->what != what || wait->kind != kind) continue;
            if (following ? is_sooner(live[i], found) : draw(++count) == 0) found = live[i];
        }
        if (!found) break;
        make_ready(found, false);
    }
    return woken;
}

/* ---- Out of the game and back ---- */

void step_out(struct thread *me, uint32_t *word, const char *call) {
    if (!*word) *word = word_of(call);
    if (me->number <= MOST_THREADS) head->call_of[me->number] = *word;
    head->outside = 1;
    hold_gate();
    me->state = OUTSIDE;
    outside_count++;
    pass_turn(me, choose());
    me->in_call = true;
}

void come_back(struct thread *me) {
    me->in_call = false;
    hold_gate();
    if (!running) pass_idle_time();
    outside_count--;
    me->state = READY;
    bool taken = take_free_turn(me);
    open_gate();
    if (!taken) await_turn(me);
    if (scripted) checkpoint(me);
    if (me->number <= MOST_THREADS) head->call_of[me->number] = 0;
}

/* ---- Threads come and go ---- */

void start_game(struct thread *first, uint64_t seed) {
    generator = seed;
    live = fresh_memory(MOST_LIVE * sizeof *live);
    if (!live) give_up("there is no memory for %s", "threads");
    add_thread(first);
    running = first;
}

void add_thread(struct thread *thread) {
    if (live_count == MOST_LIVE) give_up("more threads live than %s", "the recorder has room for");
    thread->wait.done = true;
    hold_gate();
    live[live_count++] = thread;
    open_gate();
}

void remove_thread(struct thread *thread) {
    hold_gate();
    unsigned at = 0;
    while (live[at] != thread) at++;
    for (live_count--; at < live_count; at++) live[at] = live[at + 1];
    open_gate();
}

/* The thread has ended, and hands its turn over for good. */
void finish_turn(struct thread *me) {
    if (scripted) end_of_thread(me);
    remove_thread(me);
    hold_gate();
    pass_turn(me, live_count ? choose() : NULL);
}
