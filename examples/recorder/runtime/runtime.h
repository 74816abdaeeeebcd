/* What the files of the runtime share.
 *
 * One thread runs at a time: it has the *turn*. At a *turn point* (an access to what another thread touched too, a
 * call that is modelled, an operation) it may hand the turn to another one, as a generator of numbers says that
 * begins with the seed. So each value that is logged is the value that was there. A thread that makes a call that
 * may block outside of pthreads leaves the game before it, and asks for its turn again behind it. */
#ifndef RUNTIME_H
#define RUNTIME_H

#include <errno.h>
#include <pthread.h>
#include <signal.h>
#include <stdatomic.h>
#include <stdbool.h>
#include <stddef.h>
#include <stdint.h>
#include <time.h>

#include "../format.h"

#define API __attribute__((visibility("default")))
#define UNUSED __attribute__((unused))
#define NEVER UINT64_MAX

enum { ENDED_GIVEN_UP = 98, ENDED_STUCK = 99, MOST_HELD = 256, MOST_PENDING = 4, MOST_SIGNALS = 32, MOST_OBJECTS = 4 };

/* ---- The definitions behind ours: those of the C library, or of another one that comes after us ---- */

void *next_definition(const char *name);

#define REAL(name) \
    ({ \
        static __typeof__(&name) found; \
        if (__builtin_expect(!found, 0)) found = (__typeof__(&name))next_definition(#name); \
        found; \
    })

/* ---- Threads ---- */

enum state { READY, BLOCKED, OUTSIDE, ENDED };

/* What a thread is told while it stands still: that it has the turn, that it has a signal to handle. */
enum { TURN = 1, SIGNALLED = 2 };

/* What a thread that is blocked waits for. */
struct wait {
    enum waits kind;
    const volatile void *what;
    uint64_t deadline; /* by the game's clock, or NEVER */
    bool done, timed_out;
};

struct held {
    const volatile void *lock;
    unsigned depth;
    bool shared;
};

/* A write that is hooked and not yet read back. */
struct pending {
    struct cell *cell;
    uintptr_t granule;
};

struct signals {
    _Atomic unsigned count;
    siginfo_t queue[MOST_SIGNALS];
};

struct thread {
    unsigned number;
    uint32_t segment;     /* what it does between two synchronisations: a number that no other segment has */
    volatile int inside;  /* above 0 while it runs the runtime's own code */
    unsigned pending_count;
    struct pending pending[MOST_PENDING];
    enum state state;
    struct wait wait;
    atomic_int turn;      /* what it was told while it stood still, of the two below */
    volatile bool in_call; /* it is outside, in the very call */
    struct signals signals;
    uint64_t last_record;
    struct cell *loaded;  /* the cell of its last atomic load, and that load's record */
    uint64_t load_record;
    pthread_t handle;
    bool joined, detached;
    int end_rounds;
    void *(*function)(void *);
    void *argument;
    struct held held[MOST_HELD];
    int held_count;
    struct thread *next; /* in the list of the threads that are not joined */
    uintptr_t stack_low, stack_high;
    const uintptr_t *frame; /* of our call or hook in which it is or was last, or NULL where it is in none */
    uint64_t steps;       /* how many of its calls and hooks there were, with this one */
    uintptr_t caller;     /* the place in the program behind it */
    unsigned phase;       /* how many places it has passed in it at which it may have waited */
    unsigned next_move;   /* of the script */
    unsigned free_steps;  /* since it stood at a move */
    bool stands, restless; /* it stands at a move; it has come to none for long */
};

/* The calling thread, where it is one of the game. */
extern __thread struct thread *self __attribute__((tls_model("initial-exec")));

/* ---- Calls of the program, from where they come in to where they go out ---- */

void settle_all(struct thread *me);
void run_signals(struct thread *me);

/* Whether there is a script that is not over; whether the run is in it. */
extern bool scripted, following;
extern uintptr_t foreign_low, foreign_size; /* where the C library lies, whose own calls are no steps of a thread */

/* Of each record where it comes from; whether the calls and hooks are counted too, as they are where there is a script. */
extern struct step *steps;
extern bool counting;

bool open_script(const char *path);
void checkpoint(struct thread *me);
void begin_wait(struct thread *me, enum waits kind, const volatile void *what);
void end_of_thread(struct thread *me);
void await_end_of_script(struct thread *me);
struct thread *choose_by_script(bool patient);
bool is_sooner(struct thread *one, struct thread *other);
/* What the thread does: an access, or what a record of this kind says. */
void do_deed(struct thread *me, enum kind kind, uint64_t address, unsigned mask, uint64_t old, uint32_t more);
void wrote(struct thread *me, uint64_t granule, uint64_t value);
void block_freed(uintptr_t address, size_t size);
void block_made(uintptr_t address, size_t size);

void count_step(struct thread *me, uintptr_t caller);

/* A call or a hook of the program begins. */
static inline __attribute__((always_inline)) void begin_step(struct thread *me) {
    me->frame = __builtin_frame_address(0);
    if (__builtin_expect(counting, 0)) count_step(me, (uintptr_t)__builtin_return_address(0));
}

/* Behind a place of a call at which it may wait. */
static inline void begin_phase(struct thread *me) {
    me->phase++;
    if (scripted) checkpoint(me);
}

/* The calling thread, where its call is to be modelled: it is in the game, and not in the runtime's own code. */
static inline __attribute__((always_inline)) struct thread *enter(void) {
    struct thread *me = self;
    if (!me || me->inside) return NULL;
    me->inside = 1;
    if (me->pending_count) settle_all(me);
    begin_step(me);
    return me;
}

static inline void leave(struct thread *me) {
    me->inside = 0;
    if (__builtin_expect(me->signals.count, 0)) run_signals(me);
}

/* Leaves the runtime with what a call came to, and keeps errno. */
#define LEAVE_WITH(me, value) \
    do { \
        __typeof__(value) made_ = (value); \
        int error_ = errno; \
        leave(me); \
        errno = error_; \
        return made_; \
    } while (0)

/* ---- Turns ---- */

extern unsigned switch_every;
extern uint64_t game_clock;
extern struct thread **live;
extern unsigned live_count, outside_count;

uint64_t real_clock(void);
void seed_draws(uint64_t seed);
struct thread *choose(void);
void make_ready(struct thread *thread, bool timed_out);
struct thread *earliest_sleeper(void);
/* Hands the turn to whom `choose` names, and waits for it. */
void pass_on(struct thread *me);

void start_game(struct thread *first, uint64_t seed);
void add_thread(struct thread *thread);
void remove_thread(struct thread *thread);
unsigned draw(unsigned below);
void hand_over(struct thread *me);
void yield_turn(struct thread *me);
void await_turn(struct thread *me);
bool wait_for(struct thread *me, enum waits kind, const volatile void *what, uint64_t deadline);
unsigned wake_waiting(enum waits kind, const volatile void *what, unsigned most);
void step_out(struct thread *me, uint32_t *word, const char *call);
void come_back(struct thread *me);
void finish_turn(struct thread *me);
uint64_t deadline_in(const struct timespec *span);
uint64_t deadline_at(clockid_t clock, const struct timespec *limit);

static inline void turn_point(struct thread *me) {
    game_clock += 1000;
    if (draw(switch_every) == 0) hand_over(me);
}

/* One at which the turn seldom goes: nobody else has to do with what the thread does there, or not yet. */
static inline void seldom_turn_point(struct thread *me) {
    game_clock += 1000;
    if (draw(16 * switch_every) == 0) hand_over(me);
}

/* The thread, as `enter`, behind a turn point. */
static inline __attribute__((always_inline)) struct thread *enter_call(void) {
    struct thread *me = enter();
    if (me) turn_point(me);
    return me;
}

/* ---- The log ---- */

/* Whether accesses are recorded: not before a second thread is started, not in a pause, not after a cut. */
extern bool recording, log_open;
extern struct log_head *head;
extern struct record *records;

bool open_log(const char *path);
void grow_log(void);
void close_log(void);
uint32_t word_of(const char *text);
/* A record with so many bytes behind it, and its number. */
uint32_t log_bytes(enum kind kind, const void *bytes, size_t size);
struct record *append(struct thread *me, enum kind kind, const volatile void *address);
uint32_t new_segment(void);
/* The record is of a call that may have come by code of others, as `append` does not look through it. */
void note_far_site(struct thread *me, struct record *record);
bool open_sites(void);
/* The number of the calls that led to where a thread is, or 0 where they are not known; with those through code of others. */
uint32_t site_of(const struct thread *me, bool unwinds);
/* An access is put to the record of an earlier one, with these bytes that this does not have yet. */
void note_merged(struct thread *me, struct record *record, unsigned mask);
/* As `append`, and a new segment of the thread begins. */
struct record *note(struct thread *me, enum kind kind, const volatile void *address);
void log_stack(struct thread *me);
void log_modules(void);
void cut_log(struct thread *me, const char *why);
_Noreturn void give_up(const char *format, const char *word);
void set_recording(struct thread *me, bool wanted);
/* A second thread is started: what was done before cannot be beside anything. */
void accesses_begin(void);
bool has_begun(void);

/* ---- Accesses, of any size; `old` of a write is what is there now ---- */

void note_read(struct thread *me, const volatile void *address, size_t size);
void note_write(struct thread *me, const volatile void *address, size_t size);
void begin_write(struct thread *me, const volatile void *address, size_t size);
void end_write(struct thread *me, const volatile void *address, size_t size);
/* A write that is done, by code that is not ours: what was there before is not known. */
void note_written(struct thread *me, const volatile void *address, size_t size);
/* An atomic access behind which the memory is as it is now; `old` was there before. */
void note_atomic(struct thread *me, const volatile void *address, size_t size, const void *old, unsigned flags);
/* Whether others had to do with it. */
bool forget_memory(struct thread *me, uintptr_t address, size_t size);
void forget_range(uintptr_t address, size_t size);

/* ---- Locks ---- */

int note_taken(struct thread *me, const volatile void *lock, bool shared, int failed);
int note_given_back(struct thread *me, const volatile void *lock, int failed);
int take_mutex(struct thread *me, pthread_mutex_t *mutex, uint64_t deadline);
int give_back_mutex(struct thread *me, pthread_mutex_t *mutex);

/* A number that stands for an object: an atomic change of it. */
void note_count(struct thread *me, const volatile void *object, uint64_t old, uint64_t new);

/* The game is over for the process: after its end, and in a child. */
void end_game(void);

#endif
