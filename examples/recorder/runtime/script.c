/* The script: in which order the threads are to do what a schedule tells of a window.
 *
 * Up to the window's mark the turns go as the seed has it. From there on each thread runs freely to its next move, and
 * stands there until it is that move's turn: so what is in no trace is done at once, behind the event before it. A move
 * is done when its thread comes past it; it has to be the same place of the program, do the same deeds, and find the
 * same values. A thread that comes to no move for long is restless: then the others go on without it. */
#include <fcntl.h>
#include <stdio.h>
#include <string.h>
#include <sys/mman.h>
#include <sys/stat.h>
#include <unistd.h>

#include "runtime.h"

enum { PATIENCE = 1 << 20, SLICE = 1 << 14, MOST_FREED = 64 };
#define SECOND 1000000000u

bool scripted, following;
uintptr_t foreign_low, foreign_size;

static const struct script *script;
static const struct move *moves;
static const struct deed *deeds;
static unsigned place;       /* the move whose turn it is */
static struct thread *mover; /* who does it, or NULL */
static struct {
    bool met;
    uint64_t address;
} deeds_done[MOST_DEEDS];
static uint64_t moved_at; /* when the last move began, by the real clock */
static uint64_t begun_at; /* the first record behind that */
static struct {
    uintptr_t address;
    size_t size;
} freed[MOST_FREED];
static unsigned freed_count;

bool open_script(const char *path) {
    struct stat status;
    int file = open(path, O_RDONLY | O_CLOEXEC);
    if (file < 0 || fstat(file, &status)) return false;
    script = mmap(NULL, (size_t)status.st_size, PROT_READ, MAP_PRIVATE, file, 0);
    close(file);
    if (script == MAP_FAILED || memcmp(script->magic, SCRIPT_MAGIC, sizeof script->magic)) return false;
    moves = (const struct move *)(script + 1);
    deeds = (const struct deed *)(moves + script->move_count);
    return scripted = counting;
}

/* ---- Where a thread stands in it ---- */

/* Below 0 where the thread has not come to the move, 0 where it is there, above 0 where it is past it. */
static int distance(const struct thread *me, const struct move *move) {
    if (me->steps != move->step) return me->steps < move->step ? -1 : 1;
    return me->phase < move->phase ? -1 : me->phase > move->phase;
}

static const struct move *next_of(struct thread *me) {
    while (me->next_move < script->move_count && moves[me->next_move].thread != me->number) me->next_move++;
    return me->next_move < script->move_count ? &moves[me->next_move] : NULL;
}

bool is_sooner(struct thread *one, struct thread *other) {
    next_of(one);
    if (other) next_of(other);
    return !other || one->next_move < other->next_move;
}

static void end_script(void) {
    following = scripted = false;
    mover = NULL;
    if (script->has_seed) seed_draws(script->seed);
}

static void leave_script(const struct thread *me, enum left why, unsigned move) {
    struct follow *follow = &head->follow;
    if (!following) return;
    follow->left = why;
    follow->left_move = move;
    follow->left_thread = me ? me->number : 0;
    follow->left_caller = me ? me->caller : 0;
    follow->left_at = head->used;
    follow->left_call = me && me->number <= MOST_THREADS ? head->call_of[me->number] : 0;
    end_script();
}

/* ---- Deeds ---- */

static bool fits(const struct deed *deed, enum kind kind, uint64_t address, unsigned mask, uint32_t more) {
    if (deed->kind != kind || !(deed->mask & mask) || (kind == ATOMIC && deed->more != (more & (READS | WRITES)))) return false;
    return deed->address == address || !(deed->flags & FIXED);
}

static bool was_freed(uint64_t address) {
    for (unsigned i = 0; i < MOST_FREED; i++)
        if (address + GRANULE > freed[i].address && address < freed[i].address + freed[i].size) return true;
    return false;
}

static uint64_t bytes_of(unsigned mask) {
    uint64_t bytes = 0;
    for (unsigned i = 0; i < GRANULE; i++)
        if (mask >> i & 1) bytes |= (uint64_t)0xff << 8 * i;
    return bytes;
}

/* The value that is there has to be the recorded one, but in memory that was freed. */
static void compare(struct thread *me, uint64_t address, unsigned mask, uint64_t wanted, uint64_t found) {
    if (!((wanted ^ found) & bytes_of(mask))) return;
    head->follow.left_found = found & bytes_of(mask);
    if (was_freed(address)) {
        head->follow.freed++;
    } else {
        leave_script(me, LEFT_VALUE, place);
    }
}

void do_deed(struct thread *me, enum kind kind, uint64_t address, unsigned mask, uint64_t old, uint32_t more) {
    if (mover != me) return;
    const struct move *move = &moves[place];
    for (unsigned i = 0; i < move->count; i++) {
        const struct deed *deed = &deeds[move->first + i];
        if (deeds_done[i].met || !fits(deed, kind, address, mask, more)) continue;
        deeds_done[i].met = true;
        deeds_done[i].address = address;
        if (deed->flags & READS_OLD) compare(me, address, deed->mask & mask, deed->old, old);
        return;
    }
}

void wrote(struct thread *me, uint64_t granule, uint64_t value) {
    if (mover != me) return;
    const struct move *move = &moves[place];
    for (unsigned i = 0; i < move->count && mover == me; i++) {
        const struct deed *deed = &deeds[move->first + i];
        bool is_it = deed->kind == WRITE && deed->flags & EXACT && deeds_done[i].met && deeds_done[i].address == granule;
        if (is_it) compare(me, granule, deed->mask, deed->new, value);
    }
}

void block_freed(uintptr_t address, size_t size) {
    freed[freed_count].address = address;
    freed[freed_count++ % MOST_FREED].size = size;
    freed_count %= MOST_FREED;
}

void block_made(uintptr_t address, size_t size) {
    for (unsigned i = 0; i < MOST_FREED; i++)
        if (freed[i].address < address + size && address < freed[i].address + freed[i].size) freed[i].size = 0;
}

/* ---- Moves ---- */

static void finish_move(struct thread *me) {
    const struct move *move = &moves[place];
    bool undone = false;
    for (unsigned i = 0; i < move->count; i++) undone |= !deeds_done[i].met;
    if (move->kind == ATTEMPT && me->state != BLOCKED) {
        leave_script(me, LEFT_TOOK, place);
    } else if (undone && move->kind == MOVE) {
        leave_script(me, LEFT_UNDONE, place);
        head->follow.left_caller = move->caller;
        head->follow.left_at = begun_at;
    } else {
        mover = NULL;
        me->next_move++;
        head->follow.done = ++place;
        if (place < script->move_count && moves[place].kind != STOP) return;
        head->follow.over = 1;
        end_script();
    }
}

static struct thread *holder_of(const volatile void *lock, const struct thread *me) {
    for (unsigned i = 0; i < live_count; i++)
        for (int k = 0; k < live[i]->held_count && live[i] != me; k++)
            if (live[i]->held[k].lock == lock) return live[i];
    return NULL;
}

/* The move is done where what its thread waits for comes behind it; an attempt is, where it waits for a lock. */
void begin_wait(struct thread *me, enum waits kind, const volatile void *what) {
    if (mover != me) return;
    struct follow *follow = &head->follow;
    bool attempts = moves[place].kind == ATTEMPT && kind == FOR_LOCK && follow->waiters < MOST_CYCLE;
    if (!attempts && distance(me, &moves[place]) <= 0) return;
    if (attempts) {
        const struct thread *holder = holder_of(what, me);
        follow->waiter[follow->waiters] = me->number;
        follow->holder[follow->waiters++] = holder ? holder->number : 0;
    }
    me->state = BLOCKED;
    finish_move(me);
}

static void stop_for_debugger(void) {
    dprintf(STDERR_FILENO,
            "gprecord: process %d stands before the first event of the instance, in thread %u; attach a debugger to it, or let it "
            "go on by: kill -CONT %d\n",
            getpid(), mover->number, getpid());
    kill(getpid(), SIGSTOP);
}

/* The thread stands at its move until it is its turn, or the script is over. */
static void stand(struct thread *me) {
    me->stands = true;
    me->restless = false;
    me->free_steps = 0;
    pass_on(me);
    me->stands = false;
    if (mover != me) return;
    if (moves[place].caller != me->caller) leave_script(me, LEFT_ELSEWHERE, place);
    if (mover == me && place == script->pause) stop_for_debugger();
}

static void count_free_step(struct thread *me) {
    if (++me->free_steps < PATIENCE) return;
    me->restless = true;
    me->free_steps = PATIENCE - SLICE;
    pass_on(me);
}

void checkpoint(struct thread *me) {
    if (!following) {
        if (!scripted || head->used <= script->mark) return;
        following = true;
        moved_at = real_clock();
    }
    if (mover == me && distance(me, &moves[place]) <= 0) return;
    if (mover == me) finish_move(me);
    const struct move *next = following ? next_of(me) : NULL;
    if (next && distance(me, next) > 0) {
        leave_script(me, LEFT_PAST, me->next_move);
    } else if (next && distance(me, next) == 0) {
        stand(me);
    } else if (following) {
        count_free_step(me);
    }
}

void count_step(struct thread *me, uintptr_t caller) {
    if (caller - foreign_low < foreign_size) return;
    me->steps++;
    me->caller = caller;
    me->phase = 0;
    if (scripted) checkpoint(me);
}

void end_of_thread(struct thread *me) {
    if (!following) return;
    if (mover == me) finish_move(me);
    const struct move *next = following ? next_of(me) : NULL;
    if (next && next->kind != STOP) leave_script(me, LEFT_ENDED, me->next_move);
}

/* The process is about to end, with all that others still have to do. */
void await_end_of_script(struct thread *me) {
    if (mover == me) finish_move(me);
    while (following) {
        me->stands = true;
        pass_on(me);
    }
    me->stands = false;
}

/* ---- Who runs ---- */

static struct thread *thread_of(unsigned number) {
    for (unsigned i = 0; i < live_count; i++)
        if (live[i]->number == number) return live[i];
    return NULL;
}

/* One that is ready and stands at no move. */
static struct thread *find_free(bool restless, struct thread *wanted) {
    struct thread *found = NULL;
    for (unsigned i = 0; i < live_count; i++) {
        struct thread *thread = live[i];
        bool fits = thread->state == READY && !thread->stands && thread->restless == restless;
        if (fits && (!found || thread == wanted)) found = thread;
    }
    return found;
}

/* One that only lets time pass: its time is up at once. */
static struct thread *end_sleep(void) {
    for (unsigned i = 0; i < live_count; i++) {
        struct thread *thread = live[i];
        if (thread->state != BLOCKED || thread->wait.kind != FOR_TIME || thread->restless) continue;
        if (thread->wait.deadline > game_clock) game_clock = thread->wait.deadline;
        thread->free_steps += SLICE;
        thread->restless = thread->free_steps >= PATIENCE;
        make_ready(thread, true);
        return thread;
    }
    return NULL;
}

static bool are_expected(void) {
    bool found = false;
    for (unsigned i = 0; i < live_count; i++) found |= live[i]->state == OUTSIDE && !live[i]->restless;
    return found;
}

static void expect_no_longer(void) {
    for (unsigned i = 0; i < live_count; i++)
        if (live[i]->state == OUTSIDE) live[i]->restless = true;
}

static struct thread *begin_move(struct thread *thread) {
    mover = thread;
    thread->stands = false;
    moved_at = real_clock();
    begun_at = head->used;
    memset(deeds_done, 0, sizeof deeds_done);
    head->follow.begun = place + 1;
    return thread;
}

/* Nobody can go on, or what goes on comes to nothing. */
static struct thread *give_script_up(struct thread *wanted) {
    enum left why = LEFT_BUSY;
    if (!wanted) why = LEFT_ENDED;
    if (wanted && wanted->state == OUTSIDE) why = LEFT_OUTSIDE;
    if (wanted && wanted->state == BLOCKED) {
        const struct wait *wait = &wanted->wait;
        const struct thread *holder = wait->kind == FOR_LOCK ? holder_of(wait->what, wanted) : NULL;
        if (wait->kind == FOR_THREAD) holder = (const struct thread *)wait->what;
        why = LEFT_WAITING;
        head->follow.left_wait = wait->kind;
        head->follow.left_holder = holder ? holder->number : 0;
        head->follow.left_place = wait->kind == FOR_THREAD ? 0 : (uint64_t)wait->what;
    }
    leave_script(wanted, why, place);
    if (!wanted) head->follow.left_thread = moves[place].thread;
    return choose();
}

/* Who has a time limit that is up, first of all the one whose move it is. */
static struct thread *end_wait(struct thread *wanted) {
    struct thread *found = wanted && wanted->state == BLOCKED && wanted->wait.deadline != NEVER ? wanted : earliest_sleeper();
    if (!found) return NULL;
    if (found->wait.deadline > game_clock) game_clock = found->wait.deadline;
    make_ready(found, true);
    return found;
}

struct thread *choose_by_script(bool patient) {
    struct thread *next, *wanted = thread_of(moves[place].thread);
    if (mover && mover->state == READY) return mover;
    if ((next = find_free(false, wanted)) || (next = end_sleep())) return next;
    if (patient && !mover && are_expected()) return NULL;
    if (!patient) expect_no_longer();
    bool is_there = wanted && wanted->stands && next_of(wanted) == &moves[place];
    if (!mover && is_there) return begin_move(wanted);
    bool in_time = real_clock() - moved_at < script->limit * SECOND;
    if (in_time && (next = find_free(true, wanted))) return next;
    if (in_time && (next = end_wait(wanted))) return next;
    if (in_time && outside_count) return NULL;
    return give_script_up(wanted);
}
