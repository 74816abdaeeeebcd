/* Accesses: what is logged of them, and the sanitizer's hooks.
 *
 * Each granule has a cell in the shadow, with the thread that touched it last, the segment of that thread, and which
 * bytes it read and wrote in it. What a thread does between two of its synchronisations is a segment.
 *
 * Where no other thread has touched a granule yet, a segment has at most one read and one write of it in the log: the
 * first read with what it found, the first write with what the last one left. Where one has, each write is logged, and
 * each read but those that repeat: the thread has read these bytes in this segment, and nobody wrote them since. */
#include <string.h>

#include "../shadow.h"
#include "runtime.h"

enum { PRIVATE_TURN = 512 };

struct cell {
    uint32_t segment, read_at, write_at; /* the records of this segment, or 0 */
    uint8_t owner, shared, read, written;
    uint64_t value; /* of the granule, behind the last access that was logged */
};

SHADOW(cell, struct cell, give_up("there is no memory for %s", "the shadow"))

static uint64_t load(uintptr_t granule) { return *(volatile uint64_t *)granule; }

static uint64_t bytes_of(unsigned mask) {
    uint64_t bytes = 0;
    for (unsigned i = 0; i < GRANULE; i++)
        if (mask >> i & 1) bytes |= (uint64_t)0xff << 8 * i;
    return bytes;
}

/* ---- Writes are hooked before they are done, and read back at the thread's next hook ---- */

__attribute__((noinline)) static void tell_written(struct thread *me) {
    for (unsigned i = 0; i < me->pending_count; i++) wrote(me, me->pending[i].granule, me->pending[i].cell->value);
}

void settle_all(struct thread *me) {
    for (unsigned i = 0; i < me->pending_count; i++) {
        struct cell *cell = me->pending[i].cell;
        cell->value = load(me->pending[i].granule);
        if (!cell->shared || !cell->write_at) continue;
        records[cell->write_at].new = cell->value;
        records[cell->write_at].more &= ~(uint32_t)UNSETTLED;
    }
    if (__builtin_expect(following, 0)) tell_written(me);
    me->pending_count = 0;
}

static void await_write(struct thread *me, struct cell *cell, uintptr_t granule) {
    if (me->pending_count == MOST_PENDING) settle_all(me);
    me->pending[me->pending_count++] = (struct pending){cell, granule};
}

/* The write of a cell that only its owner touched has its value once something else is logged of the cell. */
static void flush(struct cell *cell) {
    if (cell->shared || !cell->write_at) return;
    records[cell->write_at].new = cell->value;
    records[cell->write_at].more &= ~(uint32_t)UNSETTLED;
}

/* ---- What is logged ---- */

static bool is_shared(const struct thread *me, const struct cell *cell) {
    return cell->shared || (cell->owner && cell->owner != me->number);
}

/* The thread's first access to the cell in this segment, or behind another thread's. */
static void begin_run(const struct thread *me, struct cell *cell) {
    flush(cell);
    if (is_shared(me, cell)) cell->shared = 1;
    cell->owner = (uint8_t)me->number;
    cell->segment = me->segment;
    cell->read = cell->written = 0;
    cell->read_at = cell->write_at = 0;
}

static uint32_t log_piece(struct thread *me, enum kind kind, uintptr_t granule, unsigned mask, unsigned cuts) {
    struct record *record = append(me, kind, (void *)granule);
    record->mask = (uint8_t)mask;
    record->cuts = (uint8_t)cuts;
    record->old = record->new = load(granule);
    return (uint32_t)(record - records);
}

static void widen(struct thread *me, struct record *record, unsigned mask, unsigned cuts) {
    head->private_accesses++;
    note_merged(me, record, mask & ~(unsigned)record->mask);
    record->mask |= (uint8_t)mask;
    record->cuts |= (uint8_t)cuts;
}

static void log_read(struct thread *me, struct cell *cell, uintptr_t granule, unsigned mask, unsigned cuts) {
    if (cell->segment != me->segment || cell->owner != me->number) begin_run(me, cell);
    struct record *record = &records[cell->read_at];
    if (!cell->shared) mask &= ~(unsigned)cell->written; /* of its own writes of this segment the last value is there */
    if (!cell->shared && cell->read_at && !((record->old ^ load(granule)) & bytes_of(mask))) {
        widen(me, record, mask, cuts);
    } else {
        cell->read_at = log_piece(me, READ, granule, mask, cuts);
    }
    cell->read |= (uint8_t)mask;
}

static void log_write(struct thread *me, struct cell *cell, uintptr_t granule, unsigned mask, unsigned cuts) {
    if (cell->segment != me->segment || cell->owner != me->number) begin_run(me, cell);
    struct record *record = &records[cell->write_at];
    bool was_read = cell->read_at > cell->write_at && cell->read & mask & ~(unsigned)record->mask;
    if (!cell->shared && cell->write_at && was_read) begin_run(me, cell);
    if (!cell->shared && cell->write_at) {
        uint64_t more = bytes_of(mask & ~(unsigned)record->mask);
        record->old = (record->old & ~more) | (load(granule) & more);
        widen(me, record, mask, cuts);
    } else {
        cell->write_at = log_piece(me, WRITE, granule, mask, cuts);
        records[cell->write_at].more = UNSETTLED;
    }
    if (cell->shared) {
        cell->read &= (uint8_t)~mask;
    } else {
        cell->written |= (uint8_t)mask;
    }
}

/* ---- Pieces: what an access has to do with each granule ---- */

struct piece {
    uintptr_t granule;
    unsigned mask, cuts;
};

/* The bytes of a granule that lie in [from, to). */
static struct piece piece_of(uintptr_t from, uintptr_t to) {
    uintptr_t granule = from & ~(uintptr_t)(GRANULE - 1);
    unsigned first = (unsigned)(from - granule), end = to - granule < GRANULE ? (unsigned)(to - granule) : GRANULE;
    return (struct piece){granule, (0xffu << first) & (0xffu >> (GRANULE - end)), (1u << first | 1u << end) & 0xffu};
}

#define EACH_PIECE(piece, address, size) \
    for (uintptr_t at_ = (uintptr_t)(address), to_ = at_ + (size), next_; at_ < to_; at_ = next_) \
        for (struct piece piece = (next_ = (at_ | (GRANULE - 1)) + 1, piece_of(at_, to_)); piece.mask; piece.mask = 0)

static bool is_known(const struct thread *me, const struct cell *cell, unsigned mask) {
    return cell->segment == me->segment && cell->owner == me->number && !(mask & ~(unsigned)(cell->read | cell->written));
}

static void read_piece(struct thread *me, struct piece piece) {
    struct cell *cell = cell_of(piece.granule);
    if (following) do_deed(me, READ, piece.granule, piece.mask, load(piece.granule), 0);
    if (!is_known(me, cell, piece.mask)) {
        log_read(me, cell, piece.granule, piece.mask, piece.cuts);
    } else if (cell->shared) {
        head->repeated_reads++;
    } else {
        head->private_accesses++;
    }
}

static struct cell *write_piece(struct thread *me, struct piece piece) {
    struct cell *cell = cell_of(piece.granule);
    bool known = cell->segment == me->segment && !cell->shared && !(piece.mask & ~(unsigned)cell->written);
    if (following) do_deed(me, WRITE, piece.granule, piece.mask, 0, 0);
    if (known && __builtin_expect(counting, 0)) note_merged(me, &records[cell->write_at], 0);
    if (known) {
        head->private_accesses++;
    } else {
        log_write(me, cell, piece.granule, piece.mask, piece.cuts);
    }
    return cell;
}

void note_read(struct thread *me, const volatile void *address, size_t size) {
    if (!recording) return;
    EACH_PIECE(piece, address, size) read_piece(me, piece);
}

void note_write(struct thread *me, const volatile void *address, size_t size) {
    if (!recording) return;
    EACH_PIECE(piece, address, size) await_write(me, write_piece(me, piece), piece.granule);
}

/* A write of any size by a call: what is there before it, and then what is there behind it. */
void begin_write(struct thread *me, const volatile void *address, size_t size) {
    if (!recording) return;
    EACH_PIECE(piece, address, size) write_piece(me, piece);
}

void end_write(struct thread *me, const volatile void *address, size_t size) {
    if (!recording) return;
    EACH_PIECE(piece, address, size) {
        await_write(me, cell_of(piece.granule), piece.granule);
        settle_all(me);
    }
}

void note_written(struct thread *me, const volatile void *address, size_t size) {
    if (!recording) return;
    EACH_PIECE(piece, address, size) {
        struct cell *cell = write_piece(me, piece);
        records[cell->write_at].more |= OLD_UNKNOWN;
        await_write(me, cell, piece.granule);
        settle_all(me);
    }
}

/* ---- Atomic accesses: each is logged, but a load that repeats the thread's last record ---- */

static bool repeats_load(const struct thread *me, const struct cell *cell, struct piece piece, unsigned flags) {
    const struct record *record = &records[me->load_record];
    return flags == READS && me->loaded == cell && me->last_record == me->load_record && cell->owner == me->number &&
           cell->segment == me->segment && record->mask == piece.mask && record->old == load(piece.granule);
}

static void log_atomic(struct thread *me, struct piece piece, uint64_t old, unsigned flags) {
    struct cell *cell = cell_of(piece.granule);
    if (following) do_deed(me, ATOMIC, piece.granule, piece.mask, old, flags);
    if (repeats_load(me, cell, piece, flags)) {
        head->repeated_reads++;
        return;
    }
    begin_run(me, cell);
    struct record *record = note(me, ATOMIC, (void *)piece.granule);
    record->mask = (uint8_t)piece.mask;
    record->cuts = (uint8_t)piece.cuts;
    record->more = flags;
    record->old = old;
    record->new = cell->value = load(piece.granule);
    cell->segment = me->segment;
    me->loaded = flags == READS ? cell : NULL;
    me->load_record = me->last_record;
}

void note_atomic(struct thread *me, const volatile void *address, size_t size, const void *old, unsigned flags) {
    if (!recording) return;
    uintptr_t begin = (uintptr_t)address, end = begin + size;
    EACH_PIECE(piece, address, size) {
        uint64_t before = load(piece.granule);
        for (unsigned i = 0; i < GRANULE; i++)
            if (piece.mask >> i & 1) ((unsigned char *)&before)[i] = ((const unsigned char *)old)[piece.granule + i - begin];
        log_atomic(me, piece, before, flags | (piece.granule + GRANULE < end ? CONTINUES : 0));
    }
}

void note_count(struct thread *me, const volatile void *object, uint64_t old, uint64_t new) {
    if (following) do_deed(me, COUNT, (uint64_t)object, 0xff, old, 0);
    struct record *record = note(me, COUNT, object);
    record->old = old;
    record->new = new;
}

/* ---- Memory that comes and goes ---- */

void forget_range(uintptr_t address, size_t size) {
    if (log_open && size) cell_clear(address, size);
}

/* The memory is given back by this thread, for which that counts as touching all of it. */
bool forget_memory(struct thread *me, uintptr_t address, size_t size) {
    bool by_others = false;
    if (!log_open || !recording) return false;
    for (uintptr_t at = address & ~(uintptr_t)(GRANULE - 1); at < address + size; at += GRANULE) {
        struct cell *cell = cell_of(at);
        if (cell->owner && cell->owner != me->number) flush(cell);
        by_others |= is_shared(me, cell);
    }
    cell_clear(address, size);
    return by_others;
}

/* ---- The sanitizer's hooks ---- */

/* Counts an access to what only this thread has to do with, and that is in the log already. Now and then it is a turn
 * point, so that two threads that touch the same without any call come to touch it by turns; false behind one. */
static inline bool stays_private(struct thread *me) {
    if (__builtin_expect(++head->private_accesses & (PRIVATE_TURN - 1), 1)) return true;
    turn_point(me);
    return false;
}

/* Accesses that are not recorded give the turn too, but seldom, as nobody knows whether others touch the cell. */
static void hook_unrecorded(struct thread *me) {
    if (log_open) ++*(has_begun() ? &head->paused_accesses : &head->early_accesses);
    seldom_turn_point(me);
}

static void hook_stray(const struct thread *me) {
    if (!head || !log_open) return;
    if (me) {
        head->inner_accesses++;
    } else {
        head->stray_accesses++;
    }
}

static bool touches_shared(const struct thread *me, const volatile void *address, size_t size) {
    return is_shared(me, cell_of((uintptr_t)address)) ||
           (((uintptr_t)address & (GRANULE - 1)) + size > GRANULE && is_shared(me, cell_of((uintptr_t)address + size - 1)));
}

__attribute__((noinline)) static void slow_hook(struct thread *me, const volatile void *address, size_t size, bool write) {
    if (!recording) {
        hook_unrecorded(me);
        return;
    }
    if (touches_shared(me, address, size)) {
        turn_point(me);
    } else {
        seldom_turn_point(me);
    }
    (write ? note_write : note_read)(me, address, size);
}

/* Whether the access is one of a script, and is noted as such. */
__attribute__((noinline)) static bool follows(struct thread *me, const volatile void *address, size_t size, bool write,
                                              uintptr_t caller) {
    count_step(me, caller);
    if (!following) return false;
    (write ? note_write : note_read)(me, address, size);
    leave(me);
    return true;
}

static inline __attribute__((always_inline)) void hook(const volatile void *address, size_t size, bool write) {
    struct thread *me = self;
    if (__builtin_expect(!me || me->inside, 0)) {
        hook_stray(me);
        return;
    }
    me->inside = 1;
    if (me->pending_count) settle_all(me);
    me->frame = __builtin_frame_address(0);
    if (__builtin_expect(counting, 0) && follows(me, address, size, write, (uintptr_t)__builtin_return_address(0))) return;
    unsigned offset = (unsigned)((uintptr_t)address & (GRANULE - 1));
    struct cell *cell = NULL;
    if (recording && offset + size <= GRANULE) {
        cell = cell_of((uintptr_t)address);
        unsigned mask = ((1u << size) - 1) << offset, known = write ? cell->written : cell->read | cell->written;
        if (cell->segment != me->segment || cell->shared || mask & ~known) cell = NULL;
    }
    if (__builtin_expect(!cell || !stays_private(me), 0)) {
        slow_hook(me, address, size, write);
    } else if (write) {
        if (__builtin_expect(counting, 0)) note_merged(me, &records[cell->write_at], 0);
        await_write(me, cell, (uintptr_t)address - offset);
    }
    leave(me);
}

#define HOOKS(size) \
    API void __tsan_read##size(const volatile void *address) { hook(address, size, false); } \
    API void __tsan_write##size(const volatile void *address) { hook(address, size, true); } \
    API void __tsan_unaligned_read##size(const volatile void *address) { hook(address, size, false); } \
    API void __tsan_unaligned_write##size(const volatile void *address) { hook(address, size, true); } \
    API void __tsan_volatile_read##size(const volatile void *address) { hook(address, size, false); } \
    API void __tsan_volatile_write##size(const volatile void *address) { hook(address, size, true); } \
    API void __tsan_unaligned_volatile_read##size(const volatile void *address) { hook(address, size, false); } \
    API void __tsan_unaligned_volatile_write##size(const volatile void *address) { hook(address, size, true); } \
    API void __tsan_read_write##size(const volatile void *address) { \
        hook(address, size, false); \
        hook(address, size, true); \
    } \
    API void __tsan_unaligned_read_write##size(const volatile void *address) { __tsan_read_write##size(address); }

HOOKS(1) HOOKS(2) HOOKS(4) HOOKS(8) HOOKS(16)

API void __tsan_init(void) {}
API void __tsan_func_entry(UNUSED void *caller) {}
API void __tsan_func_exit(void) {}
API void __tsan_vptr_read(void **address) { hook(address, sizeof *address, false); }
API void __tsan_vptr_update(void **address, UNUSED void *value) { hook(address, sizeof *address, true); }
API void __tsan_read_range(const volatile void *address, unsigned long size) { hook(address, size, false); }
API void __tsan_write_range(const volatile void *address, unsigned long size) { hook(address, size, true); }
