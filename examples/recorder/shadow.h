/* A table with an entry for each granule of the program's memory that was ever looked up.
 *
 * The first level has a place for each piece of 16 MiB of the address space, the second one, made when it is first
 * asked for, an entry for each granule. Memory that is never touched costs nothing, as the kernel gives it by the
 * page. The runtime and the writer each have entries of their own. */
#ifndef SHADOW_H
#define SHADOW_H

#include <stddef.h>
#include <stdint.h>
#include <sys/mman.h>

#include "format.h"

enum { PIECE_BITS = 24, ADDRESS_BITS = 47, PIECES = 1 << (ADDRESS_BITS - PIECE_BITS) };
#define PIECE_BYTES ((uintptr_t)1 << PIECE_BITS)
#define PIECE_GRANULES (PIECE_BYTES / GRANULE)

/* Memory from the kernel, all zero, of which only what is touched is there. NULL where there is none. */
static inline void *fresh_memory(size_t size) {
    void *made = mmap(NULL, size, PROT_READ | PROT_WRITE, MAP_PRIVATE | MAP_ANONYMOUS | MAP_NORESERVE, -1, 0);
    return made == MAP_FAILED ? NULL : made;
}

/* A range's entries are cleared one by one where it is short, and by giving pages back where it is long. */
enum { LONG_CLEAR = 1 << 16 };

static inline void clear_entries(char *from, char *to) {
    if (to - from < LONG_CLEAR) {
        for (uint64_t *at = (uint64_t *)from; at < (uint64_t *)to; at++) *at = 0;
        return;
    }
    char *first = (char *)(((uintptr_t)from + 4095) & ~(uintptr_t)4095), *last = (char *)((uintptr_t)to & ~(uintptr_t)4095);
    clear_entries(from, first);
    madvise(first, (size_t)(last - first), MADV_DONTNEED);
    clear_entries(last, to);
}

/* SHADOW(name, type) makes name_top, name_of(address) and name_clear(address, size). `failed` is called where there
 * is no memory. */
#define SHADOW(name, type, failed) \
    static type **name##_top; \
    static inline type *name##_piece(uintptr_t address) { \
        if (!name##_top && !(name##_top = fresh_memory(PIECES * sizeof(type *)))) failed; \
        type **piece = &name##_top[address >> PIECE_BITS & (PIECES - 1)]; \
        if (!*piece && !(*piece = fresh_memory(PIECE_GRANULES * sizeof(type)))) failed; \
        return *piece; \
    } \
    static inline type *name##_of(uintptr_t address) { \
        type *piece = name##_top ? name##_top[address >> PIECE_BITS & (PIECES - 1)] : NULL; \
        if (__builtin_expect(!piece, 0)) piece = name##_piece(address); \
        return &piece[(address & (PIECE_BYTES - 1)) / GRANULE]; \
    } \
    static inline void name##_clear(uintptr_t address, size_t size) { \
        uintptr_t at = address & ~(uintptr_t)(GRANULE - 1), end = (address + size + GRANULE - 1) & ~(uintptr_t)(GRANULE - 1); \
        while (at < end && name##_top) { \
            uintptr_t next = (at | (PIECE_BYTES - 1)) + 1, stop = next < end ? next : end; \
            type *piece = name##_top[at >> PIECE_BITS & (PIECES - 1)]; \
            if (piece) { \
                type *from = &piece[(at & (PIECE_BYTES - 1)) / GRANULE]; \
                clear_entries((char *)from, (char *)(from + (stop - at) / GRANULE)); \
            } \
            at = stop; \
        } \
    }

#endif
