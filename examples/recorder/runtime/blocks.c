/* Memory: blocks come and go, so that an address is not taken for two cells; and their end is something that happens.
 *
 * The blocks are those of the C library, which is called by the names that it keeps for this. */
#include <malloc.h>
#include <stdarg.h>
#include <stdlib.h>
#include <string.h>
#include <sys/mman.h>
#include <sys/shm.h>
#include <wchar.h>

#include "runtime.h"

void *__libc_malloc(size_t size);
void *__libc_calloc(size_t count, size_t size);
void *__libc_realloc(void *block, size_t size);
void *__libc_memalign(size_t align, size_t size);
void __libc_free(void *block);

static void *made(struct thread *me, void *block, size_t size, void *caller) {
    if (block) {
        struct record *record = append(me, BLOCK, block);
        record->old = size;
        record->new = (uintptr_t)caller;
    }
    if (block && following) block_made((uintptr_t)block, size);
    return block;
}

/* The block that the call before this made was made for the caller of another one. */
static void *made_for(void *block, void *caller) {
    struct thread *me = self;
    if (block && me && !me->inside && records[me->last_record].kind == BLOCK) records[me->last_record].new = (uintptr_t)caller;
    return block;
}

static void ended(struct thread *me, void *block, size_t size) {
    struct record *record = append(me, FREE, block);
    record->old = size;
    if (forget_memory(me, (uintptr_t)block, size)) note_far_site(me, record);
    if (following) block_freed((uintptr_t)block, size);
}

#define MAKES(name, parameters, size, call) \
    API void *name parameters { \
        struct thread *me = enter(); \
        if (!me) return call; \
        LEAVE_WITH(me, made(me, call, size, __builtin_return_address(0))); \
    }

MAKES(malloc, (size_t size), size, __libc_malloc(size))
MAKES(calloc, (size_t count, size_t size), count * size, __libc_calloc(count, size))
MAKES(memalign, (size_t align, size_t size), size, __libc_memalign(align, size))
MAKES(aligned_alloc, (size_t align, size_t size), size, __libc_memalign(align, size))
MAKES(valloc, (size_t size), size, __libc_memalign(4096, size))

API int posix_memalign(void **place, size_t align, size_t size) {
    if (align < sizeof(void *) || (align & (align - 1))) return EINVAL;
    struct thread *me = enter();
    void *block = __libc_memalign(align, size);
    if (me) {
        made(me, block, size, __builtin_return_address(0));
        if (block) note_write(me, place, sizeof *place);
    }
    if (block) *place = block;
    if (me) leave(me);
    return block ? 0 : ENOMEM;
}

API void free(void *block) {
    struct thread *me = block ? enter_call() : NULL;
    if (me) ended(me, block, malloc_usable_size(block));
    __libc_free(block);
    if (me) leave(me);
}

API void *realloc(void *block, size_t size) {
    struct thread *me = enter();
    if (!me) return __libc_realloc(block, size);
    if (block) {
        size_t before = malloc_usable_size(block);
        note_read(me, block, before < size ? before : size);
        ended(me, block, before);
    }
    LEAVE_WITH(me, made(me, __libc_realloc(block, size), size, __builtin_return_address(0)));
}

API void *reallocarray(void *block, size_t count, size_t size) {
    if (size && count > SIZE_MAX / size) {
        errno = ENOMEM;
        return NULL;
    }
    return made_for(realloc(block, count * size), __builtin_return_address(0));
}

/* ---- Copies of strings, which are blocks ---- */

static char *copy_string(const char *text, size_t length, void *caller) {
    char *block = made_for(malloc(length + 1), caller);
    struct thread *me = block ? enter() : NULL;
    if (block) {
        REAL(memcpy)(block, text, length);
        block[length] = 0;
    }
    if (!me) return block;
    note_read(me, text, length + 1);
    note_written(me, block, length + 1);
    LEAVE_WITH(me, block);
}

API char *strdup(const char *text) { return copy_string(text, REAL(strlen)(text), __builtin_return_address(0)); }
API char *__strdup(const char *text);
API char *__strdup(const char *text) { return copy_string(text, REAL(strlen)(text), __builtin_return_address(0)); }

API char *strndup(const char *text, size_t most) {
    size_t length = REAL(strnlen)(text, most);
    char *block = made_for(malloc(length + 1), __builtin_return_address(0));
    if (!block) return NULL;
    memcpy(block, text, length);
    block[length] = 0;
    return block;
}

/* ---- Pages ---- */

static void *mapped(struct thread *me, void *pages, size_t size, void *caller) {
    if (pages == MAP_FAILED) return pages;
    forget_range((uintptr_t)pages, size);
    return made(me, pages, size, caller);
}

#define MAPS(name, offset_type) \
    API void *name(void *wanted, size_t size, int protection, int flags, int file, offset_type offset) { \
        struct thread *me = enter(); \
        if (!me) return REAL(name)(wanted, size, protection, flags, file, offset); \
        void *pages = REAL(name)(wanted, size, protection, flags, file, offset); \
        LEAVE_WITH(me, mapped(me, pages, size, __builtin_return_address(0))); \
    }

MAPS(mmap, off_t)
MAPS(mmap64, off64_t)

API int munmap(void *pages, size_t size) {
    struct thread *me = enter_call();
    if (!me) return REAL(munmap)(pages, size);
    ended(me, pages, size);
    LEAVE_WITH(me, REAL(munmap)(pages, size));
}

API void *mremap(void *pages, size_t before, size_t size, int flags, ...) {
    va_list words;
    va_start(words, flags);
    void *wanted = flags & MREMAP_FIXED ? va_arg(words, void *) : NULL;
    va_end(words);
    struct thread *me = enter();
    if (!me) return REAL(mremap)(pages, before, size, flags, wanted);
    ended(me, pages, before);
    LEAVE_WITH(me, mapped(me, REAL(mremap)(pages, before, size, flags, wanted), size, __builtin_return_address(0)));
}

/* Behind these calls the bytes may be gone, or not be read: so the last write is read back before them. */
#define HIDES(name, parameters, ...) \
    API int name parameters { \
        struct thread *me = enter(); \
        if (!me) return REAL(name)(__VA_ARGS__); \
        LEAVE_WITH(me, REAL(name)(__VA_ARGS__)); \
    }

HIDES(madvise, (void *pages, size_t size, int advice), pages, size, advice)
HIDES(mprotect, (void *pages, size_t size, int protection), pages, size, protection)
HIDES(shmdt, (const void *pages), pages)
