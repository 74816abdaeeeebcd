/* Copies and comparisons of bytes and strings by the C library, with what they read and write; also by the names under
 * which they go where a program is built with _FORTIFY_SOURCE. */
#include <stdarg.h>
#include <stdio.h>
#include <stdlib.h>
#include <string.h>
#include <strings.h>
#include <wchar.h>

#include "runtime.h"

static void stop_overflow(void) { give_up("%s", "a call would write behind the end of what it writes into"); }

/* ---- Bytes ---- */

API void *memmove(void *to, const void *from, size_t size) {
    struct thread *me = size ? enter_call() : NULL;
    if (!me) return REAL(memmove)(to, from, size);
    note_read(me, from, size);
    begin_write(me, to, size);
    REAL(memmove)(to, from, size);
    end_write(me, to, size);
    LEAVE_WITH(me, to);
}

API void *memset(void *to, int byte, size_t size) {
    struct thread *me = size ? enter_call() : NULL;
    if (!me) return REAL(memset)(to, byte, size);
    begin_write(me, to, size);
    REAL(memset)(to, byte, size);
    end_write(me, to, size);
    LEAVE_WITH(me, to);
}

API void *memcpy(void *restrict to, const void *restrict from, size_t size) { return memmove(to, from, size); }
API void *mempcpy(void *restrict to, const void *restrict from, size_t size) { return (char *)memmove(to, from, size) + size; }
API void bcopy(const void *from, void *to, size_t size) { memmove(to, from, size); }
API void bzero(void *to, size_t size) { memset(to, 0, size); }
API void explicit_bzero(void *to, size_t size) { memset(to, 0, size); }

#define CHECKED(result, name, parameters, arguments, size, room) \
    API result __##name##_chk parameters; \
    API result __##name##_chk parameters { \
        if ((size) > (room)) stop_overflow(); \
        return name arguments; \
    }

CHECKED(void *, memmove, (void *to, const void *from, size_t size, size_t room), (to, from, size), size, room)
CHECKED(void *, memcpy, (void *restrict to, const void *restrict from, size_t size, size_t room), (to, from, size), size, room)
CHECKED(void *, mempcpy, (void *restrict to, const void *restrict from, size_t size, size_t room), (to, from, size), size, room)
CHECKED(void *, memset, (void *to, int byte, size_t size, size_t room), (to, byte, size), size, room)

API void *__tsan_memcpy(void *to, const void *from, size_t size);
API void *__tsan_memcpy(void *to, const void *from, size_t size) { return memmove(to, from, size); }
API void *__tsan_memmove(void *to, const void *from, size_t size);
API void *__tsan_memmove(void *to, const void *from, size_t size) { return memmove(to, from, size); }
API void *__tsan_memset(void *to, int byte, size_t size);
API void *__tsan_memset(void *to, int byte, size_t size) { return memset(to, byte, size); }

/* ---- Strings: each copy is one of as many bytes ---- */

static size_t length_of(const char *text) { return REAL(strlen)(text); }

/* At most so many bytes of the text, and then zeros. */
static char *copy_filled(char *to, const char *from, size_t size) {
    size_t length = REAL(strnlen)(from, size);
    memmove(to, from, length < size ? length + 1 : size);
    if (length + 1 < size) memset(to + length + 1, 0, size - length - 1);
    return to;
}

static char *copy_ended(char *to, const char *from, size_t length) {
    memmove(to, from, length);
    memset(to + length, 0, 1);
    return to + length;
}

API char *strcpy(char *restrict to, const char *restrict from) { return memmove(to, from, length_of(from) + 1); }
API char *stpcpy(char *restrict to, const char *restrict from) {
    size_t length = length_of(from);
    return (char *)memmove(to, from, length + 1) + length;
}
API char *strncpy(char *restrict to, const char *restrict from, size_t size) { return copy_filled(to, from, size); }
API char *stpncpy(char *restrict to, const char *restrict from, size_t size) {
    return copy_filled(to, from, size) + REAL(strnlen)(from, size);
}
API char *strcat(char *restrict to, const char *restrict from) {
    strcpy(to + length_of(to), from);
    return to;
}
API char *strncat(char *restrict to, const char *restrict from, size_t size) {
    copy_ended(to + length_of(to), from, REAL(strnlen)(from, size));
    return to;
}

CHECKED(char *, strcpy, (char *restrict to, const char *restrict from, size_t room), (to, from), length_of(from) + 1, room)
CHECKED(char *, stpcpy, (char *restrict to, const char *restrict from, size_t room), (to, from), length_of(from) + 1, room)
CHECKED(char *, strncpy, (char *restrict to, const char *restrict from, size_t size, size_t room), (to, from, size), size, room)
CHECKED(char *, stpncpy, (char *restrict to, const char *restrict from, size_t size, size_t room), (to, from, size), size, room)
CHECKED(char *, strcat, (char *restrict to, const char *restrict from, size_t room), (to, from),
        length_of(to) + length_of(from) + 1, room)
CHECKED(char *, strncat, (char *restrict to, const char *restrict from, size_t size, size_t room), (to, from, size),
        length_of(to) + REAL(strnlen)(from, size) + 1, room)

/* ---- What only reads ---- */

#define READS_FIRST(result, name, parameters, arguments, noted) \
    API result name parameters { \
        struct thread *me = enter_call(); \
        if (!me) return REAL(name) arguments; \
        noted; \
        LEAVE_WITH(me, REAL(name) arguments); \
    }

/* The bytes up to where two texts differ, or end. */
static void note_compared(struct thread *me, const char *one, const char *other, size_t most) {
    size_t same = 0;
    while (same < most && one[same] == other[same] && one[same]) same++;
    size_t size = same < most ? same + 1 : most;
    note_read(me, one, size);
    note_read(me, other, size);
}

READS_FIRST(size_t, strlen, (const char *text), (text), note_read(me, text, length_of(text) + 1))
READS_FIRST(size_t, strnlen, (const char *text, size_t most), (text, most), note_read(me, text, REAL(strnlen)(text, most)))
READS_FIRST(int, strcmp, (const char *one, const char *other), (one, other), note_compared(me, one, other, SIZE_MAX))
READS_FIRST(int, strncmp, (const char *one, const char *other, size_t most), (one, other, most),
            note_compared(me, one, other, most))
READS_FIRST(int, memcmp, (const void *one, const void *other, size_t size), (one, other, size),
            (note_read(me, one, size), note_read(me, other, size)))
READS_FIRST(int, bcmp, (const void *one, const void *other, size_t size), (one, other, size),
            (note_read(me, one, size), note_read(me, other, size)))

/* ---- What is printed into memory ---- */

API int __vsnprintf_chk(char *to, size_t size, int flag, size_t room, const char *format, va_list words);
API int __vsprintf_chk(char *to, int flag, size_t room, const char *format, va_list words);
API int __snprintf_chk(char *to, size_t size, int flag, size_t room, const char *format, ...);
API int __sprintf_chk(char *to, int flag, size_t room, const char *format, ...);

static int printed(struct thread *me, char *to, size_t size, int made) {
    if (me && size && made >= 0) note_written(me, to, (size_t)made < size ? (size_t)made + 1 : size);
    if (me) leave(me);
    return made;
}

API int vsnprintf(char *restrict to, size_t size, const char *restrict format, va_list words) {
    struct thread *me = enter_call();
    return printed(me, to, size, REAL(vsnprintf)(to, size, format, words));
}

API int vsprintf(char *restrict to, const char *restrict format, va_list words) {
    struct thread *me = enter_call();
    return printed(me, to, SIZE_MAX, REAL(vsprintf)(to, format, words));
}

API int __vsnprintf_chk(char *to, size_t size, int flag, size_t room, const char *format, va_list words) {
    struct thread *me = enter_call();
    return printed(me, to, size, REAL(__vsnprintf_chk)(to, size, flag, room, format, words));
}

API int __vsprintf_chk(char *to, int flag, size_t room, const char *format, va_list words) {
    struct thread *me = enter_call();
    return printed(me, to, SIZE_MAX, REAL(__vsprintf_chk)(to, flag, room, format, words));
}

#define WITH_WORDS(name, parameters, call) \
    API int name parameters { \
        va_list words; \
        va_start(words, format); \
        int made = call; \
        va_end(words); \
        return made; \
    }

WITH_WORDS(snprintf, (char *restrict to, size_t size, const char *restrict format, ...), vsnprintf(to, size, format, words))
WITH_WORDS(sprintf, (char *restrict to, const char *restrict format, ...), vsprintf(to, format, words))
WITH_WORDS(__snprintf_chk, (char *to, size_t size, int flag, size_t room, const char *format, ...),
           __vsnprintf_chk(to, size, flag, room, format, words))
WITH_WORDS(__sprintf_chk, (char *to, int flag, size_t room, const char *format, ...),
           __vsprintf_chk(to, flag, room, format, words))

/* ---- What is sorted: the comparisons are the program's own, and what is moved is written at the end ---- */

API void qsort(void *first, size_t count, size_t size, int (*compare)(const void *, const void *)) {
    REAL(qsort)(first, count, size, compare);
    struct thread *me = enter_call();
    if (!me) return;
    note_written(me, first, count * size);
    leave(me);
}
