/* Calls that bring bytes in and out of the program: they leave the game where they may block, and what they write into
 * the program's memory, or read from it, is recorded. */
#include <limits.h>
#include <stdarg.h>
#include <stdio.h>
#include <stdlib.h>
#include <string.h>
#include <sys/socket.h>
#include <sys/uio.h>
#include <unistd.h>

#include "outside.h"

API ssize_t __read_chk(int descriptor, void *bytes, size_t size, size_t room);
API ssize_t __pread_chk(int descriptor, void *bytes, size_t size, off_t place, size_t room);
API ssize_t __recv_chk(int descriptor, void *bytes, size_t size, size_t room, int flags);
API ssize_t __recvfrom_chk(int descriptor, void *bytes, size_t size, size_t room, int flags, struct sockaddr *from,
                           socklen_t *length);
API size_t __fread_chk(void *bytes, size_t room, size_t size, size_t count, FILE *stream);
API char *__fgets_chk(char *line, size_t room, int size, FILE *stream);
API ssize_t __getdelim(char **line, size_t *room, int end, FILE *stream);

/* ---- In ---- */

#define COMES_IN(name, parameters, ...) \
    API ssize_t name parameters { \
        struct thread *me = enter_call(); \
        if (!me) return REAL(name)(__VA_ARGS__); \
        ssize_t made = BY_DESCRIPTOR(me, descriptor, name, __VA_ARGS__); \
        int error = errno; \
        if (made > 0) note_written(me, bytes, (size_t)made < size ? (size_t)made : size); \
        errno = error; \
        LEAVE_WITH(me, made); \
    }

COMES_IN(read, (int descriptor, void *bytes, size_t size), descriptor, bytes, size)
COMES_IN(__read_chk, (int descriptor, void *bytes, size_t size, size_t room), descriptor, bytes, size, room)
COMES_IN(pread, (int descriptor, void *bytes, size_t size, off_t place), descriptor, bytes, size, place)
COMES_IN(pread64, (int descriptor, void *bytes, size_t size, off64_t place), descriptor, bytes, size, place)
COMES_IN(__pread_chk, (int descriptor, void *bytes, size_t size, off_t place, size_t room), descriptor, bytes, size, place,
         room)
COMES_IN(recv, (int descriptor, void *bytes, size_t size, int flags), descriptor, bytes, size, flags)
COMES_IN(__recv_chk, (int descriptor, void *bytes, size_t size, size_t room, int flags), descriptor, bytes, size, room, flags)
COMES_IN(recvfrom,
         (int descriptor, void *restrict bytes, size_t size, int flags, __SOCKADDR_ARG from, socklen_t *restrict length),
         descriptor, bytes, size, flags, from, length)
COMES_IN(__recvfrom_chk,
         (int descriptor, void *bytes, size_t size, size_t room, int flags, struct sockaddr *from, socklen_t *length),
         descriptor, bytes, size, room, flags, from, length)

static void note_vector(struct thread *me, const struct iovec *parts, size_t count, ssize_t done, bool written) {
    for (size_t i = 0; i < count && done > 0; i++) {
        size_t size = parts[i].iov_len < (size_t)done ? parts[i].iov_len : (size_t)done;
        (written ? note_written : note_read)(me, parts[i].iov_base, size);
        done -= (ssize_t)size;
    }
}

API ssize_t readv(int descriptor, const struct iovec *parts, int count) {
    struct thread *me = enter_call();
    if (!me) return REAL(readv)(descriptor, parts, count);
    ssize_t made = BY_DESCRIPTOR(me, descriptor, readv, descriptor, parts, count);
    int error = errno;
    note_vector(me, parts, (size_t)count, made, true);
    errno = error;
    LEAVE_WITH(me, made);
}

API ssize_t recvmsg(int descriptor, struct msghdr *message, int flags) {
    struct thread *me = enter_call();
    if (!me) return REAL(recvmsg)(descriptor, message, flags);
    ssize_t made = BY_DESCRIPTOR(me, descriptor, recvmsg, descriptor, message, flags);
    int error = errno;
    note_vector(me, message->msg_iov, message->msg_iovlen, made, true);
    errno = error;
    LEAVE_WITH(me, made);
}

/* ---- Out ---- */

#define GOES_OUT(name, parameters, ...) \
    API ssize_t name parameters { \
        struct thread *me = enter_call(); \
        if (!me) return REAL(name)(__VA_ARGS__); \
        note_read(me, bytes, size); \
        LEAVE_WITH(me, BY_DESCRIPTOR(me, descriptor, name, __VA_ARGS__)); \
    }

GOES_OUT(write, (int descriptor, const void *bytes, size_t size), descriptor, bytes, size)
GOES_OUT(pwrite, (int descriptor, const void *bytes, size_t size, off_t place), descriptor, bytes, size, place)
GOES_OUT(pwrite64, (int descriptor, const void *bytes, size_t size, off64_t place), descriptor, bytes, size, place)
GOES_OUT(send, (int descriptor, const void *bytes, size_t size, int flags), descriptor, bytes, size, flags)
GOES_OUT(sendto,
         (int descriptor, const void *bytes, size_t size, int flags, __CONST_SOCKADDR_ARG to, socklen_t length), descriptor,
         bytes, size, flags, to, length)

API ssize_t writev(int descriptor, const struct iovec *parts, int count) {
    struct thread *me = enter_call();
    if (!me) return REAL(writev)(descriptor, parts, count);
    note_vector(me, parts, (size_t)count, SSIZE_MAX, false);
    LEAVE_WITH(me, BY_DESCRIPTOR(me, descriptor, writev, descriptor, parts, count));
}

API ssize_t sendmsg(int descriptor, const struct msghdr *message, int flags) {
    struct thread *me = enter_call();
    if (!me) return REAL(sendmsg)(descriptor, message, flags);
    note_vector(me, message->msg_iov, message->msg_iovlen, SSIZE_MAX, false);
    LEAVE_WITH(me, BY_DESCRIPTOR(me, descriptor, sendmsg, descriptor, message, flags));
}

/* ---- By the streams of the C library ---- */

#define FROM_STREAM(type, name, parameters, noted, ...) \
    API type name parameters { \
        struct thread *me = enter_call(); \
        if (!me) return REAL(name)(__VA_ARGS__); \
        type made = BY_DESCRIPTOR(me, fileno(stream), name, __VA_ARGS__); \
        int error = errno; \
        noted; \
        errno = error; \
        LEAVE_WITH(me, made); \
    }

FROM_STREAM(size_t, fread, (void *bytes, size_t size, size_t count, FILE *stream), note_written(me, bytes, made * size), bytes,
            size, count, stream)
FROM_STREAM(size_t, __fread_chk, (void *bytes, size_t room, size_t size, size_t count, FILE *stream),
            note_written(me, bytes, made * size), bytes, room, size, count, stream)
FROM_STREAM(char *, fgets, (char *line, int size, FILE *stream), if (made) note_written(me, line, strlen(line) + 1), line, size,
            stream)
FROM_STREAM(char *, __fgets_chk, (char *line, size_t room, int size, FILE *stream),
            if (made) note_written(me, line, strlen(line) + 1), line, room, size, stream)
FROM_STREAM(int, fgetc, (FILE * stream), , stream)
FROM_STREAM(int, getc, (FILE * stream), , stream)

/* The block of a line is made by the C library itself, whose own calls do not come through us. */
static void note_line(struct thread *me, char **line, const char *before, ssize_t length, void *caller) {
    note_written(me, line, sizeof *line);
    if (*line && *line != before) {
        struct record *record = append(me, BLOCK, *line);
        record->old = (uint64_t)length + 1;
        record->new = (uintptr_t)caller;
    }
    if (length >= 0) note_written(me, *line, (size_t)length + 1);
}

#define LINE(name, parameters, ...) \
    API ssize_t name parameters { \
        struct thread *me = enter_call(); \
        if (!me) return REAL(name)(__VA_ARGS__); \
        const char *before = *line; \
        ssize_t made = BY_DESCRIPTOR(me, fileno(stream), name, __VA_ARGS__); \
        int error = errno; \
        note_line(me, line, before, made, __builtin_return_address(0)); \
        errno = error; \
        LEAVE_WITH(me, made); \
    }

LINE(getline, (char **line, size_t *room, FILE *stream), line, room, stream)
LINE(getdelim, (char **line, size_t *room, int end, FILE *stream), line, room, end, stream)
LINE(__getdelim, (char **line, size_t *room, int end, FILE *stream), line, room, end, stream)

API size_t fwrite(const void *bytes, size_t size, size_t count, FILE *stream) {
    struct thread *me = enter_call();
    if (!me) return REAL(fwrite)(bytes, size, count, stream);
    note_read(me, bytes, size * count);
    LEAVE_WITH(me, REAL(fwrite)(bytes, size, count, stream));
}
