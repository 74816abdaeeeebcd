/* Descriptors: closing number N is a write of fd_N, and getting N from the kernel is a read of it, which finds how often
 * N was closed before. So no schedule has the one object of the kernel before the end of the other. */
#include <fcntl.h>
#include <stdarg.h>
#include <stdio.h>
#include <sys/epoll.h>
#include <sys/eventfd.h>
#include <sys/socket.h>
#include <unistd.h>

#include "outside.h"

enum { MOST_DESCRIPTORS = 1 << 16 };
static uint32_t closed[MOST_DESCRIPTORS];

static bool is_counted(int descriptor) { return descriptor >= 0 && descriptor < MOST_DESCRIPTORS; }

static void note_descriptor_opened(struct thread *me, int descriptor) {
    if (!recording || !is_counted(descriptor)) return;
    append(me, DESCRIPTOR_OPENED, (void *)(intptr_t)descriptor)->old = closed[descriptor];
}

static void note_descriptor_closed(struct thread *me, int descriptor) {
    if (!is_counted(descriptor)) return;
    closed[descriptor]++;
    if (recording) append(me, DESCRIPTOR_CLOSED, (void *)(intptr_t)descriptor)->new = closed[descriptor];
}

static int opened(struct thread *me, int descriptor) {
    int error = errno;
    note_descriptor_opened(me, descriptor);
    errno = error;
    return descriptor;
}

#define OPENS(name, parameters, ...) \
    API int name parameters { \
        struct thread *me = enter_call(); \
        if (!me) return REAL(name)(__VA_ARGS__); \
        LEAVE_WITH(me, opened(me, REAL(name)(__VA_ARGS__))); \
    }

#define OPENS_OUTSIDE(name, parameters, ...) \
    API int name parameters { \
        struct thread *me = enter_call(); \
        if (!me) return REAL(name)(__VA_ARGS__); \
        LEAVE_WITH(me, opened(me, OUTSIDE_GAME(me, name, __VA_ARGS__))); \
    }

OPENS(socket, (int domain, int type, int protocol), domain, type, protocol)
OPENS(dup, (int old), old)
OPENS(epoll_create, (int size), size)
OPENS(epoll_create1, (int flags), flags)
OPENS(eventfd, (unsigned value, int flags), value, flags)
OPENS(creat, (const char *path, mode_t mode), path, mode)
OPENS_OUTSIDE(accept, (int listener, __SOCKADDR_ARG from, socklen_t *restrict length), listener, from, length)
OPENS_OUTSIDE(accept4, (int listener, __SOCKADDR_ARG from, socklen_t *restrict length, int flags), listener, from, length,
              flags)
BLOCKING(int, connect, (int descriptor, __CONST_SOCKADDR_ARG to, socklen_t length), descriptor, to, length)

/* A file's mode is there only where it may be made. */
#define OPENS_FILE(name, parameters, last, ...) \
    API int name parameters { \
        va_list words; \
        va_start(words, last); \
        mode_t mode = flags & (O_CREAT | __O_TMPFILE) ? va_arg(words, mode_t) : 0; \
        va_end(words); \
        struct thread *me = enter_call(); \
        if (!me) return REAL(name)(__VA_ARGS__, mode); \
        LEAVE_WITH(me, opened(me, REAL(name)(__VA_ARGS__, mode))); \
    }

OPENS_FILE(open, (const char *path, int flags, ...), flags, path, flags)
OPENS_FILE(open64, (const char *path, int flags, ...), flags, path, flags)
OPENS_FILE(openat, (int folder, const char *path, int flags, ...), flags, folder, path, flags)
OPENS_FILE(openat64, (int folder, const char *path, int flags, ...), flags, folder, path, flags)

static int opened_two(struct thread *me, const int *two, int failed) {
    if (failed) return failed;
    note_written(me, two, 2 * sizeof *two);
    note_descriptor_opened(me, two[0]);
    note_descriptor_opened(me, two[1]);
    return failed;
}

#define OPENS_TWO(name, parameters, ...) \
    API int name parameters { \
        struct thread *me = enter_call(); \
        if (!me) return REAL(name)(__VA_ARGS__); \
        LEAVE_WITH(me, opened_two(me, two, REAL(name)(__VA_ARGS__))); \
    }

OPENS_TWO(pipe, (int two[2]), two)
OPENS_TWO(pipe2, (int two[2], int flags), two, flags)
OPENS_TWO(socketpair, (int domain, int type, int protocol, int two[2]), domain, type, protocol, two)

/* ---- The ends: logged before the call, behind which anybody may be given the number again ---- */

API int close(int descriptor) {
    struct thread *me = enter_call();
    if (!me) return REAL(close)(descriptor);
    note_descriptor_closed(me, descriptor);
    LEAVE_WITH(me, REAL(close)(descriptor));
}

API int fclose(FILE *stream) {
    struct thread *me = enter_call();
    if (!me) return REAL(fclose)(stream);
    note_descriptor_closed(me, fileno(stream));
    LEAVE_WITH(me, REAL(fclose)(stream));
}

/* The number is taken from what it stood for. */
#define TAKES_OVER(name, parameters, ...) \
    API int name parameters { \
        struct thread *me = enter_call(); \
        if (!me) return REAL(name)(__VA_ARGS__); \
        note_descriptor_closed(me, new); \
        LEAVE_WITH(me, opened(me, REAL(name)(__VA_ARGS__))); \
    }

TAKES_OVER(dup2, (int old, int new), old, new)
TAKES_OVER(dup3, (int old, int new, int flags), old, new, flags)

#define OPENS_STREAM(name, parameters, ...) \
    API FILE *name parameters { \
        struct thread *me = enter_call(); \
        FILE *stream = REAL(name)(__VA_ARGS__); \
        if (!me) return stream; \
        if (stream) opened(me, fileno(stream)); \
        LEAVE_WITH(me, stream); \
    }

OPENS_STREAM(fopen, (const char *restrict path, const char *restrict mode), path, mode)
OPENS_STREAM(fopen64, (const char *restrict path, const char *restrict mode), path, mode)
