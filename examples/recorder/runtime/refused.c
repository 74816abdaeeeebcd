/* Calls that change who runs, and that this runtime does not know: the run stops, and says which. And calls by which
 * the process becomes another one. */
#include <stdarg.h>
#include <stdio.h>
#include <unistd.h>

#include "runtime.h"

#define REFUSED(type, name, parameters, ...) \
    API type name parameters { \
        struct thread *me = enter(); \
        if (!me) return REAL(name)(__VA_ARGS__); \
        give_up("the call %s is not one that can be recorded", #name); \
    }

REFUSED(int, pthread_cancel, (pthread_t thread), thread)
REFUSED(int, daemon, (int here, int open), here, open)

/* The child is no part of the recording. */
API pid_t fork(void) {
    struct thread *me = enter_call();
    if (!me) return REAL(fork)();
    pid_t made = REAL(fork)();
    if (made == 0) {
        me->inside = 0;
        return 0;
    }
    LEAVE_WITH(me, made);
}

API pid_t vfork(void) { return fork(); }

/* ---- Another program in the place of this one ends the recording, where it comes about ---- */

#define REPLACES(name, parameters, ...) \
    API int name parameters { \
        struct thread *me = enter(); \
        if (!me) return REAL(name)(__VA_ARGS__); \
        uint32_t word = word_of("the program was replaced by another one: " #name); \
        append(me, GAVE_UP, NULL)->more = word; \
        int made = REAL(name)(__VA_ARGS__); \
        records[me->last_record].kind = NOTHING; \
        LEAVE_WITH(me, made); \
    }

REPLACES(execve, (const char *path, char *const *words, char *const *environment), path, words, environment)
REPLACES(execv, (const char *path, char *const *words), path, words)
REPLACES(execvp, (const char *path, char *const *words), path, words)
REPLACES(execvpe, (const char *path, char *const *words, char *const *environment), path, words, environment)
REPLACES(fexecve, (int file, char *const *words, char *const *environment), file, words, environment)

enum { MOST_WORDS = 1024 };

#define REPLACES_BY_LIST(name, call) \
    API int name(const char *path, const char *word, ...) { \
        char *words[MOST_WORDS + 1] = {(char *)word}; \
        int count = 0; \
        va_list given; \
        va_start(given, word); \
        while (words[count] && count < MOST_WORDS) words[++count] = va_arg(given, char *); \
        words[MOST_WORDS] = NULL; \
        va_end(given); \
        return call(path, words); \
    }

REPLACES_BY_LIST(execl, execv)
REPLACES_BY_LIST(execlp, execvp)
