/* Calls that may block outside of pthreads: the thread leaves the game before the call, and comes back behind it. */
#ifndef OUTSIDE_H
#define OUTSIDE_H

#include "runtime.h"

bool may_block(int descriptor);

/* What a call comes to that is made outside of the game, by a thread `me` of it. */
#define OUTSIDE_GAME(me, name, ...) \
    ({ \
        static uint32_t word_; \
        step_out(me, &word_, #name); \
        __typeof__(REAL(name)(__VA_ARGS__)) made_ = REAL(name)(__VA_ARGS__); \
        int error_ = errno; \
        come_back(me); \
        errno = error_; \
        made_; \
    })

/* As above, but in the game where the descriptor is that of a file, which never keeps anybody waiting. */
#define BY_DESCRIPTOR(me, descriptor, name, ...) \
    (may_block(descriptor) ? OUTSIDE_GAME(me, name, __VA_ARGS__) : REAL(name)(__VA_ARGS__))

/* A call that always may block, and changes no memory that matters. */
#define BLOCKING(type, name, parameters, ...) \
    API type name parameters { \
        struct thread *me = enter_call(); \
        if (!me) return REAL(name)(__VA_ARGS__); \
        LEAVE_WITH(me, OUTSIDE_GAME(me, name, __VA_ARGS__)); \
    }

#endif
