/* The sanitizer's hooks for atomic accesses: each is one, whatever order the program asks for. */
#include "runtime.h"

#define ORDER __ATOMIC_SEQ_CST

static void noted(struct thread *me, const volatile void *address, size_t size, const void *old, unsigned flags) {
    if (!me) return;
    note_atomic(me, address, size, old, flags);
    leave(me);
}

/* An atomic access that leaves in the cell what an expression over `old` and `value` says, and gives `old`. */
#define CHANGE(bits, type, name, result, flags, expression) \
    API result __tsan_atomic##bits##_##name(volatile type *address, type value, UNUSED int order) { \
        struct thread *me = enter_call(); \
        type old = __atomic_load_n(address, ORDER), new; \
        do new = (type)(expression); \
        while (!__atomic_compare_exchange_n(address, &old, new, false, ORDER, ORDER)); \
        noted(me, address, sizeof old, &old, flags); \
        return (result)old; \
    }

#define EXCHANGE_IF(bits, type, name) \
    API int __tsan_atomic##bits##_compare_exchange_##name(volatile type *address, type *expected, type value, int order, \
                                                          int other) { \
        type old = __tsan_atomic##bits##_compare_exchange_val(address, *expected, value, order, other); \
        bool same = old == *expected; \
        *expected = old; \
        return same; \
    }

#define ATOMICS(bits, type) \
    API type __tsan_atomic##bits##_load(const volatile type *address, UNUSED int order) { \
        struct thread *me = enter_call(); \
        type old = __atomic_load_n((volatile type *)address, ORDER); \
        noted(me, address, sizeof old, &old, READS); \
        return old; \
    } \
    API type __tsan_atomic##bits##_compare_exchange_val(volatile type *address, type expected, type value, \
                                                        UNUSED int order, UNUSED int other) { \
        struct thread *me = enter_call(); \
        bool same = __atomic_compare_exchange_n(address, &expected, value, false, ORDER, ORDER); \
        noted(me, address, sizeof value, &expected, same ? READS | WRITES : READS); \
        return expected; \
    } \
    EXCHANGE_IF(bits, type, strong) \
    EXCHANGE_IF(bits, type, weak) \
    CHANGE(bits, type, store, void, WRITES, value) \
    CHANGE(bits, type, exchange, type, READS | WRITES, value) \
    CHANGE(bits, type, fetch_add, type, READS | WRITES, old + value) \
    CHANGE(bits, type, fetch_sub, type, READS | WRITES, old - value) \
    CHANGE(bits, type, fetch_and, type, READS | WRITES, old & value) \
    CHANGE(bits, type, fetch_or, type, READS | WRITES, old | value) \
    CHANGE(bits, type, fetch_xor, type, READS | WRITES, old ^ value) \
    CHANGE(bits, type, fetch_nand, type, READS | WRITES, ~(old & value))

ATOMICS(8, uint8_t) ATOMICS(16, uint16_t) ATOMICS(32, uint32_t) ATOMICS(64, uint64_t) ATOMICS(128, unsigned __int128)

API void __tsan_atomic_thread_fence(UNUSED int order) {}
API void __tsan_atomic_signal_fence(UNUSED int order) {}
