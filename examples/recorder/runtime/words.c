/* What the program tells of itself, by the macros of gprecord.h. */
#include <stdarg.h>
#include <stdio.h>

#include "runtime.h"

enum { LONGEST_NAME = 64 };

API void gprecord_op(const char *name, ...);
API void gprecord_begin(const char *region);
API void gprecord_end(const char *region);
API void gprecord_record(int wanted);
API const char *gprecord_at(const volatile void *address);
API const char *gprecord_nth(const char *word, long number);

/* An object is a word, or an address behind this byte. */
enum { AT = 1 };

static void note_object(struct thread *me, const char *object) {
    unsigned long address = 0;
    if (object[0] == AT && sscanf(object + 1, "%lx", &address) == 1) {
        append(me, OBJECT_AT, (void *)address);
        return;
    }
    uint32_t word = word_of(object);
    append(me, OBJECT_WORD, NULL)->more = word;
}

static void note_operation(struct thread *me, const char *name, const char *const *objects, unsigned count) {
    uint32_t word = word_of(name);
    for (unsigned i = 0; i < count; i++)
        if (objects[i][0] != AT) word_of(objects[i]);
    struct record *record = note(me, OPERATION, NULL);
    record->more = word;
    record->mask = (uint8_t)count;
    for (unsigned i = 0; i < count; i++) note_object(me, objects[i]);
}

API void gprecord_op(const char *name, ...) {
    struct thread *me = enter_call();
    if (!me) return;
    const char *objects[MOST_OBJECTS], *object;
    unsigned count = 0;
    va_list given;
    va_start(given, name);
    while ((object = va_arg(given, const char *))) {
        if (count == MOST_OBJECTS) give_up("the operation %s has more than four objects", name);
        objects[count++] = object;
    }
    va_end(given);
    note_operation(me, name, objects, count);
    leave(me);
}

static void note_region(enum kind kind, const char *region) {
    struct thread *me = enter_call();
    if (!me) return;
    uint32_t word = word_of(region);
    note(me, kind, NULL)->more = word;
    leave(me);
}

API void gprecord_begin(const char *region) { note_region(BEGIN, region); }
API void gprecord_end(const char *region) { note_region(END, region); }

API void gprecord_record(int wanted) {
    struct thread *me = enter_call();
    if (!me) return;
    set_recording(me, wanted != 0);
    leave(me);
}

/* Words for objects: each thread has room for as many as an operation takes. */
static char *next_word(void) {
    static __thread char words[MOST_OBJECTS][LONGEST_NAME + 1];
    static __thread unsigned count;
    return words[count++ % MOST_OBJECTS];
}

API const char *gprecord_at(const volatile void *address) {
    char *word = next_word();
    REAL(snprintf)(word, LONGEST_NAME + 1, "%c%lx", AT, (unsigned long)address);
    return word;
}

API const char *gprecord_nth(const char *word, long number) {
    char *made = next_word();
    REAL(snprintf)(made, LONGEST_NAME + 1, "%s%ld", word, number);
    return made;
}
