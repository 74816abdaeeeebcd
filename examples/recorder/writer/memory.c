/* Telling, and memory that grows. */
#include <stdarg.h>
#include <stdlib.h>
#include <string.h>

#include "writer.h"

void tell(const char *format, ...) {
    va_list words;
    va_start(words, format);
    fputs("gprecord: ", stderr);
    vfprintf(stderr, format, words);
    fputc('\n', stderr);
    va_end(words);
}

static bool anything_left;

void tell_left(const char *format, ...) {
    va_list words;
    va_start(words, format);
    fputs("gprecord: left out: ", stderr);
    vfprintf(stderr, format, words);
    fputc('\n', stderr);
    va_end(words);
    anything_left = true;
}

bool is_anything_left(void) { return anything_left; }

void fail(int status, const char *format, ...) {
    va_list words;
    va_start(words, format);
    fputs("gprecord: ", stderr);
    vfprintf(stderr, format, words);
    fputc('\n', stderr);
    va_end(words);
    exit(status);
}

void *room_for(void *array, size_t count, size_t size) {
    if (count & (count - 1) || (count && count < 16)) return array;
    size_t wanted = count < 16 ? 16 : 2 * count;
    void *made = realloc(array, wanted * size);
    if (!made) fail(STATUS_NOTHING, "there is not enough memory to write the recording");
    return made;
}
