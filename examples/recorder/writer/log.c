/* The log, mapped into memory. */
#include <fcntl.h>
#include <string.h>
#include <sys/mman.h>
#include <sys/stat.h>
#include <unistd.h>

#include "writer.h"

bool map_log(const char *path, struct log *log) {
    struct stat status;
    int file = open(path, O_RDONLY | O_CLOEXEC);
    if (file < 0 || fstat(file, &status) || (size_t)status.st_size < HEAD_RECORDS * RECORD_BYTES) return false;
    void *made = mmap(NULL, (size_t)status.st_size, PROT_READ, MAP_PRIVATE, file, 0);
    close(file);
    if (made == MAP_FAILED) return false;
    *log = (struct log){made, made, ((const struct log_head *)made)->used};
    return !memcmp(log->head->magic, LOG_MAGIC, sizeof log->head->magic);
}

const char *word_at(const struct log *log, uint32_t word) {
    static char text[LONGEST_WORD + 1];
    const struct record *record = &log->records[word];
    text[0] = 0;
    if (!word || word >= log->count || record->kind != WORD || record->more > LONGEST_WORD) return text;
    memcpy(text, record + 1, record->more);
    text[record->more] = 0;
    return text;
}

/* The record behind this one, past what belongs to it. */
const struct record *behind(const struct log *log, const struct record *record) {
    bool has_more = record->kind == WORD || record->kind == SITE;
    uint64_t records = has_more ? 1 + (record->more + RECORD_BYTES - 1) / RECORD_BYTES : 1;
    const struct record *end = log->records + log->count;
    return record + records < end ? record + records : end;
}

bool is_synchronisation(const struct record *record) {
    return record->kind == ATOMIC || record->kind == COUNT || (record->kind >= ACQUIRE && record->kind <= NOTIFYALL) ||
           record->kind == OPERATION || record->kind == BEGIN || record->kind == END;
}
