/* A name for each object and each place in one: from the symbol table and the debug information, or by a number; and for
 * each word. That of a place is made of a long name, which the file `names` of the folder tells. */
#include <stdlib.h>
#include <string.h>

#include "writer.h"

enum { LEAST_FRONT = 8 };

static char (*texts)[MOST_NAME + 1];
static char **long_names; /* of each text, where it is that of a place */
static size_t text_count;

/* ---- A table from keys to names ---- */

struct key {
    uint64_t kind, words[4];
};

struct entry {
    struct key key;
    uint32_t name; /* with 1 added; 0 where the entry is free */
};

static struct entry *table;
static size_t table_size, table_used;

static uint64_t mix(uint64_t hash, uint64_t word) {
    hash = (hash ^ word) * 0x9e3779b97f4a7c15u;
    return hash ^ hash >> 29;
}

static struct entry *entry_of(const struct key *key) {
    uint64_t hash = mix(1, key->kind);
    for (int i = 0; i < 4; i++) hash = mix(hash, key->words[i]);
    for (size_t at = hash & (table_size - 1);; at = (at + 1) & (table_size - 1))
        if (!table[at].name || !memcmp(&table[at].key, key, sizeof *key)) return &table[at];
}

static struct entry *find(const struct key *key) {
    if (2 * table_used >= table_size) {
        struct entry *old = table;
        size_t old_size = table_size;
        table_size = old_size ? 2 * old_size : 1024;
        table = calloc(table_size, sizeof *table);
        if (!table) fail(STATUS_NOTHING, "there is not enough memory to write the recording");
        for (size_t i = 0; i < old_size; i++)
            if (old[i].name) *entry_of(&old[i].key) = old[i];
        free(old);
    }
    return entry_of(key);
}

static uint32_t give(struct entry *entry, const struct key *key, uint32_t name) {
    entry->key = *key;
    entry->name = name + 1;
    table_used++;
    return name;
}

/* ---- Texts ---- */

static char plain_letter(char letter) {
    if (letter >= 'A' && letter <= 'Z') letter = (char)(letter - 'A' + 'a');
    bool keeps = (letter >= 'a' && letter <= 'z') || (letter >= '0' && letter <= '9');
    return keeps ? letter : '_';
}

/* Small letters, digits and low lines, at most as many as a name has. */
static void plain(char *to, const char *word) {
    size_t length = 0;
    for (; word[length] && length < MOST_NAME; length++) to[length] = plain_letter(word[length]);
    if (!length) to[length++] = '_';
    to[length] = 0;
}

static void shorten(char *to, const char *name, const char *ending) {
    snprintf(to, MOST_NAME + 1, "%.*s%s", (int)(MOST_NAME - strlen(ending)), name, ending);
}

enum key_kind { PLACED, BASE, TAKEN, WORD_GIVEN, DESCRIPTOR };

_Static_assert(MOST_NAME <= sizeof(uint64_t[4]), "a name is a key");

static struct key text_key(enum key_kind kind, const char *text) {
    struct key key = {kind, {0}};
    memcpy(key.words, text, strlen(text));
    return key;
}

static uint32_t add_text(const char *text, char *long_name) {
    texts = room_for(texts, text_count, sizeof *texts);
    long_names = room_for(long_names, text_count, sizeof *long_names);
    snprintf(texts[text_count], sizeof *texts, "%s", text);
    long_names[text_count] = long_name;
    return (uint32_t)text_count++;
}

static bool is_taken(const char *text) {
    struct key key = text_key(TAKEN, text);
    return find(&key)->name;
}

/* The text as a name that no place has yet. */
static uint32_t unlike(const char *text, char *long_name) {
    char made[MOST_NAME + 1], ending[16];
    snprintf(made, sizeof made, "%s", text);
    for (unsigned count = 2; is_taken(made); count++) {
        snprintf(ending, sizeof ending, "_%u", count);
        shorten(made, text, ending);
    }
    struct key key = text_key(TAKEN, made);
    return give(find(&key), &key, add_text(made, long_name));
}

/* ---- Places ---- */

static void numbered(char *to, const char *word) {
    static unsigned counts[3];
    unsigned which = *word == 'h' ? 0 : *word == 'l' ? 1 : 2;
    snprintf(to, MOST_NAME + 1, "%s%u", word, ++counts[which]);
}

static void write_heap_front(FILE *to, struct place place) {
    char text[MOST_NAME + 1];
    struct key key = {BASE, {place.object}};
    struct entry *entry = find(&key);
    if (!entry->name) {
        numbered(text, "heap");
        give(entry, &key, add_text(text, NULL));
    }
    fputs(texts[find(&key)->name - 1], to);
}

/* Of a long name that has no room the front loses its end, down to some letters, and then the back its beginning, for which
 * a low line stands. */
static void short_name(char *to, const char *front, const char *back) {
    char *spelled = malloc(strlen(back) + 1);
    if (!spelled) fail(STATUS_NOTHING, "there is not enough memory to write the recording");
    size_t length = 0, front_length = *front ? strlen(front) : 1;
    for (; *back; back++)
        if (*back != ']') spelled[length++] = plain_letter(*back);
    size_t most = length < MOST_NAME - LEAST_FRONT ? MOST_NAME - length : LEAST_FRONT;
    if (front_length > most) front_length = most;
    size_t rest = length < MOST_NAME - front_length ? length : MOST_NAME - front_length;
    plain(to, front);
    memcpy(to + front_length, spelled + length - rest, rest);
    if (rest < length) to[front_length] = '_';
    to[front_length + rest] = 0;
    free(spelled);
}

/* What a place is called, to be freed; how much of it is the front. */
static char *long_name_of(struct place place, size_t *front) {
    char *text = NULL, made[MOST_NAME + 1];
    size_t size;
    FILE *to = open_memstream(&text, &size);
    if (!to) fail(STATUS_NOTHING, "there is not enough memory to write the recording");
    if (place.kind == LOCAL || place.kind == OTHER) {
        numbered(made, place.kind == LOCAL ? "local" : "other");
        fputs(made, to);
    } else if (place.kind == HEAP && !is_told_block(place)) {
        write_heap_front(to, place);
    } else {
        write_front(to, place);
    }
    fflush(to);
    *front = size;
    if (place.kind == SYMBOL || place.kind == HEAP) write_back(to, place);
    if (fclose(to)) fail(STATUS_NOTHING, "there is not enough memory to write the recording");
    return text;
}

/* The long name of a number that stands for what lies at a place, of which there may be several, one behind another. */
static char *number_name(char *place_name, uint32_t generation) {
    char *made = NULL;
    if (asprintf(&made, generation ? "%s (number %u)" : "%s (number)", place_name, generation + 1) < 0)
        fail(STATUS_NOTHING, "there is not enough memory to write the recording");
    free(place_name);
    return made;
}

uint32_t name_of_place(struct place place, uint32_t generation, enum name_use use) {
    struct key key = {PLACED, {place.object, place.offset, generation, place.kind | (uint64_t)use << 8}};
    if (find(&key)->name) return find(&key)->name - 1;
    size_t length;
    char *long_name = long_name_of(place, &length), made[MOST_NAME + 1];
    char *front = strndup(long_name, length);
    if (!front) fail(STATUS_NOTHING, "there is not enough memory to write the recording");
    short_name(made, front, long_name + length);
    free(front);
    uint32_t name = unlike(made, use == OF_NUMBER ? number_name(long_name, generation) : long_name);
    return give(find(&key), &key, name);
}

uint32_t name_of_word(const char *word) {
    char made[MOST_NAME + 1];
    plain(made, word);
    struct key key = text_key(WORD_GIVEN, made);
    struct entry *entry = find(&key);
    return entry->name ? entry->name - 1 : give(entry, &key, add_text(made, NULL));
}

uint32_t name_of_descriptor(uint64_t descriptor) {
    struct key key = {DESCRIPTOR, {descriptor}};
    if (find(&key)->name) return find(&key)->name - 1;
    char made[MOST_NAME + 1];
    snprintf(made, sizeof made, "fd_%lu", descriptor);
    char *long_name = NULL;
    if (asprintf(&long_name, "descriptor %lu", descriptor) < 0) long_name = NULL;
    uint32_t name = unlike(made, long_name);
    return give(find(&key), &key, name);
}

/* ---- The file of names ---- */

static int by_text(const void *one, const void *other) {
    return strcmp(texts[*(const uint32_t *)one], texts[*(const uint32_t *)other]);
}

static void print_name(FILE *file, uint32_t name) {
    fprintf(file, "%s ", texts[name]);
    for (const char *at = long_names[name]; *at; at++) fputc(*at >= ' ' && *at <= '~' ? *at : '?', file);
    fputc('\n', file);
}

void print_names(FILE *file) {
    uint32_t *order = NULL;
    size_t count = 0;
    for (uint32_t name = 0; name < text_count; name++)
        if (long_names[name]) ADD(order, count, name);
    if (count) qsort(order, count, sizeof *order, by_text);
    for (size_t i = 0; i < count; i++) print_name(file, order[i]);
    free(order);
}

const char *name_text(uint32_t name) { return texts[name]; }
uint32_t name_count(void) { return (uint32_t)text_count; }
