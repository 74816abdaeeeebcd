/* Which object an address lies in: a symbol of the program or of a library, a block, or a thread's stack. */
#include <stdlib.h>
#include <string.h>

#include "writer.h"

/* ---- Symbols, as nm tells them ---- */

struct symbol {
    uint64_t at, size;
    char *name;
    size_t module;
    struct told told;
    bool is_told;
};

static struct module {
    uint64_t base;
    const struct debug *debug;
} *modules;

static struct symbol *symbols;
static size_t symbol_count, module_count;

static int by_address(const void *one, const void *other) {
    uint64_t first = ((const struct symbol *)one)->at, second = ((const struct symbol *)other)->at;
    return first < second ? -1 : first > second;
}

static void read_symbol(const char *line, uint64_t base) {
    uint64_t at, size;
    char type;
    int name;
    if (sscanf(line, "%lx %lx %c %n", &at, &size, &type, &name) < 3 || !strchr("bBdDrRuvV", type)) return;
    char *text = strndup(line + name, strcspn(line + name, "\n"));
    ADD(symbols, symbol_count, (struct symbol){.at = base + at, .size = size, .name = text, .module = module_count - 1});
}

static const char *without_folder(const char *path) {
    const char *folder = path ? strrchr(path, '/') : NULL;
    return folder ? folder + 1 : path;
}

/* The address at which a module says that it wants to lie: programs that say none are moved. */
static bool is_moved(const char *path) {
    unsigned char head[18] = {0};
    FILE *file = fopen(path, "rb");
    if (!file) return true;
    size_t got = fread(head, 1, sizeof head, file);
    fclose(file);
    return got < sizeof head || head[16] == 3;
}

/* Of a file of the program; the recorder's own library has none of the program's variables, but may have their names. */
static void read_symbols(const char *path, uint64_t loaded_at) {
    uint64_t base = is_moved(path) ? loaded_at : 0;
    char command[3 * LONGEST_WORD], line[2 * LONGEST_WORD];
    if (!*path || strchr(path, '\'') || !strcmp(without_folder(path), "libgprecord.so")) return;
    ADD(modules, module_count, (struct module){base, open_debug(path)});
    snprintf(command, sizeof command, "nm -C -S --defined-only '%s' 2>/dev/null", path);
    FILE *lines = popen(command, "r");
    if (!lines) return;
    while (fgets(line, sizeof line, lines)) read_symbol(line, base);
    pclose(lines);
}

void read_modules(const struct log *log) {
    const struct record *end = log->records + log->count;
    for (const struct record *record = log->records + HEAD_RECORDS; record < end; record = behind(log, record))
        if (record->kind == MODULE) read_symbols(word_at(log, record->more), record->address);
    if (symbol_count) qsort(symbols, symbol_count, sizeof *symbols, by_address);
}

static const struct symbol *symbol_at(uint64_t address) {
    size_t above = FIRST_ABOVE(symbols, symbol_count, at, address);
    return above && address - symbols[above - 1].at < symbols[above - 1].size ? &symbols[above - 1] : NULL;
}

/* ---- Blocks: a tree by address, kept even by numbers that are drawn ---- */

/* Its object is its number at the place that made it, with the number of that place, or else its number in the run. */
struct block {
    uint64_t at, size, object;
    uint32_t weight;
    struct block *left, *right;
};

static struct block *blocks;

static struct block *merge(struct block *left, struct block *right) {
    if (!left || !right) return left ? left : right;
    if (left->weight > right->weight) {
        left->right = merge(left->right, right);
        return left;
    }
    right->left = merge(left, right->left);
    return right;
}

/* Splits a tree into the blocks that begin before an address, and the others. */
static void split(struct block *tree, uint64_t at, struct block **left, struct block **right) {
    if (!tree) {
        *left = *right = NULL;
    } else if (tree->at < at) {
        split(tree->right, at, &tree->right, right);
        *left = tree;
    } else {
        split(tree->left, at, left, &tree->left);
        *right = tree;
    }
}

static void drop_all(struct block *tree) {
    if (!tree) return;
    drop_all(tree->left);
    drop_all(tree->right);
    free(tree);
}

static void drop_blocks(uint64_t at, uint64_t size) {
    struct block *before, *dropped, *after;
    split(blocks, at, &before, &after);
    split(after, at + (size ? size : 1), &dropped, &after);
    drop_all(dropped);
    blocks = merge(before, after);
}

static void add_block(uint64_t at, uint64_t size, uint64_t object) {
    drop_blocks(at, size);
    static uint32_t drawn = 1;
    drawn = drawn * 1664525 + 1013904223;
    struct block *block = malloc(sizeof *block), *before, *after;
    if (!block) fail(STATUS_NOTHING, "there is not enough memory to write the recording");
    *block = (struct block){at, size, object, drawn, NULL, NULL};
    split(blocks, at, &before, &after);
    blocks = merge(merge(before, block), after);
}

static const struct block *block_at(uint64_t address) {
    const struct block *found = NULL;
    for (const struct block *block = blocks; block;) {
        if (block->at <= address) found = block;
        block = block->at <= address ? block->right : block->left;
    }
    return found && address - found->at < found->size ? found : NULL;
}

/* ---- The places that make blocks ---- */

enum { NUMBER_BITS = 40 };

static struct site {
    struct told told;
    uint64_t made; /* how many blocks up to here in the log, of all places with this text */
    size_t first;  /* the first of these, which counts */
} *sites;
static size_t site_count;
static uint64_t made;

static const struct module *module_of(uint64_t address) {
    const struct module *found = NULL;
    for (size_t i = 0; i < module_count; i++)
        if (modules[i].base <= address && (!found || modules[i].base > found->base)) found = &modules[i];
    return found;
}

const struct debug *debug_of(uint64_t address, uint64_t *in_file) {
    const struct module *module = module_of(address);
    *in_file = module ? address - module->base : 0;
    return module ? module->debug : NULL;
}

/* The number of the place, from 1, or 0 where nothing is told of it. */
static uint64_t find_site(uint64_t caller) {
    uint64_t in_file;
    const struct debug *debug = debug_of(caller, &in_file);
    struct told told, *other;
    if (!debug || !find_maker(debug, in_file, &told)) return 0;
    told.file = without_folder(told.file);
    size_t first = site_count;
    for (size_t i = 0; i < site_count; i++) {
        other = &sites[i].told;
        if (other->line != told.line || strcmp(other->file, told.file) || strcmp(other->name, told.name)) continue;
        if (other->debug == told.debug && other->type == told.type) return i + 1;
        first = sites[i].first;
    }
    ADD(sites, site_count, (struct site){told, 0, first});
    return site_count;
}

static uint64_t site_of(uint64_t caller) {
    static struct known {
        uint64_t caller, site;
    } *known;
    static size_t count;
    size_t at = FIRST_ABOVE(known, count, caller, caller);
    if (at && known[at - 1].caller == caller) return known[at - 1].site;
    struct known met = {caller, find_site(caller)};
    ADD(known, count, met);
    memmove(&known[at + 1], &known[at], (count - 1 - at) * sizeof *known);
    known[at] = met;
    return met.site;
}

static uint64_t new_object(uint64_t caller) {
    uint64_t site = site_of(caller);
    return site ? site << NUMBER_BITS | ++sites[sites[site - 1].first].made : ++made;
}

/* ---- Stacks ---- */

static struct {
    uint64_t low, high;
} stacks[MOST_THREADS + 1];

static void add_stack(unsigned thread, uint64_t low, uint64_t size) {
    for (unsigned i = 0; i <= MOST_THREADS; i++)
        if (stacks[i].low < low + size && low < stacks[i].high) stacks[i].low = stacks[i].high = 0;
    stacks[thread].low = low;
    stacks[thread].high = low + size;
}

/* ---- The whole ---- */

void forget_objects(void) {
    drop_all(blocks);
    blocks = NULL;
    made = 0;
    for (size_t i = 0; i < site_count; i++) sites[i].made = 0;
    memset(stacks, 0, sizeof stacks);
}

void note_object(const struct record *record) {
    if (record->kind == BLOCK) add_block(record->address, record->old, new_object(record->new));
    if (record->kind == FREE) drop_blocks(record->address, record->old);
    if (record->kind == STACK) add_stack(record->thread, record->address, record->old);
}

struct place place_of(uint64_t address) {
    const struct symbol *symbol = symbol_at(address);
    if (symbol) return (struct place){SYMBOL, 0, (uint64_t)(symbol - symbols), address - symbol->at};
    const struct block *block = block_at(address);
    uint32_t size = block && block->size < UINT32_MAX ? (uint32_t)block->size : UINT32_MAX;
    if (block) return (struct place){HEAP, size, block->object, address - block->at};
    for (unsigned thread = 1; thread <= MOST_THREADS; thread++)
        if (address >= stacks[thread].low && address < stacks[thread].high) return (struct place){LOCAL, 0, thread, address};
    return (struct place){OTHER, 0, 0, address};
}

/* ---- What a place is called ---- */

/* Whether another variable has the same symbol, as those may have that are of one file alone. */
static bool is_shared_symbol(const struct symbol *symbol) {
    for (size_t i = 0; i < symbol_count; i++)
        if (symbols[i].at != symbol->at && !strcmp(symbols[i].name, symbol->name)) return true;
    return false;
}

/* What the debug information tells of a symbol, which is looked up once. */
static const struct told *told_of(struct symbol *symbol) {
    if (symbol->is_told) return &symbol->told;
    const struct module *module = &modules[symbol->module];
    symbol->is_told = true;
    if (!find_variable(module->debug, symbol->at - module->base, &symbol->told)) symbol->told = (struct told){0};
    if (symbol->told.file && !is_shared_symbol(symbol)) symbol->told.file = NULL;
    return &symbol->told;
}

bool is_told_block(struct place place) { return place.kind == HEAP && place.object >> NUMBER_BITS; }

static const struct told *told_of_block(uint64_t object) { return &sites[(object >> NUMBER_BITS) - 1].told; }

void write_front(FILE *to, struct place place) {
    const struct told *told = place.kind == SYMBOL ? told_of(&symbols[place.object]) : told_of_block(place.object);
    fputs(told->name ? told->name : symbols[place.object].name, to);
    if (told->file) fprintf(to, "@%s", without_folder(told->file));
}

void write_back(FILE *to, struct place place) {
    if (is_told_block(place)) {
        const struct told *told = told_of_block(place.object);
        fprintf(to, ":%lu#%lu", told->line, place.object & (((uint64_t)1 << NUMBER_BITS) - 1));
        write_block_path(to, told, place.size, place.offset);
    } else if (place.kind == SYMBOL && told_of(&symbols[place.object])->debug) {
        write_path(to, told_of(&symbols[place.object]), place.offset);
    } else if (place.offset) {
        fprintf(to, "+%lu", place.offset);
    }
}
