/* The tables of lines in the debug information: which line of which file the code at an address is of. */
#include <stdlib.h>
#include <string.h>

#include "dwarf.h"

struct table {
    const struct unit *unit;
    struct span program, files; /* the names of the folders and of the files begin there */
    uint64_t step, range, version;
    int64_t base;
    uint8_t first, lengths[256]; /* the first opcode of its own, and how many numbers stand behind those before it */
};

static bool open_table(struct table *table, const struct unit *unit) {
    struct span from = section_from(unit->debug, LINE, unit->lines);
    *table = (struct table){.unit = unit};
    table->program = take_span(&from, take(&from, 4));
    from = table->program;
    table->version = take(&from, 2);
    if (!unit->has_lines || from.bad || table->version < 4 || table->version > 5) return false;
    if (table->version == 5) take(&from, 2);
    table->files = take_span(&from, take(&from, 4));
    table->program.at = from.at;
    table->step = take(&table->files, 1);
    take(&table->files, 2);
    table->base = (int8_t)take(&table->files, 1);
    table->range = take(&table->files, 1);
    table->first = (uint8_t)take(&table->files, 1);
    for (unsigned i = 1; i < table->first; i++) table->lengths[i] = (uint8_t)take(&table->files, 1);
    return !from.bad && !table->files.bad && table->range && table->first;
}

/* ---- Names ---- */

/* Passes over the folders or the files, in a table of version 5, up to the name with a number; with its folder's number. */
static const char *take_names(const struct table *table, struct span *from, uint64_t wanted, uint64_t *folder) {
    struct span formats = *from;
    const char *name = NULL;
    uint64_t form_count = take(from, 1);
    for (uint64_t i = 0; i < form_count; i++) take_leb(from), take_leb(from);
    uint64_t count = take_leb(from);
    if (count > (uint64_t)(from->end - from->at)) return NULL;
    for (uint64_t i = 0; i < count && i <= wanted && !from->bad; i++) {
        struct span form = formats;
        take(&form, 1);
        for (uint64_t k = 0; k < form_count; k++) {
            uint64_t content = take_leb(&form);
            struct value value = take_value(table->unit, from, take_leb(&form), 0);
            if (content == 1 && i == wanted && value.kind == TEXTUAL) name = value.text;
            if (content == 2 && i == wanted && folder) *folder = value.number;
        }
    }
    return from->bad ? NULL : name;
}

static const char *new_name(const struct table *table, uint64_t file, const char **folder) {
    struct span from = table->files, folders = from;
    uint64_t number = 0;
    take_names(table, &from, UINT64_MAX, NULL);
    const char *name = take_names(table, &from, file, &number);
    if (folder && name) *folder = take_names(table, &folders, number, NULL);
    return name;
}

/* In a table of version 4 files and folders are numbered from 1, and folder 0 is that of the unit. */
static const char *old_name(const struct table *table, uint64_t file, const char **folder) {
    struct span from = table->files, folders = from;
    while (*take_text(&from)) continue;
    for (uint64_t i = 1; !from.bad; i++) {
        const char *name = take_text(&from);
        if (!*name) return NULL;
        uint64_t number = take_leb(&from);
        take_leb(&from), take_leb(&from);
        if (i != file) continue;
        while (number > 1 && *take_text(&folders)) number--;
        if (folder && number) *folder = take_text(&folders);
        return name;
    }
    return NULL;
}

const char *name_of_file(const struct unit *unit, uint64_t file, const char **folder) {
    struct table table;
    if (folder) *folder = "";
    if (!open_table(&table, unit)) return NULL;
    const char *name = (table.version == 5 ? new_name : old_name)(&table, file, folder);
    if (folder && !*folder) *folder = "";
    return name;
}

/* ---- Rows ---- */

/* Runs an operation that changes the row; true where it makes one, and where it ends the rows of a piece of code. */
static bool run_operation(const struct table *table, struct span *from, struct row *row, bool *ends) {
    uint64_t operation = take(from, 1), other = operation >= table->first ? operation - table->first : 255 - table->first;
    struct span more;
    if (operation >= table->first || operation == 8) row->address += other / table->range * table->step;
    if (operation >= table->first) row->line += (uint64_t)(table->base + (int64_t)(other % table->range));
    if (operation >= table->first) return true;
    switch (operation) {
    case 0:
        more = take_span(from, take_leb(from));
        operation = take(&more, 1);
        if (operation == 2) row->address = take(&more, 8);
        return *ends = operation == 1;
    case 1: return true;
    case 2: row->address += take_leb(from) * table->step; return false;
    case 3: row->line += (uint64_t)take_signed_leb(from); return false;
    case 4: row->file = take_leb(from); return false;
    case 8: return false;
    case 9: row->address += take(from, 2); return false;
    default:
        for (unsigned i = 0; i < table->lengths[operation]; i++) take_leb(from);
        return false;
    }
}

static int by_address(const void *one, const void *other) {
    const struct row *first = one, *second = other;
    return first->address < second->address ? -1 : first->address > second->address;
}

/* Pieces of code that begin at 0 are those that the linker has left out. */
static void read_rows(struct rows *rows, const struct table *table) {
    const struct row first = {0, 0, 1, 1}, none = {UINT64_MAX, 0, 0, 0};
    struct row row = first, last = none;
    uint64_t begin = 0;
    for (struct span from = table->program; from.at < from.end;) {
        bool ends = false;
        if (!run_operation(table, &from, &row, &ends)) continue;
        if (last.address == none.address) begin = row.address;
        last.end = row.address;
        if (begin && last.address < last.end) ADD(rows->list, rows->count, last);
        last = ends ? none : row;
        if (ends) row = first;
    }
    if (rows->count) qsort(rows->list, rows->count, sizeof *rows->list, by_address);
}

bool find_line(const struct unit *unit, uint64_t address, struct line *line) {
    struct rows *rows = unit->rows;
    struct table table;
    if (!rows->is_read && open_table(&table, unit)) read_rows(rows, &table);
    rows->is_read = true;
    size_t above = FIRST_ABOVE(rows->list, rows->count, address, address);
    if (!above || address >= rows->list[above - 1].end) return false;
    *line = (struct line){rows->list[above - 1].file, rows->list[above - 1].line};
    return true;
}
