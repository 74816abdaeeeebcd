/* What the files that read debug information share: DWARF 4 and 5 of x86-64, as clang writes it into a program. Each read
 * is checked against the end of its section; what is not understood is not told. */
#ifndef DWARF_H
#define DWARF_H

#include "writer.h"

/* Bytes, and whether more of them were asked for than there are. */
struct span {
    const uint8_t *at, *end;
    bool bad;
};

enum section { INFO, ABBREV, STR, LINE, LINE_STR, ADDR, STR_OFFSETS, LOCLISTS, RNGLISTS, LOC, RANGES, TEXT, SECTIONS };

enum tag { ARRAY = 0x01, PARAMETER = 0x05, MEMBER = 0x0d, POINTER = 0x0f, STRUCTURE = 0x13, TYPEDEF = 0x16, INHERITANCE = 0x1c,
           INLINED = 0x1d, SUBRANGE = 0x21, CLASS = 0x02, CONST = 0x26, FUNCTION = 0x2e, VARIABLE = 0x34, VOLATILE = 0x35,
           RESTRICT = 0x37, NAMESPACE = 0x39, ATOMIC_TYPE = 0x47 };

enum attribute { NO_ATTRIBUTE, NAMED, TYPED, LOCATED, LOW, HIGH, IN_RANGES, SIZED, COUNTED, UPPER, AT_BYTE, BITS, FIRST_BIT,
                 BIT_FROM_LAST, ORIGIN, SPECIFIED, FRAME, LINES, FOLDER, CALL_FILE, CALL_LINE, STR_BASE, ADDR_BASE,
                 RNGLISTS_BASE, LOCLISTS_BASE, ATTRIBUTES };

enum value_kind { MISSING, NUMBER, ADDRESS, TEXTUAL, REFERENCE, CODE, OFFSET, INDEX };

struct value {
    enum value_kind kind;
    uint64_t number; /* of a reference: a place in .debug_info */
    const char *text;
    struct span code;
};

struct abbreviation {
    uint64_t code, tag;
    bool has_children;
    struct span attributes;
};

/* The addresses of a unit's lines, in order, where they were read. */
struct rows {
    struct row {
        uint64_t address, end, file, line;
    } *list;
    size_t count;
    bool is_read;
};

struct unit {
    const struct debug *debug;
    uint64_t at, first, end; /* in .debug_info */
    unsigned version;
    struct abbreviation *abbreviations;
    size_t abbreviation_count;
    uint64_t abbreviations_at;
    uint64_t bases[ATTRIBUTES], low, lines;
    bool has_lines;
    const char *name, *folder;
    struct rows *rows; /* its lines, once they are asked for */
};

struct entry {
    const struct unit *unit;
    uint64_t at, behind, tag;
    bool has_children;
    struct value values[ATTRIBUTES];
};

/* A function; or a variable, or the piece of one that begins so many bytes into it. */
struct thing {
    uint64_t address, entry, end, offset;
    bool is_piece;
};

struct things {
    struct thing *list;
    size_t count;
};

/* What functions are members of: a namespace, a class, a function; and what that is a member of, by its number from 1. */
struct scope {
    const char *name;
    size_t outer;
};

struct member {
    uint64_t entry;
    size_t scope;
};

struct debug {
    struct span sections[SECTIONS];
    uint64_t text_at;
    struct unit *units;
    size_t unit_count;
    struct things variables, functions;
    struct scope *scopes;
    struct member *members; /* in the order of their entries */
    size_t scope_count, member_count;
};

uint64_t take(struct span *from, unsigned size);
uint64_t take_leb(struct span *from);
int64_t take_signed_leb(struct span *from);
struct span take_span(struct span *from, uint64_t size);
const char *take_text(struct span *from);
struct span section_from(const struct debug *debug, enum section section, uint64_t offset);
struct value take_value(const struct unit *unit, struct span *from, uint64_t form, int64_t constant);
uint64_t address_of_index(const struct unit *unit, uint64_t index);

/* The entry at a place of .debug_info; false where there is none. */
bool entry_at(const struct debug *debug, uint64_t at, struct entry *entry);
/* The next entry of the tree that begins at the first one, with its depth there; false behind the tree. */
bool next_entry(struct entry *entry, unsigned *depth);
/* An attribute of an entry or, where it has none, of the one that it repeats. */
struct value value_of(const struct entry *entry, enum attribute attribute);
const char *name_of_entry(const struct entry *entry);
/* The same, behind the names of what it is a member of. */
void write_whole_name(FILE *to, const struct entry *entry);
/* Where the code of an entry ends, which has a beginning. */
uint64_t high_of(const struct entry *entry);

/* The last thing that begins at an address or before it. */
const struct thing *thing_at(const struct things *things, uint64_t address);
bool has_address(const struct entry *entry, uint64_t address);

/* The line of an address, and the number of its file in the table of the unit. */
struct line {
    uint64_t file, number;
};

bool find_line(const struct unit *unit, uint64_t address, struct line *line);
/* The name of a file of the table as that has it, and the folder that it lies in; NULL where it has none. */
const char *name_of_file(const struct unit *unit, uint64_t file, const char **folder);

#endif
