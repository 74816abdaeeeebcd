/* What the debug information tells: which member of a variable a byte lies in, and which place made a block. */
#include <stdlib.h>
#include <string.h>

#include "dwarf.h"

enum { MOST_DEPTH = 32, MOST_SIZES = 8, MOVE_BYTES = 3 };

/* ---- Types ---- */

static uint64_t type_of(const struct entry *entry) {
    struct value type = value_of(entry, TYPED);
    return type.kind == REFERENCE ? type.number : 0;
}

static bool is_structure(const struct entry *entry) { return entry->tag == STRUCTURE || entry->tag == CLASS; }

static bool is_other_name(const struct entry *entry) {
    return entry->tag == TYPEDEF || entry->tag == CONST || entry->tag == VOLATILE || entry->tag == RESTRICT ||
           entry->tag == ATOMIC_TYPE;
}

/* The entry of a type behind its other names; false where nothing is known of it. */
static bool bare_type(const struct debug *debug, uint64_t type, struct entry *entry) {
    for (unsigned depth = 0; depth < MOST_DEPTH; depth++) {
        if (!type || !entry_at(debug, type, entry)) return false;
        if (!is_other_name(entry)) return true;
        type = type_of(entry);
    }
    return false;
}

struct sizes {
    uint64_t counts[MOST_SIZES]; /* of elements; 0 where it is not known */
    unsigned count;
};

static struct sizes sizes_of(const struct entry *array) {
    struct sizes sizes = {.count = 0};
    struct entry entry = *array;
    for (unsigned depth = 0; next_entry(&entry, &depth);) {
        const struct value *counted = &entry.values[COUNTED], *upper = &entry.values[UPPER];
        if (entry.tag != SUBRANGE || sizes.count == MOST_SIZES) continue;
        sizes.counts[sizes.count++] = counted->kind == NUMBER ? counted->number : upper->kind == NUMBER ? upper->number + 1 : 0;
    }
    return sizes;
}

static uint64_t product(uint64_t one, uint64_t other) {
    uint64_t made;
    return __builtin_mul_overflow(one, other, &made) ? 0 : made;
}

/* How many bytes a type has, or 0 where that is not known. */
static uint64_t size_of_type(const struct debug *debug, uint64_t type) {
    struct entry entry;
    uint64_t size = 1;
    for (unsigned depth = 0; depth < MOST_DEPTH && bare_type(debug, type, &entry); depth++) {
        if (entry.tag != ARRAY) return product(size, entry.tag == POINTER ? 8 : entry.values[SIZED].number);
        struct sizes sizes = sizes_of(&entry);
        for (unsigned i = 0; i < sizes.count; i++) size = product(size, sizes.counts[i]);
        type = type_of(&entry);
    }
    return 0;
}

static bool is_open_array(const struct debug *debug, uint64_t type) {
    struct entry entry;
    return bare_type(debug, type, &entry) && entry.tag == ARRAY && !size_of_type(debug, type);
}

/* ---- Paths: the members and elements down to a byte ---- */

/* Names that C and C++ keep for themselves: what has such members is told by its offsets. */
static bool is_kept_name(const char *name) {
    return name[0] == '_' && (name[1] == '_' || (name[1] >= 'A' && name[1] <= 'Z'));
}

/* The bits of such a member are told from its first one on, or from the last one of the number that has them. */
static bool is_in_bits(const struct debug *debug, const struct entry *member, uint64_t offset) {
    const struct value *values = member->values;
    uint64_t size = values[SIZED].kind ? values[SIZED].number : size_of_type(debug, type_of(member));
    uint64_t end = 8 * (values[AT_BYTE].number + size) - values[BIT_FROM_LAST].number;
    if (values[FIRST_BIT].kind) end = values[FIRST_BIT].number + values[BITS].number;
    return 8 * offset < end && 8 * offset + 8 > end - values[BITS].number;
}

/* The member, or else the base class, in which a byte lies; false where it lies in none, or in a bit-field. */
static bool member_at(const struct debug *debug, const struct entry *structure, uint64_t offset, struct entry *member) {
    struct entry entry = *structure;
    bool is_found = false;
    for (unsigned depth = 0; next_entry(&entry, &depth);) {
        const struct value *begin = &entry.values[AT_BYTE];
        if (depth != 1 || (entry.tag != MEMBER && entry.tag != INHERITANCE)) continue;
        if (entry.values[BITS].kind && is_in_bits(debug, &entry, offset)) return false;
        if (begin->kind != NUMBER || begin->number > offset || entry.values[BITS].kind) continue;
        uint64_t size = size_of_type(debug, type_of(&entry));
        bool has_it = offset - begin->number < size || is_open_array(debug, type_of(&entry));
        if (!has_it || (is_found && entry.tag == INHERITANCE)) continue;
        *member = entry;
        is_found = true;
    }
    return is_found;
}

/* Goes into the element of an array in which a byte lies; false where there is none. */
static bool write_element(FILE *to, const struct debug *debug, const struct entry *array, uint64_t *offset) {
    struct sizes sizes = sizes_of(array);
    uint64_t size = size_of_type(debug, type_of(array)), whole = size;
    if (!size || !sizes.count) return false;
    for (unsigned i = 1; i < sizes.count; i++) whole = product(whole, sizes.counts[i]);
    if (!whole || (sizes.counts[0] && *offset / whole >= sizes.counts[0])) return false;
    for (unsigned i = 0; i < sizes.count; i++) {
        fprintf(to, "[%lu]", *offset / whole);
        *offset %= whole;
        if (i + 1 < sizes.count) whole /= sizes.counts[i + 1];
    }
    return true;
}

/* Behind a `+` stands what is left of the offset, from the last name or element on. */
static void write_type_path(FILE *to, const struct debug *debug, uint64_t type, uint64_t offset) {
    uint64_t skipped = 0; /* by what has no name: base classes, and structures without one */
    struct entry entry, member;
    for (unsigned depth = 0; depth < MOST_DEPTH && bare_type(debug, type, &entry); depth++) {
        if (entry.tag == ARRAY) {
            if (!write_element(to, debug, &entry, &offset)) break;
            type = type_of(&entry);
        } else if (is_structure(&entry) && member_at(debug, &entry, offset, &member)) {
            const char *name = member.tag == MEMBER ? name_of_entry(&member) : NULL;
            if (name && is_kept_name(name)) break;
            if (name) fprintf(to, ".%s", name);
            skipped = name ? 0 : skipped + member.values[AT_BYTE].number;
            offset -= member.values[AT_BYTE].number;
            type = type_of(&member);
        } else {
            break;
        }
    }
    if (skipped + offset) fprintf(to, "+%lu", skipped + offset);
}

void write_path(FILE *to, const struct told *told, uint64_t offset) {
    write_type_path(to, told->debug, told->type, told->offset + offset);
}

/* A structure that ends with an array of no given size is one thing, however long its block is. */
static bool ends_open(const struct debug *debug, uint64_t type) {
    struct entry entry, member;
    uint64_t size = size_of_type(debug, type);
    return bare_type(debug, type, &entry) && is_structure(&entry) && member_at(debug, &entry, size, &member);
}

void write_block_path(FILE *to, const struct told *told, uint64_t size, uint64_t offset) {
    uint64_t element = size_of_type(told->debug, told->type);
    if (element && size > element && !ends_open(told->debug, told->type)) {
        fprintf(to, "[%lu]", offset / element);
        offset %= element;
    }
    write_type_path(to, told->debug, told->type, offset);
}

/* ---- Variables ---- */

const struct thing *thing_at(const struct things *things, uint64_t address) {
    size_t above = FIRST_ABOVE(things->list, things->count, address, address);
    return above ? &things->list[above - 1] : NULL;
}

bool find_variable(const struct debug *debug, uint64_t address, struct told *told) {
    const struct thing *variable = thing_at(&debug->variables, address);
    struct entry entry;
    if (!variable || variable->address != address || !entry_at(debug, variable->entry, &entry)) return false;
    *told = (struct told){.debug = debug, .type = type_of(&entry), .offset = variable->offset, .file = entry.unit->name};
    if (variable->is_piece) told->name = name_of_entry(&entry);
    return told->type && (told->name || !variable->is_piece);
}

/* ---- Lists of ranges, and of a variable's code in each ---- */

struct list {
    const struct unit *unit;
    struct span at;
    uint64_t base;
    bool has_code;
};

static bool open_list(struct list *list, const struct unit *unit, const struct value *value, bool has_code) {
    enum section section = unit->version < 5 ? (has_code ? LOC : RANGES) : has_code ? LOCLISTS : RNGLISTS;
    uint64_t offset = value->number, base = unit->bases[has_code ? LOCLISTS_BASE : RNGLISTS_BASE];
    if (value->kind == INDEX && offset < UINT32_MAX) {
        struct span index = section_from(unit->debug, section, base);
        take_span(&index, 4 * offset);
        offset = base + take(&index, 4);
        if (index.bad) return false;
    } else if (value->kind != OFFSET) {
        return false;
    }
    *list = (struct list){unit, section_from(unit->debug, section, offset), unit->low, has_code};
    return !list->at.bad;
}

static bool next_old_range(struct list *list, uint64_t *low, uint64_t *high) {
    for (;;) {
        *low = take(&list->at, 8);
        *high = take(&list->at, 8);
        if (list->at.bad || (!*low && !*high)) return false;
        if (*low != UINT64_MAX) break;
        list->base = *high;
    }
    *low += list->base;
    *high += list->base;
    return true;
}

/* The lists of ranges lack the kind 5 of the others, a place where the variable is elsewhere. */
static bool next_new_range(struct list *list, uint64_t *low, uint64_t *high) {
    struct span *at = &list->at;
    for (;;) {
        uint64_t kind = take(at, 1);
        if (!list->has_code && kind >= 5) kind++;
        switch (kind) {
        case 1: list->base = address_of_index(list->unit, take_leb(at)); continue;
        case 6: list->base = take(at, 8); continue;
        case 2:
            *low = address_of_index(list->unit, take_leb(at));
            *high = address_of_index(list->unit, take_leb(at));
            return !at->bad;
        case 3:
            *low = address_of_index(list->unit, take_leb(at));
            *high = *low + take_leb(at);
            return !at->bad;
        case 4:
            *low = list->base + take_leb(at);
            *high = list->base + take_leb(at);
            return !at->bad;
        case 5: *low = *high = 0; return !at->bad;
        case 7:
            *low = take(at, 8);
            *high = take(at, 8);
            return !at->bad;
        case 8:
            *low = take(at, 8);
            *high = *low + take_leb(at);
            return !at->bad;
        default: return false;
        }
    }
}

static bool next_range(struct list *list, uint64_t *low, uint64_t *high, struct span *code) {
    bool is_old = list->unit->version < 5;
    if (!(is_old ? next_old_range : next_new_range)(list, low, high)) return false;
    if (list->has_code) *code = take_span(&list->at, is_old ? take(&list->at, 2) : take_leb(&list->at));
    return !list->at.bad;
}

bool has_address(const struct entry *entry, uint64_t address) {
    uint64_t low, high;
    struct list list;
    struct span code;
    if (entry->values[LOW].kind) return entry->values[LOW].number <= address && address < high_of(entry);
    if (!open_list(&list, entry->unit, &entry->values[IN_RANGES], false)) return false;
    while (next_range(&list, &low, &high, &code))
        if (low <= address && address < high) return true;
    return false;
}

/* ---- The place that makes a block ---- */

static struct span code_at(const struct debug *debug, uint64_t address) {
    return address < debug->text_at ? (struct span){0} : section_from(debug, TEXT, address - debug->text_at);
}

/* The register into which the result of a call is moved at once (`mov %rax, ..`), by its number in the debug information. */
static bool moves_result(const struct debug *debug, uint64_t behind, uint64_t *number) {
    static const uint8_t numbers[] = {0, 2, 1, 3, 7, 6, 4, 5, 8, 9, 10, 11, 12, 13, 14, 15};
    struct span code = code_at(debug, behind);
    uint64_t prefix = take(&code, 1), operation = take(&code, 1), registers = take(&code, 1);
    if (code.bad || (prefix & ~(uint64_t)1) != 0x48 || operation != 0x89 || (registers & 0xf8) != 0xc0) return false;
    *number = numbers[(registers & 7) | (prefix & 1) << 3];
    return true;
}

/* An instruction with a place in the frame (`mov %rax, place(%rbp)`), in its short form or its long one. */
static bool takes_frame(struct span *code, uint64_t operation, uint64_t registers, int64_t *place) {
    struct span from = *code;
    bool is_it = take(&from, 1) == 0x48 && take(&from, 1) == operation;
    uint64_t mode = take(&from, 1);
    *place = mode == registers ? (int8_t)take(&from, 1) : (int32_t)take(&from, 4);
    if (from.bad || !is_it || (mode != registers && mode != registers + 0x40)) return false;
    *code = from;
    return true;
}

/* Where in the frame the result is stored at once; or behind the hook of that write, over which it is kept elsewhere. */
static bool stores_result(const struct debug *debug, uint64_t behind, int64_t *place) {
    struct span code = code_at(debug, behind);
    int64_t kept, hooked, again, stored;
    if (!takes_frame(&code, 0x89, 0x45, &kept)) return false;
    *place = kept;
    if (!takes_frame(&code, 0x8d, 0x7d, &hooked) || take(&code, 1) != 0xe8) return true;
    take(&code, 4);
    bool is_kept = takes_frame(&code, 0x8b, 0x45, &again) && takes_frame(&code, 0x89, 0x45, &stored);
    if (is_kept && again == kept && stored == hooked) *place = stored;
    return true;
}

/* Whether a variable has the result of the call from its end on: in the register of results, or in where that is moved. */
static bool takes_result(const struct entry *variable, uint64_t behind, bool has_frame) {
    const struct debug *debug = variable->unit->debug;
    const struct value *located = &variable->values[LOCATED];
    uint64_t low, high, moved;
    int64_t place;
    struct list list;
    struct span code = located->code;
    if (located->kind == CODE) {
        bool is_in_frame = has_frame && take(&code, 1) == 0x91 && stores_result(debug, behind, &place);
        return is_in_frame && take_signed_leb(&code) == place && code.at == code.end;
    }
    bool is_moved = moves_result(debug, behind, &moved);
    if (!open_list(&list, variable->unit, located, true)) return false;
    while (next_range(&list, &low, &high, &code)) {
        bool is_register = code.end - code.at == 1 && low < high;
        if (is_register && low == behind && *code.at == 0x50) return true;
        if (is_register && low == behind + MOVE_BYTES && is_moved && *code.at == 0x50 + moved) return true;
    }
    return false;
}

static uint64_t pointed_type(const struct debug *debug, const struct entry *variable) {
    struct entry pointer;
    return bare_type(debug, type_of(variable), &pointer) && pointer.tag == POINTER ? type_of(&pointer) : 0;
}

/* The name of a type, also behind what only says how it is used. */
static const char *name_of_type(const struct debug *debug, uint64_t type) {
    struct entry entry;
    for (unsigned depth = 0; depth < MOST_DEPTH && type && entry_at(debug, type, &entry); depth++) {
        if (name_of_entry(&entry)) return name_of_entry(&entry);
        if (!is_other_name(&entry)) return NULL;
        type = type_of(&entry);
    }
    return NULL;
}

/* Goes through a function: what is called is told by the innermost one that was built into it there; and the type by the
 * variables that take the result, where all that point to something point to the same. Of those that share a place in the
 * frame it is not known which one does. */
bool find_maker(const struct debug *debug, uint64_t behind, struct told *told) {
    const struct thing *function = thing_at(&debug->functions, behind - 1);
    struct entry entry;
    *told = (struct told){.debug = debug};
    if (!function || behind > function->end || !entry_at(debug, function->entry, &entry)) return false;
    struct line line;
    if (!find_line(entry.unit, behind - 1, &line)) return false;
    told->line = line.number;
    told->file = name_of_file(entry.unit, line.file, NULL);
    if (!told->file) return false;
    struct span frame = entry.values[FRAME].code;
    bool is_one = true, has_frame = frame.end - frame.at == 1 && *frame.at == 0x56;
    unsigned in_frame = 0;
    told->name = name_of_entry(&entry);
    for (unsigned depth = 0; next_entry(&entry, &depth);) {
        if (entry.tag == INLINED && has_address(&entry, behind - 1)) told->name = name_of_entry(&entry);
        if ((entry.tag != VARIABLE && entry.tag != PARAMETER) || !takes_result(&entry, behind, has_frame)) continue;
        uint64_t type = pointed_type(debug, &entry);
        is_one = is_one && (!type || !told->type || told->type == type);
        if (type) told->type = type;
        in_frame += entry.values[LOCATED].kind == CODE;
    }
    if (!is_one || in_frame > 1 || !size_of_type(debug, told->type)) told->type = 0;
    const char *name = told->type ? name_of_type(debug, told->type) : NULL;
    if (name) told->name = name;
    return told->name;
}
