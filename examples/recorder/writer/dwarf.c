/* Reads the debug information of a file: its sections, units and entries. */
#include <elf.h>
#include <fcntl.h>
#include <stdlib.h>
#include <string.h>
#include <sys/mman.h>
#include <sys/stat.h>
#include <unistd.h>

#include "dwarf.h"

enum { MOST_DEPTH = 32, MOST_AROUND = 32, UNIT_COMPILE = 1, UNIT_PARTIAL = 3 };

/* ---- Bytes ---- */

struct span take_span(struct span *from, uint64_t size) {
    struct span taken = {from->at, from->at, false};
    if (size > (uint64_t)(from->end - from->at)) {
        from->bad = true;
        from->at = from->end;
        return taken;
    }
    if (size) taken.end = from->at += size;
    return taken;
}

uint64_t take(struct span *from, unsigned size) {
    uint64_t number = 0;
    struct span taken = take_span(from, size);
    if (taken.at < taken.end) memcpy(&number, taken.at, size);
    return number;
}

static uint64_t take_groups(struct span *from, unsigned *shift, uint8_t *last) {
    uint64_t number = 0;
    *shift = 0;
    do {
        *last = (uint8_t)take(from, 1);
        if (*shift < 64) number |= (uint64_t)(*last & 0x7f) << *shift;
        *shift += 7;
    } while (*last & 0x80);
    return number;
}

uint64_t take_leb(struct span *from) {
    unsigned shift;
    uint8_t last;
    return take_groups(from, &shift, &last);
}

int64_t take_signed_leb(struct span *from) {
    unsigned shift;
    uint8_t last;
    uint64_t number = take_groups(from, &shift, &last);
    if (last & 0x40 && shift < 64) number |= UINT64_MAX << shift;
    return (int64_t)number;
}

const char *take_text(struct span *from) {
    const char *text = (const char *)from->at;
    const uint8_t *end = from->at < from->end ? memchr(from->at, 0, (size_t)(from->end - from->at)) : NULL;
    if (!end) {
        from->bad = true;
        from->at = from->end;
        return "";
    }
    from->at = end + 1;
    return text;
}

struct span section_from(const struct debug *debug, enum section section, uint64_t offset) {
    struct span found = debug->sections[section];
    take_span(&found, offset);
    return found;
}

/* ---- Values of attributes ---- */

static struct value valued(enum value_kind kind, uint64_t number) { return (struct value){.kind = kind, .number = number}; }
static struct value code_value(struct span code) { return (struct value){.kind = CODE, .code = code}; }
static struct value text_value(struct span from) { return (struct value){.kind = TEXTUAL, .text = take_text(&from)}; }

static uint64_t product(uint64_t count, uint64_t size) { return count < UINT64_MAX / size ? count * size : UINT64_MAX; }

static struct value indexed_text(const struct unit *unit, uint64_t index) {
    struct span from = section_from(unit->debug, STR_OFFSETS, unit->bases[STR_BASE]);
    take_span(&from, product(index, 4));
    return text_value(section_from(unit->debug, STR, from.bad ? UINT64_MAX : take(&from, 4)));
}

uint64_t address_of_index(const struct unit *unit, uint64_t index) {
    struct span from = section_from(unit->debug, ADDR, unit->bases[ADDR_BASE]);
    take_span(&from, product(index, 8));
    return take(&from, 8);
}

struct value take_value(const struct unit *unit, struct span *from, uint64_t form, int64_t constant) {
    switch (form) {
    case 0x01: return valued(ADDRESS, take(from, 8));
    case 0x03: return code_value(take_span(from, take(from, 2)));
    case 0x04: return code_value(take_span(from, take(from, 4)));
    case 0x05: return valued(NUMBER, take(from, 2));
    case 0x06: return valued(NUMBER, take(from, 4));
    case 0x07: return valued(NUMBER, take(from, 8));
    case 0x08: return (struct value){.kind = TEXTUAL, .text = take_text(from)};
    case 0x09: case 0x18: return code_value(take_span(from, take_leb(from)));
    case 0x0a: return code_value(take_span(from, take(from, 1)));
    case 0x0b: case 0x0c: return valued(NUMBER, take(from, 1));
    case 0x0d: return valued(NUMBER, (uint64_t)take_signed_leb(from));
    case 0x0e: return text_value(section_from(unit->debug, STR, take(from, 4)));
    case 0x0f: return valued(NUMBER, take_leb(from));
    case 0x10: return valued(REFERENCE, take(from, 4));
    case 0x11: return valued(REFERENCE, unit->at + take(from, 1));
    case 0x12: return valued(REFERENCE, unit->at + take(from, 2));
    case 0x13: return valued(REFERENCE, unit->at + take(from, 4));
    case 0x14: return valued(REFERENCE, unit->at + take(from, 8));
    case 0x15: return valued(REFERENCE, unit->at + take_leb(from));
    case 0x17: return valued(OFFSET, take(from, 4));
    case 0x19: return valued(NUMBER, 1);
    case 0x1a: return indexed_text(unit, take_leb(from));
    case 0x1b: return valued(ADDRESS, address_of_index(unit, take_leb(from)));
    case 0x1e: return code_value(take_span(from, 16));
    case 0x1f: return text_value(section_from(unit->debug, LINE_STR, take(from, 4)));
    case 0x20: take(from, 8); return valued(MISSING, 0);
    case 0x21: return valued(NUMBER, (uint64_t)constant);
    case 0x22: case 0x23: return valued(INDEX, take_leb(from));
    case 0x25: case 0x26: case 0x27: case 0x28: return indexed_text(unit, take(from, (unsigned)form - 0x24));
    case 0x29: case 0x2a: case 0x2b: case 0x2c:
        return valued(ADDRESS, address_of_index(unit, take(from, (unsigned)form - 0x28)));
    default: from->bad = true; return valued(MISSING, 0);
    }
}

/* ---- Entries ---- */

/* The attributes that matter, by their codes. */
static const uint8_t attributes[256] = {
    [0x02] = LOCATED, [0x03] = NAMED, [0x0b] = SIZED, [0x0c] = BIT_FROM_LAST, [0x0d] = BITS, [0x10] = LINES, [0x11] = LOW,
    [0x12] = HIGH, [0x2f] = UPPER, [0x31] = ORIGIN, [0x37] = COUNTED, [0x38] = AT_BYTE, [0x40] = FRAME, [0x47] = SPECIFIED,
    [0x49] = TYPED, [0x55] = IN_RANGES, [0x6b] = FIRST_BIT, [0x72] = STR_BASE, [0x73] = ADDR_BASE, [0x74] = RNGLISTS_BASE,
    [0x8c] = LOCLISTS_BASE, [0x1b] = FOLDER, [0x58] = CALL_FILE, [0x59] = CALL_LINE};

static const struct abbreviation *abbreviation_of(const struct unit *unit, uint64_t code) {
    if (code <= unit->abbreviation_count && unit->abbreviations[code - 1].code == code) return &unit->abbreviations[code - 1];
    for (size_t i = 0; i < unit->abbreviation_count; i++)
        if (unit->abbreviations[i].code == code) return &unit->abbreviations[i];
    return NULL;
}

/* The entry at a place of its unit; its tag is 0 where it ends the children of another one. */
static bool read_entry(const struct unit *unit, uint64_t at, struct entry *entry) {
    if (at < unit->first || at >= unit->end) return false;
    struct span from = section_from(unit->debug, INFO, at);
    from.end = unit->debug->sections[INFO].at + unit->end;
    const uint8_t *begin = from.at;
    uint64_t code = take_leb(&from);
    memset(entry, 0, sizeof *entry);
    entry->unit = unit;
    entry->at = at;
    entry->behind = at + (uint64_t)(from.at - begin);
    if (from.bad || !code) return !from.bad;
    const struct abbreviation *abbreviation = abbreviation_of(unit, code);
    if (!abbreviation) return false;
    entry->tag = abbreviation->tag;
    entry->has_children = abbreviation->has_children;
    for (struct span wanted = abbreviation->attributes; wanted.at < wanted.end;) {
        uint64_t name = take_leb(&wanted), form = take_leb(&wanted);
        int64_t constant = form == 0x21 ? take_signed_leb(&wanted) : 0;
        struct value value = take_value(unit, &from, form, constant);
        if (name < sizeof attributes && attributes[name]) entry->values[attributes[name]] = value;
    }
    entry->behind = at + (uint64_t)(from.at - begin);
    return !from.bad;
}

bool entry_at(const struct debug *debug, uint64_t at, struct entry *entry) {
    size_t above = FIRST_ABOVE(debug->units, debug->unit_count, at, at);
    return above && read_entry(&debug->units[above - 1], at, entry) && entry->tag;
}

bool next_entry(struct entry *entry, unsigned *depth) {
    if (entry->tag && entry->has_children) ++*depth;
    if (!*depth || !read_entry(entry->unit, entry->behind, entry)) return false;
    while (!entry->tag) {
        if (!--*depth || !read_entry(entry->unit, entry->behind, entry)) return false;
    }
    return true;
}

struct value value_of(const struct entry *entry, enum attribute attribute) {
    struct entry other = *entry;
    for (unsigned i = 0; i < MOST_DEPTH && !other.values[attribute].kind; i++) {
        struct value next = other.values[ORIGIN].kind ? other.values[ORIGIN] : other.values[SPECIFIED];
        if (next.kind != REFERENCE || !entry_at(entry->unit->debug, next.number, &other)) break;
    }
    return other.values[attribute];
}

const char *name_of_entry(const struct entry *entry) {
    struct value name = value_of(entry, NAMED);
    return name.kind == TEXTUAL && *name.text ? name.text : NULL;
}

static void write_scope(FILE *to, const struct debug *debug, size_t scope) {
    if (!scope) return;
    write_scope(to, debug, debug->scopes[scope - 1].outer);
    fprintf(to, "%s::", debug->scopes[scope - 1].name);
}

void write_whole_name(FILE *to, const struct entry *entry) {
    const struct debug *debug = entry->unit->debug;
    struct entry other = *entry;
    while (!other.values[NAMED].kind) {
        struct value next = other.values[ORIGIN].kind ? other.values[ORIGIN] : other.values[SPECIFIED];
        if (next.kind != REFERENCE || next.number == other.at || !entry_at(debug, next.number, &other)) break;
    }
    size_t above = FIRST_ABOVE(debug->members, debug->member_count, entry, other.at);
    if (above && debug->members[above - 1].entry == other.at) write_scope(to, debug, debug->members[above - 1].scope);
    const char *name = name_of_entry(entry);
    fputs(name ? name : "?", to);
}

uint64_t high_of(const struct entry *entry) {
    const struct value *high = &entry->values[HIGH];
    return high->kind == NUMBER ? entry->values[LOW].number + high->number : high->kind == ADDRESS ? high->number : 0;
}

/* ---- Units ---- */

static void read_abbreviations(struct unit *unit, uint64_t offset) {
    const struct debug *debug = unit->debug;
    const struct unit *before = debug->unit_count ? &debug->units[debug->unit_count - 1] : NULL;
    unit->abbreviations_at = offset;
    if (before && before->abbreviation_count && before->abbreviations_at == offset) {
        unit->abbreviations = before->abbreviations;
        unit->abbreviation_count = before->abbreviation_count;
        return;
    }
    struct span from = section_from(debug, ABBREV, offset);
    for (uint64_t code; (code = take_leb(&from));) {
        struct abbreviation made = {.code = code, .tag = take_leb(&from), .has_children = take(&from, 1)};
        made.attributes = from;
        for (uint64_t name = 1, form = 1; (name || form) && !from.bad;) {
            made.attributes.end = from.at;
            name = take_leb(&from);
            form = take_leb(&from);
            if (form == 0x21) take_signed_leb(&from);
        }
        if (from.bad) return;
        ADD(unit->abbreviations, unit->abbreviation_count, made);
    }
}

/* What a unit says of itself: the places where its texts and addresses begin, first of all. */
static void read_root(struct unit *unit) {
    struct entry root;
    for (enum attribute base = STR_BASE; base <= LOCLISTS_BASE; base++) unit->bases[base] = base < RNGLISTS_BASE ? 8 : 12;
    for (unsigned round = 0; round < 2; round++) {
        if (!read_entry(unit, unit->first, &root)) return;
        for (enum attribute base = STR_BASE; base <= LOCLISTS_BASE; base++)
            if (root.values[base].kind) unit->bases[base] = root.values[base].number;
    }
    unit->low = root.values[LOW].number;
    unit->has_lines = root.values[LINES].kind;
    unit->lines = root.values[LINES].number;
    unit->name = name_of_entry(&root);
    unit->folder = root.values[FOLDER].kind == TEXTUAL ? root.values[FOLDER].text : "";
}

/* The unit at the beginning of `from`; false where it cannot be passed over. One that is not known has no entries. */
static bool read_unit(const struct debug *debug, struct span *from, struct unit *unit) {
    *unit = (struct unit){.debug = debug, .at = (uint64_t)(from->at - debug->sections[INFO].at), .folder = ""};
    if (!(unit->rows = calloc(1, sizeof *unit->rows))) return false;
    uint64_t size = take(from, 4);
    struct span rest = take_span(from, size);
    if (from->bad || size >= 0xfffffff0) return false;
    unit->end = (uint64_t)(from->at - debug->sections[INFO].at);
    unit->first = unit->end;
    unit->version = (unsigned)take(&rest, 2);
    uint64_t kind = unit->version == 5 ? take(&rest, 1) : UNIT_COMPILE, address = unit->version == 5 ? take(&rest, 1) : 0;
    uint64_t abbreviations = take(&rest, 4);
    if (unit->version == 4) address = take(&rest, 1);
    bool is_known = (unit->version == 4 || unit->version == 5) && (kind == UNIT_COMPILE || kind == UNIT_PARTIAL);
    if (rest.bad || !is_known || address != 8) return true;
    unit->first = (uint64_t)(rest.at - debug->sections[INFO].at);
    read_abbreviations(unit, abbreviations);
    read_root(unit);
    return true;
}

/* ---- Variables and functions ---- */

/* A variable's code is an address; or pieces, each with an address, or none where the variable has nothing there. */
static void note_variable(struct debug *debug, const struct entry *entry) {
    struct span code = entry->values[LOCATED].code;
    struct things *variables = &debug->variables;
    struct thing made = {.entry = entry->at};
    while (code.at < code.end) {
        uint64_t operation = take(&code, 1);
        if (operation == 0x03) {
            made.address = take(&code, 8);
        } else if (operation == 0xa1) {
            made.address = address_of_index(entry->unit, take_leb(&code));
        } else if (operation == 0x93) {
            made.is_piece = true;
            if (made.address) ADD(variables->list, variables->count, made);
            made.offset += take_leb(&code);
            made.address = 0;
        } else {
            return;
        }
    }
    if (made.address && !made.is_piece && !code.bad) ADD(variables->list, variables->count, made);
}

/* The entries around one: of each its name, where functions may be members of it, and its number among the scopes. */
struct around {
    const char *names[MOST_AROUND];
    size_t numbers[MOST_AROUND];
    unsigned depth;
};

static void go_in(struct around *around, const struct entry *entry) {
    bool is_scope = entry->tag == NAMESPACE || entry->tag == CLASS || entry->tag == STRUCTURE || entry->tag == FUNCTION;
    if (around->depth < MOST_AROUND) {
        around->names[around->depth] = is_scope ? name_of_entry(entry) : NULL;
        around->numbers[around->depth] = 0;
    }
    around->depth++;
}

/* The number of the innermost of so many scopes, or 0 where there is none. */
static size_t innermost_scope(struct debug *debug, struct around *around, unsigned depth) {
    while (depth && !around->names[depth - 1]) depth--;
    if (!depth || around->numbers[depth - 1]) return depth ? around->numbers[depth - 1] : 0;
    size_t outer = innermost_scope(debug, around, depth - 1);
    ADD(debug->scopes, debug->scope_count, (struct scope){around->names[depth - 1], outer});
    return around->numbers[depth - 1] = debug->scope_count;
}

static void note_member(struct debug *debug, struct around *around, const struct entry *entry) {
    size_t scope = innermost_scope(debug, around, around->depth < MOST_AROUND ? around->depth : MOST_AROUND);
    if (scope) ADD(debug->members, debug->member_count, (struct member){entry->at, scope});
}

static void note_entries(struct debug *debug, const struct unit *unit) {
    struct entry entry;
    struct around around = {.depth = 0};
    for (uint64_t at = unit->first; read_entry(unit, at, &entry); at = entry.behind) {
        if (!entry.tag && around.depth) around.depth--;
        if (entry.tag == FUNCTION) note_member(debug, &around, &entry);
        if (entry.tag && entry.has_children) go_in(&around, &entry);
        if (entry.tag == VARIABLE && entry.values[LOCATED].kind == CODE) note_variable(debug, &entry);
        struct thing made = {.address = entry.values[LOW].number, .entry = entry.at, .end = high_of(&entry)};
        if (entry.tag == FUNCTION && made.address) ADD(debug->functions.list, debug->functions.count, made);
    }
}

static int by_address(const void *one, const void *other) {
    const struct thing *first = one, *second = other;
    if (first->address != second->address) return first->address < second->address ? -1 : 1;
    return first->entry < second->entry ? -1 : first->entry > second->entry;
}

static void sort(struct things *things) {
    if (things->count) qsort(things->list, things->count, sizeof *things->list, by_address);
}

/* ---- The file ---- */

static struct span map_file(const char *path) {
    struct stat status;
    int file = open(path, O_RDONLY | O_CLOEXEC);
    if (file < 0) return (struct span){0};
    void *made = fstat(file, &status) || !status.st_size ? MAP_FAILED
                                                         : mmap(NULL, (size_t)status.st_size, PROT_READ, MAP_PRIVATE, file, 0);
    close(file);
    if (made == MAP_FAILED) return (struct span){0};
    return (struct span){made, (uint8_t *)made + status.st_size, false};
}

static struct span part_of(struct span file, uint64_t offset, uint64_t size) {
    take_span(&file, offset);
    return take_span(&file, size);
}

static bool read_head(struct span file, Elf64_Ehdr *head) {
    if ((size_t)(file.end - file.at) < sizeof *head) return false;
    memcpy(head, file.at, sizeof *head);
    return !memcmp(head->e_ident, ELFMAG, SELFMAG) && head->e_ident[EI_CLASS] == ELFCLASS64 &&
           head->e_ident[EI_DATA] == ELFDATA2LSB && head->e_machine == EM_X86_64 && head->e_shentsize == sizeof(Elf64_Shdr);
}

static bool read_section(struct span *headers, Elf64_Shdr *header) {
    struct span taken = take_span(headers, sizeof *header);
    if (taken.at == taken.end) return false;
    memcpy(header, taken.at, sizeof *header);
    return true;
}

static void find_sections(struct debug *debug, struct span file, const Elf64_Ehdr *head) {
    static const char *const names[] = {".debug_info", ".debug_abbrev", ".debug_str", ".debug_line", ".debug_line_str",
        ".debug_addr", ".debug_str_offsets", ".debug_loclists", ".debug_rnglists", ".debug_loc", ".debug_ranges", ".text"};
    _Static_assert(sizeof names / sizeof *names == SECTIONS, "each section has a name");
    struct span headers = part_of(file, head->e_shoff, (uint64_t)head->e_shnum * sizeof(Elf64_Shdr)), found;
    Elf64_Shdr header = {0};
    found = part_of(headers, (uint64_t)head->e_shstrndx * sizeof header, sizeof header);
    if (!read_section(&found, &header)) return;
    struct span texts = part_of(file, header.sh_offset, header.sh_size);
    while (read_section(&headers, &header)) {
        found = texts;
        take_span(&found, header.sh_name);
        const char *name = take_text(&found);
        for (size_t i = 0; i < SECTIONS; i++) {
            if (header.sh_type != SHT_PROGBITS || header.sh_flags & SHF_COMPRESSED || strcmp(name, names[i])) continue;
            debug->sections[i] = part_of(file, header.sh_offset, header.sh_size);
            if (i == TEXT) debug->text_at = header.sh_addr;
        }
    }
}

struct debug *open_debug(const char *path) {
    struct span file = map_file(path);
    Elf64_Ehdr head;
    struct debug *debug = calloc(1, sizeof *debug);
    if (!debug || !file.at || !read_head(file, &head)) return debug;
    find_sections(debug, file, &head);
    struct span from = debug->sections[INFO];
    for (struct unit unit; from.at < from.end && read_unit(debug, &from, &unit);) ADD(debug->units, debug->unit_count, unit);
    for (size_t i = 0; i < debug->unit_count; i++) note_entries(debug, &debug->units[i]);
    sort(&debug->variables);
    sort(&debug->functions);
    return debug;
}
