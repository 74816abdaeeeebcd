/* Where in the program a record comes from: the calls that led to it, from the innermost one on that lies in code which was
 * built by the recorder. Each row of calls is logged once, and is named by its number.
 *
 * Such code and our own link their frames. Where other code called us, as the library of C++ for the program, its frames
 * are passed by what it tells the unwinder. */
#include <link.h>
#include <string.h>
#include <unwind.h>

#include "../shadow.h"
#include "runtime.h"

enum { MOST_PARTS = 512, MOST_CALLS = 16, MOST_PASSED = 64, MOST_SITES = 1 << 20, MOST_LONG_SITES = 1 << 18 };

struct calls {
    uintptr_t list[MOST_CALLS];
    unsigned count, passed;
};

/* ---- Whose code an address lies in ---- */

enum owner { OF_PROGRAM, OF_RECORDER, OF_OTHERS };

static struct part {
    uintptr_t low, size;
    enum owner owner;
} parts[MOST_PARTS];
static unsigned part_count;

static bool needs_recorder(const struct dl_phdr_info *module, const ElfW(Dyn) *dynamic) {
    const char *names = NULL;
    for (const ElfW(Dyn) *at = dynamic; at->d_tag != DT_NULL; at++) {
        bool is_moved = at->d_un.d_ptr >= module->dlpi_addr;
        if (at->d_tag == DT_STRTAB) names = (const char *)(at->d_un.d_ptr + (is_moved ? 0 : module->dlpi_addr));
    }
    for (const ElfW(Dyn) *at = dynamic; at->d_tag != DT_NULL && names; at++)
        if (at->d_tag == DT_NEEDED && !strcmp(names + at->d_un.d_val, "libgprecord.so")) return true;
    return false;
}

static bool has_address(const struct dl_phdr_info *module, const ElfW(Phdr) *part, uintptr_t address) {
    return part->p_type == PT_LOAD && part->p_flags & PF_X && address - module->dlpi_addr - part->p_vaddr < part->p_memsz;
}

static int note_part(struct dl_phdr_info *module, UNUSED size_t size, void *given) {
    uintptr_t address = *(const uintptr_t *)given;
    const ElfW(Phdr) *found = NULL;
    enum owner owner = OF_OTHERS;
    for (unsigned i = 0; i < module->dlpi_phnum; i++) {
        const ElfW(Phdr) *part = &module->dlpi_phdr[i];
        bool is_built = part->p_type == PT_DYNAMIC && needs_recorder(module, (const void *)(module->dlpi_addr + part->p_vaddr));
        if (is_built) owner = OF_PROGRAM;
        if (has_address(module, part, (uintptr_t)note_part)) owner = OF_RECORDER;
        if (has_address(module, part, address)) found = part;
    }
    if (found) parts[part_count++] = (struct part){module->dlpi_addr + found->p_vaddr, found->p_memsz, owner};
    return found != NULL;
}

static enum owner owner_of(uintptr_t address) {
    for (unsigned i = 0; i < part_count; i++)
        if (address - parts[i].low < parts[i].size) return parts[i].owner;
    if (part_count == MOST_PARTS || !dl_iterate_phdr(note_part, &address)) return OF_OTHERS;
    return parts[part_count - 1].owner;
}

/* ---- Calls ---- */

/* Whether the frame of the caller lies where it may: what is read there is memory then, whatever it is. */
static bool is_link(const struct thread *me, const uintptr_t *frame, const uintptr_t *next) {
    uintptr_t from = (uintptr_t)frame, to = (uintptr_t)next;
    return from >= me->stack_low && from < to && to + 2 * sizeof *next <= me->stack_high && to % sizeof *next == 0;
}

static bool take_call(struct calls *calls, uintptr_t call) {
    enum owner owner = owner_of(call);
    if (owner == OF_PROGRAM) calls->list[calls->count++] = call;
    return owner != OF_OTHERS && calls->count < MOST_CALLS;
}

static void find_near(const struct thread *me, struct calls *calls) {
    for (const uintptr_t *frame = me->frame, *next; frame && take_call(calls, frame[1]); frame = next) {
        next = (const uintptr_t *)frame[0];
        if (!is_link(me, frame, next)) return;
    }
}

static _Unwind_Reason_Code pass_frame(struct _Unwind_Context *context, void *given) {
    struct calls *calls = given;
    bool goes_on = take_call(calls, _Unwind_GetIP(context)) || !calls->count;
    return goes_on && ++calls->passed < MOST_PASSED ? _URC_NO_REASON : _URC_END_OF_STACK;
}

/* ---- Sites: each row of calls, once ---- */

static struct site {
    uint32_t record, count;
} *sites;
static uint32_t *table; /* of the numbers of sites, from 1 */
static uint32_t site_count;

bool open_sites(void) {
    sites = fresh_memory((MOST_SITES + 1) * sizeof *sites);
    table = fresh_memory(2 * MOST_SITES * sizeof *table);
    return sites && table;
}

static bool is_site(const struct site *site, const struct calls *calls) {
    const uintptr_t *list = (const uintptr_t *)&records[site->record + 1];
    unsigned same = 0;
    while (same < calls->count && site->count == calls->count && list[same] == calls->list[same]) same++;
    return same == calls->count;
}

/* Where too many rows are known already, the innermost call alone is. */
static uint32_t number_of(struct calls *calls) {
    if (!calls->count || !log_open) return 0;
    if (site_count >= MOST_LONG_SITES) calls->count = 1;
    uint64_t hash = 0;
    for (unsigned i = 0; i < calls->count; i++) hash = (hash ^ calls->list[i]) * 0x9e3779b97f4a7c15u;
    uint32_t at = (uint32_t)(hash >> 32) % (2 * MOST_SITES);
    for (; table[at]; at = (at + 1) % (2 * MOST_SITES))
        if (is_site(&sites[table[at]], calls)) return table[at];
    if (site_count == MOST_SITES) return 0;
    uint32_t record = log_bytes(SITE, calls->list, calls->count * sizeof *calls->list);
    sites[++site_count] = (struct site){record, calls->count};
    return table[at] = site_count;
}

uint32_t site_of(const struct thread *me, bool unwinds) {
    struct calls calls = {.count = 0};
    find_near(me, &calls);
    if (!calls.count && unwinds) _Unwind_Backtrace(pass_frame, &calls);
    return number_of(&calls);
}
