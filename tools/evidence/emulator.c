#include "emulator.h"
#include <capstone/capstone.h>
#include <stdio.h>
#include <stdlib.h>
#include <string.h>
#include <unicorn/unicorn.h>

enum { STACK = 1 << 20, LONGEST_PATH = 1 << 23, MARKS = 8, EVENTS = 256 };
extern char __executable_start[], etext[], end[];

static uc_engine *uc;
static uc_context *fresh;
static csh disassembler;
static uint8_t stack[STACK] __attribute__((aligned(4096)));
static uint64_t *places;           /* by address: what the instruction there writes; 0 where it isn't known yet */
static uint32_t *path;             /* addresses, as distances from the program's start */
static size_t length, at;          /* of the path; along it */
static uint64_t now;               /* the instruction under way, 0 before the first */
static Value stored;               /* by it */
static int stores;
static Value before[PLACES];       /* the registers before it, in the survey */
static Seen *seen_by;              /* none in the survey */
static struct {
    uint64_t entry, back, sp;
} marks[MARKS];
static size_t mark_count, event_count;
static Event event_list[EVENTS];

static const int GENERAL[16] = {
    UC_X86_REG_RAX, UC_X86_REG_RBX, UC_X86_REG_RCX, UC_X86_REG_RDX, UC_X86_REG_RSI, UC_X86_REG_RDI, UC_X86_REG_RBP, UC_X86_REG_RSP,
    UC_X86_REG_R8,  UC_X86_REG_R9,  UC_X86_REG_R10, UC_X86_REG_R11, UC_X86_REG_R12, UC_X86_REG_R13, UC_X86_REG_R14, UC_X86_REG_R15,
};
static const char *const NAMES[16][5] = {
    {"rax", "eax", "ax", "al", "ah"},    {"rbx", "ebx", "bx", "bl", "bh"},    {"rcx", "ecx", "cx", "cl", "ch"},    {"rdx", "edx", "dx", "dl", "dh"},
    {"rsi", "esi", "si", "sil", ""},     {"rdi", "edi", "di", "dil", ""},     {"rbp", "ebp", "bp", "bpl", ""},     {"rsp", "esp", "sp", "spl", ""},
    {"r8", "r8d", "r8w", "r8b", ""},     {"r9", "r9d", "r9w", "r9b", ""},     {"r10", "r10d", "r10w", "r10b", ""}, {"r11", "r11d", "r11w", "r11b", ""},
    {"r12", "r12d", "r12w", "r12b", ""}, {"r13", "r13d", "r13w", "r13b", ""}, {"r14", "r14d", "r14w", "r14b", ""}, {"r15", "r15d", "r15w", "r15b", ""},
};

static void must(uc_err e) {
    if (e == UC_ERR_OK) return;
    fprintf(stderr, "campaign: the emulator stopped at %#llx: %s\n", (unsigned long long)now, uc_strerror(e));
    exit(2);
}

static size_t place_in_image(uint64_t address) {
    return address - (uint64_t)__executable_start;
}

const char *place_name(int place) {
    static char name[16];
    if (place < FLAGS) return NAMES[place][0];
    if (place == FLAGS) return "flags";
    if (place == MEMORY) return "memory";
    snprintf(name, sizeof name, "xmm%d", place - VECTORS);
    return name;
}

/* The place of a register by the disassembler's name, or -1. */
static int place_of(const char *name) {
    for (int i = 0; i < 16; i++)
        for (int j = 0; j < 5; j++)
            if (strcmp(name, NAMES[i][j]) == 0) return i;
    if (strncmp(name, "xmm", 3) == 0) return VECTORS + atoi(name + 3);
    return strstr(name, "flags") ? FLAGS : -1;
}

static cs_insn *decoded(uint64_t address) {
    cs_insn *i;
    if (cs_disasm(disassembler, (const uint8_t *)address, 16, address, 1, &i) == 1) return i;
    fprintf(stderr, "campaign: no instruction known at %#llx\n", (unsigned long long)address);
    exit(2);
}

const char *instruction_text(uint64_t address) {
    static char text[128];
    cs_insn *i = decoded(address);
    snprintf(text, sizeof text, "%s %.64s", i->mnemonic, i->op_str);
    cs_free(i, 1);
    return text;
}

static uint64_t named_places(uint64_t address) {
    cs_insn *i = decoded(address);
    cs_regs read, written;
    uint8_t reads, writes;
    uint64_t found = 0;
    if (cs_regs_access(disassembler, i, read, &reads, written, &writes) != CS_ERR_OK) writes = 0;
    for (int j = 0; j < writes; j++) {
        int place = place_of(cs_reg_name(disassembler, written[j]));
        if (place >= 0) found |= 1ull << place;
    }
    cs_free(i, 1);
    return found;
}

static Value read_place(int place) {
    Value v = {0, 0};
    if (place == MEMORY) return stored;
    int id = place < FLAGS ? GENERAL[place] : place == FLAGS ? UC_X86_REG_EFLAGS : UC_X86_REG_XMM0 + place - VECTORS;
    must(uc_reg_read(uc, id, &v));
    return v;
}

/* Adds to an instruction's places what it changed. */
static void compare_registers(void) {
    uint64_t *known = &places[place_in_image(now)], changed = stores > 0 ? 1ull << MEMORY : 0;
    for (int p = 0; p < REGISTERS; p++) {
        Value v = read_place(p);
        if (v.low == before[p].low && v.high == before[p].high) continue;
        before[p] = v;
        changed |= 1ull << p;
    }
    *known |= changed;
}

static void hand_out(void) {
    for (uint64_t left = places[place_in_image(now)]; left; left &= left - 1) {
        int place = __builtin_ctzll(left);
        seen_by(place, read_place(place));
    }
}

/* What the instruction under way has left, before the next. */
static void ended(void) {
    if (now == 0) return;
    seen_by ? hand_out() : compare_registers();
    stored = (Value){0, 0};
    stores = 0;
}

static void follow_marks(uint64_t address) {
    uint64_t sp = 0;
    for (size_t i = 0; i < mark_count; i++) {
        if (address != marks[i].entry && address != marks[i].back) continue;
        must(uc_reg_read(uc, UC_X86_REG_RSP, &sp));
        int after = address == marks[i].back && sp == marks[i].sp;
        if ((!after && address != marks[i].entry) || event_count == EVENTS) continue;
        event_list[event_count++] = (Event){after, i, at};
        marks[i].back = after ? 0 : *(uint64_t *)sp;
        marks[i].sp = sp + 8;
    }
}

static void follow_path(uint64_t address) {
    if (at == LONGEST_PATH) must(UC_ERR_NOMEM);
    if (length == 0) {
        path[at] = place_in_image(address);
        follow_marks(address);
    } else if (at == length || path[at] != place_in_image(address)) {
        printf("{\"other_path\": {\"at\": %zu, \"address\": %llu, \"text\": \"%s\"}}\n", at, (unsigned long long)now, instruction_text(now));
        exit(0);
    }
    at++;
}

static void on_code(uc_engine *u, uint64_t address, uint32_t size, void *user) {
    (void)u, (void)size, (void)user;
    ended();
    follow_path(address);
    now = address;
    uint64_t *known = &places[place_in_image(address)];
    if (seen_by == 0 && *known == 0) *known = named_places(address);
}

/* A vector is stored as two words. */
static void on_store(uc_engine *u, uc_mem_type type, uint64_t address, int size, int64_t v, void *user) {
    (void)u, (void)type, (void)address, (void)user;
    uint64_t low = size == 8 ? (uint64_t)v : (uint64_t)v & ((1ull << 8 * size) - 1);
    *(stores++ ? &stored.high : &stored.low) = low;
}

static void stop_here(void) {
}

/* The program's own image, at its own addresses. */
static void map_image(void) {
    uint64_t start = (uint64_t)__executable_start & ~4095ull, stop = ((uint64_t)end + 4095) & ~4095ull;
    must(uc_mem_map_ptr(uc, start, stop - start, UC_PROT_ALL, (void *)start));
}

void emulator_open(void) {
    uc_hook code, store;
    must(uc_open(UC_ARCH_X86, UC_MODE_64, &uc));
    if (cs_open(CS_ARCH_X86, CS_MODE_64, &disassembler) != CS_ERR_OK || cs_option(disassembler, CS_OPT_DETAIL, CS_OPT_ON) != CS_ERR_OK) exit(2);
    map_image();
    must(uc_hook_add(uc, &code, UC_HOOK_CODE, (void *)on_code, 0, (uint64_t)1, (uint64_t)0));
    must(uc_hook_add(uc, &store, UC_HOOK_MEM_WRITE, (void *)on_store, 0, (uint64_t)1, (uint64_t)0));
    must(uc_context_alloc(uc, &fresh));
    must(uc_context_save(uc, fresh));
    places = calloc(place_in_image((uint64_t)etext), sizeof *places);
    path = malloc(LONGEST_PATH * sizeof *path);
    if (!places || !path) exit(2);
}

static void run(void (*f)(void)) {
    uint64_t sp = (uint64_t)stack + STACK - 8;
    must(uc_context_restore(uc, fresh));
    memset(stack, 0, STACK);
    *(uint64_t *)sp = (uint64_t)stop_here;
    must(uc_reg_write(uc, UC_X86_REG_RSP, &sp));
    for (int p = 0; p < REGISTERS; p++) before[p] = read_place(p);
    at = now = 0;
    must(uc_emu_start(uc, (uint64_t)f, (uint64_t)stop_here, 0, 0));
    ended();
    if (length == 0) length = at;
    if (at != length) follow_path(0);
}

void emulator_survey(void (*f)(void)) {
    seen_by = 0;
    run(f);
}

void emulator_run(void (*f)(void), Seen *seen) {
    seen_by = seen;
    run(f);
}

void emulator_mark(const uint64_t *addresses, size_t n) {
    for (mark_count = 0; mark_count < n && mark_count < MARKS; mark_count++) marks[mark_count].entry = addresses[mark_count];
}

size_t events(const Event **list) {
    *list = event_list;
    return event_count;
}

size_t path_length(void) {
    return length;
}

uint64_t path_address(size_t i) {
    return path[i] + (uint64_t)__executable_start;
}

uint64_t path_places(size_t i) {
    return places[path[i]];
}
