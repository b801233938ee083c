/* Frames, and the page tables of the processor. The kernel has all memory at its own addresses, in each space and for
 * ring 0 alone: the address of a table or of a frame is its physical one. Page i of a space is at HELD_AT + 4096 i; the
 * program and its stack lie behind, and are no pages of the database. */
#include "kernel.h"

#define HELD_AT ((uint64_t)1 << 39)
#define PROGRAM_AT (HELD_AT + ((uint64_t)1 << 21))
#define STACK_AT (PROGRAM_AT + PAGE_BYTES)

#define ENTRIES 512
#define PRESENT ((uint64_t)1)
#define WRITABLE ((uint64_t)2)
#define FOR_RING_3 ((uint64_t)4)
#define LARGE ((uint64_t)0x80) /* no table, but a page of 2 MiB or more */
#define NO_EXECUTE ((uint64_t)1 << 63)
#define ADDRESS ((uint64_t)0x000ffffffffff000)
#define TABLE (PRESENT | WRITABLE | FOR_RING_3)

static _Alignas(PAGE_BYTES) struct {
    uint64_t top[ENTRIES], third[ENTRIES], second[ENTRIES], held[ENTRIES], fixed[ENTRIES];
} tables[SPACES];
static _Alignas(PAGE_BYTES) uint8_t stacks[SPACES][PAGE_BYTES];
_Alignas(PAGE_BYTES) uint8_t frames[PAGES][PAGE_BYTES];

extern uint64_t boot_top[], kernel_third[]; /* boot.S */
extern const uint8_t program[], program_read[], program_write[], program_execute[]; /* user.S */

static uint32_t active = SPACES; /* the space whose tables the processor uses, or SPACES for those of boot.S */

/* Each 16 bytes of a frame begin with code that returns the frame's number, mov $number, %eax and ret. Each of the last
 * 8 bytes is that number. */
void fill_frames(void) {
    for (uint32_t frame = 0; frame < PAGES; frame++) {
        const uint8_t code[8] = {0xb8, (uint8_t)frame, 0, 0, 0, 0xc3};
        for (uint32_t i = 0; i < PAGE_BYTES; i++) {
            frames[frame][i] = i % 16 < 8 ? code[i % 16] : (uint8_t)frame;
        }
    }
}

/* Without r there is no entry: the processor lets a page be read that may be written or executed. */
static uint64_t entry_of(const uint8_t *memory, uint32_t rights) {
    uint64_t allowed = (rights & WRITE ? WRITABLE : 0) | (rights & EXECUTE ? 0 : NO_EXECUTE);
    return rights & READ ? (uint64_t)memory | PRESENT | FOR_RING_3 | allowed : 0;
}

static uint32_t rights_in(uint64_t entry) {
    bool is_mapped = entry & PRESENT && entry & FOR_RING_3;
    return is_mapped ? READ | (entry & WRITABLE ? WRITE : 0) | (entry & NO_EXECUTE ? 0 : EXECUTE) : 0;
}

static struct held held_in(uint64_t entry, uint32_t rights) {
    return (struct held){rights ? (uint32_t)(((entry & ADDRESS) - (uint64_t)frames) / PAGE_BYTES) : 0, rights};
}

static void use_tables(const uint64_t *top) {
    __asm__ volatile("mov %0, %%cr3" : : "r"(top) : "memory");
}

/* Makes tables in which no space has a page of the database. */
void empty_tables(void) {
    use_tables(boot_top);
    active = SPACES;
    for (uint32_t space = 0; space < SPACES; space++) {
        for (uint32_t page = 0; page < PAGES; page++) {
            tables[space].held[page] = 0;
        }
        tables[space].top[0] = (uint64_t)kernel_third + PRESENT + WRITABLE;
        tables[space].top[1] = (uint64_t)tables[space].third + TABLE;
        tables[space].third[0] = (uint64_t)tables[space].second + TABLE;
        tables[space].second[0] = (uint64_t)tables[space].held + TABLE;
        tables[space].second[1] = (uint64_t)tables[space].fixed + TABLE;
        tables[space].fixed[0] = entry_of(program, READ | EXECUTE);
        tables[space].fixed[1] = entry_of(stacks[space], READ | WRITE);
    }
}

/* Sets the entry of a page, and has the processor forget the old one. It knows none of a space that is not active, for
 * it forgets all entries when another space becomes so. */
void set_entry(uint32_t space, uint32_t page, struct held held) {
    tables[space].held[page] = entry_of(frames[held.frame], held.rights);
    if (space == active && WRONG != no_flush) {
        __asm__ volatile("invlpg (%0)" : : "r"(HELD_AT + PAGE_BYTES * (uint64_t)page) : "memory");
    }
}

struct held get_entry(uint32_t space, uint32_t page) {
    uint64_t entry = tables[space].held[page];
    return held_in(entry, rights_in(entry));
}

/* Notes what is mapped at an address, which is the program's, its stack's, or that of a page of the database. */
static void note(uint32_t space, uint64_t at, uint64_t entry, uint32_t rights, struct held found[PAGES]) {
    bool is_program = at == PROGRAM_AT && (entry & ADDRESS) == (uint64_t)program && rights == (READ | EXECUTE);
    bool is_stack = at == STACK_AT && (entry & ADDRESS) == (uint64_t)stacks[space] && rights == (READ | WRITE);
    uint64_t page = (at - HELD_AT) / PAGE_BYTES;
    if (at >= HELD_AT && page < PAGES) {
        found[page] = held_in(entry, rights);
    } else if (!is_program && !is_stack) {
        fail("call %u: space %u has memory at %x pages, where it may have none", counts.calls, space,
             (uint32_t)(at / PAGE_BYTES));
    }
}

/* Walks a table, of level 4 to 1, for the addresses from `at` on. Rights are what the entries above it allow. */
static void walk(uint32_t space, int level, const uint64_t *table, uint64_t at, uint32_t rights, struct held *found) {
    for (uint64_t i = 0; i < ENTRIES; i++) {
        uint64_t here = at + (i << (3 + 9 * level));
        uint32_t allowed = rights & rights_in(table[i]);
        if (allowed && (level == 1 || table[i] & LARGE)) {
            note(space, here, table[i], allowed, found);
        } else if (allowed) {
            walk(space, level - 1, (const uint64_t *)(table[i] & ADDRESS), here, allowed, found);
        }
    }
}

/* What code in ring 3 of a space can reach: of each page of the database, and that there is nothing else. */
void walk_space(uint32_t space, struct held found[PAGES]) {
    for (uint32_t page = 0; page < PAGES; page++) {
        found[page] = (struct held){0, 0};
    }
    walk(space, 4, tables[space].top, 0, ALL, found);
}

uint32_t active_space(void) {
    return active;
}

int64_t access_in_ring_3(uint32_t space, uint32_t address, uint32_t kind) {
    const uint8_t *code = kind == READ ? program_read : kind == WRITE ? program_write : program_execute;
    if (space != active) {
        use_tables(tables[space].top);
        active = space;
    }
    return enter_ring_3(PROGRAM_AT + (uint64_t)(code - program), STACK_AT + PAGE_BYTES, HELD_AT + address);
}
