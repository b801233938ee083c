/* The library in a program without a C library: -nostdlib -ffreestanding, over the arena alone. It makes the calls of
 * examples/c/pager.c, and ends with status 0 if every answer is the one that was worked out by hand, and otherwise with
 * the number of the first that is not. */

#include "arena.h"
#include "l4map.h"

/* What compilers may call for copies of memory, also where there is no C library. */
void *memset(void *at, int byte, size_t n);
void *memmove(void *to, const void *from, size_t n);
void *memcpy(void *to, const void *from, size_t n);

void *memset(void *at, int byte, size_t n) {
    volatile uint8_t *bytes = at;
    while (n--) {
        *bytes++ = (uint8_t)byte;
    }
    return at;
}

void *memmove(void *to, const void *from, size_t n) {
    volatile uint8_t *target = to;
    const volatile uint8_t *source = from;
    size_t i;
    for (i = 0; i < n; i++) {
        size_t at = target < source ? i : n - 1 - i;
        target[at] = source[at];
    }
    return to;
}

void *memcpy(void *to, const void *from, size_t n) {
    return memmove(to, from, n);
}

/* Whether space `from` maps its page 0, an fpage word, to a page of space `to`, and that is one new mapping. */
static bool maps(struct l4map *db, uint16_t from, uint16_t to, uint32_t base, uint32_t fpage) {
    uint32_t item[2] = {base + 8, fpage};
    struct l4map_send_reply r = {9, 9, 9, 9, 9, 9};
    return l4map_send(db, from, to, 0x10, item, 2, &r) == L4MAP_DONE && !r.absent && !r.norights && !r.origin &&
           !r.lost && !r.extended && r.linked == 1;
}

static bool accesses(struct l4map *db, uint16_t space, uint32_t address, uint32_t kind, uint32_t wanted) {
    uint32_t made = 9;
    return l4map_access(db, space, address, kind, &made) == L4MAP_DONE && made == wanted;
}

static bool unmaps(struct l4map *db, uint16_t space, uint32_t control, uint32_t word, uint32_t wanted) {
    return l4map_unmap(db, space, control, &word, 1) == L4MAP_DONE && word == wanted;
}

static bool holds(struct l4map *db, uint16_t space, uint32_t page, uint32_t held, uint32_t rights) {
    struct l4map_entry_reply r = {9, 9, 9, 9};
    return l4map_entry(db, space, page, &r) == L4MAP_DONE && r.held == held && !r.frame && r.rights == rights &&
           !r.status;
}

static bool is_root(const struct l4map_mapping *m, uint32_t page) {
    return !m->space && m->page == page && m->frame == page && m->rights == 7 && !m->status && !m->has_origin &&
           !m->origin_space && !m->origin_page;
}

/* Whether the two pages of the start are all that is held. */
static bool holds_the_start(struct l4map *db) {
    struct l4map_mapping all[3];
    size_t count = 9;
    return l4map_mappings(db, 0, 0, all, 3, &count) == L4MAP_DONE && count == 2 && is_root(&all[0], 0) &&
           is_root(&all[1], 1);
}

static bool came_from(struct l4map *db, uint16_t space, uint32_t page, uint32_t from) {
    struct l4map_origin_reply r = {9, 9, 9};
    return l4map_origin(db, space, page, &r) == L4MAP_DONE && r.known == 1 && r.space == from && !r.page;
}

static int answers, first_wrong;

/* Counts an answer, and notes the first that is wrong. */
static void want(bool is_right) {
    answers++;
    if (!is_right && !first_wrong) {
        first_wrong = answers;
    }
}

static void live_as_a_pager(void) {
    struct l4map db = L4MAP_NOTHING;
    uint32_t made = 9;
    want(l4map_version() == L4MAP_VERSION);
    want(l4map_access(&db, 0, 0, 4, &made) == L4MAP_EMPTY && made == 9);
    want(l4map_new(&db, 3, 18, 2) == L4MAP_DONE);
    want(holds_the_start(&db));
    want(maps(&db, 0, 1, 0, 0xc7));
    want(maps(&db, 1, 2, 0x4000, 0xc5));
    want(accesses(&db, 2, 0x4abc, 4, 1));
    want(accesses(&db, 2, 0x4abc, 2, 0));
    want(came_from(&db, 1, 0, 0) && came_from(&db, 2, 4, 1));
    want(unmaps(&db, 0, 0, 0xc1, 0xc4));
    want(holds(&db, 0, 0, 1, 7) && holds(&db, 1, 0, 1, 6) && holds(&db, 2, 4, 1, 4));
    want(unmaps(&db, 1, 0x40, 0xc7, 0xc0));
    want(holds(&db, 1, 0, 0, 0) && holds(&db, 2, 4, 0, 0));
    want(holds_the_start(&db));
    want(l4map_new(&db, 3, 18, 2) == L4MAP_HOLDS_ONE);
    l4map_free(&db);
    want(!db.at && !arena_live && !arena_bytes);
}

/* Linux's exit, number 60 on x86-64 and 93 on aarch64. */
static _Noreturn void leave(int status) {
    for (;;) {
#if defined(__x86_64__)
        __asm__ volatile("syscall" : : "a"(60L), "D"((long)status) : "rcx", "r11", "memory");
#else
        register long number __asm__("x8") = 93;
        register long argument __asm__("x0") = status;
        __asm__ volatile("svc 0" : : "r"(number), "r"(argument) : "memory");
#endif
    }
}

#if defined(__x86_64__)
__attribute__((force_align_arg_pointer))
#endif
_Noreturn void
_start(void);

_Noreturn void _start(void) {
    live_as_a_pager();
    leave(first_wrong);
}
