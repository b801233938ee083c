/* Every call, with every code that it may answer but those of refused memory, and each refusal beside those that come
 * after it. Every line is compared by c_library.py with one that was worked out by hand.
 *
 * A line is a call, its code, what stands in the caller's reply afterwards, in which there were nines before, and
 * whether what is held is the same as before. The last line says how many blocks were asked for by calls that only
 * look.
 */

#include "arena.h"
#include "l4map.h"

#include <stdio.h>
#include <string.h>

#define PLACES (3 * 64)
#define MANY 65

/* Words, and how many they are. */
#define WORDS(...) (uint32_t[]){__VA_ARGS__}, sizeof((uint32_t[]){__VA_ARGS__}) / sizeof(uint32_t)

struct held {
    uint32_t code;
    size_t count;
    struct l4map_mapping mappings[PLACES];
};

/* How many blocks were asked for by entries, origins and listings. */
static uint32_t asked_by_looks;

static void look(struct l4map *db, struct held *held) {
    uint32_t asked = arena_asked;
    memset(held, 0, sizeof *held);
    held->code = l4map_mappings(db, 0, 0, held->mappings, PLACES, &held->count);
    asked_by_looks += arena_asked - asked;
}

/* Ends the line of a call: what is held against what was held before it. */
static void end_line(struct l4map *db, const struct held *before) {
    static struct held after;
    look(db, &after);
    puts(after.code == L4MAP_EMPTY ? " | empty" : memcmp(before, &after, sizeof after) ? " | changed" : " | same");
}

static void print_words(const uint32_t *words, size_t n) {
    size_t i;
    for (i = 0; i < n; i++) {
        if (n > 12 && i == 3) {
            printf(" ..");
            i = n - 1;
        }
        printf(" %x", words[i]);
    }
}

static void send(struct l4map *db, uint16_t from, uint16_t to, uint32_t window, const uint32_t *words, size_t n) {
    static struct held before;
    struct l4map_send_reply r = {9, 9, 9, 9, 9, 9};
    uint32_t code;
    look(db, &before);
    code = l4map_send(db, from, to, window, words, n, &r);
    printf("send %u>%u %x:", from, to, window);
    print_words(words, n);
    printf(" = %u | %u %u %u %u %u %u", code, r.absent, r.norights, r.origin, r.lost, r.extended, r.linked);
    end_line(db, &before);
}

static void unmap(struct l4map *db, uint16_t space, uint32_t control, const uint32_t *words, size_t n) {
    static struct held before;
    uint32_t lent[MANY], code;
    look(db, &before);
    memcpy(lent, words, n * sizeof *words);
    code = l4map_unmap(db, space, control, lent, n);
    printf("unmap %u %x:", space, control);
    print_words(words, n);
    printf(" = %u |", code);
    print_words(lent, n);
    end_line(db, &before);
}

static void clear(struct l4map *db, uint16_t space) {
    static struct held before;
    uint32_t status = 9, code;
    look(db, &before);
    code = l4map_clear(db, space, &status);
    printf("clear %u = %u | %u", space, code, status);
    end_line(db, &before);
}

static void access(struct l4map *db, uint16_t space, uint32_t address, uint32_t kind) {
    static struct held before;
    uint32_t made = 9, code;
    look(db, &before);
    code = l4map_access(db, space, address, kind, &made);
    printf("access %u %x %x = %u | %u", space, address, kind, code, made);
    end_line(db, &before);
}

static void page(struct l4map *db, uint16_t space, uint32_t page) {
    struct l4map_entry_reply e = {9, 9, 9, 9};
    struct l4map_origin_reply o = {9, 9, 9};
    uint32_t asked = arena_asked;
    uint32_t code = l4map_entry(db, space, page, &e), origin_code = l4map_origin(db, space, page, &o);
    asked_by_looks += arena_asked - asked;
    printf("page %u:%u = %u %u | %u %u %u %u | %u %u %u\n", space, page, code, origin_code, e.held, e.frame, e.rights,
           e.status, o.known, o.space, o.page);
}

/* What a listing wrote over nines, of which there are four. */
struct listing {
    struct l4map_mapping some[4];
    size_t count;
};

static struct listing nines(void) {
    struct listing listing;
    memset(listing.some, 9, sizeof listing.some);
    listing.count = 9;
    return listing;
}

static void end_listing(uint32_t code, struct listing *told, uint32_t asked) {
    struct listing untouched = nines();
    size_t i;
    asked_by_looks += arena_asked - asked;
    printf(" = %u | %zu", code, told->count);
    for (i = 0; code == L4MAP_DONE && i < told->count && i < 4; i++) {
        const struct l4map_mapping *m = &told->some[i];
        printf(" | %u:%u %u %u %u %u %u:%u", m->space, m->page, m->frame, m->rights, m->status, m->has_origin,
               m->origin_space, m->origin_page);
        memset(&told->some[i], 9, sizeof told->some[i]);
    }
    puts(memcmp(told->some, untouched.some, sizeof told->some) ? " | more was written" : "");
}

static void mappings(struct l4map *db, uint16_t space, uint32_t page, size_t n) {
    struct listing told = nines();
    uint32_t asked = arena_asked;
    uint32_t code = l4map_mappings(db, space, page, told.some, n, &told.count);
    printf("mappings %u:%x %zu", space, page, n);
    end_listing(code, &told, asked);
}

static void space_mappings(struct l4map *db, uint16_t space, uint32_t page, size_t n) {
    struct listing told = nines();
    uint32_t asked = arena_asked;
    uint32_t code = l4map_space_mappings(db, space, page, told.some, n, &told.count);
    printf("of space %u:%x %zu", space, page, n);
    end_listing(code, &told, asked);
}

static void below(struct l4map *db, uint16_t space, uint32_t page, uint16_t from_space, uint32_t from_page, size_t n) {
    struct listing told = nines();
    uint32_t asked = arena_asked;
    uint32_t code = l4map_below(db, space, page, from_space, from_page, told.some, n, &told.count);
    printf("below %u:%x from %u:%x %zu", space, page, from_space, from_page, n);
    end_listing(code, &told, asked);
}

static void call_without_database(void) {
    struct l4map db = L4MAP_NOTHING;
    send(&db, 9, 9, 0xb7, WORDS(0));
    unmap(&db, 9, 0x80, WORDS(0x57));
    clear(&db, 9);
    access(&db, 9, 0x40000, 3);
    mappings(&db, 9, 0, 2);
    space_mappings(&db, 9, 0, 2);
    below(&db, 9, 64, 0, 0, 2);
    page(&db, 9, 64);
}

/* Sends, of which the last one has another number of pages for each outcome. */
static void call_sends(struct l4map *db) {
    send(db, 0, 1, 0x10, WORDS(8, 0x117));
    send(db, 0, 1, 0x10, WORDS(0x28008, 0x50c7, 0x29008, 0x70c7));
    send(db, 1, 0, 0x10, WORDS(0x20008, 0xe4));
    send(db, 1, 0, 0x10, WORDS(8, 0x30107, 8, 0x80f0, 8, 0xd7, 0x4008, 0x280d7, 0x20008, 0xe7, 0x30008, 0x10107));
    page(db, 0, 4);
    page(db, 0, 5);
    page(db, 1, 40);
    page(db, 0, 35);
    page(db, 0, 63);
    send(db, 1, 2, 0x10, WORDS(0x100a, 0x10c5));
    page(db, 1, 1);
    page(db, 2, 1);
    page(db, 0, 33);
}

static void call_accesses(struct l4map *db) {
    access(db, 2, 0x1fff, 4);
    access(db, 2, 0x1000, 4);
    access(db, 2, 0x1fff, 2);
    access(db, 0, 0x21000, 1);
    access(db, 1, 0x6000, 2);
    access(db, 2, 0x3ffff, 4);
    page(db, 2, 1);
    page(db, 0, 33);
    page(db, 1, 6);
}

static void call_unmaps(struct l4map *db) {
    unmap(db, 0, 2, WORDS(0x10c0, 0x20c0, 0x60c0));
    unmap(db, 0, 0, WORDS(0x10c0));
    unmap(db, 2, 0x40, WORDS(0x10c4));
    page(db, 2, 1);
    page(db, 0, 33);
    unmap(db, 2, 0, WORDS(0x10c1));
    page(db, 2, 1);
    page(db, 0, 33);
    unmap(db, 2, 0x40, WORDS(0x17));
    unmap(db, 2, 0x40, WORDS(0x17));
    page(db, 2, 1);
}

/* The most words that a call takes. */
static void call_with_many_words(struct l4map *db) {
    uint32_t words[MANY] = {0};
    size_t i;
    access(db, 1, 0, 1);
    words[63] = 0xc0;
    unmap(db, 1, 0x3f, words, 64);
    unmap(db, 1, 0x3f, words, 65);
    words[63] = 0;
    for (i = 0; i < MANY; i += 2) {
        words[i] = 8;
    }
    words[61] = 0xc4;
    send(db, 1, 2, 0x10, words, 62);
    send(db, 1, 2, 0x10, words, 63);
    send(db, 1, 2, 0x10, words, 64);
}

static void call_mappings(struct l4map *db) {
    static struct held all;
    look(db, &all);
    printf("all %zu\n", all.count);
    mappings(db, 0, 0, 1);
    mappings(db, 0, 0, 0);
    mappings(db, 0, 62, 2);
    mappings(db, 0, 64, 1);
    mappings(db, 0, 0xffffffff, 1);
    mappings(db, 1, 31, 4);
    mappings(db, 2, 1, 4);
    mappings(db, 3, 0, 4);
    mappings(db, 65535, 0xffffffff, 4);
}

static void call_space_mappings(struct l4map *db) {
    space_mappings(db, 0, 62, 4);
    space_mappings(db, 0, 62, 1);
    space_mappings(db, 0, 64, 4);
    space_mappings(db, 0, 0xffffffff, 4);
    space_mappings(db, 1, 31, 4);
    space_mappings(db, 2, 0, 0);
    space_mappings(db, 2, 0, 4);
    space_mappings(db, 3, 0, 4);
    space_mappings(db, 65535, 0xffffffff, 4);
}

/* Page 1:31 came from 0:31, and 0:63 from 1:31; page 1:0 came from 0:0, and 0:32 and 2:0 from 1:0. */
static void call_below(struct l4map *db) {
    below(db, 0, 31, 0, 0, 4);
    below(db, 0, 31, 0, 0, 1);
    below(db, 0, 31, 0, 32, 1);
    below(db, 0, 31, 0, 64, 4);
    below(db, 1, 31, 0, 0, 4);
    below(db, 0, 63, 0, 0, 4);
    below(db, 0, 0, 0, 0, 4);
    below(db, 0, 0, 1, 1, 4);
    below(db, 0, 0, 2, 1, 4);
    below(db, 0, 0, 3, 0, 4);
    below(db, 0, 0, 0, 0, 0);
    below(db, 2, 1, 0, 0, 4);
    below(db, 2, 64, 0, 0, 4);
    below(db, 3, 64, 0, 0, 4);
}

/* Each refusal of a send beside those that come after it. */
static void refuse_sends(struct l4map *db) {
    send(db, 9, 9, 0xb7, (uint32_t[]){0}, 0);
    send(db, 9, 9, 0xb7, WORDS(0));
    send(db, 9, 9, 0xb7, WORDS(8, 0xc7, 8));
    send(db, 9, 9, 0xb7, WORDS(0, 0x57));
    send(db, 9, 9, 0x410, WORDS(0, 0x57));
    send(db, 9, 9, 0x400, WORDS(0, 0x57));
    send(db, 9, 9, 0x10d0, WORDS(0, 0x57));
    send(db, 9, 9, 0x400c0, WORDS(0, 0x57));
    send(db, 9, 9, 0, WORDS(0, 0x57));
    send(db, 9, 9, 0, WORDS(0xc, 0xc7));
    send(db, 9, 9, 0, WORDS(8, 0x57, 0, 0xc7));
    send(db, 9, 9, 0, WORDS(8, 0x10d7, 0, 0xc7));
    send(db, 9, 9, 0, WORDS(8, 0x400c7, 0, 0xc7));
    send(db, 9, 9, 0, WORDS(8, 0xc7, 4, 0x57));
    send(db, 9, 9, 0, WORDS(8, 0xc7, 0xa, 0x57));
    send(db, 3, 3, 0, WORDS(8, 0xc7));
    send(db, 0, 3, 0, WORDS(8, 0xc7));
    send(db, 65535, 0, 0, WORDS(8, 0xc7));
    send(db, 1, 1, 0, WORDS(8, 0xc7));
    send(db, 0, 1, 0, WORDS(8, 0xc7));
    send(db, 0, 1, 7, WORDS(8, 0xc7));
}

static void refuse_unmaps(struct l4map *db) {
    unmap(db, 9, 0x3f, (uint32_t[]){0}, 0);
    unmap(db, 9, 0, (uint32_t[]){0}, 0);
    unmap(db, 9, 0x80, WORDS(0x57));
    unmap(db, 9, 0x80000000, WORDS(0x57));
    unmap(db, 9, 1, WORDS(0x57));
    unmap(db, 9, 0, WORDS(0x57, 0x10d7));
    unmap(db, 9, 1, WORDS(0x57, 0x10d7));
    unmap(db, 9, 1, WORDS(0x10d7, 0x400c7));
    unmap(db, 9, 1, WORDS(0x400c7, 0x57));
    unmap(db, 9, 1, WORDS(0xc7, 0x57));
    unmap(db, 3, 0x40, WORDS(0xc7));
    unmap(db, 65535, 0, WORDS(0xc7));
}

static void refuse_accesses(struct l4map *db) {
    access(db, 9, 0x40000, 0);
    access(db, 9, 0x40000, 3);
    access(db, 9, 0x40000, 5);
    access(db, 9, 0x40000, 6);
    access(db, 9, 0x40000, 7);
    access(db, 9, 0x40000, 8);
    access(db, 9, 0x40000, 0xfffffffc);
    access(db, 3, 0x40000, 4);
    access(db, 65535, 0, 1);
    access(db, 2, 0x40000, 2);
    access(db, 0, 0xffffffff, 1);
}

/* Space 2 has one page of space 1, which was read; then space 1 goes, with what space 0 has from it. */
static void call_clears(struct l4map *db) {
    clear(db, 3);
    clear(db, 65535);
    access(db, 2, 0xfff, 4);
    clear(db, 2);
    clear(db, 2);
    page(db, 2, 0);
    page(db, 1, 0);
    clear(db, 1);
    mappings(db, 1, 0, 4);
    page(db, 0, 0);
    page(db, 0, 5);
    page(db, 0, 63);
}

/* Two databases at once, of which one is in a handle that was moved: neither knows of the other. */
static void call_two(struct l4map *db) {
    struct l4map moved = *db, other = L4MAP_NOTHING;
    *db = other;
    printf("new %u\n", l4map_new(&other, 2, 24, 2));
    send(&moved, 0, 2, 0x10, WORDS(0x3f008, 0xc7));
    page(&moved, 2, 63);
    page(&other, 0, 63);
    page(&other, 1, 4095);
    l4map_free(&moved);
    page(&moved, 0, 0);
    send(&other, 0, 1, 0x10, WORDS(0xfff008, 0x10c6));
    page(&other, 1, 4095);
    page(&other, 1, 4096);
    l4map_free(&other);
    printf("live %u, %zu bytes\n", arena_live, arena_bytes);
}

int main(void) {
    struct l4map db = L4MAP_NOTHING;
    call_without_database();
    printf("new %u\n", l4map_new(&db, 3, 18, 32));
    call_sends(&db);
    call_accesses(&db);
    call_unmaps(&db);
    call_with_many_words(&db);
    call_mappings(&db);
    call_space_mappings(&db);
    call_below(&db);
    refuse_sends(&db);
    refuse_unmaps(&db);
    refuse_accesses(&db);
    call_clears(&db);
    call_two(&db);
    printf("asked by looks %u\n", asked_by_looks);
    return 0;
}
