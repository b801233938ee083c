/* How many bytes of heap and of stack the library takes. Each line is a name and a number; room.txt has the most that
 * each may be, and README.md tells these.
 *
 * Calls run on a stack of their own, which is painted before: what is no longer painted was used. */

#define _XOPEN_SOURCE 700

#include "arena.h"
#include "l4map.h"

#include <stdio.h>
#include <stdlib.h>
#include <string.h>
#include <ucontext.h>

#define STACK_BYTES ((size_t)1 << 20)
#define PAINT 0x5a
#define COMPLETE 0x17

static _Alignas(16) uint8_t stack[STACK_BYTES];
static ucontext_t outside, inside;
static struct l4map db;

static void must(uint32_t code, const char *what) {
    if (code != L4MAP_DONE) {
        fprintf(stderr, "room: %s was refused with code %u\n", what, code);
        exit(1);
    }
}

/* How much of the stack some work used. */
static size_t stack_of(void (*work)(void)) {
    size_t unused = 0;
    memset(stack, PAINT, sizeof stack);
    getcontext(&inside);
    inside.uc_stack.ss_sp = stack;
    inside.uc_stack.ss_size = sizeof stack;
    inside.uc_link = &outside;
    makecontext(&inside, work, 0);
    swapcontext(&outside, &inside);
    while (unused < STACK_BYTES && stack[unused] == PAINT) {
        unused++;
    }
    return STACK_BYTES - unused;
}

static void do_nothing(void) {
}

/* Calls note what they change, which takes more than where they do not. */
static void make_largest(void) {
    must(l4map_new(&db, 512, 24, 4096), "new");
    must(l4map_note_changes(&db, 1), "note_changes");
}

static void free_it(void) {
    l4map_free(&db);
}

static void send(uint16_t from, uint16_t to, const uint32_t *words, size_t n) {
    struct l4map_send_reply reply;
    must(l4map_send(&db, from, to, 0x10, words, n, &reply), "a send");
}

/* Sends every page through some spaces; then again, so that all that was held there goes; grants it and takes it back.
 */
static void send_all(void) {
    const uint32_t map[2] = {8, COMPLETE}, grant[2] = {10, COMPLETE};
    send(0, 1, map, 2);
    send(1, 2, map, 2);
    send(0, 2, map, 2);
    send(0, 3, map, 2);
    send(3, 1, map, 2);
    send(1, 4, grant, 2);
    send(4, 1, grant, 2);
}

/* Sends one page through all spaces, and then as many items as there may be. */
static void send_along(void) {
    uint32_t words[62];
    uint16_t space;
    size_t i;
    for (space = 0; space < 511; space++) {
        send(space, (uint16_t)(space + 1), (const uint32_t[]){8, 0xc7}, 2);
    }
    for (i = 0; i < 62; i += 2) {
        words[i] = 8;
        words[i + 1] = 0x400147;
    }
    send(0, 5, words, 62);
}

/* Sends one page to three spaces, to the second to be read alone. */
static void send_to_three(void) {
    send(0, 6, (const uint32_t[]){0x1008, 0x10c7}, 2);
    send(0, 7, (const uint32_t[]){0x1008, 0x10c4}, 2);
    send(0, 8, (const uint32_t[]){0x1008, 0x10c7}, 2);
}

static void send_in_all_ways(void) {
    send_all();
    send_along();
    send_to_three();
}

/* The first takes back what is to be read alone, between what stays. */
static void unmap_in_all_ways(void) {
    uint32_t words[64], between = 0x10c4, one = 0xc2;
    size_t i;
    must(l4map_unmap(&db, 0, 0, &between, 1), "an unmap");
    for (i = 0; i < 64; i++) {
        words[i] = COMPLETE - 3;
    }
    must(l4map_unmap(&db, 0, 0, &one, 1), "an unmap");
    must(l4map_unmap(&db, 0, 0x3f, words, 64), "an unmap");
    one = COMPLETE;
    must(l4map_unmap(&db, 0, 0, &one, 1), "an unmap");
}

static void clear(uint16_t space) {
    uint32_t status;
    must(l4map_clear(&db, space, &status), "a clear");
}

/* The first takes a page between pages that stay, and with another one the chain through all spaces behind it; the last
 * ones take whole spaces. */
static void clear_in_all_ways(void) {
    clear(7);
    clear(2);
    clear(1);
    clear(0);
}

static void access_pages(void) {
    uint32_t made;
    must(l4map_access(&db, 511, 0, 4, &made), "an access");
    must(l4map_access(&db, 0, 0xfff000, 2, &made), "an access");
}

static void look(void) {
    struct l4map_entry_reply entry;
    struct l4map_origin_reply origin;
    must(l4map_entry(&db, 511, 0, &entry), "an entry");
    must(l4map_origin(&db, 511, 0, &origin), "an origin");
}

static void tell_mappings(void) {
    static struct l4map_mapping mappings[16384];
    size_t count;
    must(l4map_mappings(&db, 0, 0, mappings, 16384, &count), "mappings");
    must(l4map_space_mappings(&db, 511, 0, mappings, 16384, &count), "the mappings of a space");
    must(l4map_below(&db, 0, 0, 0, 0, mappings, 16384, &count), "the mappings below a page");
    must(l4map_below(&db, 0, 0, 0, 0, mappings, 1, &count), "one mapping below a page");
}

static void tell_changes(void) {
    static struct l4map_change changes[16384];
    size_t count;
    must(l4map_changes(&db, 0, changes, 16384, &count), "changes");
    if (count < 4096) {
        fprintf(stderr, "room: only %zu changes\n", count);
        exit(1);
    }
}

static void print_stack(const char *name, void (*work)(void)) {
    printf("stack %s %zu\n", name, stack_of(work) - stack_of(do_nothing));
}

/* The bytes that are kept for the notes of 4096 pages, for each of them. The first unmap takes a right from the same
 * pages without notes. */
static void print_heap_of_notes(void) {
    uint32_t write = 0x12, execute = 0x11;
    size_t before;
    must(l4map_unmap(&db, 1, 0x40, &write, 1), "an unmap");
    before = arena_bytes;
    must(l4map_note_changes(&db, 1), "note_changes");
    must(l4map_unmap(&db, 1, 0x40, &execute, 1), "an unmap");
    printf("heap note %zu\n", (arena_bytes - before + 4095) / 4096);
}

static void print_heap(void) {
    const uint32_t item[2] = {8, COMPLETE};
    size_t empty;
    must(l4map_new(&db, 2, 18, 1), "new");
    printf("heap smallest %zu\n", arena_most);
    l4map_free(&db);
    must(l4map_new(&db, 512, 32, 1048576), "new");
    printf("heap largest %zu\n", arena_most);
    l4map_free(&db);
    arena_most = 0;
    must(l4map_new(&db, 512, 24, 4096), "new");
    empty = arena_bytes;
    send(0, 1, item, 2);
    send(0, 2, item, 2);
    printf("heap mapping %zu\n", (arena_bytes - empty + 8191) / 8192);
    printf("heap sending %zu\n", arena_most - arena_bytes);
    print_heap_of_notes();
    l4map_free(&db);
}

int main(void) {
    print_heap();
    print_stack("new", make_largest);
    print_stack("send", send_in_all_ways);
    print_stack("access", access_pages);
    print_stack("look", look);
    print_stack("mappings", tell_mappings);
    print_stack("unmap", unmap_in_all_ways);
    print_stack("changes", tell_changes);
    print_stack("free", free_it);
    make_largest();
    send_in_all_ways();
    print_stack("clear", clear_in_all_ways);
    free_it();
    return 0;
}
