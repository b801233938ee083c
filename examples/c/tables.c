/* Page tables that follow the database: the changes that each call notes are all that they are told.
 *
 * A kernel has its own page tables in place of these, and flushes its TLB where an entry changes. Here random calls are
 * made, and after each the tables are compared with what is held. Where a page differs the program names it and ends
 * with status 1. */
#include "l4map.h"

#include <stdio.h>
#include <stdlib.h>
#include <string.h>

enum { SPACES = 3, BITS = 18, PAGES = 64, PAGE_BYTES = 4096 }; /* BITS: a space has 2^18 bytes */
enum { CALLS = 10000, LIFE = 100, SOME = 32, MOST = 3 };       /* MOST: items of a send, words of an unmap */

struct table_entry {
    uint32_t held, frame, rights;
};

static struct table_entry tables[SPACES][PAGES];
static unsigned calls;
static unsigned long changes, mappings;

static void must(uint32_t code) {
    if (code != L4MAP_DONE) {
        fprintf(stderr, "tables: call %u was refused with code %u\n", calls, code);
        exit(1);
    }
}

/* Makes the changes of the last call in the tables. */
static void follow(struct l4map *db) {
    struct l4map_change some[SOME];
    size_t from = 0, count, i;
    do {
        must(l4map_changes(db, from, some, SOME, &count));
        for (i = 0; i < count; i++) {
            struct table_entry *entry = &tables[some[i].space][some[i].page];
            entry->held = some[i].held;
            entry->frame = some[i].frame;
            entry->rights = some[i].rights;
        }
        from += count;
    } while (count == SOME);
    changes += from;
}

/* Writes what is held to other tables, and returns how many mappings it is. */
static unsigned long read_held(struct l4map *db, struct table_entry held[SPACES][PAGES]) {
    struct l4map_mapping some[SOME];
    unsigned long all = 0;
    uint32_t space = 0, page = 0;
    size_t count, i;
    memset(held, 0, sizeof tables);
    do {
        must(l4map_mappings(db, (uint16_t)space, page, some, SOME, &count));
        for (i = 0; i < count; i++) {
            struct table_entry *entry = &held[some[i].space][some[i].page];
            entry->held = 1;
            entry->frame = some[i].frame;
            entry->rights = some[i].rights;
            space = some[i].space;
            page = some[i].page + 1;
        }
        all += count;
    } while (count == SOME);
    return all;
}

static void compare(struct l4map *db) {
    struct table_entry held[SPACES][PAGES];
    unsigned space, page;
    mappings += read_held(db, held);
    for (space = 0; space < SPACES; space++) {
        for (page = 0; page < PAGES; page++) {
            if (memcmp(&tables[space][page], &held[space][page], sizeof held[space][page])) {
                fprintf(stderr, "tables: call %u left another entry for page %u of space %u\n", calls, page, space);
                exit(1);
            }
        }
    }
}

/* A number below n, by xorshift. */
static uint32_t below(uint32_t n) {
    static uint32_t state = 2463534242u;
    state ^= state << 13;
    state ^= state >> 17;
    state ^= state << 5;
    return state % n;
}

/* 1 to 8 pages with some rights. */
static uint32_t an_fpage(void) {
    uint32_t log2_pages = below(4), page = below(PAGES) >> log2_pages << log2_pages;
    return l4map_fpage(page, log2_pages, below(8));
}

static uint32_t send(struct l4map *db, uint16_t from) {
    struct l4map_send_reply reply;
    uint32_t words[2 * MOST], n = 1 + below(MOST), i;
    uint16_t to = (uint16_t)((from + 1 + below(SPACES - 1)) % SPACES);
    for (i = 0; i < n; i++) {
        uint32_t base = below(PAGES);
        words[2 * i] = below(4) ? l4map_map_item(base) : l4map_grant_item(base);
        words[2 * i + 1] = an_fpage();
    }
    return l4map_send(db, from, to, l4map_complete(0), words, 2 * n, &reply);
}

static uint32_t unmap(struct l4map *db, uint16_t space) {
    uint32_t words[MOST], n = 1 + below(MOST), i;
    for (i = 0; i < n; i++) {
        words[i] = an_fpage();
    }
    return l4map_unmap(db, space, l4map_control(n, below(2) == 0), words, n);
}

/* Makes a call of any kind. */
static uint32_t call(struct l4map *db) {
    uint16_t space = (uint16_t)below(SPACES);
    uint32_t kind = below(32), address = below(PAGES) * PAGE_BYTES, answer;
    if (kind < 22) {
        return send(db, space);
    }
    if (kind < 28) {
        return unmap(db, space);
    }
    return kind == 28 ? l4map_clear(db, space, &answer) : l4map_access(db, space, address, 1u << below(3), &answer);
}

int main(void) {
    struct l4map db = L4MAP_NOTHING;
    for (calls = 0; calls < CALLS;) {
        if (calls % LIFE == 0) { /* a new database: a page that no space holds any more never comes back */
            l4map_free(&db);
            must(l4map_new(&db, SPACES, BITS, PAGES));
            must(l4map_note_changes(&db, 1));
            read_held(&db, tables);
        }
        calls++;
        must(call(&db));
        follow(&db);
        compare(&db);
    }
    printf("%u calls, %lu changes, %lu mappings: the tables are right\n", calls, changes, mappings);
    l4map_free(&db);
    return 0;
}
