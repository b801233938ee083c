/* The mappings of each space, and that of each page with those that derive from it, in parts of several sizes: both are
 * compared with what all mappings and their origins say, after each twentieth of 2,000 random calls. After each 200
 * calls a database is made anew. */

#include "arena.h"
#include "l4map.h"

#include <stdio.h>
#include <string.h>

enum { SPACES = 4, PAGES = 64, BITS = 18, FRAMES = 40, CALLS = 2000, LIFE = 200, EACH = 20, MOST_IN_A_PART = 5 };

struct list {
    struct l4map_mapping mappings[SPACES * PAGES];
    size_t count;
};

static struct l4map db = L4MAP_NOTHING;
static struct list all;
static uint32_t state = 1, wrong;
static unsigned derived, deep;

/* A number below n, from a linear congruential generator. */
static uint32_t chance(uint32_t n) {
    state = state * 1664525 + 1013904223;
    return (state >> 8) % n;
}

/* One fpage of 1, 2, 4 or 8 pages. */
static uint32_t some_fpage(void) {
    uint32_t log2_pages = chance(4), page = chance(PAGES) >> log2_pages << log2_pages;
    return l4map_fpage(page, log2_pages, 1 + chance(7));
}

static void call(void) {
    struct l4map_send_reply reply;
    uint32_t words[2], status;
    uint16_t space = (uint16_t)chance(SPACES), other = (uint16_t)((space + 1 + chance(SPACES - 1)) % SPACES);
    switch (chance(8)) {
    case 0:
        words[0] = some_fpage();
        l4map_unmap(&db, space, l4map_control(1, chance(2)), words, 1);
        break;
    case 1:
        if (space == 0 || chance(20)) {
            l4map_access(&db, space, chance(PAGES) << 12, 1u << chance(3), &status);
        } else {
            l4map_clear(&db, space, &status);
        }
        break;
    default:
        words[0] = chance(4) ? l4map_map_item(chance(PAGES)) : l4map_grant_item(chance(PAGES));
        words[1] = some_fpage() | 7;
        l4map_send(&db, space, other, l4map_complete(0), words, 2, &reply);
    }
}

/* Lists the mappings below a page, or those of a space where there is no page. */
static uint32_t list(const struct l4map_mapping *above, uint32_t space, uint32_t page, struct l4map_mapping *some,
                     size_t n, size_t *count) {
    return above ? l4map_below(&db, (uint16_t)above->space, above->page, (uint16_t)space, page, some, n, count)
                 : l4map_space_mappings(&db, (uint16_t)space, page, some, n, count);
}

/* A listing from the start of a space, in parts, which is to be some others. */
static void check(const struct l4map_mapping *above, uint32_t space, size_t part, const struct list *wanted) {
    static struct list told;
    uint32_t page = 0;
    size_t count;
    told.count = 0;
    do {
        struct l4map_mapping some[MOST_IN_A_PART];
        if (list(above, space, page, some, part, &count) != L4MAP_DONE || told.count + count > wanted->count) {
            wrong++;
            return;
        }
        memcpy(&told.mappings[told.count], some, count * sizeof *some);
        told.count += count;
        if (count) {
            space = some[count - 1].space;
            page = some[count - 1].page + 1;
        }
    } while (count == part);
    if (told.count != wanted->count || memcmp(told.mappings, wanted->mappings, told.count * sizeof *told.mappings)) {
        wrong++;
    }
}

static const struct l4map_mapping *at(uint32_t space, uint32_t page) {
    size_t i;
    for (i = 0; all.mappings[i].space != space || all.mappings[i].page != page; i++) {
    }
    return &all.mappings[i];
}

/* How many origins lead from a mapping to a page; -1 where none do. */
static int distance(const struct l4map_mapping *m, const struct l4map_mapping *above) {
    int steps = 0;
    while (m != above && m->has_origin) {
        m = at(m->origin_space, m->origin_page);
        steps++;
    }
    return m == above ? steps : -1;
}

static void check_all(void) {
    static struct list wanted;
    uint32_t space;
    size_t i, j, part = 1 + chance(MOST_IN_A_PART);
    l4map_mappings(&db, 0, 0, all.mappings, SPACES * PAGES, &all.count);
    for (space = 0; space < SPACES; space++) {
        for (i = 0, wanted.count = 0; i < all.count; i++) {
            if (all.mappings[i].space == space) {
                wanted.mappings[wanted.count++] = all.mappings[i];
            }
        }
        check(NULL, space, part, &wanted);
    }
    for (i = 0; i < all.count; i++) {
        for (j = 0, wanted.count = 0; j < all.count; j++) {
            int steps = distance(&all.mappings[j], &all.mappings[i]);
            if (steps >= 0) {
                wanted.mappings[wanted.count++] = all.mappings[j];
            }
            derived += steps > 0;
            deep += steps > 2;
        }
        check(&all.mappings[i], 0, part, &wanted);
    }
}

int main(void) {
    unsigned calls;
    for (calls = 0; calls < CALLS; calls++) {
        if (calls % LIFE == 0) {
            l4map_free(&db);
            wrong += l4map_new(&db, SPACES, BITS, FRAMES) != L4MAP_DONE;
        }
        call();
        if (calls % EACH == 0) {
            check_all();
        }
    }
    l4map_free(&db);
    printf("wrong %u; some derive: %u, by three origins and more: %u; live %u\n", wrong, derived > 1000, deep > 100,
           arena_live);
    return 0;
}
