/* What calls of the library for C take, by size, with and without notes of their changes. Prints a line for each: its name,
 * nanoseconds without notes and with them, the pages told, and the largest block of memory that was asked for. */
#include "l4map.h"
#include <stdbool.h>
#include <stdio.h>
#include <stdlib.h>
#include <time.h>

enum { RUNS = 5, SPACES = 40, WORDS = 64, ITEMS = 31, FAN = 65536 };

static const uint32_t ALL = 0x10 + 7, FLUSH = 64;

/* The heap, and the largest block that was asked for since it was last looked at. */
struct block {
    bool ok;
    uint8_t *at;
};

static size_t largest;

static struct block given(size_t bytes, void *at) {
    if (bytes > largest) {
        largest = bytes;
    }
    return (struct block){at != NULL, at ? at : (uint8_t *)&largest};
}

struct block rattle_alloc(size_t bytes, size_t align) {
    (void)align;
    return given(bytes, malloc(bytes ? bytes : 1));
}

struct block rattle_realloc(uint8_t *at, size_t kept, size_t bytes, size_t align) {
    (void)align;
    (void)kept;
    return given(bytes, realloc(at, bytes ? bytes : 1));
}

void rattle_dealloc(uint8_t *at) {
    free(at);
}

static void done(uint32_t code) {
    if (code) {
        fprintf(stderr, "a call answered %u\n", code);
        exit(1);
    }
}

static double now(void) {
    struct timespec t;
    clock_gettime(CLOCK_PROCESS_CPUTIME_ID, &t);
    return t.tv_sec * 1e9 + t.tv_nsec;
}

/* Space 0 sends all its pages to space 1, that sends them on to space 2, and so on. */
static void pass_on(struct l4map *db, uint16_t first, uint16_t last) {
    uint32_t item[2] = {8, ALL};
    struct l4map_send_reply reply;
    for (uint16_t s = first; s < last; s++) {
        done(l4map_send(db, s, s + 1, ALL, item, 2, &reply));
    }
}

/* A call: what is held before it, and the call. */
struct call {
    const char *name;
    uint32_t bits, pages;
    void (*before)(struct l4map *db);
    void (*make)(struct l4map *db);
};

static void nothing(struct l4map *db) {
    (void)db;
}

static void chain_of_two(struct l4map *db) {
    pass_on(db, 0, 2);
}

static void chain_of_31(struct l4map *db) {
    pass_on(db, 0, 31);
}

static void send_all(struct l4map *db) {
    pass_on(db, 0, 1);
}

static void grant_all(struct l4map *db) {
    uint32_t item[2] = {10, ALL};
    struct l4map_send_reply reply;
    done(l4map_send(db, 0, 1, ALL, item, 2, &reply));
}

static void send_items(struct l4map *db) {
    uint32_t words[2 * ITEMS];
    struct l4map_send_reply reply;
    for (uint32_t i = 0; i < ITEMS; i++) {
        words[2 * i] = l4map_map_item(i << 11);
        words[2 * i + 1] = l4map_fpage(i << 11, 11, 7);
    }
    done(l4map_send(db, 0, 1, ALL, words, 2 * ITEMS, &reply));
}

static void send_page(struct l4map *db) {
    uint32_t item[2] = {l4map_map_item(1), l4map_fpage(1, 0, 7)};
    struct l4map_send_reply reply;
    done(l4map_send(db, 0, 1, ALL, item, 2, &reply));
}

static void unmap_page(struct l4map *db) {
    uint32_t word = l4map_fpage(1, 0, 7);
    done(l4map_unmap(db, 0, 0, &word, 1));
}

static void flush_all(struct l4map *db) {
    uint32_t word = ALL;
    done(l4map_unmap(db, 0, FLUSH, &word, 1));
}

static void unmap_words(struct l4map *db) {
    uint32_t words[WORDS];
    for (uint32_t i = 0; i < WORDS; i++) {
        words[i] = ALL - 7 + 2;
    }
    done(l4map_unmap(db, 0, WORDS - 1, words, WORDS));
}

/* Page 0 of space 0 goes to all pages of space 1, one by one. */
static void fan(struct l4map *db) {
    struct l4map_send_reply reply;
    for (uint32_t page = 0; page < FAN; page++) {
        uint32_t item[2] = {l4map_map_item(page), l4map_fpage(0, 0, 7)};
        done(l4map_send(db, 0, 1, ALL, item, 2, &reply));
    }
}

static void list_all(struct l4map *db) {
    struct l4map_mapping some[WORDS], last = {0};
    size_t n = WORDS;
    for (uint32_t behind = 0; n == WORDS; behind = 1) {
        done(l4map_mappings(db, (uint16_t)last.space, last.page + behind, some, WORDS, &n));
        last = n ? some[n - 1] : last;
    }
}

static void list_below(struct l4map *db) {
    struct l4map_mapping some[WORDS], last = {0};
    size_t n = WORDS;
    for (uint32_t behind = 0; n == WORDS; behind = 1) {
        done(l4map_below(db, 0, 0, (uint16_t)last.space, last.page + behind, some, WORDS, &n));
        last = n ? some[n - 1] : last;
    }
}

static void clear_first(struct l4map *db) {
    uint32_t status;
    done(l4map_clear(db, 1, &status));
}

/* Another database, with the largest limits, begins and ends. */
static void start(struct l4map *db) {
    (void)db;
    struct l4map other = L4MAP_NOTHING;
    done(l4map_new(&other, 512, 32, 1048576));
    l4map_free(&other);
}

static void access_page(struct l4map *db) {
    uint32_t made;
    done(l4map_access(db, 0, 0x1000, 4, &made));
}

static const struct call CALLS[] = {
    {"a start with the largest limits, and its end", 24, 4096, nothing, start},
    {"an access", 24, 4096, nothing, access_page},
    {"a send of one page", 24, 4096, nothing, send_page},
    {"an unmap of one page that went through 31 spaces", 24, 4096, chain_of_31, unmap_page},
    {"a send of 4,096 pages", 24, 4096, nothing, send_all},
    {"a grant of 4,096 pages", 24, 4096, nothing, grant_all},
    {"a flush of 4,096 pages, each with two that derive", 24, 4096, chain_of_two, flush_all},
    {"a clear of such a space", 24, 4096, chain_of_two, clear_first},
    {"a send of 31 items of 2,048 pages", 28, 65536, nothing, send_items},
    {"64 words, each all of 1,048,576 pages", 32, 1048576, nothing, unmap_words},
    {"a listing of 131,072 mappings, in chains of 32", 24, 4096, chain_of_31, list_all},
    {"a listing of 65,537 mappings of one frame", 28, 1, fan, list_all},
    {"of 131,072 mappings the 32 below a page", 24, 4096, chain_of_31, list_below},
};

/* The least time of a call, over some runs. What it told and the largest block are those of the last run. */
static double time_of(const struct call *call, uint32_t notes, size_t *told, size_t *block) {
    double best = 1e30;
    for (int run = 0; run < RUNS; run++) {
        struct l4map db = L4MAP_NOTHING;
        done(l4map_new(&db, SPACES, call->bits, call->pages));
        call->before(&db);
        done(l4map_note_changes(&db, notes));
        largest = 0;
        double start = now();
        call->make(&db);
        double time = now() - start;
        best = time < best ? time : best;
        *block = largest;
        struct l4map_change changes[64];
        size_t n = 64;
        for (*told = 0; n == 64; *told += n) {
            done(l4map_changes(&db, *told, changes, 64, &n));
        }
        l4map_free(&db);
    }
    return best;
}

int main(void) {
    for (size_t i = 0; i < sizeof CALLS / sizeof *CALLS; i++) {
        size_t told, block, more;
        double without = time_of(&CALLS[i], 0, &told, &block);
        double with = time_of(&CALLS[i], 1, &told, &more);
        printf("%s|%.0f|%.0f|%zu|%zu|%zu\n", CALLS[i].name, without, with, told, block, more);
    }
    return 0;
}
