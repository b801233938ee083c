/* A database is made, looked at and freed. c_library.py compares each line with one that was worked out by hand. */

#include "arena.h"
#include "l4map.h"

#include <stdio.h>

static void entry(struct l4map *db, uint16_t space, uint32_t page) {
    struct l4map_entry_reply r = {9, 9, 9, 9};
    uint32_t code = l4map_entry(db, space, page, &r);
    printf("entry %u:%u %u | %u %u %u %u\n", space, page, code, r.held, r.frame, r.rights, r.status);
}

static void origin(struct l4map *db, uint16_t space, uint32_t page) {
    struct l4map_origin_reply r = {9, 9, 9};
    uint32_t code = l4map_origin(db, space, page, &r);
    printf("origin %u:%u %u | %u %u %u\n", space, page, code, r.known, r.space, r.page);
}

/* Refuses each allocation of l4map_new in turn: the handle stays empty, and every block is given back. */
static void refuse_each(void) {
    struct l4map db = L4MAP_NOTHING;
    uint32_t needed, refused, wrong = 0;
    arena_asked = 0;
    if (l4map_new(&db, 2, 18, 3) != L4MAP_DONE) {
        wrong++;
    }
    needed = arena_asked;
    l4map_free(&db);
    for (refused = 1; refused <= needed; refused++) {
        arena_asked = 0;
        arena_refused = refused;
        if (l4map_new(&db, 2, 18, 3) != L4MAP_NO_MEMORY || db.at || arena_live) {
            wrong++;
        }
    }
    arena_refused = 0;
    printf("refused %s, wrong %u\n", needed > 1 ? "some" : "none", wrong);
}

int main(void) {
    struct l4map db = L4MAP_NOTHING;
    printf("version %u\n", l4map_version());
    entry(&db, 0, 0);
    origin(&db, 0, 0);
    printf("new %u\n", l4map_new(&db, 1, 18, 3));
    printf("new %u\n", l4map_new(&db, 2, 33, 3));
    printf("new %u\n", l4map_new(&db, 2, 18, 65));
    printf("new %u\n", l4map_new(&db, 2, 18, 3));
    printf("new %u\n", l4map_new(&db, 2, 18, 3));
    entry(&db, 0, 0);
    entry(&db, 0, 2);
    entry(&db, 0, 3);
    entry(&db, 1, 63);
    entry(&db, 1, 64);
    entry(&db, 2, 64);
    origin(&db, 0, 2);
    origin(&db, 1, 64);
    origin(&db, 2, 0);
    l4map_free(&db);
    l4map_free(&db);
    entry(&db, 0, 0);
    printf("live %u\n", arena_live);
    refuse_each();
    return 0;
}
