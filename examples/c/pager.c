/* A pager's life: it is given a page, passes it on, asks which pages were used, and gives its page up.
 *
 * These are the calls of examples/first-six-records.csv, and what is printed are the lines of its answer. */
#include "l4map.h"

#include <stdio.h>
#include <stdlib.h>

enum { SIGMA0, PAGER, CLIENT, SPACES };                   /* the spaces: SIGMA0 holds all memory at the start */
enum { EXECUTE = 1, WRITE = 2, READ = 4, ALL = 7 };       /* rights */
enum { PAGE_0 = 12 << 4, COMPLETE = 1 << 4 };             /* fpages: page 0, and the complete space */
enum { MAP_ITEM = 8, FLUSH = 1 << 6, PAGE_BYTES = 4096 }; /* what an item does, a bit of a control word, bytes */

static unsigned calls;

static void must(uint32_t code) {
    if (code != L4MAP_DONE) {
        fprintf(stderr, "pager: call %u was refused with code %u\n", calls, code);
        exit(1);
    }
}

/* Maps page 0 of a space, with some of its rights, to a page of another space. */
static void map(struct l4map *db, uint16_t from, uint16_t to, uint32_t page, uint32_t rights) {
    uint32_t item[2] = {page * PAGE_BYTES + MAP_ITEM, PAGE_0 + rights};
    struct l4map_send_reply r;
    calls++;
    must(l4map_send(db, from, to, COMPLETE, item, 2, &r));
    printf("%u send absent=%u norights=%u origin=%u lost=%u extended=%u linked=%u\n", calls, r.absent, r.norights,
           r.origin, r.lost, r.extended, r.linked);
}

static void use(struct l4map *db, uint16_t space, uint32_t address, uint32_t kind) {
    uint32_t made;
    calls++;
    must(l4map_access(db, space, address, kind, &made));
    printf("%u access %s\n", calls, made ? "ok" : "fault");
}

/* Takes rights from all who have page 0 through a space, with FLUSH from the space too, and tells how it was used. */
static void revoke(struct l4map *db, uint16_t space, uint32_t control, uint32_t rights) {
    uint32_t word = PAGE_0 + rights;
    calls++;
    must(l4map_unmap(db, space, control, &word, 1));
    printf("%u unmap %08x\n", calls, word);
}

static void print_set(uint32_t set, const char *letters) {
    printf("%c%c%c,", set & READ ? letters[0] : '-', set & WRITE ? letters[1] : '-', set & EXECUTE ? letters[2] : '-');
}

static void print_mapping(const struct l4map_mapping *m) {
    printf("%u,%u,%u,", m->space, m->page, m->frame);
    print_set(m->rights, "rwx");
    print_set(m->status, "RWX");
    if (m->has_origin) {
        printf("%u:%u\n", m->origin_space, m->origin_page);
    } else {
        printf("-\n");
    }
}

/* Prints who holds what, a few mappings at a time. */
static void audit(struct l4map *db) {
    struct l4map_mapping some[4];
    uint32_t space = 0, page = 0;
    size_t count, i;
    do {
        must(l4map_mappings(db, (uint16_t)space, page, some, 4, &count));
        for (i = 0; i < count; i++) {
            print_mapping(&some[i]);
            space = some[i].space;
            page = some[i].page + 1;
        }
    } while (count);
}

int main(void) {
    struct l4map db = L4MAP_NOTHING;
    must(l4map_new(&db, SPACES, 18, 2));             /* spaces of 2^18 bytes, and two frames */
    map(&db, SIGMA0, PAGER, 0, ALL);                 /* the pager is given page 0 */
    map(&db, PAGER, CLIENT, 4, READ + EXECUTE);      /* its client gets it as page 4, not to write */
    use(&db, CLIENT, 4 * PAGE_BYTES + 0xabc, READ);  /* the client may read */
    use(&db, CLIENT, 4 * PAGE_BYTES + 0xabc, WRITE); /* and not write: a fault */
    revoke(&db, SIGMA0, 0, EXECUTE);                 /* none of them may execute it: the page was read */
    revoke(&db, PAGER, FLUSH, ALL);                  /* the pager gives it up, and so the client loses it */
    audit(&db);
    printf("end %u 0\n", calls);
    l4map_free(&db);
    return 0;
}
