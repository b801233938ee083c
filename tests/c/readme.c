/* The functions of docs/KERNELS.md, which c_library.py writes into live.h and follow.h. What the first leaves: its
 * code, what is held, and how much memory was not given back. What the second sets of a chain of pages, as it is made
 * and as its last page goes. */

#include "arena.h"
#include "live.h"

#include <stdio.h>

static void set_entry(uint32_t space, uint32_t page, uint32_t frame, uint32_t rights) {
    printf("set %u:%u %u %u,", space, page, frame, rights);
}

static void remove_entry(uint32_t space, uint32_t page) {
    printf("remove %u:%u,", space, page);
}

static void flush_tlb(uint32_t space, uint32_t page) {
    printf(" flush %u:%u\n", space, page);
}

#include "follow.h"

static void send(struct l4map *db, uint16_t from, uint16_t to, uint32_t item, uint32_t fpage) {
    const uint32_t words[2] = {item, fpage};
    struct l4map_send_reply reply;
    printf("send %u\n", l4map_send(db, from, to, 0x10, words, 2, &reply));
    follow(db);
}

/* Takes rights from what a page of space 2 holds. */
static void take(struct l4map *db, uint32_t fpage) {
    printf("unmap %u\n", l4map_unmap(db, 2, 0x40, &fpage, 1));
    follow(db);
}

int main(void) {
    struct l4map_mapping held[16];
    struct l4map db = L4MAP_NOTHING;
    size_t count = 9, i;
    printf("live %u\n", live(held, &count));
    for (i = 0; i < count && i < 16; i++) {
        const struct l4map_mapping *m = &held[i];
        printf("%u:%u %u %u %u %u\n", m->space, m->page, m->frame, m->rights, m->status, m->has_origin);
    }
    printf("new %u\n", l4map_new(&db, 3, 18, 2));
    printf("notes %u\n", l4map_note_changes(&db, 1));
    send(&db, 0, 1, 0x9008, 0x10c7);
    send(&db, 1, 2, 0x4008, 0x90c5);
    take(&db, 0x40c1);
    take(&db, 0x40c6);
    l4map_free(&db);
    follow(&db);
    printf("blocks %u, %zu bytes\n", arena_live, arena_bytes);
    return 0;
}
