/* Spaces of 32 bits, of which a few pages are held: what lies at their ends, and what is said of all pages at once.
 * Every line is compared by c_library.py with one that was worked out by hand. */

#include "arena.h"
#include "l4map.h"

#include <stdio.h>

#define MAPPINGS 8

static struct l4map db = L4MAP_NOTHING;

static void send(uint16_t from, uint16_t to, uint32_t window, uint32_t item, uint32_t fpage) {
    struct l4map_send_reply r = {9, 9, 9, 9, 9, 9};
    uint32_t code = l4map_send(&db, from, to, window, (const uint32_t[]){item, fpage}, 2, &r);
    printf("send %u | %u %u %u %u %u %u\n", code, r.absent, r.norights, r.origin, r.lost, r.extended, r.linked);
}

static void unmap(uint16_t space, uint32_t control, uint32_t fpage) {
    uint32_t code = l4map_unmap(&db, space, control, &fpage, 1);
    printf("unmap %u | %x\n", code, fpage);
}

static void access(uint16_t space, uint32_t address, uint32_t kind) {
    uint32_t made = 9, code = l4map_access(&db, space, address, kind, &made);
    printf("access %u | %u\n", code, made);
}

static void entry(uint16_t space, uint32_t page) {
    struct l4map_entry_reply r = {9, 9, 9, 9};
    uint32_t code = l4map_entry(&db, space, page, &r);
    printf("entry %u | %u %u %u %u\n", code, r.held, r.frame, r.rights, r.status);
}

static void mappings(uint16_t space, uint32_t page, size_t n) {
    struct l4map_mapping told[MAPPINGS];
    size_t count = 9, i;
    uint32_t code = l4map_mappings(&db, space, page, told, n, &count);
    printf("mappings %u | %zu\n", code, count);
    for (i = 0; i < count && i < MAPPINGS; i++) {
        const struct l4map_mapping *m = &told[i];
        printf("%u:%u %u %u %u | %u %u:%u\n", m->space, m->page, m->frame, m->rights, m->status, m->has_origin,
               m->origin_space, m->origin_page);
    }
}

int main(void) {
    printf("new %u\n", l4map_new(&db, 2, 32, 1048577));
    printf("new %u\n", l4map_new(&db, 3, 32, 2));
    /* Page 0 to the last page of space 1, and from there to the page in the middle of space 2. */
    send(0, 1, 0x10, 0xfffff008, 0xc6);
    send(1, 2, 0x10, 0x80000008, 0xfffff0c4);
    access(1, 0xffffffff, 2);
    access(2, 0x80000abc, 2);
    access(2, 0x80000abc, 4);
    access(2, 0x7fffffff, 4);
    entry(1, 1048575);
    entry(1, 1048576);
    entry(2, 524288);
    mappings(0, 0, MAPPINGS);
    mappings(1, 0, 1);
    mappings(1, 1048576, 1);
    mappings(2, 524289, MAPPINGS);
    /* All pages of space 0, of which two are held; none of them is sent to what is held in space 2. */
    send(0, 2, 0x10, 8, 0x17);
    unmap(0, 0, 0xc2);
    unmap(1, 0x40, 0x17);
    mappings(1, 0, MAPPINGS);
    send(2, 1, 0xfffff0c7, 0xa, 0xc7);
    mappings(1, 0, MAPPINGS);
    l4map_free(&db);
    printf("live %u\n", arena_live);
    return 0;
}
