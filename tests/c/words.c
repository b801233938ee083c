/* Words as the header makes and reads them, and a call with some of them. c_library.py compares each line with one that
 * was worked out by hand. */

#include "arena.h"
#include "l4map.h"

#include <stdio.h>

static void read_word(uint32_t word, uint32_t bits) {
    uint32_t rights = l4map_rights_of(word), first = l4map_first_page(word);
    printf("%x of %u bits: %u from %u, rights %u\n", word, bits, l4map_page_count(word, bits), first, rights);
}

/* Page 0 goes to page 3 of space 1, to read and write; then the right to write is taken back. */
static void call(void) {
    struct l4map db = L4MAP_NOTHING;
    struct l4map_send_reply reply;
    struct l4map_entry_reply held;
    uint32_t item[2] = {l4map_map_item(3), l4map_fpage(0, 0, 6)}, word = l4map_fpage(0, 0, 2);
    uint32_t made = l4map_new(&db, 2, 18, 1), sent = l4map_send(&db, 0, 1, l4map_complete(0), item, 2, &reply);
    uint32_t taken = l4map_unmap(&db, 0, l4map_control(1, 0), &word, 1), told = l4map_entry(&db, 1, 3, &held);
    printf("call %u %u %u %u | linked %u, rights %u\n", made, sent, taken, told, reply.linked, held.rights);
    l4map_free(&db);
}

int main(void) {
    printf("fpages %x %x", l4map_fpage(5, 0, 6), l4map_fpage(4, 2, 7));
    printf(" %x %x\n", l4map_fpage(1048575, 0, 1), l4map_fpage(0, 20, 7));
    printf("complete %x %x\n", l4map_complete(4), l4map_complete(0));
    printf("items %x %x %x\n", l4map_map_item(9), l4map_grant_item(9), l4map_map_item(0));
    printf("controls %x %x %x\n", l4map_control(1, 0), l4map_control(2, 1), l4map_control(64, 1));
    read_word(0x50c6, 18);
    read_word(0x40e7, 18);
    read_word(0x14, 18);
    read_word(0x10, 32);
    read_word(0x207, 32);
    read_word(0, 18);
    call();
    return 0;
}
