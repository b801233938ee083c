/* Random calls, with an access behind each. */
#include "kernel.h"

enum { CALLS = 20000, CALLS_OF_A_DATABASE = 100, USED_SPACES = 3 };

static uint32_t below(uint32_t n) {
    static uint64_t state = 88172645463325252;
    state ^= state << 13;
    state ^= state >> 7;
    state ^= state << 17;
    return (uint32_t)(state >> 33) % n;
}

/* An fpage of 1 to 8 pages, or seldom the complete space. */
static uint32_t any_fpage(uint32_t rights) {
    uint32_t log2_pages = below(4);
    uint32_t page = below(PAGES >> log2_pages) << log2_pages;
    return below(50) ? l4map_fpage(page, log2_pages, rights) : l4map_complete(rights);
}

/* Sends rights with r in them, which the processor can keep apart; seldom to space 0, where that replaces frames. */
static void send_at_random(void) {
    uint32_t to = below(10) ? 1 + below(USED_SPACES - 1) : 0, from = (to + 1 + below(USED_SPACES - 1)) % USED_SPACES;
    uint32_t window = below(4) ? l4map_complete(ALL) : any_fpage(ALL), words[6], n = 2 + 2 * below(3);
    struct l4map_send_reply reply;
    for (uint32_t i = 0; i < n; i += 2) {
        uint32_t base = below(PAGES);
        words[i] = below(4) ? l4map_map_item(base) : l4map_grant_item(base);
        words[i + 1] = any_fpage(READ + below(4));
    }
    send(from, to, window, words, n, &reply);
}

/* Takes rights such that what is left has r in it, or is nothing. */
static void unmap_at_random(void) {
    static const uint32_t taken[] = {0, WRITE, EXECUTE, WRITE + EXECUTE, ALL};
    uint32_t space = below(USED_SPACES), words[2], n = 1 + below(2);
    int flush = (int)below(2);
    for (uint32_t i = 0; i < n; i++) {
        words[i] = any_fpage(taken[below(sizeof taken / sizeof taken[0])]);
    }
    unmap(space, l4map_control(n, flush), words, n);
}

/* Mostly in the space that is active, whose entries the processor remembers; to a page that changed, or to one that is
 * mapped, or sometimes to any. */
static void access_at_random(void) {
    uint32_t space = active_space() < USED_SPACES && below(4) ? active_space() : below(USED_SPACES);
    uint32_t page = below(2) ? changed_page[space] : below(PAGES), offset = below(PAGE_BYTES);
    while (page != changed_page[space] && !get_entry(space, page).rights && below(20)) {
        page = below(PAGES);
    }
    access(space, PAGE_BYTES * page + offset, 1u << below(3));
}

/* Each hundred calls begin with a new database, for what space 0 loses is lost, and end with a walk. */
void call_at_random(void) {
    for (uint32_t call = 0; call < CALLS; call++) {
        uint32_t kind = below(100);
        if (call % CALLS_OF_A_DATABASE == 0) {
            begin(USED_SPACES, PAGES);
        }
        if (kind < 80) {
            send_at_random();
        } else if (kind < 99) {
            unmap_at_random();
        } else {
            clear(below(USED_SPACES));
        }
        access_at_random();
        if ((call + 1) % CALLS_OF_A_DATABASE == 0) {
            check_tables();
        }
    }
    say("%u random calls, with an access in ring 3 behind each", (uint32_t)CALLS);
}
