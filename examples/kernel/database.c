/* The calls of the database. After each the page tables follow, by its changes alone. */
#include "kernel.h"

enum { SOME = 16 };

struct counts counts;
uint32_t changed_page[SPACES];

static struct l4map db = L4MAP_NOTHING;

static void must(uint32_t code) {
    if (code != L4MAP_DONE) {
        fail("call %u: it was refused with code %u", counts.calls, code);
    }
}

/* Starts anew: page i of space 0 holds frame i, and nobody holds anything else. */
void begin(uint32_t spaces, uint32_t with_frames) {
    l4map_free(&db);
    must(l4map_new(&db, spaces, BITS, with_frames));
    must(l4map_note_changes(&db, 1));
    empty_tables();
    for (uint32_t frame = 0; frame < with_frames; frame++) {
        set_entry(0, frame, (struct held){frame, ALL});
    }
}

/* Makes the page tables follow a call that named these spaces. */
static void apply_changes(uint32_t space, uint32_t other) {
    struct l4map_change some[SOME];
    size_t from = 0, count;
    do {
        must(l4map_changes(&db, from, some, SOME, &count));
        for (size_t i = 0; i < count; i++) {
            const struct l4map_change *c = &some[i];
            if (WRONG != caller_only || c->space == space || c->space == other) {
                set_entry(c->space, c->page, (struct held){c->frame, c->rights});
            }
            changed_page[c->space] = c->page;
        }
        from += count;
    } while (count == SOME);
    counts.calls++;
    counts.changes += (uint32_t)from;
}

void send(uint32_t from, uint32_t to, uint32_t window, const uint32_t *words, size_t n,
          struct l4map_send_reply *reply) {
    must(l4map_send(&db, (uint16_t)from, (uint16_t)to, window, words, n, reply));
    apply_changes(from, to);
}

void unmap(uint32_t space, uint32_t control, uint32_t *words, size_t n) {
    must(l4map_unmap(&db, (uint16_t)space, control, words, n));
    apply_changes(space, space);
}

void clear(uint32_t space) {
    uint32_t status;
    must(l4map_clear(&db, (uint16_t)space, &status));
    apply_changes(space, space);
}

/* Whether the program reached this frame. Where it wrote there it left a mark, which goes away again. */
static bool reached(uint32_t frame, uint32_t address, uint32_t kind, int64_t found) {
    uint8_t *at = &frames[frame][address % PAGE_BYTES];
    bool is_marked = *at == MARK;
    *at = is_marked ? (uint8_t)frame : *at;
    return kind == WRITE ? is_marked : found == (int64_t)frame;
}

/* Whether a page fault is right for this kind of access to a page that is mapped, or is not. */
static bool is_right_fault(int64_t found, uint32_t kind, bool is_mapped) {
    return -1 - found == 4 + is_mapped + (kind == WRITE ? 2 : 0) + (kind == EXECUTE ? 16 : 0);
}

/* The program accesses an address, and then the database is told: its answer must be what the processor did, and its
 * frame the one that was reached. The program jumps to the start of 16 bytes, or reads or writes in their second half;
 * fill_frames() says why. */
bool access(uint32_t space, uint32_t address, uint32_t kind) {
    const char *name = kind == READ ? "a read" : kind == WRITE ? "a write" : "an execution";
    uint32_t page = address / PAGE_BYTES, exact = kind == EXECUTE ? address & ~15u : address | 8, made;
    int64_t found = access_in_ring_3(space, exact, kind);
    struct held had = get_entry(space, page), expected;
    struct l4map_entry_reply reply;
    const char *wrong = NULL;
    must(l4map_access(&db, (uint16_t)space, address, kind, &made));
    must(l4map_entry(&db, (uint16_t)space, page, &reply));
    expected = (struct held){reply.frame, reply.rights};
    if ((found >= 0) != made) {
        wrong = made ? "was a fault, and should be made" : "was made, and should be a fault";
    } else if (made ? !reached(reply.frame, exact, kind, found) : !is_right_fault(found, kind, reply.held)) {
        wrong = made ? "went to another frame" : "was another fault";
    }
    if (wrong) {
        fail("call %u, page %u:%u: %s %s; the table has %h, expected %h", counts.calls, space, page, name, wrong, &had,
             &expected);
    }
    *(made ? &counts.made : &counts.faults) += 1;
    return made;
}

/* Fails unless the page tables of all spaces have what the database holds, and nothing else. */
void check_tables(void) {
    static struct l4map_mapping all[SPACES * PAGES];
    struct held found[PAGES], expected;
    size_t count, next = 0;
    must(l4map_mappings(&db, 0, 0, all, SPACES * PAGES, &count));
    for (uint32_t i = 0; i < SPACES * PAGES; i++) {
        uint32_t space = i / PAGES, page = i % PAGES;
        if (page == 0) {
            walk_space(space, found);
        }
        expected = (struct held){0, 0};
        if (next < count && all[next].space == space && all[next].page == page) {
            expected = (struct held){all[next].frame, all[next].rights};
            next++;
        }
        if (found[page].frame != expected.frame || found[page].rights != expected.rights) {
            fail("call %u, page %u:%u: the table has %h, expected %h", counts.calls, space, page, &found[page],
                 &expected);
        }
    }
    counts.walks++;
}
