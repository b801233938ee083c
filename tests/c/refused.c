/* Calls of which each allocation is refused in turn, alone and with all after it, without notes of what they change and
 * with them.
 *
 * l4map_new() answers L4MAP_NO_MEMORY, leaves the handle empty, and made again does what it does at once. Any other
 * call that is refused memory answers L4MAP_HALTED, and so does every call after it until l4map_free(). Either way
 * nothing that was lent for the call has been written to, and all memory is given back in the end. */

#include "arena.h"
#include "l4map.h"

#include <stdio.h>
#include <string.h>

#define PLACES (3 * 64)
#define WORDS_MOST 4

enum kind { NEW, SEND, UNMAP, ACCESS, CLEAR, KINDS };

/* What is lent to a call for its answer; there are nines in it before the call. */
struct lent {
    struct l4map_send_reply reply;
    uint32_t words[WORDS_MOST];
    uint32_t made;
    uint32_t status;
};

/* A call: two spaces; a window, control word or address; its words, or a kind of access; and its answer. */
struct call {
    enum kind kind;
    uint16_t space, to;
    uint32_t word;
    size_t n;
    uint32_t words[WORDS_MOST];
    struct lent wanted;
};

#define LINKED(pages)                                                                                                  \
    {                                                                                                                  \
        .reply = { 0, 0, 0, 0, 0, pages }                                                                              \
    }

static const struct call calls[] = {
    {.kind = NEW},
    {SEND, 0, 1, 0x10, 2, {8, 0x107}, LINKED(16)},
    {SEND, 1, 2, 0x10, 2, {8, 0xf7}, LINKED(8)},
    {SEND, 1, 0, 0x10, 2, {0x20008, 0xe4}, LINKED(4)},
    {ACCESS, 2, 0, 0x1000, 0, {2}, {.made = 1}},
    {SEND, 1, 2, 0x10, 2, {0x400a, 0x40d5}, LINKED(2)},
    {SEND, 0, 1, 0x10, 4, {8, 0x80c7, 0x9008, 0xc7}, LINKED(2)},
    {UNMAP, 0, 0, 1, 2, {0x12, 0x10c1}, {.words = {0x16, 0x10c0}}},
    {SEND, 1, 2, 0x10, 2, {8, 0xd7}, {.reply = {0, 0, 0, 0, 1, 1}}},
    {UNMAP, 1, 0, 0x40, 1, {0x107}, {.words = {0x100}}},
    {ACCESS, 2, 0, 0x4000, 0, {4}, {.made = 1}},
    {CLEAR, 2, 0, 0, 0, {0}, {.status = 4}},
};
#define CALLS (sizeof calls / sizeof calls[0])

struct held {
    size_t count;
    struct l4map_mapping mappings[PLACES];
};

/* Which allocation this run refuses, and of all runs how many calls of a kind told so, and how much was wrong. */
static uint32_t refusing;
static unsigned told[KINDS], wrong;

/* Whether calls note what they change. */
static bool notes_changes;

static void want(bool is_right, const char *what, size_t call) {
    if (!is_right) {
        printf("call %zu, allocation %u: %s\n", call, refusing, what);
        wrong++;
    }
}

static void look(struct l4map *db, struct held *held) {
    memset(held, 0, sizeof *held);
    if (db->at && l4map_mappings(db, 0, 0, held->mappings, PLACES, &held->count) != L4MAP_DONE) {
        held->count = PLACES + 1;
    }
}

/* Makes a database, whose calls note what they change if this run is one with notes. */
static uint32_t make_new(struct l4map *db) {
    uint32_t code = l4map_new(db, 3, 18, 16);
    if (code == L4MAP_DONE && notes_changes) {
        uint32_t asked = arena_asked;
        want(l4map_note_changes(db, 1) == L4MAP_DONE && arena_asked == asked, "notes cannot be asked for", 0);
    }
    return code;
}

/* Makes a call, with its words or nines in what is lent. */
static uint32_t make(struct l4map *db, const struct call *c, struct lent *lent) {
    memset(lent, 9, sizeof *lent);
    switch (c->kind) {
    case NEW:
        return make_new(db);
    case SEND:
        return l4map_send(db, c->space, c->to, c->word, c->words, c->n, &lent->reply);
    case UNMAP:
        memcpy(lent->words, c->words, sizeof lent->words);
        return l4map_unmap(db, c->space, c->word, lent->words, c->n);
    case CLEAR:
        return l4map_clear(db, c->space, &lent->status);
    default:
        return l4map_access(db, c->space, c->word, c->words[0], &lent->made);
    }
}

/* Whether what was lent to a call has its answer. */
static bool is_answered(const struct call *c, const struct lent *lent) {
    switch (c->kind) {
    case SEND:
        return !memcmp(&lent->reply, &c->wanted.reply, sizeof lent->reply);
    case UNMAP:
        return !memcmp(lent->words, c->wanted.words, c->n * sizeof lent->words[0]);
    case ACCESS:
        return lent->made == c->wanted.made;
    case CLEAR:
        return lent->status == c->wanted.status;
    default:
        return true;
    }
}

/* Whether what was lent to a call is as it was before. */
static bool is_untouched(const struct call *c, const struct lent *lent) {
    struct lent before;
    memset(&before, 9, sizeof before);
    if (c->kind == UNMAP) {
        memcpy(before.words, c->words, sizeof before.words);
    }
    return !memcmp(lent, &before, sizeof before);
}

/* A database that is halted answers each call so, whatever is wrong with it, and writes nothing. */
static bool halts_bad_calls(struct l4map *db) {
    struct lent lent, nines;
    struct l4map_entry_reply entry = {9, 9, 9, 9};
    struct l4map_origin_reply origin = {9, 9, 9};
    memset(&lent, 9, sizeof lent);
    memset(&nines, 9, sizeof nines);
    return l4map_send(db, 9, 9, 0xb7, lent.words, 1, &lent.reply) == L4MAP_HALTED &&
           l4map_unmap(db, 9, 0x80, lent.words, 1) == L4MAP_HALTED &&
           l4map_access(db, 9, 0x40000, 3, &lent.made) == L4MAP_HALTED &&
           l4map_clear(db, 9, &lent.status) == L4MAP_HALTED &&
           l4map_entry(db, 9, 64, &entry) == L4MAP_HALTED && l4map_origin(db, 9, 64, &origin) == L4MAP_HALTED &&
           l4map_new(db, 3, 18, 16) == L4MAP_HOLDS_ONE && !memcmp(&lent, &nines, sizeof lent) && entry.held == 9 &&
           origin.known == 9;
}

/* The same where nothing is wrong with a call: page 0 of space 0 is sent, unmapped and accessed, and its space is
 * cleared. */
static bool halts_good_calls(struct l4map *db) {
    struct lent lent, nines;
    uint32_t item[2] = {8, 0xc7}, word = 0xc7;
    memset(&lent, 9, sizeof lent);
    memset(&nines, 9, sizeof nines);
    return l4map_send(db, 0, 1, 0x10, item, 2, &lent.reply) == L4MAP_HALTED &&
           l4map_unmap(db, 0, 0, &word, 1) == L4MAP_HALTED && l4map_access(db, 0, 0, 4, &lent.made) == L4MAP_HALTED &&
           l4map_clear(db, 0, &lent.status) == L4MAP_HALTED &&
           !memcmp(&lent, &nines, sizeof lent) && word == 0xc7;
}

/* The same where it is looked at, for which no memory is asked for. */
static bool halts_looks(struct l4map *db) {
    struct l4map_entry_reply entry = {9, 9, 9, 9};
    struct l4map_origin_reply origin = {9, 9, 9};
    struct l4map_mapping mapping = {.frame = 9};
    struct l4map_change change = {.frame = 9};
    uint32_t asked = arena_asked;
    size_t count = 9;
    return l4map_entry(db, 0, 0, &entry) == L4MAP_HALTED && l4map_origin(db, 0, 0, &origin) == L4MAP_HALTED &&
           l4map_mappings(db, 0, 0, &mapping, 1, &count) == L4MAP_HALTED &&
           l4map_changes(db, 0, &change, 1, &count) == L4MAP_HALTED && l4map_note_changes(db, 1) == L4MAP_HALTED &&
           entry.held == 9 && origin.known == 9 && mapping.frame == 9 && change.frame == 9 && count == 9 &&
           arena_asked == asked;
}

static bool stays_halted(struct l4map *db) {
    return halts_bad_calls(db) && halts_good_calls(db) && halts_looks(db);
}

/* Makes a call; l4map_new() once more where it was refused memory. Whether the database is not halted. */
static bool make_at_last(struct l4map *db, size_t number) {
    const struct call *c = &calls[number];
    struct lent lent;
    uint32_t code = make(db, c, &lent);
    if (c->kind == NEW && code == L4MAP_NO_MEMORY) {
        told[NEW]++;
        want(!db->at && !arena_live && !arena_bytes, "the handle is not empty", number);
        arena_refused = 0;
        code = make(db, c, &lent);
    }
    if (c->kind != NEW && code == L4MAP_HALTED) {
        told[c->kind]++;
        want(is_untouched(c, &lent), "something lent was changed", number);
        want(stays_halted(db), "it does not stay halted", number);
        return false;
    }
    want(code == L4MAP_DONE && is_answered(c, &lent), "the answer is another", number);
    return code == L4MAP_DONE;
}

/* Whether what is held is what the calls leave: the 16 pages of the start, one of them with the status of a page that
 * the clear took. */
static bool is_the_end(struct l4map *db) {
    static struct held end;
    struct l4map_mapping wanted = {0};
    uint32_t i;
    look(db, &end);
    for (i = 0; i < end.count && i < 16; i++) {
        wanted = (struct l4map_mapping){0, i, i, 7, i == 4 ? 4 : 0, 0, 0, 0};
        if (memcmp(&end.mappings[i], &wanted, sizeof wanted)) {
            return false;
        }
    }
    return end.count == 16;
}

/* Makes all calls. Whether there was an allocation to refuse. */
static bool run(void) {
    struct l4map db = L4MAP_NOTHING;
    size_t i;
    bool goes_on = true;
    arena_asked = 0;
    arena_refused = refusing;
    for (i = 0; i < CALLS && goes_on; i++) {
        goes_on = make_at_last(&db, i);
    }
    want(!goes_on || is_the_end(&db), "something else is held in the end", CALLS);
    l4map_free(&db);
    want(!db.at && !arena_live && !arena_bytes, "memory was not given back", CALLS);
    return arena_asked >= refusing;
}

/* Makes all calls once for each allocation that they need, and returns how many these are. */
static uint32_t run_all(const char *how) {
    memset(told, 0, sizeof told);
    wrong = 0;
    refusing = 0;
    while (run()) {
        refusing++;
    }
    printf("%s: told by %s new, %s sends, %s unmaps, %s accesses, %s clears; wrong %u\n", how,
           told[NEW] ? "some" : "no", told[SEND] ? "some" : "no", told[UNMAP] ? "some" : "no",
           told[ACCESS] ? "some" : "no", told[CLEAR] ? "some" : "no", wrong);
    return refusing;
}

int main(void) {
    uint32_t without = run_all("alone"), with;
    notes_changes = true;
    with = run_all("alone, with notes");
    printf("notes ask for %s memory\n", with > without ? "some" : "no");
    arena_refuses_rest = true;
    run_all("with all after it, with notes");
    notes_changes = false;
    run_all("with all after it");
    return 0;
}
