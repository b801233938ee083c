/* What calls note of the pages that they change. Every line is compared by c_library.py with one that was worked out by
 * hand.
 *
 * The line of a call is its code and what is told afterwards, by rising place: a page, whether it holds something, its
 * frame and its rights. A page that is told twice with one entry stands there once. The last line says how many blocks
 * were asked for by note_changes and changes themselves.
 */

#include "arena.h"
#include "l4map.h"

#include <stdio.h>
#include <stdlib.h>
#include <string.h>

#define MOST 64

/* Words, and how many they are. */
#define WORDS(...) (uint32_t[]){__VA_ARGS__}, sizeof((uint32_t[]){__VA_ARGS__}) / sizeof(uint32_t)

struct told {
    uint32_t code;
    size_t count;
    struct l4map_change changes[MOST];
};

static struct l4map db = L4MAP_NOTHING;

/* How many blocks were asked for by note_changes and changes. */
static uint32_t asked_by_notes;

static void note(uint32_t on) {
    uint32_t asked = arena_asked;
    printf("notes %x = %u\n", on, l4map_note_changes(&db, on));
    asked_by_notes += arena_asked - asked;
}

static uint32_t read_changes(size_t from, struct l4map_change *changes, size_t n, size_t *count) {
    uint32_t asked = arena_asked, code = l4map_changes(&db, from, changes, n, count);
    asked_by_notes += arena_asked - asked;
    return code;
}

static void print_change(const struct l4map_change *c) {
    printf(" | %u:%u %u %u %u", c->space, c->page, c->held, c->frame, c->rights);
}

/* One call of l4map_changes, as it answers, into a buffer of nines. */
static void changes(size_t from, size_t n) {
    struct l4map_change some[4], nines[4];
    size_t count = 9, i;
    uint32_t code;
    memset(some, 9, sizeof some);
    memset(nines, 9, sizeof nines);
    code = read_changes(from, some, n, &count);
    printf("changes %zx %zu = %u | %zu", from, n, code, count);
    for (i = 0; code == L4MAP_DONE && i < count && i < n; i++) {
        print_change(&some[i]);
        memset(&some[i], 9, sizeof some[i]);
    }
    puts(memcmp(some, nines, sizeof some) ? " | more was written" : "");
}

/* All that is told, as it comes. */
static void read_all(struct told *told) {
    memset(told, 0, sizeof *told);
    told->code = read_changes(0, told->changes, MOST, &told->count);
}

static int by_place(const void *one, const void *other) {
    const struct l4map_change *a = one, *b = other;
    return a->space != b->space ? (a->space < b->space ? -1 : 1) : a->page < b->page ? -1 : a->page > b->page;
}

/* Ends the line of a call with what is told. */
static void end_line(uint32_t code) {
    static struct told told;
    size_t i;
    printf(" = %u", code);
    read_all(&told);
    qsort(told.changes, told.count, sizeof told.changes[0], by_place);
    for (i = 0; i < told.count; i++) {
        if (!i || memcmp(&told.changes[i - 1], &told.changes[i], sizeof told.changes[i])) {
            print_change(&told.changes[i]);
        }
    }
    puts(told.code == L4MAP_DONE ? "" : " | nothing can be told");
}

static void print_words(const uint32_t *words, size_t n) {
    size_t i;
    for (i = 0; i < n; i++) {
        printf(" %x", words[i]);
    }
}

static void send(uint16_t from, uint16_t to, const uint32_t *words, size_t n) {
    struct l4map_send_reply reply;
    printf("send %u>%u:", from, to);
    print_words(words, n);
    end_line(l4map_send(&db, from, to, 0x10, words, n, &reply));
}

static void unmap(uint16_t space, uint32_t control, uint32_t *words, size_t n) {
    printf("unmap %u %x:", space, control);
    print_words(words, n);
    end_line(l4map_unmap(&db, space, control, words, n));
}

static void clear(uint16_t space) {
    uint32_t status;
    printf("clear %u", space);
    end_line(l4map_clear(&db, space, &status));
}

static void access(uint16_t space, uint32_t address, uint32_t kind) {
    uint32_t made;
    printf("access %u %x %u", space, address, kind);
    end_line(l4map_access(&db, space, address, kind, &made));
}

/* Reads what is told in parts, to the part that is empty; it is to be what is told at once. */
static void read_in_parts(size_t n) {
    static struct told all, parts;
    size_t count;
    read_all(&all);
    memset(&parts, 0, sizeof parts);
    do {
        size_t room = MOST - parts.count < n ? MOST - parts.count : n;
        count = 0;
        parts.code = read_changes(parts.count, &parts.changes[parts.count], room, &count);
        parts.count += count;
    } while (count);
    printf("in parts of %zu: %zu, %s\n", n, parts.count, memcmp(&all, &parts, sizeof all) ? "others" : "the same");
}

/* The code of a call that was refused: it leaves what was told before, or nothing. */
static void refused(const struct told *before, const char *name, uint32_t code) {
    static struct told after;
    read_all(&after);
    printf("%s refused %u%s\n", name, code,
           after.count && memcmp(before, &after, sizeof after) ? " | something else is told" : "");
}

static void tell_sends(void) {
    send(0, 1, WORDS(0x9008, 0x30c7)); /* notes are off */
    changes(0, 2);
    note(1);
    changes(0, 2);
    send(0, 1, WORDS(0xa008, 0x40c6));
    changes(0, 2);
    changes(0, 1);
    changes(0, 0);
    changes(1, 2);
    changes(2, 2);
    changes((size_t)-1, 2);
    send(0, 1, WORDS(0xa008, 0x40c7)); /* it gets the right that it lacked */
    access(1, 0xafff, 2);
    send(1, 2, WORDS(0x2008, 0x90c5)); /* the chain 0:3, 1:9, 2:2 */
    access(2, 0x2fff, 2);
    send(0, 1, WORDS(0x8, 0x300c7)); /* page 48 holds nothing */
}

static void tell_unmaps(void) {
    unmap(2, 0x40, WORDS(0x20c1));
    unmap(0, 0x41, WORDS(0x40c1, 0x40c2)); /* one page, in both words */
    unmap(0, 0x40, WORDS(0x30c7));         /* the whole chain */
}

static void tell_in_parts(void) {
    send(0, 2, WORDS(0x20008, 0x100e7, 0x24008, 0x140e7));
    read_in_parts(1);
    read_in_parts(3);
    read_in_parts(8);
    read_in_parts(9);
}

static void tell_grants_and_what_is_replaced(void) {
    send(1, 2, WORDS(0x500a, 0xa0c7)); /* a grant */
    send(0, 2, WORDS(0x5008, 0x50c7)); /* 2:5 held another frame */
    send(2, 1, WORDS(0x14008, 0x50c7));
    send(0, 2, WORDS(0x5008, 0x60c3)); /* 1:20 came from what is replaced */
    send(2, 1, WORDS(0x14008, 0x50c3));
    send(2, 1, WORDS(0x1500a, 0x50c1)); /* a grant without w, which 1:20 loses */
}

/* What the first item of a send maps, the second one takes away: a page that held nothing is not told. */
static void tell_no_page_that_came_and_went(void) {
    send(0, 1, WORDS(0x1d008, 0xa0c2, 0x1e00a, 0xa0c4)); /* 1:29 gets w, which the grant to 1:30 withholds */
    send(0, 1, WORDS(0x1e008, 0xb0c2, 0x1f00a, 0xb0c4)); /* 1:30 held a page before */
}

static void tell_clears(void) {
    send(0, 1, WORDS(0x1008, 0x70c7));
    send(1, 2, WORDS(0x1008, 0x10c7));
    clear(1);
    clear(1);
}

static void refuse(void) {
    static struct told before;
    struct l4map_send_reply reply;
    uint32_t word = 0xc7, answer;
    const uint32_t item[2] = {0x8, 0xc7};
    send(0, 1, WORDS(0x1008, 0x70c7));
    read_all(&before);
    refused(&before, "send", l4map_send(&db, 0, 1, 0x10, item, 1, &reply));
    refused(&before, "send", l4map_send(&db, 0, 1, 0xb7, item, 2, &reply));
    refused(&before, "access", l4map_access(&db, 0, 0, 3, &answer));
    refused(&before, "access", l4map_access(&db, 3, 0, 4, &answer));
    refused(&before, "unmap", l4map_unmap(&db, 0, 0x41, &word, 1));
    refused(&before, "unmap", l4map_unmap(&db, 3, 0x40, &word, 1));
    refused(&before, "send", l4map_send(&db, 1, 1, 0x10, item, 2, &reply));
    refused(&before, "clear", l4map_clear(&db, 3, &answer));
}

/* What is not 0 turns notes on, whichever bit it has. */
static void turn_off_and_on(void) {
    send(0, 1, WORDS(0x2008, 0x80c7));
    note(0);
    changes(0, 2);
    send(0, 1, WORDS(0x3008, 0x80c7));
    note(0x100);
    changes(0, 2);
    send(0, 1, WORDS(0xb008, 0x90c5));
    note(0x80000000);
    changes(0, 2);
    send(0, 1, WORDS(0xc008, 0x90c5));
}

/* A new database in the handle does not note. The last space and the last page there may be are told. */
static void begin_anew(void) {
    l4map_free(&db);
    printf("new %u\n", l4map_new(&db, 512, 24, 2));
    send(0, 1, WORDS(0x1008, 0xc7));
    note(1);
    send(0, 511, WORDS(0xfff008, 0x10c6));
    l4map_free(&db);
    printf("new %u\n", l4map_new(&db, 2, 32, 2));
    note(1);
    send(0, 1, WORDS(0xfffff008, 0x10c6));
    l4map_free(&db);
    note(1);
    changes(0, 2);
}

int main(void) {
    note(1);
    changes(0, 2);
    printf("new %u\n", l4map_new(&db, 3, 18, 32));
    tell_sends();
    tell_unmaps();
    tell_in_parts();
    tell_grants_and_what_is_replaced();
    tell_no_page_that_came_and_went();
    tell_clears();
    refuse();
    turn_off_and_on();
    begin_anew();
    printf("live %u, %zu bytes; asked by notes %u\n", arena_live, arena_bytes, asked_by_notes);
    return 0;
}
