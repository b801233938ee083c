/* Replays traces through the library: reads one, or several one behind another, from standard input, and writes for
 * each what l4map writes (docs/FORMATS.md).
 *
 * A trace has no quotes, and no header but its first line. Each of its fields has the right form, but that there may be
 * any number of words and any kind of access: what the library answers with L4MAP_BAD_CALL is l4map's BadRecord. It
 * ends with status 2 at a header or a line that it does not take, and with 3 where memory is refused. */

#include "l4map.h"

#include <stdio.h>
#include <stdlib.h>
#include <string.h>

#define FIELDS 80
#define SOME 64

struct record {
    char *fields[FIELDS];
    size_t count;
};

static const char *const names[] = {"",           "BadSize",     "Misaligned", "OutOfSpace", "NotAnItem",
                                    "BadControl", "NoSuchSpace", "SameSpace",  "NoWindow",   "BadRecord"};
#define NAMES (sizeof names / sizeof names[0])

static void leave(int status, const char *why) {
    fprintf(stderr, "replay: %s\n", why);
    exit(status);
}

/* The next record, cut into its fields; a line without any is none. */
static int read_record(struct record *r) {
    static char line[4096];
    char *field;
    do {
        if (!fgets(line, sizeof line, stdin)) {
            return 0;
        }
        r->count = 0;
        for (field = strtok(line, ",\r\n"); field; field = strtok(NULL, ",\r\n")) {
            if (r->count == FIELDS) {
                leave(2, "a line has too many fields");
            }
            r->fields[r->count++] = field;
        }
    } while (!r->count);
    return 1;
}

static uint32_t number(const struct record *r, size_t field, int base) {
    if (field >= r->count) {
        leave(2, "a line has too few fields");
    }
    return (uint32_t)strtoul(r->fields[field], NULL, base);
}

/* The words from a field on, and how many they are. */
static size_t words_from(const struct record *r, size_t field, uint32_t words[FIELDS]) {
    size_t n = 0;
    for (; field < r->count; field++) {
        words[n++] = number(r, field, 16);
    }
    return n;
}

static uint32_t send(struct l4map *db, const struct record *r) {
    uint32_t words[FIELDS], code;
    struct l4map_send_reply told;
    size_t n = words_from(r, 4, words);
    code = l4map_send(db, (uint16_t)number(r, 1, 10), (uint16_t)number(r, 2, 10), number(r, 3, 16), words, n, &told);
    if (code == L4MAP_DONE) {
        printf(" send absent=%u norights=%u origin=%u lost=%u extended=%u linked=%u\n", told.absent, told.norights,
               told.origin, told.lost, told.extended, told.linked);
    }
    return code;
}

static uint32_t access(struct l4map *db, const struct record *r) {
    const char *kind = r->count == 4 ? r->fields[3] : "";
    uint32_t made, rights = !strcmp(kind, "r") ? 4 : !strcmp(kind, "w") ? 2 : !strcmp(kind, "x") ? 1 : 0;
    uint32_t code = l4map_access(db, (uint16_t)number(r, 1, 10), number(r, 2, 16), rights, &made);
    if (code == L4MAP_DONE) {
        printf(" access %s\n", made ? "ok" : "fault");
    }
    return code;
}

static uint32_t unmap(struct l4map *db, const struct record *r) {
    uint32_t words[FIELDS], code;
    size_t n = words_from(r, 3, words), i;
    code = l4map_unmap(db, (uint16_t)number(r, 1, 10), number(r, 2, 16), words, n);
    if (code == L4MAP_DONE) {
        printf(" unmap");
        for (i = 0; i < n; i++) {
            printf(" %08x", words[i]);
        }
        putchar('\n');
    }
    return code;
}

static uint32_t clear(struct l4map *db, const struct record *r) {
    uint32_t status, code = l4map_clear(db, (uint16_t)number(r, 1, 10), &status);
    if (code == L4MAP_DONE) {
        printf(" clear %08x\n", 0x10 + status);
    }
    return code;
}

/* Makes the call of a record of a trace of this version, and writes its reply. Whether it was refused. */
static int reply(struct l4map *db, uint32_t version, const struct record *r) {
    const char *name = r->fields[0];
    uint32_t code = !strcmp(name, "send")     ? send(db, r)
                    : !strcmp(name, "access") ? access(db, r)
                    : !strcmp(name, "unmap")  ? unmap(db, r)
                    : !strcmp(name, "clear") && version == 2 && r->count == 2
                        ? clear(db, r)
                        : L4MAP_BAD_CALL;
    if (code >= NAMES) {
        leave(3, "memory was refused");
    }
    if (code != L4MAP_DONE) {
        printf(" refused %s\n", names[code]);
    }
    return code != L4MAP_DONE;
}

static void print_set(uint32_t set, const char *letters) {
    printf("%c%c%c,", set & 4 ? letters[0] : '-', set & 2 ? letters[1] : '-', set & 1 ? letters[2] : '-');
}

static void print_mapping(const struct l4map_mapping *m) {
    printf("%u,%u,%u,", m->space, m->page, m->frame);
    print_set(m->rights, "rwx");
    print_set(m->status, "RWX");
    if (m->has_origin) {
        printf("%u:%u\n", m->origin_space, m->origin_page);
    } else {
        puts("-");
    }
}

static void audit(struct l4map *db) {
    struct l4map_mapping some[SOME];
    uint32_t space = 0, page = 0;
    size_t count, i;
    do {
        if (l4map_mappings(db, (uint16_t)space, page, some, SOME, &count) != L4MAP_DONE) {
            leave(3, "the audit was refused");
        }
        for (i = 0; i < count; i++) {
            print_mapping(&some[i]);
            space = some[i].space;
            page = some[i].page + 1;
        }
    } while (count);
}

/* Replays the trace whose header was read last. Whether another header comes behind it. */
static int replay(struct record *r) {
    struct l4map db = L4MAP_NOTHING;
    uint32_t version = number(r, 1, 10);
    unsigned records = 0, refused = 0;
    int goes_on;
    if (l4map_new(&db, number(r, 2, 10), number(r, 3, 10), number(r, 4, 10)) != L4MAP_DONE) {
        leave(2, "the header is bad");
    }
    while ((goes_on = read_record(r)) && strcmp(r->fields[0], "l4map")) {
        printf("%u", ++records);
        refused += (unsigned)reply(&db, version, r);
    }
    audit(&db);
    printf("end %u %u\n", records, refused);
    l4map_free(&db);
    return goes_on;
}

int main(void) {
    struct record r;
    if (!read_record(&r)) {
        leave(2, "there is no header");
    }
    while (replay(&r)) {
    }
    return 0;
}
