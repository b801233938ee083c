/* Replays a trace of l4map, and compares each reply with the answer. docs/FORMATS.md has both forms. */
#include "kernel.h"

enum { MOST_WORDS = 64 };

static const char *trace, *answer; /* what is still to be read of them */

/* Passes over a field and the comma behind it. */
static void pass_field(void) {
    while (*trace && *trace != ',' && *trace != '\n') {
        trace++;
    }
    trace += *trace == ',';
}

static char letter(void) {
    char first = *trace;
    pass_field();
    return first;
}

static uint32_t number(uint32_t base) {
    uint32_t value = 0;
    for (const char *digit = trace; *digit && *digit != ',' && *digit != '\n'; digit++) {
        value = base * value + (uint32_t)(*digit <= '9' ? *digit - '0' : *digit - 'a' + 10);
    }
    pass_field();
    return value;
}

static size_t words(uint32_t to[MOST_WORDS]) {
    size_t n = 0;
    while (*trace && *trace != '\n' && n < MOST_WORDS) {
        to[n++] = number(16);
    }
    return n;
}

static void replay_send(void) {
    uint32_t from = number(10), to = number(10), window = number(16), items[MOST_WORDS];
    size_t n = words(items);
    struct l4map_send_reply r;
    send(from, to, window, items, n, &r);
    add("send absent=%u norights=%u origin=%u lost=%u extended=%u linked=%u", r.absent, r.norights, r.origin, r.lost,
        r.extended, r.linked);
}

static void replay_access(void) {
    uint32_t space = number(10), address = number(16);
    char kind = letter();
    bool made = access(space, address, kind == 'r' ? READ : kind == 'w' ? WRITE : EXECUTE);
    add("access %s", made ? "ok" : "fault");
}

static void replay_unmap(void) {
    uint32_t space = number(10), control = number(16), fpages[MOST_WORDS];
    size_t n = words(fpages);
    unmap(space, control, fpages, n);
    add("unmap");
    for (size_t i = 0; i < n; i++) {
        add(" %x", fpages[i]);
    }
}

static void replay_record(uint32_t record) {
    add("%u ", record);
    switch (letter()) {
    case 's': replay_send(); break;
    case 'a': replay_access(); break;
    case 'u': replay_unmap(); break;
    default: fail("record %u is none that this kernel knows", record);
    }
    add("\n");
    trace += *trace == '\n';
    for (const char *reply = take_line(); *reply; reply++) {
        if (*reply != *answer++) {
            fail("record %u has another reply than in the file", record);
        }
    }
}

void replay(const char *name, const char *records, const char *answers) {
    uint32_t spaces, bits, with_frames, record = 0;
    trace = records;
    answer = answers;
    pass_field(); /* l4map */
    pass_field(); /* the version */
    spaces = number(10), bits = number(10), with_frames = number(10);
    if (spaces > SPACES || bits != BITS || with_frames > PAGES) {
        fail("%s is too large for this kernel", name);
    }
    begin(spaces, with_frames);
    for (trace++; *trace;) {
        replay_record(++record);
        check_tables();
    }
    say("%s: %u records were answered as expected", name, record);
}
