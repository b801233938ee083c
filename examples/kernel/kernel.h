/* What the parts of the kernel offer to one another. */
#ifndef KERNEL_H
#define KERNEL_H

#include "l4map.h"

#include <stdbool.h>

enum { SPACES = 5, PAGES = 64, BITS = 18, PAGE_BYTES = 4096 }; /* a database has at most so many spaces and frames */
enum { EXECUTE = 1, WRITE = 2, READ = 4, ALL = 7 };            /* rights, and kinds of access */
enum { MARK = 0xee };                                          /* what the program in ring 3 writes */
enum { right, no_flush, caller_only };                         /* WRONG is one: how the kernel was built */

/* What a page has, by its page table or by the database. Without rights it has nothing. */
struct held {
    uint32_t frame, rights;
};

/* boot.S. Runs code in ring 3, and returns what it had in rax at int 0x80, or -1 - error code at a page fault. */
int64_t enter_ring_3(uint64_t code, uint64_t stack, uint64_t address);
extern volatile uint32_t ticks;

/* text.c. A format has %u for a number, %x for one of 8 hexadecimal digits, %s for a text without formats, and %h for a
 * pointer to a struct held. */
void write_port(uint16_t port, uint8_t byte);
void add(const char *format, ...); /* adds to a line */
const char *take_line(void);       /* takes it, and begins another */
void end_line(void);               /* writes it to the serial port */
_Noreturn void leave(bool is_right);
#define say(...) (add(__VA_ARGS__), end_line())
#define fail(...) (take_line(), add("FAILED "), add(__VA_ARGS__), end_line(), leave(false))

/* tables.c */
extern uint8_t frames[PAGES][PAGE_BYTES];
void fill_frames(void);
void empty_tables(void);
void set_entry(uint32_t space, uint32_t page, struct held held);
struct held get_entry(uint32_t space, uint32_t page);
void walk_space(uint32_t space, struct held found[PAGES]);
uint32_t active_space(void);
int64_t access_in_ring_3(uint32_t space, uint32_t address, uint32_t kind); /* as enter_ring_3() */

/* database.c */
struct counts {
    uint32_t calls, changes, made, faults, walks;
};
extern struct counts counts;
extern uint32_t changed_page[SPACES]; /* the last page of each space to change */
void begin(uint32_t spaces, uint32_t with_frames);
void send(uint32_t from, uint32_t to, uint32_t window, const uint32_t *words, size_t n,
          struct l4map_send_reply *reply);
void unmap(uint32_t space, uint32_t control, uint32_t *words, size_t n);
void clear(uint32_t space);
bool access(uint32_t space, uint32_t address, uint32_t kind);
void check_tables(void);

/* traces.c and random.c */
void replay(const char *name, const char *records, const char *answers);
void call_at_random(void);

#endif
