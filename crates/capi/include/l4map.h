/* The mapping database of an L4 microkernel, for programs in C and C++.
 *
 * Nothing here starts a thread, opens a file, reads a clock or takes a lock. Memory comes from three functions that the
 * program provides (at the end), and from nowhere else.
 *
 * Spaces are numbered from 0, and so are the pages of a space, of 4096 bytes each, and the frames. Rights and status
 * are numbers: 4 for read, 2 for write and 1 for execute, added up.
 *
 * Words have 32 bits and follow the L4 X.2 manual; docs/FORMATS.md has every case, and says what is this project's own.
 *
 * - An fpage word is base + 16 s + rights: the 2^s bytes from the address `base` on, a multiple of 2^s, where s is 12 for
 *   one page and one more for each doubling. So 0x5000 + 0xc0 + 6 = 0x50c6 is page 5, to read and write, and 0x40e7 is
 *   pages 4 to 7 with all rights. 16 + rights is the complete space, and 0 is nil: no page at all.
 * - An item is two words. The first is send base + 8 for a MapItem, or send base + 10 for a GrantItem, which gives the
 *   sender's pages away; a send base is an address, such as 4096 i for page i. The second is an fpage word: the sender's
 *   pages, and the rights that the receiver may get. Of this fpage and the window the smaller one decides how many pages
 *   go, and the send base says where in the larger one they lie. So 0x9008 and 0x50c6 map page 5 to page 9 of a window
 *   that is the complete space, to read and write.
 * - A control word is k, 0 to 63, where k + 1 fpage words come with it, and 64 more to flush: 0x41 is a flush with two.
 *
 * What a pointer points to is lent for the call alone, and is never kept. No pointer is null, not even one to a buffer
 * without elements, and no two of one call overlap. */

#ifndef L4MAP_H
#define L4MAP_H

#include <stddef.h>
#include <stdint.h>

#ifdef __cplusplus
extern "C" {
#endif

/* The version of this interface, which l4map_version() returns. A later version has all that an earlier one has: a program
 * compiled with version n runs with any library of version n or above. Version 2 added the changes of a call, version 3
 * l4map_space_mappings() and l4map_below(). */
#define L4MAP_VERSION 3u

/* What a function answers. A refused call changes nothing of what is held, and writes nothing to what is lent to it, but
 * for what is lost by the call that answers L4MAP_HALTED first. */
enum l4map_code {
    L4MAP_DONE = 0,
    L4MAP_BAD_SIZE = 1,      /* an fpage's size field is 2 to 11, or it is 0 or 1 and there is a base */
    L4MAP_MISALIGNED = 2,    /* an fpage's base is no multiple of its size */
    L4MAP_OUT_OF_SPACE = 3,  /* a page, an address or an fpage ends past the end of its space */
    L4MAP_NOT_AN_ITEM = 4,   /* an item's first word is neither a MapItem's nor a GrantItem's */
    L4MAP_BAD_CONTROL = 5,   /* a control word has a bit above its fields, or names another number of words */
    L4MAP_NO_SUCH_SPACE = 6, /* a space is named that there is not */
    L4MAP_SAME_SPACE = 7,    /* sender and receiver are one space */
    L4MAP_NO_WINDOW = 8,     /* the receiver's window is nil */
    L4MAP_BAD_CALL = 9,      /* the words of items are not 2 to 62 and even in number, or there is no such kind of access */
    L4MAP_BAD_LIMITS = 10,   /* the limits are not served */
    L4MAP_NO_MEMORY = 11,    /* memory for a new database was refused, and the handle is still empty */
    L4MAP_HALTED = 12,       /* this call, or one before, ran out of memory in the middle: what was held is gone, and only
                                l4map_free() is of use */
    L4MAP_EMPTY = 13,        /* the handle holds no database */
    L4MAP_HOLDS_ONE = 14     /* the handle holds a database already */
};

/* A database, or nothing. It begins as L4MAP_NOTHING, and is changed by these functions alone. It may be moved to
 * another place in memory; of two copies only one may be used afterwards. One call at a time may use it. */
struct l4map {
    uint8_t *at;
};

/* A handle that holds nothing: struct l4map db = L4MAP_NOTHING; */
#define L4MAP_NOTHING {0}

/* What a page holds. Where it holds nothing, all four numbers are 0. */
struct l4map_entry_reply {
    uint32_t held;   /* 1 if the page holds something */
    uint32_t frame;  /* which frame it holds */
    uint32_t rights; /* which kinds of access it allows */
    uint32_t status; /* which kinds of access it has seen since its status was cleared */
};

/* From which page a page came. Where it holds nothing, or is a root, all three numbers are 0. */
struct l4map_origin_reply {
    uint32_t known; /* 1 if the page came from another */
    uint32_t space; /* of the page from which it came */
    uint32_t page;
};

/* How many pages had which outcome, over all items of a send. */
struct l4map_send_reply {
    uint32_t absent;   /* the sender's page holds nothing */
    uint32_t norights; /* it holds none of the rights that the item asks for */
    uint32_t origin;   /* the receiver's page is one from which the sender's page came */
    uint32_t lost;     /* the sender's page was gone before its turn: it came from a receiver's page that the item
                        * replaces; the receiver's page of the pair is gone too, if it was held */
    uint32_t extended; /* the receiver's page came from the sender's already, and got the rights that it lacked */
    uint32_t linked;   /* the receiver's page came from the sender's by this call */
};

/* A page that a call noted, and what it holds now. Where it holds nothing, `held`, `frame` and `rights` are 0. */
struct l4map_change {
    uint32_t space;
    uint32_t page;
    uint32_t held;   /* 1 if the page holds something */
    uint32_t frame;  /* which frame it holds */
    uint32_t rights; /* which kinds of access it allows */
};

/* What a page holds and from which page it came: a mapping. A root came from none, and then both numbers of its origin
 * are 0. */
struct l4map_mapping {
    uint32_t space;
    uint32_t page;
    uint32_t frame;
    uint32_t rights;
    uint32_t status;
    uint32_t has_origin; /* 1 if the page came from another, 0 for a root */
    uint32_t origin_space;
    uint32_t origin_page;
};

/* The version of the interface that was linked: L4MAP_VERSION. */
uint32_t l4map_version(void);

/* Makes a database in an empty handle: `spaces` spaces, 2 to 512, of 2^bits bytes, 18 to 32, in which page i of space 0
 * holds frame i with all rights, for each i below `frames`, 1 to the number of pages of a space. No page holds anything
 * else, and no status is set.
 *
 * L4MAP_HOLDS_ONE: the handle holds a database already, which it keeps. L4MAP_BAD_LIMITS: the limits are not served.
 * L4MAP_NO_MEMORY: memory was refused, and the handle is still empty; all memory that was taken has been given back. */
uint32_t l4map_new(struct l4map *db, uint32_t spaces, uint32_t bits, uint32_t frames);

/* Gives all memory of the database back, and leaves the handle empty. An empty handle may be freed. */
void l4map_free(struct l4map *db);

/* Maps or grants pages of the space `from` to pages of the space `to` within its window, an fpage word, item after item.
 * There are n words at `words`, two for each item, 2 to 62 of them: those of a MapItem or a GrantItem, the fpage word
 * second. Writes to *reply how many pages had which outcome.
 *
 * Refused with the first that fits, and nothing changes: L4MAP_EMPTY; L4MAP_HALTED; L4MAP_BAD_CALL, for the number of
 * words; of the window and then of each item in order L4MAP_BAD_SIZE, L4MAP_MISALIGNED, L4MAP_OUT_OF_SPACE or
 * L4MAP_NOT_AN_ITEM; L4MAP_NO_SUCH_SPACE; L4MAP_SAME_SPACE; L4MAP_NO_WINDOW. L4MAP_HALTED too by a call that runs
 * out of memory: what was held is then gone, and *reply is as it was. */
uint32_t l4map_send(struct l4map *db, uint16_t from, uint16_t to, uint32_t window, const uint32_t *words, size_t n,
                    struct l4map_send_reply *reply);

/* Takes the rights in each of the n fpage words at `words` from all that derives from the pages of a space that the word
 * names, and, where the control word has its flush bit (40 hexadecimal), from these pages too. Each word comes back with a
 * status in place of its rights: that of its pages and of all that derives from them, which is cleared. A page that has
 * no rights left is no longer held.
 *
 * Refused with the first that fits, and nothing changes: L4MAP_EMPTY; L4MAP_HALTED; L4MAP_BAD_CONTROL; of each word in
 * order L4MAP_BAD_SIZE, L4MAP_MISALIGNED or L4MAP_OUT_OF_SPACE; L4MAP_NO_SUCH_SPACE. L4MAP_HALTED too by a call
 * that runs out of memory: what was held is then gone, and the words are as they were. */
uint32_t l4map_unmap(struct l4map *db, uint16_t space, uint32_t control, uint32_t *words, size_t n);

/* Takes all pages from a space, as where it is deleted, and with each page all that derives from it, in whatever space.
 * *status is that of all of them: which kinds of access they have seen. It goes to the pages from which they came, too.
 * The space may be used again.
 *
 * Refused with the first that fits, and nothing changes: L4MAP_EMPTY; L4MAP_HALTED; L4MAP_NO_SUCH_SPACE. L4MAP_HALTED
 * too by a call that runs out of memory: what was held is then gone, and *status is as it was. */
uint32_t l4map_clear(struct l4map *db, uint16_t space, uint32_t *status);

/* Accesses the page of an address, in bytes, to read (kind 4), to write (2) or to execute (1). *made is 1 where the
 * access was made, and the status of the page then says so; it is 0 where it is a fault, and nothing changes.
 *
 * Refused with the first that fits, and nothing changes: L4MAP_EMPTY; L4MAP_HALTED; L4MAP_BAD_CALL, for any other kind;
 * L4MAP_NO_SUCH_SPACE; L4MAP_OUT_OF_SPACE. L4MAP_HALTED too by a call that runs out of memory: what was held is then
 * gone, and *made is as it was. */
uint32_t l4map_access(struct l4map *db, uint16_t space, uint32_t address, uint32_t kind, uint32_t *made);

/* Writes what a page holds to *reply. It takes no memory and changes nothing else.
 *
 * L4MAP_EMPTY, L4MAP_HALTED, L4MAP_NO_SUCH_SPACE, L4MAP_OUT_OF_SPACE, the first that fits: *reply is as it was. */
uint32_t l4map_entry(struct l4map *db, uint16_t space, uint32_t page, struct l4map_entry_reply *reply);

/* Writes from which page a page came to *reply. It takes no memory and changes nothing else.
 *
 * Refused as l4map_entry() is. */
uint32_t l4map_origin(struct l4map *db, uint16_t space, uint32_t page, struct l4map_origin_reply *reply);

/* Writes the first n mappings (or fewer, where there are fewer) at or behind a page of a space, by rising space and page,
 * to `mappings`, and how many they are to *count; what lies behind them in `mappings` is as it was. To go on, start at
 * the page behind the last one told. A start past the end of a space goes on at the next space, and past the last space
 * there are none. It takes no memory and changes nothing else.
 *
 * L4MAP_EMPTY, L4MAP_HALTED, the first that fits: `mappings` and *count are as they were. */
uint32_t l4map_mappings(struct l4map *db, uint16_t space, uint32_t page, struct l4map_mapping *mappings, size_t n,
                        size_t *count);

/* Writes mappings as l4map_mappings() does, but those of that space alone: to see all of them, start at page 0.
 *
 * L4MAP_EMPTY, L4MAP_HALTED, L4MAP_NO_SUCH_SPACE, the first that fits: `mappings` and *count are as they were. */
uint32_t l4map_space_mappings(struct l4map *db, uint16_t space, uint32_t page, struct l4map_mapping *mappings, size_t n,
                              size_t *count);

/* Writes mappings as l4map_mappings() does, from a page of `from_space` on, but only that of the page `page` of `space`, if
 * it is held, and those that derive from it: the pages that came from it, and those that came from such a page in turn,
 * in whatever space. These are the pages that lose rights where an unmap with flush names the page. To see all of them,
 * start at page 0 of space 0.
 *
 * L4MAP_EMPTY, L4MAP_HALTED, and for the page that they are below L4MAP_NO_SUCH_SPACE, L4MAP_OUT_OF_SPACE, the first that
 * fits: `mappings` and *count are as they were. */
uint32_t l4map_below(struct l4map *db, uint16_t space, uint32_t page, uint16_t from_space, uint32_t from_page,
                     struct l4map_mapping *mappings, size_t n, size_t *count);

/* Says whether calls note which pages they change (`on` is not 0), from the next call on, or do not, as at the start. What
 * was noted is forgotten. A call that notes asks for memory for that, 12 bytes for each page that a word or an item
 * changes, and halts the database where it is refused. That memory is used again by the next call. Where one item of a
 * send takes away what an earlier one mapped, the send asks for as much again, and for some 20 bytes for each page noted
 * that is held no longer.
 *
 * L4MAP_EMPTY, L4MAP_HALTED, the first that fits. */
uint32_t l4map_note_changes(struct l4map *db, uint32_t on);

/* Writes what the last send, unmap, clear or access changed, if it was done and was noted: the entries from number `from`
 * on, n of them or fewer, where there are fewer, to `changes`, and how many they are to *count. Every page whose frame
 * or rights that call changed is among them, in whatever space. Each page among them was held before the call or is held
 * now. It may hold what it held before, and it may come more than once, with the same entry. After a call that was refused
 * nothing has changed, and what is written is of no use. What l4map_new() makes is not told. It takes no memory and
 * changes nothing else.
 *
 * L4MAP_EMPTY, L4MAP_HALTED, the first that fits: `changes` and *count are as they were. */
uint32_t l4map_changes(struct l4map *db, size_t from, struct l4map_change *changes, size_t n, size_t *count);

/* Words, made and read. These functions are part of the header alone. None of them refuses anything: what is no word of
 * its kind, or lies outside its space, is refused by the call that is given it. */

/* The fpage of 2^log2_pages pages from a page on, a multiple of their number, with these rights. */
static inline uint32_t l4map_fpage(uint32_t page, uint32_t log2_pages, uint32_t rights) {
    return (page << 12) + ((12 + log2_pages) << 4) + rights;
}

/* The fpage of all pages of a space. */
static inline uint32_t l4map_complete(uint32_t rights) {
    return 0x10 + rights;
}

/* The first word of a MapItem whose send base is the address of a page. */
static inline uint32_t l4map_map_item(uint32_t page) {
    return (page << 12) + 8;
}

/* The first word of a GrantItem whose send base is the address of a page. */
static inline uint32_t l4map_grant_item(uint32_t page) {
    return (page << 12) + 10;
}

/* The control word of an unmap of n fpage words, 1 to 64. Where flush is not 0, the caller's own pages lose rights as
 * well. */
static inline uint32_t l4map_control(uint32_t n, int flush) {
    return n - 1 + (flush ? 64 : 0);
}

/* The rights in an fpage word; in a word that an unmap gave back, the status. */
static inline uint32_t l4map_rights_of(uint32_t word) {
    return word & 7;
}

/* The first page of an fpage. */
static inline uint32_t l4map_first_page(uint32_t word) {
    return word >> 12;
}

/* How many pages an fpage has in a space of 2^bits bytes: all for the complete space, none for the nilpage and for what
 * is no fpage of 32 bits. */
static inline uint32_t l4map_page_count(uint32_t word, uint32_t bits) {
    uint32_t size = (word >> 4) & 63;
    if (size == 1) {
        size = bits;
    }
    return size < 12 || size > 32 ? 0 : (uint32_t)1 << (size - 12);
}

#ifdef __cplusplus
}
#endif

/* What the program provides, and this header does not declare: its heap.
 *
 *   struct block { bool ok; uint8_t *at; };
 *   struct block rattle_alloc(size_t bytes, size_t align);
 *   struct block rattle_realloc(uint8_t *at, size_t kept, size_t bytes, size_t align);
 *   void rattle_dealloc(uint8_t *at);
 *
 * rattle_alloc() gives a block of so many bytes, aligned to 16 bytes, which is as much as is asked for. rattle_realloc()
 * gives one in place of the block at `at`, which may move; its first `kept` bytes are as they were. Where there is no memory
 * `ok` is false, `at` is any pointer but null, and a block that was to be replaced stays. rattle_dealloc() takes a block
 * back.
 *
 * Written in C++, they must be declared extern "C": without it the link fails. The archive that LLVM builds also wants
 * memset, memmove and memcpy, as in C; the one by `./library.sh --backend rattle` does not. */

#endif
