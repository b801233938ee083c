/* The three heap functions that the library asks for, over an arena of 1 MiB, with nothing of the C library. */

#include "arena.h"

#ifndef ARENA_BYTES
#define ARENA_BYTES ((size_t)1 << 20)
#endif
#define UNIT ((size_t)16)

struct tried {
    bool ok;
    uint8_t *p;
};

struct tried rattle_alloc(size_t n, size_t align);
struct tried rattle_realloc(uint8_t *p, size_t kept, size_t n, size_t align);
void rattle_dealloc(uint8_t *p);

uint32_t arena_asked, arena_live, arena_refused;
size_t arena_bytes, arena_most;
bool arena_refuses_rest;

/* A block is a header of one unit and the bytes behind it, of which the header has the number. Free blocks are in a
 * list, by rising address; no two of them touch. */
struct block {
    size_t bytes;
    struct block *next;
};

_Static_assert(sizeof(struct block) == UNIT, "a header is one unit");

static _Alignas(16) uint8_t arena[ARENA_BYTES];
static struct block *free_blocks;
static bool is_ready;
static uint8_t refused_byte;

/* What is answered where an allocation is refused: a pointer that is not null, to nothing that may be used. */
static const struct tried refusal = {false, &refused_byte};

static uint8_t *bytes_of(struct block *block) {
    return (uint8_t *)block + UNIT;
}

static struct block *block_of(uint8_t *bytes) {
    return (struct block *)(void *)(bytes - UNIT);
}

/* Bytes that nobody wrote are never 0, so that a test shows where they are read. */
static void spoil(struct block *block) {
    size_t i;
    for (i = 0; i < block->bytes; i++) {
        bytes_of(block)[i] = 0xa5;
    }
}

static void make_ready(void) {
    free_blocks = (struct block *)(void *)arena;
    free_blocks->bytes = ARENA_BYTES - UNIT;
    free_blocks->next = NULL;
    is_ready = true;
}

/* Takes a block of at least so many bytes, a multiple of a unit, out of the free ones: the end of the first that has
 * them. */
static struct block *take(size_t bytes) {
    struct block **at = &free_blocks, *block;
    while (*at && (*at)->bytes < bytes) {
        at = &(*at)->next;
    }
    block = *at;
    if (!block) {
        return NULL;
    }
    if (block->bytes < bytes + 2 * UNIT) {
        *at = block->next;
        return block;
    }
    block->bytes -= bytes + UNIT;
    block = (struct block *)(void *)(bytes_of(block) + block->bytes);
    block->bytes = bytes;
    return block;
}

/* Makes one block of a free block and the next one, if they touch. */
static void join_with_next(struct block *block) {
    struct block *next = block->next;
    if (next && bytes_of(block) + block->bytes == (uint8_t *)next) {
        block->bytes += UNIT + next->bytes;
        block->next = next->next;
    }
}

static bool is_refused(void) {
    return arena_refused && (arena_asked == arena_refused || (arena_refuses_rest && arena_asked > arena_refused));
}

struct tried rattle_alloc(size_t n, size_t align) {
    struct block *block;
    (void)align; /* at most 16 */
    if (!is_ready) {
        make_ready();
    }
    arena_asked++;
    if (is_refused() || n > ARENA_BYTES) {
        return refusal;
    }
    block = take((n + UNIT - 1) / UNIT * UNIT);
    if (!block) {
        return refusal;
    }
    spoil(block);
    arena_live++;
    arena_bytes += block->bytes;
    if (arena_bytes > arena_most) {
        arena_most = arena_bytes;
    }
    return (struct tried){true, bytes_of(block)};
}

struct tried rattle_realloc(uint8_t *p, size_t kept, size_t n, size_t align) {
    struct tried moved = rattle_alloc(n, align);
    size_t i;
    if (moved.ok) {
        for (i = 0; i < kept; i++) {
            moved.p[i] = p[i];
        }
        rattle_dealloc(p);
    }
    return moved;
}

void rattle_dealloc(uint8_t *p) {
    struct block *block = block_of(p), *before = NULL, *next = free_blocks;
    arena_live--;
    arena_bytes -= block->bytes;
    spoil(block);
    while (next && next < block) {
        before = next;
        next = next->next;
    }
    block->next = next;
    join_with_next(block);
    if (before) {
        before->next = block;
        join_with_next(before);
    } else {
        free_blocks = block;
    }
}
