/* The heap that the archive asks for. A block has 32 bytes, or 64, 128 and so on, the first 16 of them for its header.
 * Blocks that were given back wait in a list for each size. */
#include "kernel.h"

enum { HEADER = 16, SIZES = 16, HEAP_BYTES = 1 << 20 };

struct tried {
    bool ok;
    uint8_t *at;
};

struct block {
    struct block *next;
    size_t size; /* 32 << size bytes */
};

struct tried rattle_alloc(size_t bytes, size_t align);
struct tried rattle_realloc(uint8_t *at, size_t kept, size_t bytes, size_t align);
void rattle_dealloc(uint8_t *at);

static _Alignas(HEADER) uint8_t heap[HEAP_BYTES];
static size_t used;
static struct block *given_back[SIZES];

struct tried rattle_alloc(size_t bytes, size_t align) {
    struct block *block;
    size_t size = 0;
    (void)align; /* at most 16 */
    while (size < SIZES && (size_t)32 << size < bytes + HEADER) {
        size++;
    }
    if (size < SIZES && given_back[size]) {
        block = given_back[size];
        given_back[size] = block->next;
    } else if (size < SIZES && (size_t)32 << size <= HEAP_BYTES - used) {
        block = (struct block *)(void *)(heap + used);
        block->size = size;
        used += (size_t)32 << size;
    } else {
        return (struct tried){false, heap};
    }
    return (struct tried){true, (uint8_t *)block + HEADER};
}

struct tried rattle_realloc(uint8_t *at, size_t kept, size_t bytes, size_t align) {
    struct tried moved = rattle_alloc(bytes, align);
    if (moved.ok) {
        for (size_t i = 0; i < kept; i++) {
            moved.at[i] = at[i];
        }
        rattle_dealloc(at);
    }
    return moved;
}

void rattle_dealloc(uint8_t *at) {
    struct block *block = (struct block *)(void *)(at - HEADER);
    block->next = given_back[block->size];
    given_back[block->size] = block;
}
