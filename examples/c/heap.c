/* The heap that the library asks for, over that of the C library. A kernel has these three over its own heap.
 *
 * A block is aligned to 16 bytes. Where there is no memory the pointer points to nothing, but it is not null. */
#include <stdbool.h>
#include <stdint.h>
#include <stdlib.h>

struct tried {
    bool ok;
    uint8_t *at;
};

static struct tried tried(void *at) {
    static uint8_t nothing;
    return at ? (struct tried){true, at} : (struct tried){false, &nothing};
}

struct tried rattle_alloc(size_t bytes, size_t align) {
    (void)align; /* malloc aligns every block to 16 bytes, and no more is asked for */
    return tried(malloc(bytes ? bytes : 1));
}

struct tried rattle_realloc(uint8_t *at, size_t kept, size_t bytes, size_t align) {
    (void)align;
    (void)kept; /* realloc keeps all that there is room for */
    return tried(realloc(at, bytes ? bytes : 1));
}

void rattle_dealloc(uint8_t *at) {
    free(at);
}
