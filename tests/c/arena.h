/* The heap of these tests: an arena, of which the allocation with a chosen number is refused. */

#ifndef ARENA_H
#define ARENA_H

#include <stdbool.h>
#include <stddef.h>
#include <stdint.h>

/* How many allocations there were. */
extern uint32_t arena_asked;

/* How many blocks have not been given back, their bytes, and the most bytes there were at any time. The bytes are those
 * that were asked for, rounded up to 16. */
extern uint32_t arena_live;
extern size_t arena_bytes, arena_most;

/* The number of the allocation that is refused, from 1, or 0 for none; and whether all after it are refused too. */
extern uint32_t arena_refused;
extern bool arena_refuses_rest;

#endif
