/* A heap over one fixed block, for machines without malloc. Link arena.c in place of heap.c. */
#ifndef VT_ARENA_H
#define VT_ARENA_H

#include <stddef.h>

/* The bytes in use now, each block with its header of 16 bytes. */
size_t vt_arena_used(void);

/* The most bytes that were in use at one time. */
size_t vt_arena_peak(void);

#endif
