/* The three functions by which Segyolant's static libraries take memory. The program defines them, over malloc
 * (examples/c/heap.c) or over a block of its own (examples/c/arena.c). Each is called by the thread that calls the library.
 */
#ifndef VT_HEAP_H
#define VT_HEAP_H

#include <stdint.h>

#ifdef __cplusplus
extern "C" {
#endif

/* Memory, or its refusal: `ok` is 1 and `at` the memory's address, or both are 0. */
struct vt_memory {
    uint64_t ok;
    uint64_t at;
};

/* Takes `size` bytes at a multiple of `align`, a power of two of at most 16. A size of 0 is asked for too: the answer is then an
 * address other than 0 that rattle_dealloc takes back. */
struct vt_memory rattle_alloc(uint64_t size, uint64_t align);

/* Takes `size` bytes in place of the memory at `at`, with its first `kept` bytes, and gives the old memory back; `size` may be 0, as
 * for rattle_alloc. After a refusal the old memory stays as it was. */
struct vt_memory rattle_realloc(void *at, uint64_t kept, uint64_t size, uint64_t align);

/* Gives memory back. */
void rattle_dealloc(void *at);

#ifdef __cplusplus
}
#endif

#endif
