/* The three functions of vt_heap.h over malloc, realloc and free, with a refusal of one request for tests. */
#include "heap_refusing.h"
#include "vt_heap.h"
#include <stddef.h>
#include <stdlib.h>

_Static_assert(_Alignof(max_align_t) >= 16, "malloc aligns to less than 16 bytes here: use aligned memory");

unsigned long vt_heap_refuse_at;
unsigned long vt_heap_requests;

/* Counts a request and tells whether it is the one to refuse. */
static int is_refused(void)
{
    vt_heap_requests++;
    return vt_heap_requests == vt_heap_refuse_at;
}

static struct vt_memory memory_at(void *at)
{
    struct vt_memory memory = {at != NULL, (uint64_t)(uintptr_t)at};
    return memory;
}

struct vt_memory rattle_alloc(uint64_t size, uint64_t align)
{
    (void)align;
    return memory_at(is_refused() ? NULL : malloc(size == 0 ? 1 : (size_t)size));
}

struct vt_memory rattle_realloc(void *at, uint64_t kept, uint64_t size, uint64_t align)
{
    (void)kept;
    (void)align;
    return memory_at(is_refused() ? NULL : realloc(at, size == 0 ? 1 : (size_t)size));
}

void rattle_dealloc(void *at)
{
    free(at);
}
