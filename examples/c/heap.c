/* The three functions of vt_heap.h over malloc, realloc and free.
 *
 *     cc -Iinclude my_program.c examples/c/heap.c crates/vt_terminal/out/libvt_terminal.a
 */
#include "vt_heap.h"
#include <stddef.h>
#include <stdlib.h>

/* Memory of malloc lies at a multiple of 16, which is the most that the library asks for. */
_Static_assert(_Alignof(max_align_t) >= 16, "malloc aligns to less than 16 bytes here: use aligned memory");

/* What was got, or a refusal where that is null. */
static struct vt_memory memory_at(void *at)
{
    struct vt_memory memory = {at != NULL, (uint64_t)(uintptr_t)at};
    return memory;
}

struct vt_memory rattle_alloc(uint64_t size, uint64_t align)
{
    (void)align;
    if (size > SIZE_MAX) {
        return memory_at(NULL);
    }
    /* malloc(0) may return null, which would look like a refusal. */
    return memory_at(malloc(size == 0 ? 1 : (size_t)size));
}

struct vt_memory rattle_realloc(void *at, uint64_t kept, uint64_t size, uint64_t align)
{
    /* realloc keeps more than is asked for: all bytes that fit. */
    (void)kept;
    (void)align;
    if (size > SIZE_MAX) {
        return memory_at(NULL);
    }
    return memory_at(realloc(at, size == 0 ? 1 : (size_t)size));
}

void rattle_dealloc(void *at)
{
    free(at);
}
