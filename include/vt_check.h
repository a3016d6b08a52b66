/* Segyolant's check of object pools for C: whether a pool (ISO 11783-6) is accepted or why not, all findings, its report, and the
 * screens of its masks. Nothing is kept between two calls; there is no global state, thread or file. docs/EMBEDDING.md explains it.
 *
 * Link with crates/vt_check/out/libvt_check.a, and define rattle_alloc, rattle_realloc and rattle_dealloc (vt_heap.h).
 *
 * Preconditions of each call, which nothing checks: `pool`, `findings`, `text` and `verdict` are not null, even without room, and do
 * not overlap each other.
 */
#ifndef VT_CHECK_H
#define VT_CHECK_H

#include <stddef.h>
#include <stdint.h>

#ifdef __cplusplus
extern "C" {
#endif

enum vt_kind {
    VT_ACCEPTED = 0,    /* the pool meets all rules */
    VT_FAULT = 1,       /* a record has a fault: docs/PROFILE.md, "Pools and faults" */
    VT_REFUSAL = 2,     /* the objects break a rule: docs/PROFILE.md, "Verification of a pool" */
    VT_WANT_OF_MEMORY = 3 /* memory was refused */
};

/* A verdict on an object pool: of the first faulty record, or else of the first rule that is broken. */
struct vt_verdict {
    uint32_t kind;    /* an enum vt_kind */
    uint32_t number;  /* of the fault (1 to 5, and 7) or of the refusal (1 to 12), or else 0 */
    uint64_t at;      /* the offset of a fault in the bytes, or of a command in its macro, or else 0 */
    uint32_t object;  /* the object that the refusal names, or 65535 */
    uint32_t other;   /* the other object that it names, or 65535 */
    uint64_t objects; /* of an accepted pool, or else 0 */
};

/* Judges a pool. */
void vt_check_pool(const uint8_t *pool, size_t count, struct vt_verdict *verdict);

/* Writes all findings of a pool, as far as there is room: the faults of records first, and then the broken rules in their order. One
 * is written as a verdict without objects. `object` is the object with the fault, of a chain or a circle the first one, and `other`
 * the one that it refers to. Returns how many findings there are, or UINT64_MAX if memory was refused. */
uint64_t vt_findings(const uint8_t *pool, size_t count, struct vt_verdict *findings, size_t room);

/* Writes the report of an accepted pool (its objects, and the steps that each event can cost), or the line of its fault or refusal,
 * as far as there is room. Returns the number of bytes of the whole text, or UINT64_MAX if memory was refused. */
uint64_t vt_report(const uint8_t *pool, size_t count, uint8_t *text, size_t room);

/* Writes the screen of an accepted pool at the address of a working set, as far as there is room: as it is after a Change Active Mask
 * to `mask` with its macros, or for 65535 as it is at first. Returns the number of bytes of the whole text, 0 if the pool is not
 * accepted, the mask cannot become active, or there is no such address (above 255) or mask (above 65535), or UINT64_MAX if memory was
 * refused. */
uint64_t vt_draw(const uint8_t *pool, size_t count, uint32_t address, uint32_t mask, uint8_t *text, size_t room);

#ifdef __cplusplus
}
#endif

#endif
