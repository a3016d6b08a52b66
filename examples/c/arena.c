/* The three functions of vt_heap.h over one fixed block of ARENA_BYTES, for machines without malloc.
 *
 * The block is cut into pieces that lie one after the other. A request takes the first free piece that is large enough, and gives
 * back what it does not need. A piece grows where it lies if the piece after it is free and large enough. Free neighbours are joined.
 * One thread may use it.
 */
#include "arena.h"
#include "vt_heap.h"
#include <stdbool.h>
#include <string.h>

#ifndef ARENA_BYTES
#define ARENA_BYTES (1u << 20)
#endif

/* The header of a piece, in front of its memory. Its size keeps the memory at a multiple of 16. */
struct piece {
    uint64_t size;   /* of the header and the memory, a multiple of 16; the lowest bit says that it is in use */
    uint64_t before; /* the size of the piece before, or 0 at the first */
};

enum { HEADER = sizeof(struct piece), IN_USE = 1 };

_Static_assert(sizeof(struct piece) == 16, "the header must keep the alignment");
_Static_assert(ARENA_BYTES % 16 == 0 && ARENA_BYTES >= 32, "ARENA_BYTES must be a multiple of 16");

static _Alignas(16) unsigned char arena[ARENA_BYTES];
static size_t used;
static size_t peak;

size_t vt_arena_used(void)
{
    return used;
}

size_t vt_arena_peak(void)
{
    return peak;
}

static struct piece *piece_at(void *at)
{
    return (struct piece *)at;
}

static bool is_in_use(const struct piece *piece)
{
    return (piece->size & IN_USE) != 0;
}

static uint64_t size_of(const struct piece *piece)
{
    return piece->size & ~(uint64_t)IN_USE;
}

/* The piece after this one, or null after the last. */
static struct piece *after(struct piece *piece)
{
    unsigned char *end = (unsigned char *)piece + size_of(piece);
    return end == arena + ARENA_BYTES ? NULL : piece_at(end);
}

/* The piece before this one, or null before the first. */
static struct piece *before(struct piece *piece)
{
    return piece->before == 0 ? NULL : piece_at((unsigned char *)piece - piece->before);
}

/* Sets the size of a piece, and tells it to the piece after it. */
static void set_size(struct piece *piece, uint64_t size)
{
    piece->size = size;
    struct piece *next = after(piece);
    if (next != NULL) {
        next->before = size;
    }
}

/* The first piece. Before the first request it is the whole arena. */
static struct piece *first_piece(void)
{
    struct piece *first = piece_at(arena);
    if (first->size == 0) {
        first->size = ARENA_BYTES;
    }
    return first;
}

/* The first free piece of at least this size, or null. */
static struct piece *free_piece(uint64_t size)
{
    struct piece *piece = first_piece();
    while (piece != NULL && (is_in_use(piece) || piece->size < size)) {
        piece = after(piece);
    }
    return piece;
}

/* Cuts a free piece down to a size, where the rest is large enough for a piece of its own. */
static void cut(struct piece *piece, uint64_t size)
{
    uint64_t rest = piece->size - size;
    if (rest < 2 * HEADER) {
        return;
    }
    struct piece *behind = piece_at((unsigned char *)piece + size);
    behind->before = size;
    piece->size = size;
    set_size(behind, rest);
}

/* Joins a free piece with the piece after it, if that is free too. */
static void join(struct piece *piece)
{
    struct piece *next = after(piece);
    if (next != NULL && !is_in_use(next)) {
        set_size(piece, piece->size + next->size);
    }
}

/* The size of a piece that holds so many bytes, its header with it. */
static uint64_t whole_size(uint64_t size)
{
    return ((size + 15) & ~(uint64_t)15) + HEADER;
}

/* Takes a piece into use. */
static void take_piece(struct piece *piece)
{
    used += piece->size;
    peak = used > peak ? used : peak;
    piece->size |= IN_USE;
}

/* Takes memory, or returns null. */
static void *take(uint64_t size)
{
    if (size > ARENA_BYTES) {
        return NULL;
    }
    struct piece *piece = free_piece(whole_size(size));
    if (piece == NULL) {
        return NULL;
    }
    cut(piece, whole_size(size));
    take_piece(piece);
    return (unsigned char *)piece + HEADER;
}

struct vt_memory rattle_alloc(uint64_t size, uint64_t align)
{
    (void)align;
    void *at = take(size);
    struct vt_memory memory = {at != NULL, (uint64_t)(uintptr_t)at};
    return memory;
}

/* Makes a piece larger where it lies, if the free piece after it has the room. */
static bool grows(struct piece *piece, uint64_t whole)
{
    struct piece *next = after(piece);
    if (next == NULL || is_in_use(next) || size_of(piece) + next->size < whole) {
        return false;
    }
    used -= size_of(piece);
    set_size(piece, size_of(piece) + next->size);
    cut(piece, whole);
    take_piece(piece);
    return true;
}

struct vt_memory rattle_realloc(void *at, uint64_t kept, uint64_t size, uint64_t align)
{
    struct piece *piece = piece_at((unsigned char *)at - HEADER);
    if (size <= ARENA_BYTES && size > kept && grows(piece, whole_size(size))) {
        struct vt_memory same = {true, (uint64_t)(uintptr_t)at};
        return same;
    }
    struct vt_memory memory = rattle_alloc(size, align);
    if (memory.ok) {
        memcpy((void *)(uintptr_t)memory.at, at, kept < size ? kept : size);
        rattle_dealloc(at);
    }
    return memory;
}

void rattle_dealloc(void *at)
{
    struct piece *piece = piece_at((unsigned char *)at - HEADER);
    piece->size = size_of(piece);
    used -= piece->size;
    join(piece);
    struct piece *prior = before(piece);
    if (prior != NULL && !is_in_use(prior)) {
        join(prior);
    }
}
