/* A heap for tests, which refuses one request. Link heap_refusing.c in place of heap.c. */
#ifndef HEAP_REFUSING_H
#define HEAP_REFUSING_H

/* The number of the request to refuse, from 1, or 0 for none. */
extern unsigned long vt_heap_refuse_at;

/* The number of requests so far: calls of rattle_alloc and rattle_realloc. */
extern unsigned long vt_heap_requests;

#endif
