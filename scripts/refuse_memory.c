// Refuses one request for memory of a program, that of the number in REFUSED, and then says so on the descriptor in
// REFUSED_TO. It is loaded before the C library.
#define _GNU_SOURCE
#include <dlfcn.h>
#include <stdbool.h>
#include <stdlib.h>
#include <unistd.h>

static unsigned long asked;

static unsigned long number_in(const char *name) {
    const char *text = getenv(name);
    return text == NULL ? 0 : strtoul(text, NULL, 10);
}

static bool is_refused(void) {
    asked += 1;
    if (asked != number_in("REFUSED")) {
        return false;
    }
    if (write((int)number_in("REFUSED_TO"), "!", 1) != 1) {
        _exit(99);
    }
    return true;
}

void *malloc(size_t size) {
    static void *(*next)(size_t);
    if (next == NULL) {
        *(void **)&next = dlsym(RTLD_NEXT, "malloc");
    }
    return is_refused() ? NULL : next(size);
}

void *realloc(void *block, size_t size) {
    static void *(*next)(void *, size_t);
    if (next == NULL) {
        *(void **)&next = dlsym(RTLD_NEXT, "realloc");
    }
    return is_refused() ? NULL : next(block, size);
}
