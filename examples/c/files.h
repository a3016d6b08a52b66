/* Reading of files, and of the standard input. */
#ifndef FILES_H
#define FILES_H

#include <stddef.h>
#include <stdint.h>
#include <sys/types.h>

/* Opens a file for reading, where `-` is the standard input. Returns -1 if it cannot be read. */
int open_file(const char *path);

/* Reads some bytes. Returns their number, 0 at the end, or -1. */
ssize_t read_some(int file, void *into, size_t count);

/* Reads a file to its end. Returns its bytes, which the caller frees, or null. */
uint8_t *read_file(const char *path, size_t *count);

#endif
