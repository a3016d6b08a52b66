#define _GNU_SOURCE
#include "files.h"
#include <errno.h>
#include <fcntl.h>
#include <stdlib.h>
#include <string.h>
#include <sys/stat.h>
#include <unistd.h>

/* The room for a file at first. */
enum { ROOM = 65536 };

int open_file(const char *path)
{
    struct stat about;
    int file = strcmp(path, "-") == 0 ? STDIN_FILENO : open(path, O_RDONLY | O_CLOEXEC);
    if (file >= 0 && fstat(file, &about) == 0 && S_ISDIR(about.st_mode)) {
        errno = EISDIR;
        return -1;
    }
    return file;
}

ssize_t read_some(int file, void *into, size_t count)
{
    ssize_t got;
    do {
        got = read(file, into, count);
    } while (got < 0 && errno == EINTR);
    return got;
}

uint8_t *read_file(const char *path, size_t *count)
{
    int file = open_file(path);
    size_t room = ROOM;
    uint8_t *bytes = file < 0 ? NULL : malloc(room);
    ssize_t got = 1;
    *count = 0;
    while (bytes != NULL && got > 0) {
        if (*count == room) {
            uint8_t *more = realloc(bytes, room *= 2);
            if (more == NULL) {
                break;
            }
            bytes = more;
        }
        got = read_some(file, bytes + *count, room - *count);
        *count += got > 0 ? (size_t)got : 0;
    }
    if (file >= 0) {
        close(file);
    }
    if (got != 0) {
        free(bytes);
        return NULL;
    }
    return bytes;
}
