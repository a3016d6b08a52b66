// Makes the reads and writes of a program fail. It is loaded before the C library, and takes from the environment:
//   READ_MOST     the most bytes of one read
//   READ_ROOM     the bytes after which reads fail
//   WRITE_ROOM    the bytes after which writes to the standard output fail, by the error WRITE_ERROR, or take no bytes if that is 0
//   WRITE_BREAKS  1 if the first write to the standard output is interrupted
//   SAY_ROOM      the bytes after which writes to the error output fail
#define _GNU_SOURCE
#include <dlfcn.h>
#include <errno.h>
#include <stdbool.h>
#include <stdlib.h>
#include <unistd.h>

// The number of a name in the environment, or another one.
static size_t number_in(const char *name, size_t other) {
    const char *text = getenv(name);
    return text == NULL ? other : strtoul(text, NULL, 10);
}

// What is left of a room, which is read from the environment at the first call.
struct room {
    const char *name;
    bool is_read;
    size_t left;
};

static size_t left_in(struct room *room) {
    if (!room->is_read) {
        room->is_read = true;
        room->left = number_in(room->name, (size_t)-1);
    }
    return room->left;
}

static size_t lesser(size_t a, size_t b) {
    return a < b ? a : b;
}

static ssize_t done(struct room *room, ssize_t count) {
    room->left -= count > 0 && room->left != (size_t)-1 ? (size_t)count : 0;
    return count;
}

static ssize_t failed(int error) {
    errno = error;
    return error == 0 ? 0 : -1;
}

ssize_t read(int file, void *into, size_t count) {
    static ssize_t (*next)(int, void *, size_t);
    static struct room room = {"READ_ROOM", false, 0};
    if (next == NULL) {
        *(void **)&next = dlsym(RTLD_NEXT, "read");
    }
    size_t left = left_in(&room);
    if (left == 0) {
        return failed(EIO);
    }
    return done(&room, next(file, into, lesser(count, lesser(left, number_in("READ_MOST", count)))));
}

static ssize_t written(int file, const void *bytes, size_t count) {
    static ssize_t (*next)(int, const void *, size_t);
    static struct room output = {"WRITE_ROOM", false, 0}, errors = {"SAY_ROOM", false, 0};
    static bool is_broken;
    if (next == NULL) {
        *(void **)&next = dlsym(RTLD_NEXT, "write");
    }
    struct room *room = file == 1 ? &output : &errors;
    if (file == 1 && !is_broken && number_in("WRITE_BREAKS", 0) == 1) {
        is_broken = true;
        return failed(EINTR);
    }
    size_t left = left_in(room);
    if (left == 0 && count > 0) {
        return failed(file == 1 ? (int)number_in("WRITE_ERROR", EIO) : EIO);
    }
    return done(room, next(file, bytes, lesser(count, left)));
}

ssize_t write(int file, const void *bytes, size_t count) {
    return written(file, bytes, count);
}

// The name by which the C library itself has it.
ssize_t __write(int file, const void *bytes, size_t count) {
    return written(file, bytes, count);
}
