/* The time of a call of vt_hear with its outputs taken: bench LOG [POOL OWNER]. The log is read into memory first. */
#define _GNU_SOURCE
#include "host.h"
#include <stdlib.h>
#include <string.h>
#include <time.h>

enum { ROUNDS = 3, MOST = 1 << 22 };

struct frames {
    struct frame *at;
    size_t count;
    size_t room;
};

static double nanoseconds(void)
{
    struct timespec time;
    clock_gettime(CLOCK_PROCESS_CPUTIME_ID, &time);
    return (double)time.tv_sec * 1e9 + (double)time.tv_nsec;
}

static bool add(struct frames *frames, const struct frame *frame)
{
    if (frames->count == frames->room) {
        size_t room = 2 * frames->room + 1024;
        struct frame *at = realloc(frames->at, room * sizeof *at);
        if (at == NULL) {
            return false;
        }
        frames->at = at;
        frames->room = room;
    }
    frames->at[frames->count++] = *frame;
    return true;
}

/* Reads the frames of a log. Other lines are left out. */
static bool read_frames(const char *path, struct frames *frames)
{
    static char text[8192];
    FILE *log = fopen(path, "r");
    bool ok = log != NULL;
    while (ok && fgets(text, sizeof text, log) != NULL) {
        struct span span = {text, strcspn(text, "\n")};
        struct line line = read_line(span);
        ok = line.kind != LINE_FRAME || add(frames, &line.frame);
    }
    if (log != NULL) {
        fclose(log);
    }
    return ok && frames->count > 0;
}

static bool preload(struct host *host, const char *path, const char *owner)
{
    static uint8_t pool[MOST];
    struct span span = {owner, strlen(owner)};
    uint32_t address = 0;
    FILE *file = read_address(span, 0xFD, &address) ? fopen(path, "rb") : NULL;
    if (file == NULL) {
        return false;
    }
    size_t count = fread(pool, 1, sizeof pool, file);
    fclose(file);
    return host_preload(host, address, pool, count) == VT_DONE;
}

/* Hears all frames, and returns the number of outputs. */
static size_t hear_all(struct host *host, const struct frames *frames, uint64_t *sum)
{
    size_t outputs = 0;
    for (size_t i = 0; i < frames->count; i++) {
        const struct frame *frame = &frames->at[i];
        struct vt_out out;
        vt_hear(host->vt, frame->time, frame->id, frame->data, frame->count);
        while (vt_take(host->vt, &out) != VT_NONE) {
            *sum += out.id + out.count + out.data[0];
            outputs++;
        }
    }
    return outputs;
}

static bool run_round(const struct frames *frames, int count, char **words)
{
    struct host host;
    uint64_t sum = 0;
    if (!host_begin(&host, 0x26, 0x20001D0000000001) || (count == 4 && !preload(&host, words[2], words[3]))) {
        return false;
    }
    double begin = nanoseconds();
    size_t outputs = hear_all(&host, frames, &sum);
    double each = (nanoseconds() - begin) / (double)frames->count;
    printf("%.0f ns a frame: %zu frames, %zu outputs (sum %016llx)\n", each, frames->count, outputs, (unsigned long long)sum);
    host_end(&host);
    return true;
}

int main(int count, char **words)
{
    struct frames frames = {NULL, 0, 0};
    if ((count != 2 && count != 4) || !read_frames(words[1], &frames)) {
        fprintf(stderr, "usage: bench LOG [POOL OWNER]\n");
        return 2;
    }
    for (int round = 0; round < ROUNDS; round++) {
        if (!run_round(&frames, count, words)) {
            fprintf(stderr, "bench: the terminal could not be made\n");
            return 1;
        }
    }
    free(frames.at);
    return 0;
}
