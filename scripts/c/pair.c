/* Two terminals in two threads, each of which replays a log over and over:
 *
 *     pair POOL LOG
 *
 * It prints what one of them puts out and shows, as replay.c does, but for the counts at the end. The status is 0 if each replay in both
 * threads printed the same.
 */
#define _GNU_SOURCE
#include "files.h"
#include "host.h"
#include <pthread.h>
#include <stdlib.h>
#include <string.h>

enum { OWNER = 0x80, TIMES = 50 };

static const uint8_t *pool, *log_bytes;
static size_t pool_size, log_size;

/* What a thread printed first, and whether all else was the same. */
struct thread {
    pthread_t handle;
    char *text;
    size_t count;
    bool is_same;
};

static void print_outputs(struct host *host, FILE *file)
{
    struct vt_out out;
    while (vt_take(host->vt, &out) != VT_NONE) {
        if (out.kind == VT_REFUSED) {
            fprintf(file, "operator %s\n", host_refusal(&out));
        } else if (out.kind == VT_FRAME) {
            print_frame(&out, file);
        }
    }
}

static void print_screen(struct host *host, FILE *file)
{
    if (vt_redraws(host->vt) && host_draw(host) == DRAW_NEW) {
        fwrite(host->screen, 1, host->count, file);
    }
}

static void take_line(struct host *host, struct span text, FILE *file)
{
    struct line line = read_line(text);
    if (line.kind == LINE_FRAME) {
        host_hear(host, &line.frame);
    } else if (line.kind == LINE_OPERATOR) {
        host_act(host, VT_LATEST, &line.action);
    } else {
        return;
    }
    print_outputs(host, file);
    print_screen(host, file);
}

/* Replays the log on a terminal of its own. */
static void replay(FILE *file)
{
    struct host host;
    const char *at = (const char *)log_bytes, *end = at + log_size;

    if (!host_begin(&host, 0x26, 0x20001D0000000001) || host_preload(&host, OWNER, pool, pool_size) != VT_DONE) {
        abort();
    }
    print_screen(&host, file);
    while (at < end) {
        const char *newline = memchr(at, '\n', (size_t)(end - at));
        struct span text = {at, (size_t)((newline == NULL ? end : newline) - at)};
        take_line(&host, text, file);
        at = newline == NULL ? end : newline + 1;
    }
    host_end(&host);
}

static void *run(void *argument)
{
    struct thread *thread = argument;

    thread->is_same = true;
    for (unsigned k = 0; k < TIMES; k++) {
        char *text = NULL;
        size_t count = 0;
        FILE *file = open_memstream(&text, &count);
        if (file == NULL) {
            abort();
        }
        replay(file);
        fclose(file);
        if (k == 0) {
            thread->text = text;
            thread->count = count;
        } else {
            thread->is_same = thread->is_same && count == thread->count && memcmp(text, thread->text, count) == 0;
            free(text);
        }
    }
    return NULL;
}

int main(int count, char **words)
{
    struct thread threads[2];
    uint8_t *files[2] = {NULL, NULL};

    if (count != 3 || (files[0] = read_file(words[1], &pool_size)) == NULL || (files[1] = read_file(words[2], &log_size)) == NULL) {
        fprintf(stderr, "pair: the words are not POOL LOG, or a file cannot be read\n");
        return 2;
    }
    pool = files[0];
    log_bytes = files[1];
    for (size_t k = 0; k < 2; k++) {
        if (pthread_create(&threads[k].handle, NULL, run, &threads[k]) != 0) {
            return 2;
        }
    }
    for (size_t k = 0; k < 2; k++) {
        pthread_join(threads[k].handle, NULL);
    }
    bool is_same = threads[0].is_same && threads[1].is_same && threads[0].count == threads[1].count &&
                   memcmp(threads[0].text, threads[1].text, threads[0].count) == 0;
    fwrite(threads[0].text, 1, threads[0].count, stdout);
    for (size_t k = 0; k < 2; k++) {
        free(threads[k].text);
        free(files[k]);
    }
    return is_same ? 0 : 1;
}
