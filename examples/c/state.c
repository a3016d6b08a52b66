/* Tells what a display reads of a terminal: its working sets, what is active in the one at 80, each object of it as it is now, the
 * elements of the shown mask, the picture of each object by itself, and the picture of the active mask of the set at 80.
 *
 *     state POOL [LOG]
 *
 * The pool is there from the start, at the address 80 (hexadecimal). The frames and actions of the log are heard and done first, and
 * what the terminal sends is left out. The status is 0 only if all was told.
 */
#include "files.h"
#include "host.h"
#include <inttypes.h>
#include <stdlib.h>
#include <string.h>

enum { OWNER = 0x80, MOST_SETS = 254, MOST_ELEMENTS = 2000 };

static int fault(const char *about, const char *what)
{
    fprintf(stderr, "state: %s: %s\n", about, what);
    return 1;
}

/* ---- the log */

static enum vt_result take_line(struct host *host, struct span text)
{
    struct line line = read_line(text);
    enum vt_result result = VT_DONE;

    if (line.kind == LINE_FRAME) {
        result = host_hear(host, &line.frame);
    } else if (line.kind == LINE_OPERATOR) {
        result = host_act(host, VT_LATEST, &line.action);
    }
    while (vt_next(host->vt) != VT_NONE) {
    }
    return result;
}

/* Takes each line of a log. */
static bool take_log(struct host *host, const uint8_t *bytes, size_t count)
{
    const char *at = (const char *)bytes;
    const char *end = at + count;

    while (at < end) {
        const char *newline = memchr(at, '\n', (size_t)(end - at));
        const char *stop = newline == NULL ? end : newline;
        struct span text = {at, (size_t)(stop - at)};
        if (take_line(host, text) != VT_DONE) {
            return false;
        }
        at = stop + 1;
    }
    return true;
}

/* ---- what is told */

static bool tell_sets(struct vt_terminal *vt)
{
    struct vt_set sets[MOST_SETS];
    uint64_t count = vt_sets(vt, sets, MOST_SETS);

    for (size_t k = 0; k < MOST_SETS && count != UINT64_MAX && k < count; k++) {
        printf("set %02X pool %u shown %u", sets[k].address, sets[k].has_pool, sets[k].is_shown);
        if (sets[k].has_name) {
            printf(" name %016" PRIX64, sets[k].name);
        }
        printf("\n");
    }
    return count != UINT64_MAX;
}

static void tell_active(struct vt_terminal *vt)
{
    struct vt_active_ids active;

    if (vt_active(vt, OWNER, &active) == VT_DONE) {
        printf("active %u %u %u %u\n", active.mask, active.soft_key_mask, active.input, active.key);
    }
}

/* Gives a buffer room for some bytes. */
static bool grow(uint8_t **buf, size_t *room, uint64_t count)
{
    if (count > *room) {
        uint8_t *more = count < SIZE_MAX ? realloc(*buf, (size_t)count) : NULL;
        if (more == NULL) {
            return false;
        }
        *buf = more;
        *room = (size_t)count;
    }
    return true;
}

/* Tells each object: the first call has room for most, and a second one is made for the others. */
static bool tell_objects(struct vt_terminal *vt, uint8_t **buf, size_t *room)
{
    for (uint32_t id = 0; id < VT_NO_ID; id++) {
        uint64_t count = vt_object(vt, OWNER, id, *buf, *room);
        if (count > *room && (!grow(buf, room, count) || vt_object(vt, OWNER, id, *buf, *room) != count)) {
            return false;
        }
        if (count > 0) {
            printf("object %" PRIu32 " ", id);
            for (size_t k = 0; k < count; k++) {
                printf("%02X", (*buf)[k]);
            }
            printf("\n");
        }
    }
    return true;
}

static bool tell_elements(struct vt_terminal *vt)
{
    struct vt_element *elements = malloc(MOST_ELEMENTS * sizeof *elements);
    uint64_t count = elements == NULL ? UINT64_MAX : vt_elements(vt, elements, MOST_ELEMENTS);

    for (size_t k = 0; count != UINT64_MAX && k < count; k++) {
        const struct vt_element *one = &elements[k];
        printf("element %u %u %u ", one->id, one->kind, one->depth);
        if (one->around == VT_NO_ELEMENT) {
            printf("-");
        } else {
            printf("%u", one->around);
        }
        printf(" %" PRId32 " %" PRId32 " %" PRIu32 "x%" PRIu32, one->x, one->y, one->width, one->height);
        printf(" %" PRId32 " %" PRId32 " %" PRId32 " %" PRId32 "\n", one->left, one->top, one->right, one->bottom);
    }
    free(elements);
    return count != UINT64_MAX;
}

/* Tells each object by itself as SVG, which has no newline. */
static bool tell_parts(struct vt_terminal *vt, uint8_t **buf, size_t *room)
{
    for (uint32_t id = 0; id < VT_NO_ID; id++) {
        uint64_t count = vt_part(vt, OWNER, id, *buf, *room);
        if (count > *room && (!grow(buf, room, count) || vt_part(vt, OWNER, id, *buf, *room) != count)) {
            return false;
        }
        if (count > 0) {
            printf("part %" PRIu32 " ", id);
            fwrite(*buf, 1, (size_t)count, stdout);
            printf("\n");
        }
    }
    return true;
}

static bool tell_picture(struct vt_terminal *vt, uint8_t **buf, size_t *room)
{
    uint64_t count = vt_picture(vt, OWNER, VT_NO_ID, NULL, 0);

    if (!grow(buf, room, count) || vt_picture(vt, OWNER, VT_NO_ID, *buf, *room) != count) {
        return false;
    }
    printf("picture\n");
    return fwrite(*buf, 1, (size_t)count, stdout) == count;
}

static bool tell_all(struct vt_terminal *vt)
{
    size_t room = 256;
    uint8_t *buf = malloc(room);
    bool told = buf != NULL && tell_sets(vt);

    if (told) {
        tell_active(vt);
        told = tell_objects(vt, &buf, &room) && tell_elements(vt) && tell_parts(vt, &buf, &room) &&
               tell_picture(vt, &buf, &room);
    }
    free(buf);
    return told && fflush(stdout) == 0 && !ferror(stdout);
}

/* ---- the program */

static int run(struct host *host, const char *pool_path, const char *log_path)
{
    size_t pool_count = 0, log_count = 0;
    uint8_t *pool = read_file(pool_path, &pool_count);
    uint8_t *log = log_path == NULL ? NULL : read_file(log_path, &log_count);
    int status = 0;

    if (pool == NULL || (log_path != NULL && log == NULL)) {
        status = fault(pool == NULL ? pool_path : log_path, "it cannot be read");
    } else if (host_preload(host, OWNER, pool, pool_count) != VT_DONE) {
        status = fault(pool_path, "it is no accepted object pool; `segyolant check` says why");
    } else if (log != NULL && !take_log(host, log, log_count)) {
        status = fault(log_path, "the memory for a line was refused");
    } else if (!tell_all(host->vt)) {
        status = fault(pool_path, "memory was refused, or the output could not be written");
    }
    free(pool);
    free(log);
    return status;
}

int main(int count, char **words)
{
    struct host host;

    if (count < 2 || count > 3) {
        fprintf(stderr, "usage: state POOL [LOG]\n");
        return 2;
    }
    if (!host_begin(&host, 0x26, 0x20001D0000000001)) {
        return fault(words[1], "the memory for a terminal was refused");
    }
    int status = run(&host, words[1], count == 3 ? words[2] : NULL);
    host_end(&host);
    return status;
}
