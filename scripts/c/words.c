/* Tells the frames of a log in words:
 *
 *     words LOG [POOL]
 *
 * The pool is there from the start, at the address 80 (hexadecimal). A frame of the log is told before it is heard, behind the number of its
 * line, and one that the terminal sends once it is taken, behind its identifier and data, as `segyolant_log trace` has them. The status is 0
 * only if each frame has words, the same ones in any room, and what is no frame has none.
 */
#include "files.h"
#include "host.h"
#include <inttypes.h>
#include <stdlib.h>
#include <string.h>

enum { OWNER = 0x80 };

static int fault(const char *about, const char *what)
{
    fprintf(stderr, "words: %s: %s\n", about, what);
    return 1;
}

/* ---- one frame */

/* The words of a frame in memory of just this room, which the caller frees. Null where another count is told. */
static uint8_t *words_in(struct vt_terminal *vt, uint32_t id, const uint8_t *data, size_t bytes, size_t room, uint64_t count)
{
    uint8_t *buf = malloc(room == 0 ? 1 : room);
    if (buf != NULL && vt_words(vt, id, data, bytes, buf, room) != count) {
        free(buf);
        return NULL;
    }
    return buf;
}

/* Prints the words of a frame. They are the same where there is room for some of them, and the rest of a larger room is left. */
static bool tell(struct vt_terminal *vt, uint32_t id, const uint8_t *data, size_t bytes)
{
    uint64_t told = vt_words(vt, id, data, bytes, NULL, 0);
    size_t count = (size_t)told;
    if (told == 0 || told > 4096) {
        return false;
    }
    uint8_t *whole = words_in(vt, id, data, bytes, count, told);
    uint8_t *half = words_in(vt, id, data, bytes, count / 2, told);
    uint8_t *more = calloc(1, count + 9);
    bool same = whole != NULL && half != NULL && more != NULL && memcmp(whole, half, count / 2) == 0;
    same = same && vt_words(vt, id, data, bytes, more, count + 9) == told && memcmp(whole, more, count) == 0 && more[count] == 0;
    if (same) {
        fwrite(whole, 1, count, stdout);
        fputc('\n', stdout);
    }
    free(whole);
    free(half);
    free(more);
    return same;
}

/* Whether what is no frame has no words, and a frame without data has some. */
static bool tells_frames_alone(struct vt_terminal *vt)
{
    static const uint8_t data[9] = {0xA0};
    uint8_t buf[4] = {1, 2, 3, 4};
    bool none = vt_words(vt, 0x20000000, data, 8, buf, sizeof buf) == 0 && vt_words(vt, 0xFFFFFFFF, NULL, 0, buf, sizeof buf) == 0 &&
                vt_words(vt, 0x14E72680, data, 9, buf, sizeof buf) == 0 && vt_words(vt, 0x14E72680, data, SIZE_MAX, NULL, 0) == 0;
    bool left = buf[0] == 1 && buf[3] == 4 && vt_screen_word(vt, 0) == 0;
    return none && left && vt_words(vt, 0x1FFFFFFF, NULL, 0, NULL, 0) > 0 && vt_words(vt, 0, NULL, 0, NULL, 0) > 0;
}

/* ---- the log */

/* Takes the outputs, and tells each frame. */
static bool tell_outputs(struct vt_terminal *vt)
{
    struct vt_out out;
    while (vt_take(vt, &out) != VT_NONE) {
        if (out.kind != VT_FRAME) {
            continue;
        }
        printf("    %08X#", (unsigned)out.id);
        for (uint32_t k = 0; k < out.count; k++) {
            printf("%02X", out.data[k]);
        }
        printf("  ");
        if (!tell(vt, out.id, out.data, out.count)) {
            return false;
        }
    }
    return true;
}

static bool take_line(struct host *host, const struct line *line, uint64_t number)
{
    enum vt_result result = VT_DONE;
    if (line->kind == LINE_FRAME) {
        printf("%" PRIu64 " ", number);
        if (!tell(host->vt, line->frame.id, line->frame.data, line->frame.count)) {
            return false;
        }
        result = host_hear(host, &line->frame);
    } else if (line->kind == LINE_OPERATOR) {
        result = host_act(host, VT_LATEST, &line->action);
    }
    return result == VT_DONE && tell_outputs(host->vt);
}

static bool take_log(struct host *host, const uint8_t *log, size_t size)
{
    const char *at = (const char *)log, *end = at + size;
    for (uint64_t number = 1; at < end; number++) {
        const char *newline = memchr(at, '\n', (size_t)(end - at));
        struct span text = {at, (size_t)((newline == NULL ? end : newline) - at)};
        struct line line = read_line(text);
        if (!take_line(host, &line, number)) {
            return false;
        }
        at = newline == NULL ? end : newline + 1;
    }
    return true;
}

static int tell_log(struct host *host, const char *path)
{
    size_t size = 0;
    uint8_t *log = read_file(path, &size);
    bool told = log != NULL && tells_frames_alone(host->vt) && take_log(host, log, size) && tells_frames_alone(host->vt);
    free(log);
    return told ? 0 : fault(path, "it cannot be read, or a frame has other words than it should");
}

int main(int count, char **words)
{
    struct host host;
    size_t size = 0;
    if (count < 2 || count > 3 || !host_begin(&host, 0x26, 0x20001D0000000001)) {
        return fault("the words", "they are not LOG [POOL], or memory was refused");
    }
    uint8_t *pool = count == 3 ? read_file(words[2], &size) : NULL;
    bool ready = count == 2 || (pool != NULL && host_preload(&host, OWNER, pool, size) == VT_DONE);
    int status = ready ? tell_log(&host, words[1]) : fault(words[2], "it cannot be read, or it is no accepted pool");
    free(pool);
    host_end(&host);
    return status;
}
