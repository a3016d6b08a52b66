/* Whether vt_look tells each change of what a display paints:
 *
 *     looks POOL LOG
 *
 * The pool is there from the start, at the address 80 (hexadecimal). After each line of the log, and after a tick, the address claim and the
 * status behind it, it reads vt_look, the shown set, its picture and the elements, and compares them with those before. At the end come a
 * tick when all sets have fallen silent, and the pool once more at the address 81. It fails where the number is the same and one of the others
 * is not. It prints how many lines there are, how many inputs changed what is to be seen, how many changed the number alone, and how many of
 * these were neither of the shown set's master, nor of the operator, nor a pool: by them nothing is to be painted.
 *
 * With -DBY_REDRAWS it asks vt_redraws in place of vt_look, which does not tell of colours.
 */
#include "files.h"
#include "host.h"
#include <inttypes.h>
#include <stdlib.h>
#include <string.h>

/* The addresses of the pool, and how long after the last line all sets are silent, in microseconds. */
enum { OWNER = 0x80, OTHER = 0x81, SILENCE = 4000000 };

static int fault(const char *about, const char *what)
{
    fprintf(stderr, "looks: %s: %s\n", about, what);
    return 2;
}

/* ---- what is to be seen */

struct text {
    uint8_t *at;
    size_t count;
    size_t room;
};

struct sight {
    uint64_t look;
    uint32_t shown;
    struct text picture;
    struct text elements; /* as vt_text_of_elements writes them */
};

struct counts {
    uint64_t lines;
    uint64_t pictures;
    uint64_t alone;
    uint64_t others;
};

static uint64_t look_of(const struct vt_terminal *vt)
{
#ifdef BY_REDRAWS
    static uint64_t number;
    return number += vt_redraws(vt);
#else
    return vt_look(vt);
#endif
}

/* Keeps a text that was just written. */
static bool keep(struct text *text, struct vt_terminal *vt, uint64_t count)
{
    if (count == UINT64_MAX) {
        return false;
    }
    if (count > text->room) {
        uint8_t *more = realloc(text->at, (size_t)count);
        if (more == NULL) {
            return false;
        }
        text->at = more;
        text->room = (size_t)count;
    }
    text->count = (size_t)count;
    vt_copy(vt, text->at, text->count);
    return true;
}

static bool see(struct sight *sight, struct vt_terminal *vt)
{
    sight->look = look_of(vt);
    sight->shown = vt_shown(vt);
    return keep(&sight->picture, vt, vt_text_of_picture(vt, sight->shown, VT_NO_ID)) &&
           keep(&sight->elements, vt, vt_text_of_elements(vt));
}

static bool same_text(const struct text *one, const struct text *other)
{
    return one->count == other->count && (one->count == 0 || memcmp(one->at, other->at, one->count) == 0);
}

/* What differs between two sights, or null. */
static const char *difference(const struct sight *one, const struct sight *other)
{
    if (one->shown != other->shown) {
        return "another set is shown";
    }
    if (!same_text(&one->picture, &other->picture)) {
        return "the picture is another one";
    }
    return same_text(&one->elements, &other->elements) ? NULL : "the elements are others";
}

/* ---- what is compared */

/* What is compared from one input to the next: the sight before it, room for the one after it, and the counts so far. */
struct comparison {
    struct host *host;
    struct sight sights[2];
    struct counts counts;
    uint64_t time; /* of the last frame */
};

static void take_outputs(struct host *host)
{
    while (vt_next(host->vt) != VT_NONE) {
    }
}

/* Compares what is to be seen after an input with what was before it. The sight after it is then the first one. Returns what is wrong, or
 * null. */
static const char *compare(struct comparison *all, enum vt_result result, bool may_change)
{
    struct sight before = all->sights[0];

    take_outputs(all->host);
    if (result != VT_DONE || !see(&all->sights[1], all->host->vt)) {
        return "memory was refused";
    }
    const char *change = difference(&before, &all->sights[1]);
    bool moved = before.look != all->sights[1].look;
    all->counts.pictures += change != NULL;
    all->counts.alone += moved && change == NULL;
    all->counts.others += moved && change == NULL && !may_change;
    all->sights[0] = all->sights[1];
    all->sights[1] = before;
    return moved ? NULL : change;
}

/* ---- the log */

/* Whether a line may change what the shown set looks like: a frame of its master, or an action. */
static bool may_change(const struct line *line, uint32_t shown)
{
    return line->kind == LINE_OPERATOR || (line->kind == LINE_FRAME && (line->frame.id & 0xFF) == shown);
}

static enum vt_result take_line(struct host *host, const struct line *line)
{
    if (line->kind == LINE_FRAME) {
        return host_hear(host, &line->frame);
    }
    return line->kind == LINE_OPERATOR ? host_act(host, VT_LATEST, &line->action) : VT_DONE;
}

/* A line, and behind it a tick, the address claim and the status. */
static const char *compare_line(struct comparison *all, struct span text)
{
    struct line line = read_line(text);
    const char *why = compare(all, take_line(all->host, &line), may_change(&line, all->sights[0].shown));

    all->counts.lines++;
    if (line.kind == LINE_FRAME && line.frame.time > all->time) {
        all->time = line.frame.time;
    }
    if (why == NULL) {
        why = compare(all, host_tick(all->host, all->time), false);
    }
    if (why == NULL) {
        why = compare(all, host_claim(all->host), false);
    }
    return why != NULL ? why : compare(all, host_status(all->host), false);
}

/* Unless the terminal lost its address, all sets fall silent. Then another one comes with the pool, which is refused where a set is at its
 * address. */
static const char *compare_end(struct comparison *all, const uint8_t *pool, size_t size)
{
    const char *why = compare(all, host_tick(all->host, all->time + SILENCE), false);
    if (why != NULL) {
        return why;
    }
    enum vt_result result = host_preload(all->host, OTHER, pool, size);
    return compare(all, result == VT_NO_SUCH ? VT_DONE : result, true);
}

static const char *compare_log(struct comparison *all, const uint8_t *log, size_t size)
{
    const char *at = (const char *)log, *end = at + size;
    const char *why = see(&all->sights[0], all->host->vt) ? NULL : "memory was refused";

    while (why == NULL && at < end) {
        const char *newline = memchr(at, '\n', (size_t)(end - at));
        struct span text = {at, (size_t)((newline == NULL ? end : newline) - at)};
        why = compare_line(all, text);
        at = newline == NULL ? end : newline + 1;
    }
    return why;
}

/* Compares on a log and its end, prints the counts, and returns the status of the program. */
static int compare_all(struct host *host, const char *path, const uint8_t *log, size_t size, const uint8_t *pool, size_t pool_size)
{
    struct comparison all = {.host = host};
    const char *why = compare_log(&all, log, size);

    if (why == NULL) {
        why = compare_end(&all, pool, pool_size);
    }
    if (why != NULL) {
        fprintf(stderr, "looks: %s: line %" PRIu64 ": the number is %" PRIu64 " as before, and %s\n", path, all.counts.lines, all.sights[0].look,
                why);
    }
    printf("lines %" PRIu64 " pictures %" PRIu64 " alone %" PRIu64 " others %" PRIu64 "\n", all.counts.lines, all.counts.pictures,
           all.counts.alone, all.counts.others);
    for (size_t k = 0; k < 2; k++) {
        free(all.sights[k].picture.at);
        free(all.sights[k].elements.at);
    }
    return why == NULL ? 0 : 1;
}

int main(int count, char **words)
{
    struct host host;
    size_t pool_size = 0, log_size = 0;
    int status;

    if (count != 3 || !host_begin(&host, 0x26, 0x20001D0000000001)) {
        return fault("the words", "they are not POOL LOG, or memory was refused");
    }
    uint8_t *pool = read_file(words[1], &pool_size);
    uint8_t *log = read_file(words[2], &log_size);
    if (pool == NULL || log == NULL || host_preload(&host, OWNER, pool, pool_size) != VT_DONE) {
        status = fault(words[1], "it or the log cannot be read, or it is no accepted pool");
    } else {
        status = compare_all(&host, words[2], log, log_size, pool, pool_size);
    }
    free(pool);
    free(log);
    host_end(&host);
    return status;
}
