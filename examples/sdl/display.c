/* Shows a working set in a window of SDL2, as a display does, by the calls of vt_terminal.h alone: the elements of the shown mask, the
 * record of each object and the text of a field.
 *
 *     display [--pool FILE --owner AA] [--log FILE [--lines N]] [--font FILE] [--boxes | --shot FILE.bmp]
 *
 * The pool is there from the start, at an address of two hexadecimal digits. The frames and actions of the log are heard and done first,
 * or those of its first N lines, and what the terminal sends for them is left out. Then the window is open until it is closed. The left
 * button of the mouse presses and releases keys and buttons, and selects inputs. What is typed for the selected input stands in the title of
 * the window, and Return enters it: a text, a decimal number, 0 or 1, or the index of an item. What the terminal sends is printed.
 *
 *     --font FILE      a font whose characters are all as wide, in place of DejaVu Sans Mono where Debian has it
 *     --boxes          prints each element as `ID KIND X Y WIDTH HEIGHT`, in pixels, and opens no window
 *     --shot FILE.bmp  draws once and saves what the window shows
 *
 * SDL_VIDEODRIVER=dummy opens no window that is seen.
 *
 * There is no bus here. Time stands still behind the log, so that no set falls silent; examples/c/live.c has the loop of a host.
 *
 * What is left out: no list shows its items for a choice, and only characters of ASCII are typed. The selected input and the held key look
 * as others do. Images of more than 4,000,000 pixels are not drawn. What docs/PROFILE.md leaves out under "Pictures" is left out
 * here too: flashing, the type of a font, wraps at spaces, the options of numbers.
 */
#include "files.h"
#include "window.h"
#include <stdlib.h>
#include <string.h>

enum { STATUS_FAULT = 1, STATUS_WORDS = 2 };

struct words {
    const char *pool;
    const char *owner;
    const char *log;
    const char *lines;
    const char *font;
    const char *shot;
    bool boxes;
};

static int fault(const char *about, const char *what)
{
    fprintf(stderr, "display: %s: %s\n", about, what);
    return STATUS_FAULT;
}

/* ---- the words of the command line */

static bool read_words(struct words *words, int count, char **all)
{
    struct {
        const char *name;
        const char **place;
    } known[] = {{"--pool", &words->pool},   {"--owner", &words->owner}, {"--log", &words->log},
                 {"--lines", &words->lines}, {"--font", &words->font},   {"--shot", &words->shot}};
    for (int at = 1; at < count; at++) {
        const char **place = NULL;
        for (size_t k = 0; k < sizeof known / sizeof known[0]; k++) {
            place = strcmp(all[at], known[k].name) == 0 ? known[k].place : place;
        }
        if (strcmp(all[at], "--boxes") == 0) {
            words->boxes = true;
        } else if (place == NULL || *place != NULL || at + 1 == count) {
            return false;
        } else {
            *place = all[++at];
        }
    }
    bool is_counted = words->lines == NULL || (words->log != NULL && strspn(words->lines, "0123456789") == strlen(words->lines));
    return is_counted && (words->pool == NULL) == (words->owner == NULL) && !(words->boxes && words->shot != NULL);
}

/* ---- what there is before the window */

static enum vt_result take_line(struct host *host, struct span text)
{
    struct line line = read_line(text);
    enum vt_result result = VT_DONE;

    if (line.kind == LINE_FRAME) {
        result = host_hear(host, &line.frame);
    } else if (line.kind == LINE_OPERATOR) {
        result = host_act(host, VT_LATEST, &line.action);
    }
    while (vt_next(host->vt) != VT_NONE) {
    }
    return result;
}

/* Takes the first lines of a log. */
static bool take_lines(struct host *host, const uint8_t *bytes, size_t count, unsigned long lines)
{
    const char *at = (const char *)bytes;
    const char *end = at + count;

    for (; at < end && lines > 0; lines--) {
        const char *newline = memchr(at, '\n', (size_t)(end - at));
        const char *stop = newline == NULL ? end : newline;
        struct span text = {at, (size_t)(stop - at)};
        if (take_line(host, text) != VT_DONE) {
            return false;
        }
        at = stop + 1;
    }
    return true;
}

static int take_log(struct host *host, const struct words *words)
{
    size_t count = 0;
    unsigned long lines = words->lines == NULL ? (unsigned long)-1 : strtoul(words->lines, NULL, 10);
    uint8_t *log = read_file(words->log, &count);
    if (log == NULL) {
        return fault(words->log, "it cannot be read");
    }
    bool is_taken = take_lines(host, log, count, lines);
    free(log);
    return is_taken ? 0 : fault(words->log, "the memory for a line was refused");
}

static int preload(struct host *host, const struct words *words)
{
    struct span owner = {words->owner, strlen(words->owner)};
    uint32_t address = 0;
    size_t count = 0;
    if (!read_address(owner, 0xFD, &address)) {
        return fault("--owner", "it takes two hex digits up to FD");
    }
    uint8_t *pool = read_file(words->pool, &count);
    if (pool == NULL) {
        return fault(words->pool, "it cannot be read");
    }
    enum vt_result result = host_preload(host, address, pool, count);
    free(pool);
    switch (result) {
    case VT_DONE:
        return 0;
    case VT_NO_POOL:
        return fault(words->pool, "it is no accepted object pool; `segyolant check` says why");
    case VT_NO_SUCH:
        return fault("--owner", "it takes another address than the terminal's own, 26");
    default:
        return fault(words->pool, "the memory for the pool was refused");
    }
}

/* ---- what is shown */

static int print_boxes(struct host *host)
{
    static struct objects objects;
    objects.vt = host->vt;
    read_shown(&objects);
    for (size_t k = 0; k < objects.count; k++) {
        const struct vt_element *one = &objects.elements[k];
        printf("%u %u %ld %ld %lu %lu\n", one->id, one->kind, (long)one->x, (long)one->y, (unsigned long)one->width,
               (unsigned long)one->height);
    }
    return objects.lacks_memory || fflush(stdout) != 0 ? fault("the elements", "they could not be read or printed") : 0;
}

static int show(struct host *host, const struct words *words)
{
    static struct window window;
    const char *font = words->font == NULL ? "/usr/share/fonts/truetype/dejavu/DejaVuSansMono.ttf" : words->font;
    int status = 0;

    if (!open_window(&window, host, font)) {
        status = fault("the window", SDL_GetError());
    } else if (words->shot == NULL) {
        run_window(&window);
    } else if (!save_shot(&window, words->shot)) {
        status = fault(words->shot, SDL_GetError());
    }
    close_window(&window);
    return status;
}

static int run(struct host *host, const struct words *words)
{
    int status = words->pool == NULL ? 0 : preload(host, words);
    if (status == 0 && words->log != NULL) {
        status = take_log(host, words);
    }
    if (status != 0) {
        return status;
    }
    return words->boxes ? print_boxes(host) : show(host, words);
}

int main(int count, char **all)
{
    struct words words = {0};
    struct host host;

    if (!read_words(&words, count, all)) {
        fprintf(stderr, "usage: display [--pool FILE --owner AA] [--log FILE [--lines N]] [--font FILE] [--boxes | --shot FILE.bmp]\n");
        return STATUS_WORDS;
    }
    if (!host_begin(&host, 0x26, 0x20001D0000000001)) {
        return fault("the terminal", "its memory was refused");
    }
    int status = run(&host, &words);
    host_end(&host);
    return status;
}
