/* Replays a log to a terminal, and prints what the terminal answers and shows.
 *
 *     replay LOG [--own AA] [--name N] [--pool FILE --owner AA] [--events]
 *
 * It prints what vt_replay prints for the same words (docs/PROFILE.md, "The program"), without the line of a pool's fault or refusal,
 * and has its statuses: 0 done, 1 a fault, 2 the words. With --events it also prints the events of each line, behind its
 * outputs: `event 4 SetCame 80 0 0`, the line's number, the kind, the address in hex and the two numbers.
 */
#define _GNU_SOURCE
#include "files.h"
#include "host.h"
#include <errno.h>
#include <inttypes.h>
#include <stdlib.h>
#include <string.h>
#include <unistd.h>

enum { STATUS_FAULT = 1, STATUS_WORDS = 2 };

/* The longest line, and the most bytes of one read of the log. */
enum { LONGEST = 4096, CHUNK = 65536 };

struct words {
    const char *log;
    const char *own;
    const char *name;
    const char *pool;
    const char *owner;
    bool events;
};

struct options {
    const char *log;
    const char *pool;
    uint32_t own;
    uint32_t owner;
    uint64_t name;
    bool events;
};

struct counts {
    uint64_t lines;
    uint64_t frames;
    uint64_t operator;
    uint64_t skipped;
    uint64_t comments;
    uint64_t faults;
};

static int fault(const char *about, const char *what)
{
    fprintf(stderr, "replay: %s: %s\n", about, what);
    return STATUS_FAULT;
}

static int bad_words(const char *what)
{
    fprintf(stderr, "replay: %s\nusage: replay LOG [--own AA] [--name N] [--pool FILE --owner AA] [--events]\n", what);
    return STATUS_WORDS;
}

/* ---- the words of the command line */

/* The place of an option's value, or null. `count` is the length of its name. */
static const char **place_of(struct words *words, const char *word, size_t count)
{
    struct {
        const char *name;
        const char **place;
    } known[] = {{"own", &words->own}, {"name", &words->name}, {"pool", &words->pool}, {"owner", &words->owner}};
    for (size_t i = 0; i < sizeof known / sizeof known[0]; i++) {
        if (strlen(known[i].name) == count && memcmp(known[i].name, word, count) == 0) {
            return known[i].place;
        }
    }
    return NULL;
}

/* Whether a word is no option: a path, a value, or `-`. */
static bool is_plain(const char *word)
{
    return word[0] != '-' || word[1] == '\0';
}

/* Reads an option at `*at` with its value, and moves `*at` to its last word. */
static bool read_option(struct words *words, int count, char **all, int *at)
{
    const char *word = all[*at];
    if (strncmp(word, "--", 2) != 0) {
        return false;
    }
    const char *equals = strchr(word, '=');
    size_t length = equals == NULL ? strlen(word) - 2 : (size_t)(equals - word) - 2;
    const char **place = place_of(words, word + 2, length);
    if (place == NULL || *place != NULL) {
        return false;
    }
    if (equals != NULL) {
        *place = equals + 1;
        return true;
    }
    if (*at + 1 >= count || !is_plain(all[*at + 1])) {
        return false;
    }
    *at += 1;
    *place = all[*at];
    return true;
}

static bool read_words(struct words *words, int count, char **all)
{
    for (int at = 1; at < count; at++) {
        if (is_plain(all[at])) {
            if (words->log != NULL) {
                return false;
            }
            words->log = all[at];
        } else if (strcmp(all[at], "--events") == 0) {
            words->events = true;
        } else if (!read_option(words, count, all, &at)) {
            return false;
        }
    }
    return words->log != NULL;
}

static struct span span_of(const char *text)
{
    struct span span = {text, strlen(text)};
    return span;
}

/* Reads the values of the options. Returns null, or what is wrong. */
static const char *read_values(const struct words *words, struct options *options)
{
    struct options standard = {words->log, words->pool, 0x26, 0, 0x20001D0000000001, words->events};
    *options = standard;
    if (words->own != NULL && !read_address(span_of(words->own), 0xFD, &options->own)) {
        return "--own takes two hex digits up to FD";
    }
    if (words->name != NULL && !read_name(span_of(words->name), &options->name)) {
        return "--name takes 16 hex digits";
    }
    if (words->owner != NULL && !read_address(span_of(words->owner), 0xFD, &options->owner)) {
        return "--owner takes two hex digits up to FD";
    }
    if ((words->pool == NULL) != (words->owner == NULL)) {
        return "--pool and --owner are given together or not at all";
    }
    if (words->owner != NULL && options->owner == options->own) {
        return "--owner takes another address than the terminal's own";
    }
    return NULL;
}

/* ---- the replay */

struct replay {
    struct host host;
    struct counts counts;
    char pending[LONGEST]; /* the bytes of a line whose newline is still to come */
    size_t pending_count;
    bool events;       /* whether events are printed */
    const char *fault; /* what ended the replay early, or null */
};

/* Prints the outputs of the last input, and its events with the number of the line, if they are asked for. */
static void print_outputs(struct replay *replay)
{
    struct vt_out out;
    while (vt_take(replay->host.vt, &out) != VT_NONE) {
        if (out.kind == VT_REFUSED) {
            printf("operator %s\n", host_refusal(&out));
        } else if (out.kind == VT_FRAME) {
            print_frame(&out, stdout);
        } else if (out.kind == VT_EVENT && replay->events) {
            printf("event %" PRIu64 " ", replay->counts.lines);
            print_event(&out, stdout);
        }
    }
}

static bool print_screen(struct replay *replay)
{
    enum draw draw = host_draw(&replay->host);
    if (draw == DRAW_NO_MEMORY) {
        replay->fault = "the memory for the screen was refused";
        return false;
    }
    if (draw == DRAW_NEW) {
        fwrite(replay->host.screen, 1, replay->host.count, stdout);
    }
    return true;
}

/* Prints what came of an input. */
static bool end_input(struct replay *replay, enum vt_result result)
{
    if (result != VT_DONE) {
        replay->fault = result == VT_NO_MEMORY ? "the memory for an input was refused" : "an input was refused";
        return false;
    }
    print_outputs(replay);
    return !vt_redraws(replay->host.vt) || print_screen(replay);
}

static bool take_line(struct replay *replay, struct span text)
{
    struct counts *counts = &replay->counts;
    struct line line = read_line(text);
    counts->lines++;
    switch (line.kind) {
    case LINE_FRAME:
        counts->frames++;
        return end_input(replay, host_hear(&replay->host, &line.frame));
    case LINE_OPERATOR:
        counts->operator++;
        return end_input(replay, host_act(&replay->host, VT_LATEST, &line.action));
    case LINE_SKIPPED:
        counts->skipped++;
        return true;
    case LINE_COMMENT:
        counts->comments++;
        return true;
    case LINE_FAULT:
        counts->faults++;
        printf("line %" PRIu64 " %s\n", counts->lines, line.fault);
        return true;
    }
    return true;
}

/* Appends bytes to the pending ones. */
static bool keep(struct replay *replay, struct span part)
{
    if (replay->pending_count + part.count > LONGEST) {
        replay->fault = "a line is longer than 4096 bytes";
        return false;
    }
    if (part.count > 0) {
        memcpy(replay->pending + replay->pending_count, part.at, part.count);
    }
    replay->pending_count += part.count;
    return true;
}

/* Takes the pending bytes as a line. */
static bool take_pending(struct replay *replay)
{
    struct span text = {replay->pending, replay->pending_count};
    replay->pending_count = 0;
    return take_line(replay, text);
}

/* Takes the lines that end in a chunk of the log, and keeps the rest. */
static bool take_chunk(struct replay *replay, struct span chunk)
{
    const char *end;
    while (chunk.count > 0 && (end = memchr(chunk.at, '\n', chunk.count)) != NULL) {
        struct span part = {chunk.at, (size_t)(end - chunk.at)};
        if (!keep(replay, part) || !take_pending(replay)) {
            return false;
        }
        chunk.at = end + 1;
        chunk.count -= part.count + 1;
    }
    return keep(replay, chunk);
}

static void print_counts(const struct counts *counts)
{
    printf("lines %" PRIu64 " frames %" PRIu64 " operator %" PRIu64, counts->lines, counts->frames, counts->operator);
    printf(" skipped %" PRIu64 " comments %" PRIu64 " faults %" PRIu64 "\n", counts->skipped, counts->comments, counts->faults);
}

/* Replays a log to its end. What it prints is written out before each read, so that the program can stand in a pipe. */
static bool take_log(struct replay *replay, int log)
{
    static char chunk[CHUNK];
    ssize_t got = 0;
    if (!print_screen(replay)) {
        return false;
    }
    while (fflush(stdout) == 0 && (got = read_some(log, chunk, sizeof chunk)) > 0) {
        struct span part = {chunk, (size_t)got};
        if (!take_chunk(replay, part)) {
            return false;
        }
    }
    if (ferror(stdout) || got < 0) {
        replay->fault = ferror(stdout) ? "the output could not be written" : "the log could not be read";
        return false;
    }
    if (replay->pending_count > 0 && !take_pending(replay)) {
        return false;
    }
    print_counts(&replay->counts);
    return true;
}

/* Preloads the pool of the options. Returns null, or what is wrong. */
static const char *preload(struct replay *replay, const struct options *options)
{
    size_t count = 0;
    uint8_t *pool = read_file(options->pool, &count);
    if (pool == NULL) {
        return "the file could not be read";
    }
    enum vt_result result = host_preload(&replay->host, options->owner, pool, count);
    free(pool);
    switch (result) {
    case VT_DONE:
        return NULL;
    case VT_NO_POOL:
        return "the pool has a fault or is refused; vt_replay says why";
    default:
        return "the memory for the pool was refused";
    }
}

/* Replays the log of the options to a terminal that is made. */
static int replay_on(struct replay *replay, const struct options *options)
{
    const char *wrong = options->pool == NULL ? NULL : preload(replay, options);
    if (wrong != NULL) {
        return fault(options->pool, wrong);
    }
    int log = open_file(options->log);
    if (log < 0) {
        return fault(options->log, strerror(errno));
    }
    bool ok = take_log(replay, log);
    close(log);
    if (fflush(stdout) != 0 && ok) {
        return fault(options->log, "the output could not be written");
    }
    return ok ? 0 : fault(options->log, replay->fault);
}

int main(int count, char **all)
{
    struct words words = {NULL, NULL, NULL, NULL, NULL, false};
    struct options options;
    if (!read_words(&words, count, all)) {
        return bad_words("the words are not understood");
    }
    const char *wrong = read_values(&words, &options);
    if (wrong != NULL) {
        return bad_words(wrong);
    }
    static struct replay replay;
    if (!host_begin(&replay.host, options.own, options.name)) {
        return fault("the terminal", "its memory was refused");
    }
    replay.events = options.events;
    int status = replay_on(&replay, &options);
    host_end(&replay.host);
    return status;
}
