/* A terminal on a CAN bus.
 *
 *     live INTERFACE [--own AA] [--name N]     on an interface of SocketCAN, such as can0
 *     live --pipe [--own AA] [--name N]        over the standard input and output
 *
 * It claims its address, hears each frame with the time at which it was received, does each action of the operator at its time, tells the
 * terminal the time when that has something to do, repeats the status each second, and prints each new screen. It ends with status 1 when
 * another node takes its address.
 *
 * All frames that wait are heard before the time is told: a program that stood still for some seconds would otherwise close sets that
 * were speaking, and lose their pools.
 *
 * For 250 ms after its claim it hears only claims and requests for them, and passes over other frames. It reads and hears in one thread.
 *
 * On an interface the lines of the standard input are the operator's: press ID, release ID, select ID, number ID N, text ID TEXT and
 * set AA. Screens go to the standard output.
 *
 * With --pipe a line of the standard input is a frame, ID#HEX, or an operator's, with `! ` in front. Frames go to the standard output
 * in the same form, and screens to the error output. A frame counts as received when its line is read. It ends with the standard input.
 */
#define _GNU_SOURCE
#include "bus.h"
#include "host.h"
#include <errno.h>
#include <poll.h>
#include <signal.h>
#include <string.h>
#include <unistd.h>

enum { STATUS_FAULT = 1, STATUS_WORDS = 2 };

/* The microseconds between two status messages, and those after the claim at the start in which nothing but claims is sent. */
enum { SECOND = 1000000, QUIET = 250000 };

/* The parameter groups of address claims and of requests. */
enum { CLAIMS = 0xEE00, REQUESTS = 0xEA00 };

/* How often a call is made whose memory is refused, the microseconds between, and the least from one tick to the next. */
enum { TRIES = 10, PAUSE = 1000, TICK_PAUSE = 100000 };

/* The most frames heard before the status is looked at. */
enum { FRAMES = 64 };

enum { LONGEST = 4096 };

struct live {
    struct host host;
    int bus;       /* the interface, or -1 with --pipe */
    bool is_piped;
    bool is_input_open;
    FILE *people;  /* where screens and refusals go */
    uint64_t quiet_end; /* the time until which only claims are sent */
    uint64_t next_status;
    uint64_t next_tick; /* the earliest time of the next tick */
    char line[LONGEST]; /* the bytes of a line of the standard input whose newline is still to come */
    size_t count;
    bool is_too_long;
    const char *fault; /* what ends the program, or null */
};

/* ---- what comes of an input */

static void send_frame(struct live *live, const struct vt_out *out)
{
    if (live->is_piped) {
        print_frame(out, stdout);
    } else if (!send_on_bus(live->bus, out)) {
        live->fault = "a frame could not be sent";
    }
}

/* Sends the frames that the last input put out, and prints its refusals. */
static void take_outputs(struct live *live)
{
    struct vt_out out;
    while (vt_take(live->host.vt, &out) != VT_NONE) {
        if (out.kind == VT_REFUSED) {
            fprintf(live->people, "operator %s\n", host_refusal(&out));
        } else if (out.kind == VT_FRAME) {
            send_frame(live, &out);
        }
    }
    if (live->is_piped && fflush(stdout) != 0) {
        live->fault = "a frame could not be written";
    }
}

static void print_screen(struct live *live)
{
    switch (host_draw(&live->host)) {
    case DRAW_NEW:
        fwrite(live->host.screen, 1, live->host.count, live->people);
        break;
    case DRAW_SAME:
        break;
    case DRAW_NO_MEMORY:
        fprintf(live->people, "the memory for the screen was refused\n");
        break;
    }
}

/* The same for the host, which is the first member. */
static void take_for_host(struct host *host)
{
    take_outputs((struct live *)host);
}

/* Takes what came of an input. An input without memory is left out. */
static void end_input(struct live *live, enum vt_result result)
{
    if (result == VT_NO_MEMORY) {
        fprintf(live->people, "the memory for an input was refused %d times\n", TRIES);
    }
    take_outputs(live);
    if (vt_redraws(live->host.vt) || live->host.redraws) {
        print_screen(live);
    }
    fflush(live->people);
    if (vt_lost(live->host.vt)) {
        live->fault = "another node took the address";
    }
}

/* ---- inputs */

/* Whether a frame is an address claim, or a request. The terminal answers requests for claims alone. */
static bool is_about_claims(const struct frame *frame)
{
    uint32_t group = frame->id >> 8 & 0x3FF00;
    return group == CLAIMS || group == REQUESTS;
}

/* Hears a frame. Right after the claim at the start one that might be answered with something else is passed over. */
static void hear(struct live *live, struct frame *frame)
{
    if (frame->time >= live->quiet_end || is_about_claims(frame)) {
        end_input(live, host_hear(&live->host, frame));
    }
}

static void hear_bus(struct live *live)
{
    struct frame frame;
    for (int frames = 0; live->fault == NULL && frames < FRAMES; frames++) {
        switch (read_from_bus(live->bus, &frame)) {
        case BUS_FRAME:
            hear(live, &frame);
            break;
        case BUS_EMPTY:
            return;
        case BUS_FAULT:
            live->fault = "the interface could not be read";
            break;
        }
    }
}

/* Tells the terminal the time. It is told again some time later, also where memory was refused for it. */
static void tick(struct live *live, uint64_t time)
{
    enum vt_result result = host_tick(&live->host, time);
    live->next_tick = time + TICK_PAUSE;
    end_input(live, result);
}

/* Releases the key that is held of the shown set. A key of a set that is not shown could no longer be released. */
static void release_held(struct live *live)
{
    struct vt_active_ids active;
    if (vt_active(live->host.vt, vt_shown(live->host.vt), &active) == VT_DONE && active.key != VT_NO_ID) {
        struct action release = {.kind = VT_RELEASE, .id = active.key};
        end_input(live, host_act(&live->host, time_now(), &release));
    }
}

/* Takes a line of the operator. The action happens now. */
static void take_action(struct live *live, struct span text)
{
    struct action action;
    if (!read_action(text, &action)) {
        fprintf(live->people, "this is no action: %.*s\n", (int)text.count, text.at);
        return;
    }
    if (action.kind == VT_SET) {
        release_held(live);
    }
    if (live->fault == NULL) {
        end_input(live, host_act(&live->host, time_now(), &action));
    }
}

/* Takes a line that has a frame. */
static void take_frame(struct live *live, struct span text)
{
    struct line line = read_word(text);
    if (line.kind == LINE_FAULT) {
        fprintf(live->people, "this is no frame: %.*s\n", (int)text.count, text.at);
    }
    if (line.kind == LINE_FRAME) {
        line.frame.time = time_now();
        hear(live, &line.frame);
    }
}

static void take_line(struct live *live, struct span text)
{
    bool is_action = !live->is_piped;
    if (text.count > 0 && text.at[text.count - 1] == '\r') {
        text.count--;
    }
    if (text.count >= 2 && memcmp(text.at, "! ", 2) == 0) {
        text.at += 2;
        text.count -= 2;
        is_action = true;
    }
    if (is_action) {
        take_action(live, text);
    } else {
        take_frame(live, text);
    }
}

/* Takes a byte of the standard input. A line that is too long is left out. */
static void take_byte(struct live *live, char byte)
{
    if (byte != '\n' && live->count == LONGEST) {
        live->is_too_long = true;
    } else if (byte != '\n') {
        live->line[live->count++] = byte;
    } else {
        struct span text = {live->line, live->count};
        if (live->count > 0 && !live->is_too_long) {
            take_line(live, text);
        }
        live->count = 0;
        live->is_too_long = false;
    }
}

static void take_input(struct live *live)
{
    char bytes[4096];
    ssize_t got = read(STDIN_FILENO, bytes, sizeof bytes);
    for (ssize_t i = 0; i < got && live->fault == NULL; i++) {
        take_byte(live, bytes[i]);
    }
    live->is_input_open = got > 0 || (got < 0 && errno == EINTR);
}

/* ---- the time */

/* The time at which something is to be done although nothing is heard. */
static uint64_t next_time(struct live *live)
{
    uint64_t tick = vt_deadline(live->host.vt);
    tick = tick < live->next_tick ? live->next_tick : tick;
    return tick < live->next_status ? tick : live->next_status;
}

/* The milliseconds from now to a time, rounded up. */
static int wait_until(uint64_t time)
{
    uint64_t at = time_now();
    return time <= at ? 0 : (int)((time - at + 999) / 1000);
}

/* Sends the status, if it is due. After a while in which the program stood still it is sent once, and not for each second of that. */
static void repeat_status(struct live *live)
{
    uint64_t time = time_now();
    if (live->next_status <= time) {
        live->next_status += SECOND;
        if (live->next_status <= time) {
            live->next_status = time + SECOND;
        }
        end_input(live, host_status(&live->host));
    }
}

/* Tells the terminal the time, if that has something to do. */
static void pass_time(struct live *live)
{
    uint64_t time = time_now();
    if (vt_deadline(live->host.vt) <= time && live->next_tick <= time) {
        tick(live, time);
    }
}

/* ---- the program */

/* Sends the claim at the start. */
static void begin_claim(struct live *live)
{
    end_input(live, host_claim(&live->host));
    uint64_t time = time_now();
    live->quiet_end = time + QUIET;
    live->next_tick = live->quiet_end;
    live->next_status = time + SECOND;
}

static void run(struct live *live)
{
    begin_claim(live);
    while (live->fault == NULL && (live->is_input_open || !live->is_piped)) {
        struct pollfd files[] = {
            {.fd = live->is_input_open ? STDIN_FILENO : -1, .events = POLLIN},
            {.fd = live->bus, .events = POLLIN},
        };
        if (poll(files, 2, wait_until(next_time(live))) < 0 && errno != EINTR) {
            live->fault = strerror(errno);
            return;
        }
        if (files[1].revents != 0) {
            hear_bus(live);
        } else if (files[0].revents != 0) {
            take_input(live);
        } else {
            pass_time(live);
        }
        if (live->fault == NULL) {
            repeat_status(live);
        }
    }
}

static int bad_words(void)
{
    fprintf(stderr, "usage: live INTERFACE [--own AA] [--name N]\n       live --pipe [--own AA] [--name N]\n");
    return STATUS_WORDS;
}

static int fault(const char *about, const char *what)
{
    fprintf(stderr, "live: %s: %s\n", about, what);
    return STATUS_FAULT;
}

struct options {
    const char *interface; /* or null with --pipe */
    bool is_piped;
    uint32_t own;
    uint64_t name;
};

/* Reads an option with a value, and moves `at` to that. */
static bool read_option(struct options *options, int count, char **all, int *at)
{
    if (*at + 1 >= count) {
        return false;
    }
    const char *word = all[*at];
    const char *text = all[*at + 1];
    struct span value = {text, strlen(text)};
    *at += 1;
    if (strcmp(word, "--own") == 0) {
        return read_address(value, 0xFD, &options->own);
    }
    return strcmp(word, "--name") == 0 && read_name(value, &options->name);
}

static bool read_words(struct options *options, int count, char **all)
{
    for (int at = 1; at < count; at++) {
        if (strcmp(all[at], "--pipe") == 0) {
            options->is_piped = true;
        } else if (all[at][0] != '-' && options->interface == NULL) {
            options->interface = all[at];
        } else if (!read_option(options, count, all, &at)) {
            return false;
        }
    }
    return options->is_piped == (options->interface == NULL);
}

int main(int count, char **all)
{
    static struct live live;
    struct options options = {NULL, false, 0x26, 0x20001D0000000001};
    if (!read_words(&options, count, all)) {
        return bad_words();
    }
    live.is_piped = options.is_piped;
    live.is_input_open = true;
    live.people = live.is_piped ? stderr : stdout;
    live.bus = live.is_piped ? -1 : open_bus(options.interface);
    if (live.bus < 0 && !live.is_piped) {
        return fault(options.interface, strerror(errno));
    }
    if (!host_begin(&live.host, options.own, options.name)) {
        return fault("the terminal", "its memory was refused");
    }
    live.host.take = take_for_host;
    live.host.tries = TRIES;
    live.host.pause = PAUSE;
    signal(SIGPIPE, SIG_IGN);
    print_screen(&live);
    run(&live);
    host_end(&live.host);
    return live.fault == NULL ? 0 : fault(live.is_piped ? "the pipe" : options.interface, live.fault);
}
