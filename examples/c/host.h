/* What the example programs share: a terminal on the heap of malloc, its inputs with a few tries each, and the text of its screen. */
#ifndef HOST_H
#define HOST_H

#include "lines.h"
#include "vt_terminal.h"
#include <stdbool.h>
#include <stdio.h>

struct host {
    struct vt_terminal *vt;
    unsigned tries; /* how often a call is made whose memory is refused */
    unsigned pause; /* the microseconds between two tries */
    char *screen;   /* the text of the screen drawn last */
    char *drawn;    /* room for the next one */
    size_t count;   /* the bytes of `screen` */
    size_t room;    /* the bytes that `screen` and `drawn` have room for */
    bool redraws;   /* the screen may have changed at a try that memory was refused to */
    void (*take)(struct host *host); /* takes the outputs that wait before an action is tried again, or null */
};

/* What a draw gave. */
enum draw { DRAW_NEW, DRAW_SAME, DRAW_NO_MEMORY };

/* Makes a terminal with the standard profile, and two tries for each call. Returns false if memory was refused, the address is above 253
 * or the library is of another version. */
bool host_begin(struct host *host, uint32_t own, uint64_t name);

/* Ends the terminal. */
void host_end(struct host *host);

/* Calls that are made again while their memory is refused. */
enum vt_result host_preload(struct host *host, uint32_t address, const uint8_t *pool, size_t count);
enum vt_result host_hear(struct host *host, const struct frame *frame);
enum vt_result host_tick(struct host *host, uint64_t time);
enum vt_result host_act(struct host *host, uint64_t time, const struct action *action);
enum vt_result host_claim(struct host *host);
enum vt_result host_status(struct host *host);

/* The number and the name of a refusal; `?` for one that the header does not have. */
const char *host_refusal(const struct vt_out *out);

/* Prints an event as `KIND AA FIRST SECOND` and a newline: its name, `?` for one that the header does not have, the address in hex, and its
 * two numbers. */
void print_event(const struct vt_out *out, FILE *file);

/* Draws the screen, and tells whether its text is another than the one drawn before. */
enum draw host_draw(struct host *host);

/* Prints a frame that was put out as `ID#HEX` and a newline. */
void print_frame(const struct vt_out *out, FILE *file);

#endif
