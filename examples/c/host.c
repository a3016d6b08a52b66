#define _GNU_SOURCE
#include "host.h"
#include <stdlib.h>
#include <string.h>
#include <unistd.h>

/* ---- making and ending */

bool host_begin(struct host *host, uint32_t own, uint64_t name)
{
    static const struct vt_profile profile = VT_STANDARD_PROFILE;
    memset(host, 0, sizeof *host);
    host->tries = 2;
    /* aligned_alloc wants a multiple of the alignment. */
    host->vt = aligned_alloc(16, (vt_size() + 15) & ~(size_t)15);
    if (host->vt == NULL) {
        return false;
    }
    if (vt_begin(host->vt, own, name, &profile) != VT_DONE) {
        free(host->vt);
        host->vt = NULL;
        return false;
    }
    return true;
}

void host_end(struct host *host)
{
    vt_done(host->vt);
    free(host->vt);
    free(host->screen);
    free(host->drawn);
}

/* ---- inputs */

/* One call of the library. */
struct call {
    enum { HEAR, TICK, ACT, CLAIM, STATUS, PRELOAD } kind;
    const struct frame *frame;
    const struct action *action;
    uint64_t time;
    uint32_t address;
    const uint8_t *pool;
    size_t count;
};

static enum vt_result make_action(struct vt_terminal *vt, uint64_t time, const struct action *action)
{
    if (action->kind == ACTION_TEXT) {
        return vt_text(vt, time, action->id, (const uint8_t *)action->text.at, action->text.count);
    }
    return vt_act(vt, time, (enum vt_action)action->kind, action->id, action->number);
}

static enum vt_result make(struct vt_terminal *vt, const struct call *call)
{
    switch (call->kind) {
    case HEAR:
        return vt_hear(vt, call->frame->time, call->frame->id, call->frame->data, call->frame->count);
    case TICK:
        return vt_tick(vt, call->time);
    case ACT:
        return make_action(vt, call->time, call->action);
    case CLAIM:
        return vt_claim(vt);
    case STATUS:
        return vt_status(vt);
    case PRELOAD:
        return vt_preload(vt, call->address, call->pool, call->count);
    }
    return VT_NO_SUCH;
}

/* Waits between two tries. */
static void rest(const struct host *host)
{
    if (host->pause > 0) {
        usleep(host->pause);
    }
}

/* Makes a call, and makes it again while its memory is refused. The outputs that the time of an action brought are taken in between. */
static enum vt_result try_call(struct host *host, const struct call *call)
{
    enum vt_result result = make(host->vt, call);
    for (unsigned tries = 1; result == VT_NO_MEMORY && tries < host->tries; tries++) {
        rest(host);
        host->redraws = host->redraws || vt_redraws(host->vt);
        if (call->kind == ACT && host->take != NULL) {
            host->take(host);
        }
        result = make(host->vt, call);
    }
    return result;
}

enum vt_result host_preload(struct host *host, uint32_t address, const uint8_t *pool, size_t count)
{
    struct call call = {.kind = PRELOAD, .address = address, .pool = pool, .count = count};
    return try_call(host, &call);
}

enum vt_result host_hear(struct host *host, const struct frame *frame)
{
    struct call call = {.kind = HEAR, .frame = frame};
    return try_call(host, &call);
}

enum vt_result host_tick(struct host *host, uint64_t time)
{
    struct call call = {.kind = TICK, .time = time};
    return try_call(host, &call);
}

enum vt_result host_act(struct host *host, uint64_t time, const struct action *action)
{
    struct call call = {.kind = ACT, .time = time, .action = action};
    return try_call(host, &call);
}

enum vt_result host_claim(struct host *host)
{
    struct call call = {.kind = CLAIM};
    return try_call(host, &call);
}

enum vt_result host_status(struct host *host)
{
    struct call call = {.kind = STATUS};
    return try_call(host, &call);
}

/* ---- outputs */

/* The name of a number, the first of which is 1. */
static const char *name_of(const char *const *names, size_t count, uint32_t number)
{
    return number >= 1 && number <= count ? names[number - 1] : "?";
}

const char *host_refusal(const struct vt_out *out)
{
    static const char *const names[] = {"1 NotShown",   "2 Disabled", "3 Range", "4 TooLong", "5 WrongKind",
                                        "6 NotPressed", "7 Held",     "8 Busy",  "9 NoSet"};
    return name_of(names, sizeof names / sizeof names[0], out->id);
}

void print_event(const struct vt_out *out, FILE *file)
{
    static const char *const names[] = {"SetCame",    "SetSilent",   "SetClosed", "PoolAccepted", "PoolUpdated", "PoolFaulty",
                                        "PoolRefused", "PoolDeleted", "Uploaded",  "TextAborted",  "Shown",       "Alarm",
                                        "AlarmOver",  "Signal",      "Volume",    "AddressLost"};
    struct vt_event event = vt_event_of(out);
    const char *name = name_of(names, sizeof names / sizeof names[0], (uint32_t)event.kind);
    fprintf(file, "%s %02X %u %u\n", name, (unsigned)event.address, (unsigned)event.first, (unsigned)event.second);
}

void print_frame(const struct vt_out *out, FILE *file)
{
    fprintf(file, "%08X#", (unsigned)out->id);
    for (uint32_t i = 0; i < out->count; i++) {
        fprintf(file, "%02X", out->data[i]);
    }
    fputc('\n', file);
}

/* ---- the screen */

/* Makes room for a text. */
static bool make_room(struct host *host, size_t count)
{
    size_t room = 2 * count + 8;
    if (count <= host->room) {
        return true;
    }
    char *screen = realloc(host->screen, room);
    host->screen = screen == NULL ? host->screen : screen;
    char *drawn = realloc(host->drawn, room);
    host->drawn = drawn == NULL ? host->drawn : drawn;
    if (screen == NULL || drawn == NULL) {
        return false;
    }
    host->room = room;
    return true;
}

/* Draws the screen, and draws it again while its memory is refused. */
static uint64_t try_screen(struct host *host)
{
    uint64_t count = vt_screen(host->vt, (uint8_t *)host->drawn, host->room);
    for (unsigned tries = 1; count == UINT64_MAX && tries < host->tries; tries++) {
        rest(host);
        count = vt_screen(host->vt, (uint8_t *)host->drawn, host->room);
    }
    return count;
}

enum draw host_draw(struct host *host)
{
    size_t room = host->room;
    uint64_t count = try_screen(host);
    if (count == UINT64_MAX || !make_room(host, (size_t)count)) {
        return DRAW_NO_MEMORY;
    }
    host->redraws = false;
    if (count > room) {
        /* The room was too small: the text is still there, and is copied again. */
        vt_copy(host->vt, (uint8_t *)host->drawn, (size_t)count);
    }
    if (count == host->count && memcmp(host->drawn, host->screen, host->count) == 0) {
        return DRAW_SAME;
    }
    char *screen = host->drawn;
    host->drawn = host->screen;
    host->screen = screen;
    host->count = (size_t)count;
    return DRAW_NEW;
}
