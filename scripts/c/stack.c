/* The most stack that each call takes on a log: stack LOG [POOL OWNER]. It paints the stack of a thread before each call. */
#define _GNU_SOURCE
#include "lines.h"
#include "vt_terminal.h"
#include <pthread.h>
#include <stdio.h>
#include <stdlib.h>
#include <string.h>
#include <sys/mman.h>

/* The bytes of the stack, the byte of the paint, the bytes left unpainted below the frame that paints, and the most bytes of a pool. */
enum { STACK = 1 << 19, PAINT = 0xA5, MARGIN = 512, MOST = 1 << 22 };

static unsigned char *stack;
static struct vt_terminal *vt;
static struct line line;
static uint8_t pool[MOST];
static size_t pool_count;
static uint32_t owner;
static volatile uint64_t result;

static void init(void)
{
    static const struct vt_profile profile = VT_STANDARD_PROFILE;
    result = vt_begin(vt, 0x26, 0x20001D0000000001, &profile);
}

static void preload(void)
{
    result = vt_preload(vt, owner, pool, pool_count);
}

static void hear(void)
{
    result = vt_hear(vt, line.frame.time, line.frame.id, line.frame.data, line.frame.count);
}

static void act(void)
{
    if (line.action.kind == ACTION_TEXT) {
        result = vt_text(vt, VT_LATEST, line.action.id, (const uint8_t *)line.action.text.at, line.action.text.count);
    } else {
        result = vt_act(vt, VT_LATEST, (enum vt_action)line.action.kind, line.action.id, line.action.number);
    }
}

static void screen(void)
{
    result = vt_screen(vt, NULL, 0);
}

/* Reads what a display reads of the shown set. */
static void readings(void)
{
    uint32_t shown = (uint32_t)vt_shown(vt);

    result = vt_text_of_sets(vt) + vt_text_of_elements(vt) + vt_text_of_picture(vt, shown, VT_NO_ID);
    result = vt_text_of_part(vt, shown, 1000) + vt_text_of_object(vt, shown, 1000) + vt_ids_of_active(vt, shown) + vt_id_at(vt, 1, 1);
}

/* Tells a frame of the log in words. */
static void words(void)
{
    result = vt_words(vt, line.frame.id, line.frame.data, line.frame.count, NULL, 0);
}

static void tick(void)
{
    result = vt_tick(vt, vt_deadline(vt));
}

static void done(void)
{
    vt_done(vt);
}

struct call {
    void (*function)(void);
    size_t depth;
};

/* Paints the stack below this frame, makes a call, and measures how far down the paint is gone. */
static void *run(void *argument)
{
    struct call *call = argument;
    unsigned char here = 0;
    size_t height = (size_t)((uintptr_t)&here - (uintptr_t)stack);
    size_t left = 0;
    memset(stack, PAINT, height - MARGIN);
    call->function();
    while (left < height - MARGIN && stack[left] == PAINT) {
        left++;
    }
    call->depth = height - left;
    return NULL;
}

/* The bytes of the stack that a call takes, but at least MARGIN. */
static size_t depth_of(void (*function)(void))
{
    struct call call = {function, 0};
    pthread_attr_t attributes;
    pthread_t thread;
    pthread_attr_init(&attributes);
    if (pthread_attr_setstack(&attributes, stack, STACK) != 0 || pthread_create(&thread, &attributes, run, &call) != 0) {
        fprintf(stderr, "no thread\n");
        exit(1);
    }
    pthread_join(thread, NULL);
    pthread_attr_destroy(&attributes);
    return call.depth;
}

static void keep_most(size_t *most, size_t depth)
{
    *most = depth > *most ? depth : *most;
}

struct depths {
    size_t hear;
    size_t act;
    size_t screen;
    size_t readings;
    size_t words;
};

/* Takes a line of the log, and keeps the greatest depths. */
static void take_line(struct span text, struct depths *most)
{
    line = read_line(text);
    if (line.kind == LINE_FRAME) {
        keep_most(&most->words, depth_of(words));
        keep_most(&most->hear, depth_of(hear));
    } else if (line.kind == LINE_OPERATOR) {
        keep_most(&most->act, depth_of(act));
    } else {
        return;
    }
    if (result != VT_DONE) {
        fprintf(stderr, "an input was refused\n");
        exit(1);
    }
    while (vt_next(vt) != VT_NONE) {
    }
    if (vt_redraws(vt)) {
        keep_most(&most->screen, depth_of(screen));
        keep_most(&most->readings, depth_of(readings));
    }
}

static void take_log(FILE *log)
{
    static char text[8192];
    struct depths most = {0, 0, depth_of(screen), depth_of(readings), 0};
    while (fgets(text, sizeof text, log) != NULL) {
        struct span span = {text, strcspn(text, "\n")};
        take_line(span, &most);
    }
    printf("hear %zu\nact %zu\nscreen %zu\nreadings %zu\nwords %zu\n", most.hear, most.act, most.screen, most.readings, most.words);
}

static bool read_pool(const char *path, const char *address)
{
    struct span span = {address, strlen(address)};
    FILE *file = fopen(path, "rb");
    if (file == NULL || !read_address(span, 0xFD, &owner)) {
        return false;
    }
    pool_count = fread(pool, 1, sizeof pool, file);
    fclose(file);
    return true;
}

int main(int count, char **arguments)
{
    FILE *log = count >= 2 ? fopen(arguments[1], "r") : NULL;
    stack = mmap(NULL, STACK, PROT_READ | PROT_WRITE, MAP_PRIVATE | MAP_ANONYMOUS, -1, 0);
    vt = aligned_alloc(16, (vt_size() + 15) & ~(size_t)15);
    if (log == NULL || stack == MAP_FAILED || vt == NULL || (count == 4 && !read_pool(arguments[2], arguments[3]))) {
        return 2;
    }
    printf("init %zu\n", depth_of(init));
    if (count == 4) {
        printf("preload %zu\n", depth_of(preload));
        fprintf(stderr, "preload's result: %u\n", (unsigned)result);
    }
    take_log(log);
    printf("tick %zu\n", depth_of(tick));
    while (vt_next(vt) != VT_NONE) {
    }
    printf("done %zu\n", depth_of(done));
    fclose(log);
    free(vt);
    return 0;
}
