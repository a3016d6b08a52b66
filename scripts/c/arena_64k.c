/* A terminal with a heap of 64 KB: arena_64k POOL, where arena.c is built with -DARENA_BYTES=65536. It prints what comes of each step.
 */
#include "arena.h"
#include "vt_terminal.h"
#include <stdio.h>
#include <stdlib.h>

enum { OWN = 0x26, ECU = 0x80 };

static struct vt_terminal *vt;
static uint64_t at = 1000000;

static void print_outputs(void)
{
    struct vt_out out;
    while (vt_take(vt, &out) != VT_NONE) {
        if (out.kind != VT_FRAME) {
            continue;
        }
        printf("  %08X#", (unsigned)out.id);
        for (uint32_t i = 0; i < out.count; i++) {
            printf("%02X", out.data[i]);
        }
        printf("\n");
    }
}

/* Hears a frame one millisecond after the last one. */
static enum vt_result hear(uint32_t id, uint32_t count, uint64_t bits)
{
    at += 1000;
    return vt_hear_bits(vt, at, id, count, bits);
}

/* Hears a frame of eight bytes, and prints what comes of it. */
static void say(const char *what, uint32_t id, uint64_t bits)
{
    printf("%s: %u\n", what, (unsigned)hear(id, 8, bits));
    print_outputs();
}

/* Uploads a pool in pieces of at most seven bytes, and ends it. */
static void upload(FILE *pool)
{
    unsigned char bytes[7];
    size_t count;
    while ((count = fread(bytes, 1, sizeof bytes, pool)) > 0) {
        uint64_t bits = 0x11;
        for (size_t i = 0; i < count; i++) {
            bits |= (uint64_t)bytes[i] << 8 * (i + 1);
        }
        if (hear(0x14E70000 | OWN << 8 | ECU, (uint32_t)count + 1, bits) != VT_DONE) {
            printf("a piece of the small pool was refused\n");
        }
        print_outputs();
    }
    say("end of the small pool", 0x14E72680, 0xFFFFFFFFFFFFFF12);
}

/* Sends pieces without an end until one is refused. */
static void fill(void)
{
    unsigned pieces = 0;
    while (pieces < 100000 && hear(0x14E72680, 8, 0x0706050403020111) == VT_DONE) {
        print_outputs();
        pieces++;
    }
    printf("pieces taken before the first refusal: %u\n", pieces);
}

/* Sends the refused piece again. */
static void push_on(void)
{
    size_t used = vt_arena_used();
    unsigned refused = 0;
    for (int i = 0; i < 1000; i++) {
        refused += hear(0x14E72680, 8, 0x0706050403020111) == VT_NO_MEMORY;
    }
    printf("refused again: %u of 1000, %s\n", refused, used == vt_arena_used() ? "no byte more in use" : "more bytes in use");
}

static void print_screen(void)
{
    static uint8_t text[4096];
    uint64_t count = vt_screen(vt, text, sizeof text);
    if (count <= sizeof text) {
        fwrite(text, 1, (size_t)count, stdout);
    }
}

static void play(FILE *pool)
{
    say("claim", 0x18EEFF80, 0x20001D0000000002);
    say("working set", 0x1CFE0D80, 0xFFFFFFFFFFFFFF01);
    upload(pool);
    print_screen();
    fill();
    push_on();
    say("get memory", 0x14E72680, 0xFFFFFFFFFFFF00C0);
    say("hide the container", 0x14E72680, 0xFFFFFFFF000064A0);
    print_screen();
    say("end of the large pool", 0x14E72680, 0xFFFFFFFFFFFFFF12);
    say("show the container", 0x14E72680, 0xFFFFFFFF010064A0);
    print_screen();
}

int main(int count, char **words)
{
    static const struct vt_profile profile = VT_STANDARD_PROFILE;
    FILE *pool = count == 2 ? fopen(words[1], "rb") : NULL;
    vt = aligned_alloc(16, (vt_size() + 15) & ~(size_t)15);
    if (vt == NULL || pool == NULL) {
        return 2;
    }
    vt_begin(vt, OWN, 0x20001D0000000001, &profile);
    printf("in use at the start: %zu\n", vt_arena_used());
    play(pool);
    fprintf(stderr, "in use %zu, at most %zu\n", vt_arena_used(), vt_arena_peak());
    vt_done(vt);
    printf("in use at the end: %zu\n", vt_arena_used());
    fclose(pool);
    free(vt);
    return 0;
}
