/* Calls at times and with numbers at which they make no sense: each has a result, and the sanitizers find nothing.
 *
 *     misuse POOL
 *
 * The pool is examples/sprayer.iop. The status is 0 if each result is the one that vt_terminal.h names.
 */
#include "files.h"
#include "vt_terminal.h"
#include <inttypes.h>
#include <stdbool.h>
#include <stdio.h>
#include <stdlib.h>
#include <string.h>

/* How many random frames are heard. */
#ifndef FRAMES
#define FRAMES 100000
#endif

enum { OWN = 0x26, OWNER = 0x80, MOST_OUTPUTS = 1024 };

/* A mask of the pool, and an Input Number, which is shown with one decimal. */
enum { MASK = 1000, INPUT = 351 };

#define COUNT(array) (sizeof(array) / sizeof *(array))

/* IDs, addresses and numbers: of the pool, at the ends of their ranges, and behind these. */
static const uint32_t numbers[] = {0, 1, OWN, OWNER, 253, 254, 255, 256, OWNER + 256, INPUT, MASK, 65534, 65535, 65536, 65536 + INPUT,
                                   65536 + MASK, 0x1FFFFFFF, 0x20000000, 0x7FFFFFFF, 0x80000000, 0xFFFFFFFF};
static const size_t rooms[] = {0, 1, 7, 8, 9, 100};

static const uint8_t *pool;
static size_t pool_size;
static unsigned wrong;

/* Counts a result that is not the wanted one. */
static void check(bool holds, const char *state, const char *what)
{
    if (!holds) {
        printf("%s: %s\n", state, what);
        wrong++;
    }
}

static struct vt_terminal *made(uint32_t own, uint64_t name)
{
    static const struct vt_profile profile = VT_STANDARD_PROFILE;
    struct vt_terminal *vt = aligned_alloc(16, (vt_size() + 15) & ~(size_t)15);

    if (vt == NULL) {
        abort();
    }
    check(vt_begin(vt, own, name, &profile) == (own > 253 ? VT_NOT_BEGUN : VT_DONE), "made", "vt_begin");
    return vt;
}

static void end(struct vt_terminal *vt)
{
    vt_done(vt);
    free(vt);
}

/* Takes all outputs, and returns the number of those that are no events. */
static unsigned take(struct vt_terminal *vt)
{
    struct vt_out out;
    unsigned count = 0;

    while (vt_take(vt, &out) != VT_NONE) {
        bool is_frame = out.kind == VT_FRAME && out.id <= 0x1FFFFFFF && out.count <= 8;
        bool is_refusal = out.kind == VT_REFUSED && out.id >= VT_NOT_SHOWN && out.id <= VT_NO_SET;
        bool is_event = out.kind == VT_EVENT && out.id >= VT_SET_CAME && out.id <= VT_ADDRESS_LOST && out.count <= 255;
        check(is_frame || is_refusal || is_event, "outputs", "an output is no output");
        count += !is_event;
    }
    return count;
}

/* ---- readings */

/* Makes each call that writes bytes, into memory of just its room. */
static void write_texts(struct vt_terminal *vt, const char *state, uint32_t address, uint32_t id, bool has_pool)
{
    bool may_be_there = has_pool && id < VT_NO_ID;

    for (size_t k = 0; k < COUNT(rooms); k++) {
        uint8_t *buf = rooms[k] == 0 ? NULL : malloc(rooms[k]);
        uint64_t bytes = vt_object(vt, address, id, buf, rooms[k]);
        check(may_be_there || bytes == 0, state, "vt_object of an object that is not there");
        check((id != MASK && id != INPUT) || (bytes > 3) == has_pool, state, "vt_object of an object that is there");
        bytes = vt_value_text(vt, address, id, buf, rooms[k]);
        check(id == INPUT ? (bytes > 0) == has_pool : may_be_there || bytes == 0, state, "vt_value_text");
        bytes = vt_picture(vt, address, id, buf, rooms[k]);
        check((bytes > 0) == has_pool, state, "vt_picture");
        bytes = vt_part(vt, address, id, buf, rooms[k]);
        check(may_be_there || bytes == 0, state, "vt_part of an object that is not there");
        check((id != MASK && id != INPUT) || (bytes > 0) == has_pool, state, "vt_part of an object that is there");
        free(buf);
    }
}

/* Writes the screen and makes each call that lists, into memory of just its room. */
static void write_lists(struct vt_terminal *vt, const char *state)
{
    for (size_t k = 0; k < COUNT(rooms); k++) {
        uint8_t *buf = rooms[k] == 0 ? NULL : malloc(rooms[k]);
        struct vt_set *sets = rooms[k] == 0 ? NULL : malloc(rooms[k] * sizeof *sets);
        struct vt_element *elements = rooms[k] == 0 ? NULL : malloc(rooms[k] * sizeof *elements);
        check(vt_screen(vt, buf, rooms[k]) > 0, state, "vt_screen");
        check(vt_words(vt, 0x14E72680, NULL, 0, buf, rooms[k]) > 0, state, "vt_words");
        check(vt_words(vt, 0x20000000, NULL, 0, buf, rooms[k]) == 0, state, "vt_words of no frame");
        check(vt_sets(vt, sets, rooms[k]) <= 254, state, "vt_sets");
        check((vt_elements(vt, elements, rooms[k]) > 0) == (vt_shown(vt) != 254), state, "vt_elements");
        free(buf);
        free(sets);
        free(elements);
    }
}

/* Reads all that there is at an address and an ID. */
static void read_one(struct vt_terminal *vt, const char *state, uint32_t address, uint32_t id)
{
    struct vt_active_ids active;
    struct vt_limits limits;
    uint32_t raw = 7;
    bool has_pool = vt_has_pool(vt, OWNER) == 1 && address == OWNER;
    enum vt_result of_input = has_pool && id == INPUT ? VT_DONE : VT_NO_SUCH;

    check(vt_has_pool(vt, address) == has_pool, state, "vt_has_pool");
    check(vt_active(vt, address, &active) == (has_pool ? VT_DONE : VT_NO_SUCH), state, "vt_active");
    check(has_pool || (active.mask == VT_NO_ID && active.key == VT_NO_ID), state, "vt_active without a set");
    check(vt_limits_of(vt, address, id, &limits) == of_input, state, "vt_limits_of");
    check(vt_raw(vt, address, id, NULL, 0, &raw) == VT_NO_SUCH && raw == 7, state, "vt_raw of nothing");
    check(vt_raw(vt, address, id, "1", 1, &raw) == of_input && (raw == 7) == (of_input != VT_DONE), state, "vt_raw");
    check(vt_touch(vt, (int32_t)address, (int32_t)id) <= VT_NO_ID, state, "vt_touch");
    write_texts(vt, state, address, id, has_pool);
}

static void read_all(struct vt_terminal *vt, const char *state)
{
    uint64_t look = vt_look(vt);

    for (size_t i = 0; i < COUNT(numbers); i++) {
        for (size_t k = 0; k < COUNT(numbers); k++) {
            read_one(vt, state, numbers[i], numbers[k]);
        }
    }
    write_lists(vt, state);
    check(vt_look(vt) == look, state, "reading changes vt_look");
}

/* ---- inputs */

/* The result of an input of numbers that are in their range. */
static enum vt_result wanted(uint32_t own)
{
    return own > 253 ? VT_NOT_BEGUN : VT_DONE;
}

static void act_all(struct vt_terminal *vt, const char *state, uint32_t own)
{
    for (size_t i = 0; i < COUNT(numbers); i++) {
        for (size_t k = 0; k < COUNT(numbers); k++) {
            for (uint32_t kind = 0; kind < 8; kind++) {
                uint32_t id = numbers[i], number = numbers[k];
                bool in_range = kind <= VT_SET && id <= 65535 && (kind != VT_SET || number <= 255);
                enum vt_result result = vt_act(vt, VT_LATEST, (enum vt_action)kind, id, number);
                check(in_range ? result == wanted(own) : result != VT_DONE, state, "vt_act");
                take(vt);
            }
        }
        static const uint8_t text[70000];
        for (size_t count = 0; count <= sizeof text; count = 3 * count + 1) {
            enum vt_result result = vt_text(vt, VT_LATEST, numbers[i], count == 0 ? NULL : text, count);
            check(numbers[i] <= 65535 ? result == wanted(own) : result != VT_DONE, state, "vt_text");
            take(vt);
        }
    }
    check(vt_act(vt, VT_LATEST, (enum vt_action)0xFFFFFFFFu, 0, 0) != VT_DONE, state, "vt_act of no kind");
}

static void hear_all(struct vt_terminal *vt, const char *state, uint32_t own)
{
    static const uint8_t data[8] = {0xFF, 1};

    for (size_t i = 0; i < COUNT(numbers); i++) {
        bool in_range = numbers[i] <= 0x1FFFFFFF;
        for (size_t count = 0; count <= 8; count += 4) {
            enum vt_result result = vt_hear(vt, 1000000, numbers[i], count == 0 ? NULL : data, count);
            check(in_range ? result == wanted(own) : result != VT_DONE, state, "vt_hear");
            take(vt);
        }
        check(vt_hear(vt, 1000000, numbers[i], data, SIZE_MAX) != VT_DONE, state, "vt_hear of too many bytes");
        enum vt_result result = vt_preload(vt, numbers[i], NULL, 0);
        check(result == VT_NO_SUCH || result == VT_NO_POOL || result == VT_NOT_BEGUN, state, "vt_preload of nothing");
        if (numbers[i] > 253 || numbers[i] == OWN) {
            check(vt_preload(vt, numbers[i], pool, pool_size) != VT_DONE, state, "vt_preload at no address");
        }
    }
    check(vt_tick(vt, 0) == wanted(own) && vt_tick(vt, 1000001) == wanted(own), state, "vt_tick");
    take(vt);
}

/* Makes each call while outputs wait, and then without any. */
static void send_all(struct vt_terminal *vt, const char *state, uint32_t own)
{
    enum vt_result claim = vt_claim(vt), status = vt_status(vt);
    bool waits = own <= 253 && vt_lost(vt) == 0;

    check(claim == wanted(own), state, "vt_claim");
    check(status == (waits ? VT_WAITING : wanted(own)), state, "vt_status");
    if (waits) {
        check(vt_hear(vt, 1, 0, NULL, 0) == VT_WAITING && vt_tick(vt, 1) == VT_WAITING, state, "an input while outputs wait");
        check(vt_act(vt, 1, VT_PRESS, 1, 0) == VT_WAITING && vt_text(vt, 1, 1, NULL, 0) == VT_WAITING, state, "an action while outputs wait");
        check(vt_preload(vt, 1, pool, pool_size) == VT_WAITING, state, "vt_preload while outputs wait");
    }
    check(take(vt) == waits, state, "what waits");
    check(vt_next(vt) == VT_NONE && vt_output_id(vt) == 0 && vt_output_count(vt) == 0 && vt_output_data(vt) == 0, state, "no output");
    check(vt_screen_word(vt, UINT64_MAX) == 0 && vt_screen_word(vt, UINT64_MAX - 7) == 0, state, "a word behind the text");
}

/* Makes all calls in a state of a terminal, and ends it. */
static void misuse(struct vt_terminal *vt, const char *state, uint32_t own)
{
    read_all(vt, state);
    send_all(vt, state, own);
    act_all(vt, state, own);
    hear_all(vt, state, own);
    read_all(vt, state);
    check(vt_redraws(vt) <= 1 && vt_lost(vt) <= 1 && vt_shown(vt) <= 255, state, "a flag");
    check(vt_tick(vt, UINT64_MAX) == wanted(own), state, "the last time");
    take(vt);
    read_all(vt, state);
    check(vt_shown(vt) == 254 || vt_lost(vt) == 1, state, "a silent set is shown");
    end(vt);
}

/* ---- the states */

static struct vt_terminal *with_pool(uint64_t name)
{
    struct vt_terminal *vt = made(OWN, name);
    check(vt_preload(vt, OWNER, pool, pool_size) == VT_DONE, "with a pool", "vt_preload");
    return vt;
}

static void lose(struct vt_terminal *vt)
{
    static const uint8_t name[8] = {1};
    check(vt_hear(vt, 1000000, 0x18EEFF00 | OWN, name, 8) == VT_DONE && take(vt) == 1 && vt_lost(vt) == 1, "lost", "the claim");
    check(vt_hear(vt, 1000001, 0x14E72600 | OWNER, (const uint8_t[8]){0xC7}, 8) == VT_DONE && take(vt) == 0, "lost", "an answer");
    check(vt_deadline(vt) == UINT64_MAX, "lost", "a deadline");
}

static void other_version(void)
{
    struct vt_profile profile = VT_STANDARD_PROFILE;
    uint64_t none = 0;
    profile.size -= 4;
    check(vt_begin((struct vt_terminal *)&none, OWN, 1, &profile) == VT_OTHER_VERSION && none == 0, "another version", "vt_begin");
}

/* ---- random frames */

/* The next random number: xorshift of 64 bits. */
static uint64_t next(uint64_t *state)
{
    *state ^= *state << 13;
    *state ^= *state >> 7;
    *state ^= *state << 17;
    return *state;
}

/* An identifier: one of those that a terminal hears, or any. */
static uint32_t random_id(uint64_t random)
{
    static const uint32_t ids[] = {0x14E72600, 0x14E72600, 0x14E72600, 0x1CEC2600, 0x1CEB2600, 0x1CC82600, 0x1CC72600, 0x18EEFF00, 0x18EAFF00,
                                   0x1CFE0D00, 0x1CFE0C00};
    static const uint32_t sources[] = {OWNER, OWNER, OWNER, 0x81, OWN, 0xFE, 0xFF};
    uint32_t any = (uint32_t)(random >> 32) & 0x1FFFFFFF;
    return random % 8 == 0 ? any : ids[any % COUNT(ids)] | sources[any / 16 % COUNT(sources)];
}

/* Hears random frames. Where they close the set another terminal is made. Returns a sum of what came of them. */
static uint64_t hear_random(uint64_t seed)
{
    struct vt_terminal *vt = with_pool(1);
    uint64_t time = 0, sum = 0;
    unsigned outputs = 0;

    for (unsigned k = 0; k < FRAMES; k++) {
        uint64_t random = next(&seed), bytes = next(&seed);
        uint8_t data[8];
        memcpy(data, &bytes, sizeof data);
        data[0] = random % 3 != 0 ? (uint8_t)(0xA0 + data[0] % 0x20) : data[0];
        data[2] = random % 4 != 0 ? data[2] % 4 : data[2];
        time += random % 2000;
        check(vt_hear(vt, time, random_id(random), data, random % 5 == 0 ? random % 9 : 8) == VT_DONE, "random frames", "vt_hear");
        unsigned count = take(vt);
        check(count <= MOST_OUTPUTS, "random frames", "too many outputs");
        outputs += count;
        sum = 31 * sum + count + vt_look(vt) + (k % 50 == 0 ? vt_screen(vt, NULL, 0) + vt_text_of_elements(vt) : 0);
        if (vt_has_pool(vt, OWNER) == 0) {
            end(vt);
            vt = with_pool(1);
        }
    }
    end(vt);
    printf("%u frames, %u outputs\n", (unsigned)FRAMES, outputs);
    return sum;
}

int main(int count, char **words)
{
    uint8_t *bytes = count == 2 ? read_file(words[1], &pool_size) : NULL;

    if (bytes == NULL) {
        fprintf(stderr, "misuse: the pool cannot be read\n");
        return 2;
    }
    pool = bytes;
    other_version();
    misuse(made(254, 1), "not begun", 254);
    misuse(made(0xFFFFFFFF, 1), "not begun", 0xFFFFFFFF);
    misuse(made(OWN, 0x20001D0000000001), "no pool", OWN);
    misuse(with_pool(0x20001D0000000001), "with a pool", OWN);
    struct vt_terminal *vt = with_pool(0x20001D0000000001);
    lose(vt);
    misuse(vt, "lost", OWN);
    check(hear_random(1) == hear_random(1), "random frames", "the second time is another");
    free(bytes);
    return wrong == 0 ? 0 : 1;
}
