/* Segyolant's terminal for C: an ISOBUS virtual terminal (ISO 11783-6) that lies in the caller's memory.
 *
 * It takes frames of the bus, the time and actions of the operator, and gives the frames to send, the refusals to the operator, the
 * screen as text, each object as it is now, and pictures of masks. It has no global state, no thread, no file and no clock.
 * docs/EMBEDDING.md explains it; C++ has segyolant.hpp and Rust has bindings/rust, which are safe to use.
 *
 * Link with crates/vt_terminal/out/libvt_terminal.a, and define rattle_alloc, rattle_realloc and rattle_dealloc (vt_heap.h).
 *
 * Preconditions of every call with a terminal `at` but vt_begin and vt_init; nothing checks them:
 *  - `at` is a terminal made by vt_begin and not yet ended by vt_done;
 *  - no other call for the same terminal runs at the same time.
 * For vt_begin and vt_init `at` is writable memory of vt_size() bytes at a multiple of 16, and no terminal that is not yet ended.
 *
 * Bytes are given as a pointer and a count; the pointer may be null if the count is 0. A call with a buffer `buf` of `room` bytes returns
 * how many bytes there are, also where that is more than the room, and writes as many as there is room for; `buf` may be null if `room` is
 * 0. Where memory was refused it returns UINT64_MAX.
 */
#ifndef VT_TERMINAL_H
#define VT_TERMINAL_H

#include <stddef.h>
#include <stdint.h>

#ifdef __cplusplus
extern "C" {
#endif

/* The version of this interface: 65536 times the first number, 256 times the second, and the third. vt_begin refuses a library whose
 * first two numbers are others. A library with further kinds of outputs, events or results has another first or second number. */
#define VT_VERSION 0x000200u

/* The functions that stand whole in this header. The shared library has them too, for languages that read no header. */
#ifndef VT_INLINE
#define VT_INLINE static inline
#endif

/* A terminal. Its memory is the caller's: vt_size() bytes at a multiple of 16. */
struct vt_terminal;

/* Eight bytes as a number, the first lowest, and a number as eight bytes: written out, since compilers make one instruction of it so. */
VT_INLINE uint64_t vt_word_of(const uint8_t *at)
{
    return (uint64_t)at[0] | (uint64_t)at[1] << 8 | (uint64_t)at[2] << 16 | (uint64_t)at[3] << 24 | (uint64_t)at[4] << 32 |
           (uint64_t)at[5] << 40 | (uint64_t)at[6] << 48 | (uint64_t)at[7] << 56;
}

VT_INLINE void vt_write_word(uint8_t *at, uint64_t word)
{
    at[0] = (uint8_t)word;
    at[1] = (uint8_t)(word >> 8);
    at[2] = (uint8_t)(word >> 16);
    at[3] = (uint8_t)(word >> 24);
    at[4] = (uint8_t)(word >> 32);
    at[5] = (uint8_t)(word >> 40);
    at[6] = (uint8_t)(word >> 48);
    at[7] = (uint8_t)(word >> 56);
}

/* The first bytes of some data as a number, at most eight, the first lowest. */
VT_INLINE uint64_t vt_bits_of(const uint8_t *data, size_t count)
{
    uint64_t bits = 0;
    if (count == 8) {
        return vt_word_of(data);
    }
    for (size_t i = 0; i < count && i < 8; i++) {
        bits |= (uint64_t)data[i] << 8 * i;
    }
    return bits;
}

/* The results of calls that can be refused. After all but VT_DONE the terminal is unchanged but for the text written last, with one
 * exception: after VT_NO_MEMORY of vt_act or vt_text the time may have moved on, as by vt_tick, and outputs of that may wait. */
enum vt_result {
    VT_DONE = 0,          /* the call is done */
    VT_NO_MEMORY = 1,     /* memory was refused; take the outputs, if there are any, and make the same call again */
    VT_NO_SUCH = 2,       /* an argument is out of range: there is no such frame, action, address or input */
    VT_WAITING = 3,       /* outputs wait: take them by vt_take first */
    VT_NOT_BEGUN = 4,     /* the own address given to vt_begin is above 253 */
    VT_NO_POOL = 5,       /* the bytes are no accepted object pool */
    VT_OTHER_VERSION = 6, /* the library, or a struct, is of another version than this header */
    VT_RESULT_BITS = 0x7FFFFFFF /* none of the results: it makes the type 32 bits wide */
};

/* What the terminal answers to requests for its technical data (ISO 11783-6, Get Memory, Get Number of Soft Keys, Get Text Font
 * Data, Get Hardware), and the sizes by which pictures, elements and touches are made. It changes nothing else. The version is always 3. */
struct vt_profile {
    uint32_t size;              /* sizeof(struct vt_profile) */
    uint32_t memory;            /* for pools, in bytes */
    uint8_t soft_key_width;     /* in pixels */
    uint8_t soft_key_height;    /* in pixels */
    uint8_t virtual_soft_keys;
    uint8_t physical_soft_keys;
    uint8_t small_fonts;        /* a bit for each size */
    uint8_t large_fonts;        /* a bit for each size */
    uint8_t font_styles;        /* a bit for each style */
    uint8_t boot_time;          /* in seconds */
    uint8_t graphic_type;       /* 0: 2 colours, 1: 16, 2: 256 */
    uint8_t hardware;           /* a bit for each feature */
    uint16_t width;             /* of a mask, in pixels */
    uint16_t height;            /* of a mask, in pixels */
};

/* The profile of docs/PROFILE.md, as an initializer: 1 MB, 480 by 480 pixels, six soft keys of 64 by 64 pixels. */
#define VT_STANDARD_PROFILE { sizeof(struct vt_profile), 1048576, 64, 64, 64, 6, 0x7F, 0x7F, 0, 0, 2, 0, 480, 480 }

/* ---- making and ending */

/* The version of the library, as VT_VERSION is that of this header. */
uint32_t vt_version(void);

/* The number of bytes of a terminal. */
size_t vt_size(void);

/* The call behind vt_begin, which packs the profile into five numbers. */
void vt_init(struct vt_terminal *at, uint32_t own, uint64_t name, uint32_t memory, uint32_t keys, uint32_t fonts,
             uint32_t hardware, uint32_t size);

/* Makes a terminal at `at`, with its address and NAME (ISO 11783-5) and its profile. Allocates nothing. VT_OTHER_VERSION if the library or
 * the profile is of another version: then no terminal is made. VT_NOT_BEGUN for an address above 253: then one is made that refuses each
 * input. */
VT_INLINE enum vt_result vt_begin(struct vt_terminal *at, uint32_t own, uint64_t name, const struct vt_profile *profile)
{
    uint32_t keys = (uint32_t)profile->soft_key_width | (uint32_t)profile->soft_key_height << 8 |
                    (uint32_t)profile->virtual_soft_keys << 16 | (uint32_t)profile->physical_soft_keys << 24;
    uint32_t fonts = (uint32_t)profile->small_fonts | (uint32_t)profile->large_fonts << 8 | (uint32_t)profile->font_styles << 16;
    uint32_t hardware = (uint32_t)profile->boot_time | (uint32_t)profile->graphic_type << 8 | (uint32_t)profile->hardware << 16;
    if (vt_version() >> 8 != VT_VERSION >> 8 || profile->size != sizeof *profile) {
        return VT_OTHER_VERSION;
    }
    vt_init(at, own, name, profile->memory, keys, fonts, hardware, (uint32_t)profile->width | (uint32_t)profile->height << 16);
    return own > 253 ? VT_NOT_BEGUN : VT_DONE;
}

/* Ends a terminal and gives back the memory that it took. The memory at `at` stays the caller's. */
void vt_done(struct vt_terminal *at);

/* The call behind vt_preload. `pool` is not null. */
enum vt_result vt_preload_bytes(struct vt_terminal *at, uint32_t address, const uint8_t *pool, size_t count);

/* Adds a working set with an object pool that is there from the start, at an address without a set (at most 253, not the own one).
 * VT_NO_SUCH if the address is none of these, VT_NO_POOL if the pool has a fault or breaks a rule. The bytes are not kept. The set is
 * closed more than three seconds after the first time that is told from then on, unless a frame comes from its address. */
VT_INLINE enum vt_result vt_preload(struct vt_terminal *at, uint32_t address, const uint8_t *pool, size_t count)
{
    return vt_preload_bytes(at, address, pool == NULL ? (const uint8_t *)"" : pool, count);
}

/* ---- inputs
 *
 * Each has its time, in microseconds of any monotonic clock. An earlier time than the latest one counts as the latest; a time that is too
 * late cannot be taken back. */

/* The call behind vt_hear: the data bytes are in `bits`, the first lowest. */
enum vt_result vt_hear_bits(struct vt_terminal *at, uint64_t time, uint32_t id, uint32_t count, uint64_t bits);

/* A frame of the bus, with the time of its reception, its identifier of 29 bits, and 0 to 8 data bytes. VT_NO_SUCH for an identifier above
 * 1FFFFFFF or more bytes. */
VT_INLINE enum vt_result vt_hear(struct vt_terminal *at, uint64_t time, uint32_t id, const uint8_t *data, size_t count)
{
    return vt_hear_bits(at, time, id, count > 8 ? 9 : (uint32_t)count, vt_bits_of(data, count));
}

/* The time alone: sessions time out, and silent sets are closed. Call it at vt_deadline, or some times a second. */
enum vt_result vt_tick(struct vt_terminal *at, uint64_t time);

/* As the time of vt_act and vt_text alone: the latest time so far, as an operator's line in a log has it. Nothing times out for it. To
 * vt_hear and vt_tick it is a time like others, after which nothing times out any more. */
#define VT_LATEST UINT64_MAX

/* Actions of the operator for vt_act. */
enum vt_action {
    VT_PRESS = 0,   /* presses the key or button `id` */
    VT_RELEASE = 1, /* releases it */
    VT_SELECT = 2,  /* selects the input `id` */
    VT_NUMBER = 3,  /* enters `number` into the input `id`: the raw value, without offset and scale (vt_raw) */
    VT_SET = 4,     /* selects the working set at the address `number`; `id` has no meaning, 0 will do */
    VT_ACTION_BITS = 0x7FFFFFFF /* none of the actions: it makes the type 32 bits wide */
};

/* An action of the operator at a time: first the time moves on as by vt_tick, unless it is VT_LATEST, and then the action is done.
 * VT_NO_SUCH for another kind, an ID above 65535 (with VT_SET too) or an address above 255. */
enum vt_result vt_act(struct vt_terminal *at, uint64_t time, enum vt_action kind, uint32_t id, uint32_t number);

/* The call behind vt_text. `text` is not null. */
enum vt_result vt_text_bytes(struct vt_terminal *at, uint64_t time, uint32_t id, const uint8_t *text, size_t count);

/* A text of the operator for the input `id`, at a time as with vt_act. VT_NO_SUCH for an ID above 65535. The bytes are not kept. */
VT_INLINE enum vt_result vt_text(struct vt_terminal *at, uint64_t time, uint32_t id, const uint8_t *text, size_t count)
{
    return vt_text_bytes(at, time, id, text == NULL ? (const uint8_t *)"" : text, count);
}

/* ---- what a host sends by itself; a lost terminal has no output
 *
 * They are no inputs: they change nothing, and leave the answer of vt_redraws. */

/* Puts the address claim among the outputs, which a host sends at its start. */
enum vt_result vt_claim(struct vt_terminal *at);

/* Puts the status message among the outputs, which a host sends each second. */
enum vt_result vt_status(struct vt_terminal *at);

/* ---- outputs */

enum vt_output {
    VT_NONE = 0,
    VT_FRAME = 1,
    VT_REFUSED = 2,
    VT_EVENT = 3,
    VT_OUTPUT_BITS = 0x7FFFFFFF /* none of the kinds: it makes the type 32 bits wide */
};

/* Why an action of the operator was refused (docs/PROFILE.md, "Refusals"). */
enum vt_refusal {
    VT_NOT_SHOWN = 1,
    VT_DISABLED = 2,
    VT_OUT_OF_RANGE = 3,
    VT_TOO_LONG = 4,
    VT_WRONG_KIND = 5,
    VT_NOT_PRESSED = 6,
    VT_HELD = 7, /* a key of the set is held */
    VT_BUSY = 8,
    VT_NO_SET = 9
};

/* What an event tells (docs/EMBEDDING.md, "Events"). Each is about the working set at an address, but for VT_SHOWN and VT_ADDRESS_LOST. Its two
 * numbers are 0 where nothing else is said; VT_LOW and VT_HIGH are the halves of one. A number that is too large for its place is told
 * as the greatest one there. */
enum vt_event_kind {
    VT_SET_CAME = 1,       /* a set registered where none was, or where one fell silent in this input (vt_sets has its NAME) */
    VT_SET_SILENT = 2,     /* a set fell silent; it is closed and its pool is gone */
    VT_SET_CLOSED = 3,     /* a set is closed because its NAME does not hold its address any more; its pool is gone */
    VT_POOL_ACCEPTED = 4,  /* the first pool of a set is accepted */
    VT_POOL_UPDATED = 5,   /* an update of a set's pool is accepted */
    VT_POOL_FAULTY = 6,    /* an upload is refused for a record: first the fault, 1 to 5 or 7, second its offset in the upload */
    VT_POOL_REFUSED = 7,   /* an upload is refused by a rule: VT_LOW(first) its number, VT_HIGH(first) the offset of a command in its macro;
                            * VT_LOW(second) the object, VT_HIGH(second) the one to which it refers, each VT_NO_ID where there is none */
    VT_POOL_DELETED = 8,   /* the implement deleted its pool */
    VT_UPLOADED = 9,       /* another 1,024 bytes of an upload have come: first the bytes received, second those received or announced */
    VT_TEXT_ABORTED = 10,  /* a message to the implement, as a text of the operator, ended without an acknowledgement of its end */
    VT_SHOWN = 11,         /* another set, mask or soft key mask is shown: the address of the set, 254 for none; first the mask, second its
                            * soft key mask, each VT_NO_ID where there is none */
    VT_ALARM = 12,         /* an alarm mask is shown, or its priority or acoustic signal is another one: first the mask; VT_LOW(second) the
                            * priority, 0 high, 1 medium, 2 low; VT_HIGH(second) the signal, 0 highest, 1 medium, 2 lowest, 3 none */
    VT_ALARM_OVER = 13,    /* no alarm mask is shown any more; the address is that of the last one */
    VT_SIGNAL = 14,        /* Control Audio: VT_LOW(first) how often, VT_HIGH(first) Hz; VT_LOW(second) on, VT_HIGH(second) off, in ms */
    VT_VOLUME = 15,        /* Set Audio Volume: first the percent */
    VT_ADDRESS_LOST = 16,  /* another node took the terminal's address, which it tells; nothing is sent any more */
    VT_EVENT_BITS = 0x7FFFFFFF /* none of the events: it makes the type 32 bits wide */
};

/* The halves of a number of 32 bits. */
#define VT_LOW(number) ((uint32_t)(number) & 0xFFFFu)
#define VT_HIGH(number) ((uint32_t)(number) >> 16)

/* The calls behind vt_take. vt_next takes the next output and returns its kind. The others tell of the output taken last: the identifier of
 * the frame, the number of the refusal, or the kind of the event; the number of data bytes, or the address of the event; the data bytes, the
 * first lowest, or the numbers of the event. All are 0 after VT_NONE, and after an input, a claim or a status until the next output is
 * taken. A preload, and a call that is refused with VT_NO_SUCH or VT_WAITING, leave the output taken last. */
enum vt_output vt_next(struct vt_terminal *at);
uint32_t vt_output_id(const struct vt_terminal *at);
uint32_t vt_output_count(const struct vt_terminal *at);
uint64_t vt_output_data(const struct vt_terminal *at);

/* An output: a frame to send, a refusal to show to the operator, or an event. The events of an input come behind its frames and refusals. */
struct vt_out {
    enum vt_output kind;
    uint32_t id;     /* the identifier of a frame; an enum vt_refusal; an enum vt_event_kind */
    uint32_t count;  /* the number of data bytes of a frame; the address of an event */
    uint8_t data[8]; /* the data bytes, and 0 for each past the count; the numbers of an event */
};

/* An event. */
struct vt_event {
    enum vt_event_kind kind;
    uint32_t address;
    uint32_t first;
    uint32_t second;
};

/* Takes the next output, and returns its kind. Inputs, claims, statuses and preloads are refused with VT_WAITING until it has returned
 * VT_NONE or all outputs are taken. */
VT_INLINE enum vt_output vt_take(struct vt_terminal *at, struct vt_out *out)
{
    out->kind = vt_next(at);
    out->id = vt_output_id(at);
    out->count = vt_output_count(at);
    vt_write_word(out->data, vt_output_data(at));
    return out->kind;
}

/* The event that vt_take gave with VT_EVENT. */
VT_INLINE struct vt_event vt_event_of(const struct vt_out *out)
{
    uint64_t numbers = vt_word_of(out->data);
    struct vt_event event = {(enum vt_event_kind)out->id, out->count, (uint32_t)numbers, (uint32_t)(numbers >> 32)};
    return event;
}

/* ---- texts */

/* Eight bytes of the text written last, from an index on, the first lowest, and 0 for each byte past the end. Each call with a buffer
 * writes a text and copies it so. */
uint64_t vt_screen_word(const struct vt_terminal *at, uint64_t index);

/* Copies the text written last to `buf`, as much as there is room for, and fills the rest of the room with 0. */
VT_INLINE void vt_copy(const struct vt_terminal *at, uint8_t *buf, size_t room)
{
    size_t k = 0;
    for (; room - k >= 8; k += 8) {
        vt_write_word(buf + k, vt_screen_word(at, k));
    }
    for (uint64_t word = k < room ? vt_screen_word(at, k) : 0; k < room; k++, word >>= 8) {
        buf[k] = (uint8_t)word;
    }
}

/* Copies a text that was just written, of `count` bytes, and returns the count. */
VT_INLINE uint64_t vt_written(const struct vt_terminal *at, uint64_t count, uint8_t *buf, size_t room)
{
    if (count != UINT64_MAX) {
        vt_copy(at, buf, room < count ? room : (size_t)count);
    }
    return count;
}

/* ---- the screen */

/* 1 if the text of vt_screen may differ from that before the last input, or else 0. Changes of a colour, a font, a line or a filling are
 * in no text: a host that paints masks asks vt_look. */
uint32_t vt_redraws(const struct vt_terminal *at);

/* The call behind vt_screen. */
uint64_t vt_text_of_screen(struct vt_terminal *at);

/* The screen of the shown working set as text (docs/PROFILE.md, "Form of the text"). */
VT_INLINE uint64_t vt_screen(struct vt_terminal *at, uint8_t *buf, size_t room)
{
    return vt_written(at, vt_text_of_screen(at), buf, room);
}

/* ---- reading the state
 *
 * What a display draws and its dialogs ask. The calls change nothing but the text written last, and those with a terminal that is const
 * not even that. Outputs may wait. */

/* A number that is another one after each call that may have changed the picture of the shown set, its colours and fonts among it. While it
 * stays, the shown set stays, and vt_picture and vt_elements give the same of it: so a host paints anew only when it has changed. */
uint64_t vt_look(const struct vt_terminal *at);

/* The calls behind those below. A vt_text_of_ call writes a text, which vt_copy copies, and returns its number of bytes. Where memory was
 * refused the text is empty. vt_ids_of_active gives four IDs of 16 bits, the active mask lowest. */
uint64_t vt_text_of_sets(struct vt_terminal *at);
uint64_t vt_text_of_object(struct vt_terminal *at, uint32_t address, uint32_t id);
uint64_t vt_text_of_picture(struct vt_terminal *at, uint32_t address, uint32_t mask);
uint64_t vt_text_of_part(struct vt_terminal *at, uint32_t address, uint32_t id);
uint64_t vt_text_of_elements(struct vt_terminal *at);
uint64_t vt_ids_of_active(const struct vt_terminal *at, uint32_t address);
uint64_t vt_id_at(const struct vt_terminal *at, uint32_t x, uint32_t y);

/* 1 if there is a working set with a pool at an address, or else 0. */
uint64_t vt_has_pool(const struct vt_terminal *at, uint32_t address);

/* The number of no object. */
#define VT_NO_ID 65535

/* A working set. */
struct vt_set {
    uint64_t name;    /* the NAME of its master (ISO 11783-5); 0 without one */
    uint8_t address;  /* of its master */
    uint8_t has_name; /* 0 for a preloaded set before a claim of its address, or else 1 */
    uint8_t has_pool; /* 1 or 0 */
    uint8_t is_shown; /* 1 for the set of vt_shown, or else 0 */
};

/* Lists the working sets in the order in which they registered, as many as there is room for, and returns how many there are: at most
 * 254, one for each address. */
VT_INLINE uint64_t vt_sets(struct vt_terminal *at, struct vt_set *sets, size_t room)
{
    uint64_t count = vt_text_of_sets(at);
    if (count == UINT64_MAX) {
        return count;
    }
    count /= 16;
    for (size_t k = 0; k < room && k < count; k++) {
        uint64_t head = vt_screen_word(at, 16 * (uint64_t)k);
        sets[k].name = vt_screen_word(at, 16 * (uint64_t)k + 8);
        sets[k].address = (uint8_t)head;
        sets[k].has_pool = (uint8_t)(head >> 8);
        sets[k].is_shown = (uint8_t)(head >> 16);
        sets[k].has_name = (uint8_t)(head >> 24);
    }
    return count;
}

/* What is active in a working set, each VT_NO_ID where there is none. */
struct vt_active_ids {
    uint16_t mask;          /* the data mask or alarm mask */
    uint16_t soft_key_mask; /* that of the mask */
    uint16_t input;         /* the input that the operator selected */
    uint16_t key;           /* the key or button that the operator holds */
};

/* Tells what is active in the set at an address. Returns VT_DONE, or VT_NO_SUCH if there is no set with a pool, and then each is
 * VT_NO_ID. */
VT_INLINE enum vt_result vt_active(const struct vt_terminal *at, uint32_t address, struct vt_active_ids *active)
{
    uint64_t ids = vt_ids_of_active(at, address);
    active->mask = (uint16_t)ids;
    active->soft_key_mask = (uint16_t)(ids >> 16);
    active->input = (uint16_t)(ids >> 32);
    active->key = (uint16_t)(ids >> 48);
    return vt_has_pool(at, address) == 0 ? VT_NO_SUCH : VT_DONE;
}

/* Writes the record of an object of the set at an address to `buf`: its attributes as they are now, in the layout of object pools
 * (ISO 11783-6; docs/PROFILE.md, "Records"; vt_records.h). Returns the number of its bytes, 0 if there is no such object. */
VT_INLINE uint64_t vt_object(struct vt_terminal *at, uint32_t address, uint32_t id, uint8_t *buf, size_t room)
{
    return vt_written(at, vt_text_of_object(at, address, id), buf, room);
}

/* Draws a mask of the set at an address as SVG, with its soft keys in columns to its right, at the sizes of the terminal's profile
 * (docs/PROFILE.md, "Pictures"). VT_NO_ID, and each number above it, draws the active mask. An ID of no object draws a picture without
 * elements; of an object that is no mask the elements within it are drawn. Returns the number of bytes, 0 if there is no set with a pool. */
VT_INLINE uint64_t vt_picture(struct vt_terminal *at, uint32_t address, uint32_t mask, uint8_t *buf, size_t room)
{
    return vt_written(at, vt_text_of_picture(at, address, mask), buf, room);
}

/* Draws an object of the set at an address by itself as SVG: an item of a list, the label of a key, or a Working Set, whose picture is its
 * designator, in the area of a key. The object is at the upper left corner of a picture that has its size, on no background, and a pointer is
 * followed. Of a mask, too, the elements within it are drawn on its background, and of a Soft Key Mask its keys (docs/PROFILE.md, "The
 * picture of one object"). Returns the number of bytes, 0 if there is no such object. */
VT_INLINE uint64_t vt_part(struct vt_terminal *at, uint32_t address, uint32_t id, uint8_t *buf, size_t room)
{
    return vt_written(at, vt_text_of_part(at, address, id), buf, room);
}

/* The size of a picture, in pixels. */
struct vt_extent {
    uint32_t width;
    uint32_t height;
};

/* The call behind vt_picture_size: the width, and the height times 2^32. */
uint64_t vt_size_of_picture(const struct vt_terminal *at, uint32_t address, uint32_t mask);

/* Tells how large vt_picture draws a mask with its soft keys. Returns VT_DONE, or VT_NO_SUCH if there is no set with a pool; then both are
 * 0. */
VT_INLINE enum vt_result vt_picture_size(const struct vt_terminal *at, uint32_t address, uint32_t mask, struct vt_extent *size)
{
    uint64_t both = vt_size_of_picture(at, address, mask);
    size->width = (uint32_t)both;
    size->height = (uint32_t)(both >> 32);
    return vt_has_pool(at, address) == 0 ? VT_NO_SUCH : VT_DONE;
}

/* An element of the shown mask or of its soft keys, in pixels from the upper left corner of the mask. */
struct vt_element {
    uint16_t id;     /* the object: for a pointer that to which it leads */
    uint8_t kind;    /* the number of its kind (ISO 11783-6) */
    uint8_t depth;   /* how many elements are around it */
    uint16_t around; /* the index of the element around it, or VT_NO_ELEMENT in the mask itself and for a soft key */
    int32_t x;       /* the left edge */
    int32_t y;       /* the upper edge */
    uint32_t width;  /* 0 for a Working Set, which has no size of its own */
    uint32_t height; /* the same */
    int32_t left; /* nothing of it is shown to the left of this column, above `top`, from `right` on, or from `bottom` on */
    int32_t top;
    int32_t right;
    int32_t bottom;
};

/* The index of no element. */
#define VT_NO_ELEMENT 65535

/* Lists the elements that the shown mask and its soft keys show, in the order in which they are drawn, as many as there is room for, and
 * returns how many there are. Of a longer drawing the first 2,000 are listed. Each is in the list after the one around it. The soft keys
 * are in columns to the right of the mask, as vt_picture draws them; a host that shows them elsewhere moves each key with what is in it. */
VT_INLINE uint64_t vt_elements(struct vt_terminal *at, struct vt_element *elements, size_t room)
{
    uint64_t count = vt_text_of_elements(at);
    if (count == UINT64_MAX) {
        return count;
    }
    count /= 40;
    for (size_t k = 0; k < room && k < count; k++) {
        uint64_t from = 40 * (uint64_t)k;
        uint64_t head = vt_screen_word(at, from), corner = vt_screen_word(at, from + 8), size = vt_screen_word(at, from + 16);
        uint64_t first = vt_screen_word(at, from + 24), last = vt_screen_word(at, from + 32);
        struct vt_element *one = &elements[k];
        one->id = (uint16_t)head;
        one->kind = (uint8_t)(head >> 16);
        one->depth = (uint8_t)(head >> 24);
        one->around = (uint16_t)(head >> 32);
        one->x = (int32_t)(uint32_t)corner;
        one->y = (int32_t)(uint32_t)(corner >> 32);
        one->width = (uint32_t)size;
        one->height = (uint32_t)(size >> 32);
        one->left = (int32_t)(uint32_t)first;
        one->top = (int32_t)(uint32_t)(first >> 32);
        one->right = (int32_t)(uint32_t)last;
        one->bottom = (int32_t)(uint32_t)(last >> 32);
    }
    return count;
}

/* The ID of the key, button or input that is shown at a place, in pixels from the upper left corner of the mask: of several the one drawn
 * last. VT_NO_ID if there is none, as where a number is negative; UINT64_MAX if memory was refused. */
VT_INLINE uint64_t vt_touch(const struct vt_terminal *at, int32_t x, int32_t y)
{
    return vt_id_at(at, (uint32_t)x, (uint32_t)y);
}

/* ---- dialogs
 *
 * What a dialog for an input shows and accepts, and the number to enter for what the operator typed. */

/* The calls behind those below. `sign` is not 0 for a negative number; `digits` are those of the typed number without its point, and
 * `decimals` says how many of them are behind the point. vt_raw_of returns UINT64_MAX where there is no raw value, and for more than 15 digits
 * or more than 15 decimals. */
uint64_t vt_text_of_limits(struct vt_terminal *at, uint32_t address, uint32_t id);
uint64_t vt_text_of_value(struct vt_terminal *at, uint32_t address, uint32_t id);
uint64_t vt_raw_of(const struct vt_terminal *at, uint32_t address, uint32_t id, uint32_t sign, uint64_t digits, uint32_t decimals);

/* What an input accepts from the operator, and how its number is shown: (raw value + offset) / 10^places, rounded to the decimals. */
struct vt_limits {
    uint8_t kind;      /* 7 Input Boolean, 8 Input String, 9 Input Number, 10 Input List */
    uint8_t enabled;   /* 0 if it accepts nothing now, or else 1 */
    uint8_t places;    /* the decimal places by which the scale moves a number, 0 to 3 */
    uint8_t decimals;  /* the number of decimals shown, 0 to 7 */
    uint8_t items;     /* the number of items of an Input List, or 0 */
    uint8_t length;    /* the most bytes of a text, or 0 */
    uint32_t value;    /* the raw value that it shows: its own, or that of its variable; 0 for an Input String, or without that variable */
    uint32_t minimum;  /* the least raw value that VT_NUMBER accepts */
    uint32_t maximum;  /* the greatest one; below the least where no number is accepted */
    int32_t offset;
};

/* Tells the limits of an input of the set at an address. Returns VT_DONE, or VT_NO_SUCH if there is no such input: then no number and no
 * text is accepted by the limits; or VT_NO_MEMORY. */
VT_INLINE enum vt_result vt_limits_of(struct vt_terminal *at, uint32_t address, uint32_t id, struct vt_limits *limits)
{
    uint64_t count = vt_text_of_limits(at, address, id);
    uint64_t head = vt_screen_word(at, 0), first = vt_screen_word(at, 8), last = vt_screen_word(at, 16);
    limits->kind = (uint8_t)head;
    limits->enabled = (uint8_t)(head >> 8);
    limits->places = (uint8_t)(head >> 16);
    limits->decimals = (uint8_t)(head >> 24);
    limits->items = (uint8_t)(head >> 32);
    limits->length = (uint8_t)(head >> 40);
    limits->value = (uint32_t)first;
    limits->minimum = (uint32_t)(first >> 32);
    limits->maximum = (uint32_t)last;
    limits->offset = (int32_t)(uint32_t)(last >> 32);
    if (count == 0 || count == UINT64_MAX) {
        limits->minimum = 1;
    }
    return count == UINT64_MAX ? VT_NO_MEMORY : count == 0 ? VT_NO_SUCH : VT_DONE;
}

/* The text of an input or output field of the set at an address, as the terminal shows it: a number with its offset, scale and decimals, or
 * the whole text of a string in the bytes of its font. Returns the number of bytes, 0 for another object. */
VT_INLINE uint64_t vt_value_text(struct vt_terminal *at, uint32_t address, uint32_t id, uint8_t *buf, size_t room)
{
    return vt_written(at, vt_text_of_value(at, address, id), buf, room);
}

/* Finds the raw value of what the operator typed for an Input Number of the set at an address, exactly, for VT_NUMBER: an optional minus,
 * digits, and perhaps a point and more digits, 15 digits at most with leading zeros. VT_NO_SUCH if it is no such text, if there is no such
 * input, or if no raw value of 32 bits is just that number before any rounding: then `*raw` is left as it was. The raw value may still be
 * outside the limits. */
VT_INLINE enum vt_result vt_raw(const struct vt_terminal *at, uint32_t address, uint32_t id, const char *text, size_t count, uint32_t *raw)
{
    size_t k = count > 0 && text[0] == '-' ? 1 : 0, begin = k;
    uint64_t digits = 0, found;
    uint32_t all = 0, decimals = 0, behind = 0;
    for (; k < count; k++) {
        if (text[k] == '.' && behind == 0 && all > 0) {
            behind = 1;
        } else if (text[k] >= '0' && text[k] <= '9' && all < 15) {
            digits = 10 * digits + (uint64_t)(text[k] - '0');
            decimals += behind;
            all++;
        } else {
            return VT_NO_SUCH;
        }
    }
    found = all == 0 || (behind == 1 && decimals == 0) ? UINT64_MAX : vt_raw_of(at, address, id, begin == 0 ? 0 : 1, digits, decimals);
    if (found == UINT64_MAX) {
        return VT_NO_SUCH;
    }
    *raw = (uint32_t)found;
    return VT_DONE;
}

/* ---- words */

/* The call behind vt_words: the data bytes are in `bits`, the first lowest. */
uint64_t vt_text_of_words(struct vt_terminal *at, uint32_t id, uint32_t count, uint64_t bits);

/* What a frame says in words, for a log window, as `80 to 26: Hide/Show Object: Container 100, hide`: in ASCII, on one line without its end.
 * Addresses are in hexadecimal, IDs in decimal. The objects are named as the terminal has them now, so tell a frame before it is heard, or
 * once it is taken as an output. Returns the number of bytes, 0 for an identifier above 1FFFFFFF or more than eight bytes. Outputs may wait. */
VT_INLINE uint64_t vt_words(struct vt_terminal *at, uint32_t id, const uint8_t *data, size_t count, uint8_t *buf, size_t room)
{
    return vt_written(at, vt_text_of_words(at, id, count > 8 ? 9 : (uint32_t)count, vt_bits_of(data, count)), buf, room);
}

/* ---- what a host asks */

/* The address of the shown working set, or 254 if none is shown. */
uint32_t vt_shown(const struct vt_terminal *at);

/* 1 if another node took the terminal's address, or else 0. A lost terminal sends nothing any more. */
uint32_t vt_lost(const struct vt_terminal *at);

/* The first time at which a tick is due, or UINT64_MAX if there is none. Before it vt_tick does nothing but move the time on. A time
 * that is not after the last one means: at once. */
uint64_t vt_deadline(const struct vt_terminal *at);

#ifdef __cplusplus
}
#endif

#endif
