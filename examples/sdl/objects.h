/* What a display reads of the terminal: the elements of the shown mask, and the record of each object that they name.
 *
 * The calls of vt_terminal.h that read are in objects.c and nowhere else. The inputs are in examples/c/host.c. */
#ifndef OBJECTS_H
#define OBJECTS_H

#include "vt_records.h"
#include "vt_terminal.h"
#include <stdbool.h>

enum { MOST_ELEMENTS = 2000 };

/* Memory for the record of an object, or for its text. */
struct record {
    uint8_t *bytes;
    size_t room;
};

struct objects {
    struct vt_terminal *vt;
    uint64_t look;             /* of the terminal, as it was read */
    uint32_t set;              /* the address of the shown working set, or 254 */
    struct vt_active_ids active;
    size_t count;              /* of the elements */
    struct vt_element elements[MOST_ELEMENTS];
    struct record own;         /* the record of the element that is drawn */
    struct record named;       /* the record of an object that it names, as its font */
    struct record text;        /* the text of a field */
    bool lacks_memory;         /* memory was refused: what was read is not all */
};

/* The size of a mask, and that of the picture of a mask with its soft keys, in pixels. */
struct sizes {
    int mask_width;
    int mask_height;
    int width;
    int height;
};

/* Reads what is shown now. */
void read_shown(struct objects *objects);

/* Whether what is shown may have changed since it was read. */
bool is_changed(const struct objects *objects);

/* The sizes of what was read. */
struct sizes sizes_of(struct objects *objects);

/* The background colour of the shown mask, or -1 if no mask is shown. */
int background_of(struct objects *objects);

/* The record of an element, until the next call. Null if it cannot be read. */
const uint8_t *record_of(struct objects *objects, const struct vt_element *element);

/* The record of an object that another one names, until the next call. Null for VT_NO_ID, or if it is of another kind. */
const uint8_t *record_named(struct objects *objects, uint32_t id, enum vt_object_kind kind);

/* The text of a field as the terminal shows it, until the next call. */
const uint8_t *text_of(struct objects *objects, const struct vt_element *element, size_t *count);

/* The number that an object shows: that of its Number Variable, or its own one if it has none. */
uint32_t number_shown(struct objects *objects, uint32_t variable, uint32_t own);

/* The key, button or input at a place, in pixels from the upper left corner of the mask. VT_NO_ID if there is none. */
uint32_t object_at(struct objects *objects, int32_t x, int32_t y);

/* The kind of an object of the shown set, or -1. */
int kind_of(struct objects *objects, uint32_t id);

/* The key or button that the operator holds now, or VT_NO_ID. */
uint32_t held_key(const struct objects *objects);

/* The input that is selected in the shown set, or VT_NO_ID. */
uint32_t selected_input(const struct objects *objects);

/* Reads what an input of the shown set accepts from the operator. Returns false for another object, or if memory was refused. */
bool read_limits(struct objects *objects, uint32_t id, struct vt_limits *limits);

/* Reads the raw value of a typed decimal for an Input Number of the shown set. Returns false if it has none. */
bool read_raw(const struct objects *objects, uint32_t id, const char *text, size_t count, uint32_t *raw);

/* Gives the memory back. */
void end_objects(struct objects *objects);

#endif
