#include "objects.h"
#include <stdlib.h>

/* Gives a record room for some bytes. */
static bool make_room(struct record *record, uint64_t count)
{
    if (count <= record->room) {
        return true;
    }
    uint8_t *more = count < SIZE_MAX ? realloc(record->bytes, (size_t)count) : NULL;
    if (more == NULL) {
        return false;
    }
    record->bytes = more;
    record->room = (size_t)count;
    return true;
}

/* A call that writes what there is of an object. */
typedef uint64_t reading(struct vt_terminal *at, uint32_t address, uint32_t id, uint8_t *buf, size_t room);

/* Reads what there is of an object, and returns the number of bytes. The first call fills the room that there is, and a second one is made
 * if that was too small. */
static size_t read_bytes(struct objects *objects, reading *read, uint32_t id, struct record *record)
{
    uint64_t count = read(objects->vt, objects->set, id, record->bytes, record->room);
    if (count != UINT64_MAX && count > record->room) {
        count = make_room(record, count) ? read(objects->vt, objects->set, id, record->bytes, record->room) : UINT64_MAX;
    }
    if (count == UINT64_MAX) {
        objects->lacks_memory = true;
        count = 0;
    }
    return (size_t)count;
}

static const uint8_t *read_record(struct objects *objects, uint32_t id, struct record *record)
{
    return read_bytes(objects, vt_object, id, record) == 0 ? NULL : record->bytes;
}

void read_shown(struct objects *objects)
{
    objects->lacks_memory = false;
    objects->look = vt_look(objects->vt);
    objects->set = vt_shown(objects->vt);
    vt_active(objects->vt, objects->set, &objects->active);
    uint64_t count = vt_elements(objects->vt, objects->elements, MOST_ELEMENTS);
    if (count == UINT64_MAX) {
        objects->lacks_memory = true;
        count = 0;
    }
    objects->count = count < MOST_ELEMENTS ? (size_t)count : MOST_ELEMENTS;
}

bool is_changed(const struct objects *objects)
{
    return vt_look(objects->vt) != objects->look;
}

struct sizes sizes_of(struct objects *objects)
{
    static const struct vt_profile profile = VT_STANDARD_PROFILE; /* as host_begin has it */
    struct vt_extent size;
    struct sizes sizes = {profile.width, profile.height, profile.width, profile.height};

    if (vt_picture_size(objects->vt, objects->set, VT_NO_ID, &size) == VT_DONE) {
        sizes.width = (int)size.width;
        sizes.height = (int)size.height;
    }
    return sizes;
}

int background_of(struct objects *objects)
{
    const uint8_t *record = record_named(objects, objects->active.mask, VT_DATA_MASK);
    if (record != NULL) {
        return record[VT_DATA_MASK_COLOUR];
    }
    record = record_named(objects, objects->active.mask, VT_ALARM_MASK);
    return record == NULL ? -1 : record[VT_ALARM_MASK_COLOUR];
}

const uint8_t *record_of(struct objects *objects, const struct vt_element *element)
{
    return read_record(objects, element->id, &objects->own);
}

const uint8_t *record_named(struct objects *objects, uint32_t id, enum vt_object_kind kind)
{
    if (id == VT_NO_ID) {
        return NULL;
    }
    const uint8_t *record = read_record(objects, id, &objects->named);
    return record != NULL && record[VT_RECORD_KIND] == kind ? record : NULL;
}

const uint8_t *text_of(struct objects *objects, const struct vt_element *element, size_t *count)
{
    *count = read_bytes(objects, vt_value_text, element->id, &objects->text);
    return objects->text.bytes;
}

uint32_t number_shown(struct objects *objects, uint32_t variable, uint32_t own)
{
    const uint8_t *record = record_named(objects, variable, VT_NUMBER_VARIABLE);
    return record == NULL ? own : vt_number(record, VT_NUMBER_VARIABLE_VALUE, 4);
}

uint32_t object_at(struct objects *objects, int32_t x, int32_t y)
{
    uint64_t id = vt_touch(objects->vt, x, y);
    return id > VT_NO_ID ? VT_NO_ID : (uint32_t)id;
}

int kind_of(struct objects *objects, uint32_t id)
{
    const uint8_t *record = read_record(objects, id, &objects->named);
    return record == NULL ? -1 : record[VT_RECORD_KIND];
}

/* What is active in the shown set now. */
static struct vt_active_ids active_now(const struct objects *objects)
{
    struct vt_active_ids active;
    vt_active(objects->vt, vt_shown(objects->vt), &active);
    return active;
}

uint32_t held_key(const struct objects *objects)
{
    return active_now(objects).key;
}

uint32_t selected_input(const struct objects *objects)
{
    return active_now(objects).input;
}

bool read_limits(struct objects *objects, uint32_t id, struct vt_limits *limits)
{
    return vt_limits_of(objects->vt, vt_shown(objects->vt), id, limits) == VT_DONE;
}

bool read_raw(const struct objects *objects, uint32_t id, const char *text, size_t count, uint32_t *raw)
{
    return vt_raw(objects->vt, vt_shown(objects->vt), id, text, count, raw) == VT_DONE;
}

void end_objects(struct objects *objects)
{
    free(objects->own.bytes);
    free(objects->named.bytes);
    free(objects->text.bytes);
}
