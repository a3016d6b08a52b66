/* What the operator types for the selected input, until it is entered. */
#ifndef ENTRY_H
#define ENTRY_H

#include "lines.h"
#include "objects.h"

struct entry {
    uint32_t id; /* the input, or VT_NO_ID where nothing is typed for */
    struct vt_limits limits;
    char text[256];
    size_t count; /* the bytes of `text`, behind which is a zero */
};

/* Begins an empty text for an input of the shown set. For another object none is begun. */
void begin_entry(struct entry *entry, struct objects *objects, uint32_t id);

/* Appends typed characters. Those of more than one byte are left out, and those that an Input String has no room for. */
void type_text(struct entry *entry, const char *typed);

/* Takes the last character back. */
void erase_last(struct entry *entry);

/* Ends the entry, and makes the action of what was typed: a text for an Input String, a decimal number for an Input Number, and a value
 * or an index for an Input Boolean or an Input List. Returns false where what was typed is no number of the input. The terminal refuses a
 * number beyond the limits. */
bool finish_entry(struct entry *entry, struct objects *objects, struct action *action);

#endif
