#include "entry.h"
#include <string.h>

/* The most digits of a value or an index, which 32 bits hold. */
enum { MOST_DIGITS = 9 };

void begin_entry(struct entry *entry, struct objects *objects, uint32_t id)
{
    memset(entry, 0, sizeof *entry);
    entry->id = read_limits(objects, id, &entry->limits) ? id : VT_NO_ID;
}

/* The most bytes that may be typed. */
static size_t most_bytes(const struct entry *entry)
{
    return entry->limits.kind == VT_INPUT_STRING ? entry->limits.length : 16;
}

void type_text(struct entry *entry, const char *typed)
{
    for (; *typed != '\0'; typed++) {
        unsigned char byte = (unsigned char)*typed;
        if (byte >= 0x20 && byte < 0x7F && entry->count < most_bytes(entry)) {
            entry->text[entry->count++] = *typed;
        }
    }
    entry->text[entry->count] = '\0';
}

void erase_last(struct entry *entry)
{
    if (entry->count > 0) {
        entry->text[--entry->count] = '\0';
    }
}

/* Reads digits alone. */
static bool read_digits(const struct entry *entry, uint32_t *number)
{
    if (entry->count == 0 || entry->count > MOST_DIGITS || strspn(entry->text, "0123456789") != entry->count) {
        return false;
    }
    *number = 0;
    for (size_t k = 0; k < entry->count; k++) {
        *number = 10 * *number + (uint32_t)(entry->text[k] - '0');
    }
    return true;
}

bool finish_entry(struct entry *entry, struct objects *objects, struct action *action)
{
    memset(action, 0, sizeof *action);
    action->kind = VT_NUMBER;
    action->id = entry->id;
    entry->id = VT_NO_ID;
    switch (entry->limits.kind) {
    case VT_INPUT_STRING:
        action->kind = ACTION_TEXT;
        action->text.at = entry->text;
        action->text.count = entry->count;
        return true;
    case VT_INPUT_NUMBER:
        return read_raw(objects, action->id, entry->text, entry->count, &action->number);
    default:
        return read_digits(entry, &action->number);
    }
}
