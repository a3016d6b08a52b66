#include "lines.h"
#include "vt_terminal.h"
#include <string.h>

/* ---- parts of a text */

static struct span from(struct span text, size_t index)
{
    struct span rest = {text.at + index, text.count - index};
    return rest;
}

/* Takes a text off the front of another one, if it stands there. */
static bool skip(struct span *text, const char *front)
{
    size_t count = strlen(front);
    if (text->count < count || memcmp(text->at, front, count) != 0) {
        return false;
    }
    *text = from(*text, count);
    return true;
}

/* Cuts a text at its first `byte`, which is in neither part. Returns false and leaves `rest` if it has none. */
static bool cut(struct span text, char byte, struct span *front, struct span *rest)
{
    const char *place = text.count == 0 ? NULL : memchr(text.at, byte, text.count);
    if (place == NULL) {
        return false;
    }
    front->at = text.at;
    front->count = (size_t)(place - text.at);
    *rest = from(text, front->count + 1);
    return true;
}

static bool is(struct span text, const char *other)
{
    return text.count == strlen(other) && memcmp(text.at, other, text.count) == 0;
}

/* ---- numbers */

/* The value of a hex digit, or -1. */
static int hex_value(char digit)
{
    if (digit >= '0' && digit <= '9') {
        return digit - '0';
    }
    if (digit >= 'a' && digit <= 'f') {
        return digit - 'a' + 10;
    }
    if (digit >= 'A' && digit <= 'F') {
        return digit - 'A' + 10;
    }
    return -1;
}

static bool is_hex(struct span text)
{
    for (size_t i = 0; i < text.count; i++) {
        if (hex_value(text.at[i]) < 0) {
            return false;
        }
    }
    return true;
}

/* The value of at most 16 hex digits, the first highest. */
static uint64_t hex_number(struct span digits)
{
    uint64_t value = 0;
    for (size_t i = 0; i < digits.count; i++) {
        value = value << 4 | (uint64_t)hex_value(digits.at[i]);
    }
    return value;
}

/* Reads a decimal number of at most `most`, with any leading zeros. */
static bool decimal(struct span text, uint64_t most, uint64_t *number)
{
    uint64_t value = 0;
    for (size_t i = 0; i < text.count; i++) {
        char digit = text.at[i];
        if (digit < '0' || digit > '9') {
            return false;
        }
        value = value * 10 + (uint64_t)(digit - '0');
        if (value > most) {
            return false;
        }
    }
    *number = value;
    return text.count > 0;
}

bool read_address(struct span text, uint32_t most, uint32_t *address)
{
    if (text.count != 2 || !is_hex(text) || hex_number(text) > most) {
        return false;
    }
    *address = (uint32_t)hex_number(text);
    return true;
}

bool read_name(struct span text, uint64_t *name)
{
    if (text.count != 16 || !is_hex(text)) {
        return false;
    }
    *name = hex_number(text);
    return true;
}

/* ---- actions of the operator */

static bool read_id(struct span text, struct action *action)
{
    uint64_t id = 0;
    bool ok = decimal(text, 65534, &id);
    action->id = (uint32_t)id;
    return ok;
}

/* Reads `ID N`. */
static bool read_id_and_number(struct span text, struct action *action)
{
    struct span id;
    struct span rest;
    uint64_t number = 0;
    if (!cut(text, ' ', &id, &rest) || !read_id(id, action) || !decimal(rest, UINT32_MAX, &number)) {
        return false;
    }
    action->number = (uint32_t)number;
    return true;
}

/* Reads `ID TEXT`. */
static bool read_id_and_text(struct span text, struct action *action)
{
    struct span id;
    return cut(text, ' ', &id, &action->text) && read_id(id, action);
}

bool read_action(struct span text, struct action *action)
{
    struct action none = {0, 0, 0, {"", 0}};
    *action = none;
    if (skip(&text, "press ")) {
        action->kind = VT_PRESS;
        return read_id(text, action);
    }
    if (skip(&text, "release ")) {
        action->kind = VT_RELEASE;
        return read_id(text, action);
    }
    if (skip(&text, "select ")) {
        action->kind = VT_SELECT;
        return read_id(text, action);
    }
    if (skip(&text, "number ")) {
        action->kind = VT_NUMBER;
        return read_id_and_number(text, action);
    }
    if (skip(&text, "text ")) {
        action->kind = ACTION_TEXT;
        return read_id_and_text(text, action);
    }
    action->kind = VT_SET;
    return skip(&text, "set ") && read_address(text, 255, &action->number);
}

/* ---- frames */

static struct line of_kind(enum line_kind kind)
{
    struct line line;
    memset(&line, 0, sizeof line);
    line.kind = kind;
    return line;
}

static struct line faulty(const char *fault)
{
    struct line line = of_kind(LINE_FAULT);
    line.fault = fault;
    return line;
}

/* Reads `(S.F)`, the time of a line in microseconds, and what follows it. */
static bool read_time(struct span text, uint64_t *time, struct span *rest)
{
    struct span seconds;
    struct span fraction;
    uint64_t s = 0;
    uint64_t f = 0;
    if (!skip(&text, "(") || !cut(text, '.', &seconds, &text) || !cut(text, ')', &fraction, rest)) {
        return false;
    }
    if (seconds.count > 12 || (fraction.count != 6 && fraction.count != 9)) {
        return false;
    }
    if (!decimal(seconds, UINT64_MAX / 10 - 1, &s) || !decimal(fraction, UINT64_MAX / 10 - 1, &f)) {
        return false;
    }
    *time = s * 1000000 + (fraction.count == 9 ? f / 1000 : f);
    return true;
}

/* Reads ` interface WORD`, with at most ` R` or ` T` behind it, and returns the word. */
static bool read_shape(struct span text, struct span *word)
{
    struct span interface;
    struct span last;
    struct span suffix;
    if (!skip(&text, " ") || !cut(text, ' ', &interface, &last)) {
        return false;
    }
    if (interface.count < 1 || interface.count > 15) {
        return false;
    }
    if (!cut(last, ' ', word, &suffix)) {
        *word = last;
        return true;
    }
    return is(suffix, "R") || is(suffix, "T");
}

/* Reads the data of a frame, two hex digits for each byte. */
static struct line read_data(uint32_t id, struct span data)
{
    if (!is_hex(data) || data.count % 2 != 0) {
        return faulty("Hex");
    }
    if (data.count > 16) {
        return faulty("Length");
    }
    struct line line = of_kind(LINE_FRAME);
    line.frame.id = id;
    line.frame.count = (uint32_t)(data.count / 2);
    for (uint32_t i = 0; i < line.frame.count; i++) {
        struct span pair = {data.at + 2 * i, 2};
        line.frame.data[i] = (uint8_t)hex_number(pair);
    }
    return line;
}

struct line read_word(struct span word)
{
    struct span id;
    struct span data;
    if (!cut(word, '#', &id, &data) || (id.count != 3 && id.count != 8)) {
        return faulty("Shape");
    }
    if (!is_hex(id)) {
        return faulty("Hex");
    }
    bool is_remote_or_fd = data.count > 0 && (data.at[0] == 'R' || data.at[0] == '#');
    if (id.count == 3 || hex_number(id) > 0x1FFFFFFF || is_remote_or_fd) {
        return of_kind(LINE_SKIPPED);
    }
    return read_data((uint32_t)hex_number(id), data);
}

static struct line read_frame_line(struct span text)
{
    uint64_t time = 0;
    struct span rest;
    struct span word;
    if (!read_time(text, &time, &rest)) {
        return faulty("Time");
    }
    if (!read_shape(rest, &word)) {
        return faulty("Shape");
    }
    struct line line = read_word(word);
    line.frame.time = time;
    return line;
}

struct line read_line(struct span text)
{
    if (text.count > 0 && text.at[text.count - 1] == '\r') {
        text.count--;
    }
    if (text.count == 0 || text.at[0] == '#') {
        return of_kind(LINE_COMMENT);
    }
    if (!skip(&text, "! ")) {
        return read_frame_line(text);
    }
    struct line line = of_kind(LINE_OPERATOR);
    return read_action(text, &line.action) ? line : faulty("Operator");
}
