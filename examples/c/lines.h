/* Reading of log lines (docs/PROFILE.md, "Log lines"). It allocates nothing, and what it returns points into the line. */
#ifndef LINES_H
#define LINES_H

#include <stdbool.h>
#include <stddef.h>
#include <stdint.h>

/* Some bytes of a line. */
struct span {
    const char *at;
    size_t count;
};

struct frame {
    uint64_t time; /* in microseconds */
    uint32_t id;
    uint32_t count;
    uint8_t data[8];
};

/* The kind of an action is one of enum vt_action, or ACTION_TEXT. */
enum { ACTION_TEXT = 5 };

struct action {
    uint32_t kind;
    uint32_t id;
    uint32_t number;
    struct span text;
};

enum line_kind { LINE_FRAME, LINE_OPERATOR, LINE_SKIPPED, LINE_COMMENT, LINE_FAULT };

struct line {
    enum line_kind kind;
    const char *fault; /* the name of the fault of a LINE_FAULT */
    struct frame frame;
    struct action action;
};

/* Reads a line, given without its newline. */
struct line read_line(struct span text);

/* Reads `ID#DATA`, the word of a frame. The frame has the time 0. */
struct line read_word(struct span word);

/* Reads an action of the operator, such as `press 400`. Returns false if it is none. */
bool read_action(struct span text, struct action *action);

/* Reads an address of two hex digits of at most `most`, and a NAME of 16 hex digits. They return false if the text is none. */
bool read_address(struct span text, uint32_t most, uint32_t *address);
bool read_name(struct span text, uint64_t *name);

#endif
