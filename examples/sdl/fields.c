/* Keys and buttons, and the fields of inputs and outputs with their texts (docs/PROFILE.md, "Shapes" and "Fields"). */
#include "painter.h"
#include "pens.h"
#include <string.h>

/* The colours of borders that records do not have: grey for keys and for disabled inputs, blue for enabled ones. */
enum { GREY = 8, BLUE = 9 };

/* ---- boxes */

static void fill_element(struct painter *painter, const struct vt_element *one, uint16_t colour)
{
    fill_box(&painter->canvas, one->x, one->y, one->width, one->height, colour);
}

/* Draws a border along the edge of an element. The half of it outside of the element is not seen. */
static void draw_border(struct painter *painter, const struct vt_element *one, uint16_t colour, double width)
{
    double right = (double)one->x + one->width, bottom = (double)one->y + one->height;
    struct point corners[4] = {{one->x, one->y}, {right, one->y}, {right, bottom}, {one->x, bottom}};
    draw_along(&painter->canvas, corners, 4, true, plain_pen(colour, width));
}

void draw_key(struct painter *painter, const struct vt_element *one, const uint8_t *record)
{
    fill_element(painter, one, record[VT_KEY_COLOUR]);
    draw_border(painter, one, GREY, 1);
}

void draw_button(struct painter *painter, const struct vt_element *one, const uint8_t *record)
{
    fill_element(painter, one, record[VT_BUTTON_COLOUR]);
    draw_border(painter, one, record[VT_BUTTON_BORDER], 4);
}

/* ---- fields */

struct field {
    const struct vt_element *one;
    struct look look;
    uint8_t colour;
    bool is_transparent; /* what is behind the field is seen */
    bool wraps;          /* a long text goes on in a new row */
    uint8_t justification;
    uint16_t border;     /* NO_COLOUR for none */
};

static bool is_inverted(const struct field *field)
{
    return field->look.is_known && (field->look.style & VT_INVERTED) != 0;
}

static uint16_t border_of_input(bool is_enabled)
{
    return is_enabled ? BLUE : GREY;
}

/* How the characters of a font look. Without a font there are none. */
static struct look look_of(struct painter *painter, uint32_t font)
{
    const uint8_t *record = record_named(&painter->objects, font, VT_FONT);
    if (record == NULL) {
        return look_with(FONT_SIZES, 0, 0);
    }
    return look_with(record[VT_FONT_SIZE], record[VT_FONT_COLOUR], record[VT_FONT_STYLE]);
}

/* Inverted characters have the colour of the field, and the field has theirs. */
static void draw_area(struct painter *painter, const struct field *field)
{
    if (is_inverted(field)) {
        fill_element(painter, field->one, field->look.colour);
    } else if (!field->is_transparent) {
        fill_element(painter, field->one, field->colour);
    }
    draw_border(painter, field->one, field->border, 2);
}

/* The number of characters without the spaces at the end. */
static size_t without_spaces(const uint8_t *text, size_t count)
{
    while (count > 0 && text[count - 1] == ' ') {
        count--;
    }
    return count;
}

/* Draws a row of a text: at the left, in the middle or at the right. One that is wider than the field begins at the left. */
static void place_row(struct painter *painter, const struct field *field, uint32_t row, const uint8_t *text, size_t count)
{
    uint32_t length = (uint32_t)count * field->look.width;
    uint32_t rest = field->one->width > length ? field->one->width - length : 0;
    uint8_t side = field->justification & 3;
    uint32_t indent = side == VT_IN_MIDDLE ? rest / 2 : side == VT_AT_RIGHT ? rest : 0;
    SDL_Color ink = palette(is_inverted(field) ? field->colour : field->look.colour);

    if (count > 0) {
        int x = field->one->x + (int)indent, y = field->one->y + (int)(row * field->look.height);
        bool is_drawn = draw_text_row(&painter->texts, painter->canvas.renderer, field->look, ink, x, y, text, count);
        painter->canvas.lacks_memory = painter->canvas.lacks_memory || !is_drawn;
    }
}

/* Draws the rows of a text, as far as a pixel of them may be in the field. */
static void draw_rows(struct painter *painter, const struct field *field, const uint8_t *text, size_t count)
{
    size_t columns = field->one->width / field->look.width;
    uint32_t rows = field->one->height / field->look.height + 1;

    columns = columns == 0 ? 1 : columns;
    if (!field->wraps) {
        count = without_spaces(text, count);
        place_row(painter, field, 0, text, count > columns ? columns + 1 : count);
        return;
    }
    for (uint32_t row = 0; row < rows && count > 0; row++) {
        size_t piece = count > columns ? columns : count;
        place_row(painter, field, row, text, without_spaces(text, piece));
        text += piece;
        count -= piece;
    }
}

static void draw_field(struct painter *painter, const struct field *field)
{
    size_t count;
    const uint8_t *text = text_of(&painter->objects, field->one, &count);

    draw_area(painter, field);
    if (field->look.is_known && count > 0) {
        draw_rows(painter, field, text, count);
    }
}

/* ---- strings and numbers */

void draw_output_string(struct painter *painter, const struct vt_element *one, const uint8_t *record)
{
    struct field field = {
        .one = one,
        .look = look_of(painter, vt_number(record, VT_OUTPUT_STRING_FONT, 2)),
        .colour = record[VT_OUTPUT_STRING_COLOUR],
        .is_transparent = (record[VT_OUTPUT_STRING_OPTIONS] & VT_FIELD_TRANSPARENT) != 0,
        .wraps = (record[VT_OUTPUT_STRING_OPTIONS] & VT_FIELD_WRAPS) != 0,
        .justification = record[VT_OUTPUT_STRING_JUSTIFICATION],
        .border = NO_COLOUR,
    };
    draw_field(painter, &field);
}

void draw_input_string(struct painter *painter, const struct vt_element *one, const uint8_t *record)
{
    struct field field = {
        .one = one,
        .look = look_of(painter, vt_number(record, VT_INPUT_STRING_FONT, 2)),
        .colour = record[VT_INPUT_STRING_COLOUR],
        .is_transparent = (record[VT_INPUT_STRING_OPTIONS] & VT_FIELD_TRANSPARENT) != 0,
        .wraps = (record[VT_INPUT_STRING_OPTIONS] & VT_FIELD_WRAPS) != 0,
        .justification = record[VT_INPUT_STRING_JUSTIFICATION],
        .border = border_of_input(record[vt_input_string_enabled_at(record)] != 0),
    };
    draw_field(painter, &field);
}

void draw_output_number(struct painter *painter, const struct vt_element *one, const uint8_t *record)
{
    struct field field = {
        .one = one,
        .look = look_of(painter, vt_number(record, VT_OUTPUT_NUMBER_FONT, 2)),
        .colour = record[VT_OUTPUT_NUMBER_COLOUR],
        .is_transparent = (record[VT_OUTPUT_NUMBER_OPTIONS] & VT_FIELD_TRANSPARENT) != 0,
        .justification = record[VT_OUTPUT_NUMBER_JUSTIFICATION],
        .border = NO_COLOUR,
    };
    draw_field(painter, &field);
}

void draw_input_number(struct painter *painter, const struct vt_element *one, const uint8_t *record)
{
    struct field field = {
        .one = one,
        .look = look_of(painter, vt_number(record, VT_INPUT_NUMBER_FONT, 2)),
        .colour = record[VT_INPUT_NUMBER_COLOUR],
        .is_transparent = (record[VT_INPUT_NUMBER_OPTIONS] & VT_FIELD_TRANSPARENT) != 0,
        .justification = record[VT_INPUT_NUMBER_JUSTIFICATION],
        .border = border_of_input((record[VT_INPUT_NUMBER_OPTIONS_TWO] & VT_IS_ENABLED) != 0),
    };
    draw_field(painter, &field);
}

/* ---- lists and booleans */

/* The item of a list is an element within it. */
void draw_input_list(struct painter *painter, const struct vt_element *one, const uint8_t *record)
{
    draw_border(painter, one, border_of_input((record[VT_INPUT_LIST_OPTIONS] & VT_IS_ENABLED) != 0), 2);
}

/* A check mark in a square, in the colour of the font, or black without one. */
static void draw_check_mark(struct painter *painter, const struct vt_element *one, struct look look)
{
    uint32_t width = one->width;
    struct point mark[3] = {{one->x + (double)(width / 5), one->y + (double)(width / 2)},
                            {one->x + (double)(width * 9 / 20), one->y + (double)(width * 3 / 4)},
                            {one->x + (double)(width * 17 / 20), one->y + (double)(width / 4)}};
    draw_along(&painter->canvas, mark, 3, false, plain_pen(look.is_known ? look.colour : 0, width / 10 + 1));
}

void draw_input_boolean(struct painter *painter, const struct vt_element *one, const uint8_t *record)
{
    struct look look = look_of(painter, vt_number(record, VT_INPUT_BOOLEAN_FONT, 2));
    uint32_t value = number_shown(&painter->objects, vt_number(record, VT_INPUT_BOOLEAN_VARIABLE, 2), record[VT_INPUT_BOOLEAN_VALUE]);

    fill_element(painter, one, record[VT_INPUT_BOOLEAN_COLOUR]);
    draw_border(painter, one, border_of_input(record[VT_INPUT_BOOLEAN_ENABLED] != 0), 2);
    if (value != 0) {
        draw_check_mark(painter, one, look);
    }
}
