/* Where each field lies in the record of an object, as vt_object writes it and as it is in an object pool (ISO 11783-6;
 * docs/PROFILE.md, "Records"). Made by scripts/records.py from the tables by which records are read and written.
 *
 * A record begins with its ID, two bytes, and its kind, one byte. All numbers are from the lowest byte on: vt_number reads one. The
 * field of a list has its first entry, and its count is in a field of its own. Where a field lies behind a list, a function tells its
 * place in a record that is whole.
 */
#ifndef VT_RECORDS_H
#define VT_RECORDS_H

#include <stddef.h>
#include <stdint.h>

/* The number of 1, 2 or 4 bytes at a place of a record. */
static inline uint32_t vt_number(const uint8_t *record, size_t at, size_t size)
{
    uint32_t number = 0;
    for (size_t k = size; k > 0; k--) {
        number = number << 8 | record[at + k - 1];
    }
    return number;
}

/* The same for a signed number of 2 or 4 bytes. */
static inline int32_t vt_signed(const uint8_t *record, size_t at, size_t size)
{
    uint32_t number = vt_number(record, at, size);
    return size == 2 ? (int32_t)(int16_t)(uint16_t)number : (int32_t)number;
}

enum { VT_RECORD_ID = 0, VT_RECORD_KIND = 2 };

/* The kinds of objects. */
enum vt_object_kind {
    VT_WORKING_SET = 0,
    VT_DATA_MASK = 1,
    VT_ALARM_MASK = 2,
    VT_CONTAINER = 3,
    VT_SOFT_KEY_MASK = 4,
    VT_KEY = 5,
    VT_BUTTON = 6,
    VT_INPUT_BOOLEAN = 7,
    VT_INPUT_STRING = 8,
    VT_INPUT_NUMBER = 9,
    VT_INPUT_LIST = 10,
    VT_OUTPUT_STRING = 11,
    VT_OUTPUT_NUMBER = 12,
    VT_LINE = 13,
    VT_RECTANGLE = 14,
    VT_ELLIPSE = 15,
    VT_POLYGON = 16,
    VT_METER = 17,
    VT_LINEAR_BAR = 18,
    VT_ARCHED_BAR = 19,
    VT_PICTURE = 20,
    VT_NUMBER_VARIABLE = 21,
    VT_STRING_VARIABLE = 22,
    VT_FONT = 23,
    VT_LINE_ATTRIBUTES = 24,
    VT_FILL_ATTRIBUTES = 25,
    VT_INPUT_ATTRIBUTES = 26,
    VT_OBJECT_POINTER = 27,
    VT_MACRO = 28,
};

/* The bits of the options of fields: strings, and numbers without the second one. */
enum vt_field_options {
    VT_FIELD_TRANSPARENT = 1,
    VT_FIELD_WRAPS = 2,
};

/* The bit of the second options of an Input Number, and of the options of an Input List. */
enum vt_enabled_option {
    VT_IS_ENABLED = 1,
};

/* Where the text of a field is, the lowest two bits of its justification. */
enum vt_justification {
    VT_AT_LEFT = 0,
    VT_IN_MIDDLE = 1,
    VT_AT_RIGHT = 2,
};

/* The bits of the style of a font. */
enum vt_font_style {
    VT_BOLD = 1,
    VT_CROSSED_OUT = 2,
    VT_UNDERLINED = 4,
    VT_ITALIC = 8,
    VT_INVERTED = 16,
};

/* The bits of the line suppression of a Rectangle: the sides that it has not. */
enum vt_suppression {
    VT_NO_UPPER_SIDE = 1,
    VT_NO_RIGHT_SIDE = 2,
    VT_NO_LOWER_SIDE = 4,
    VT_NO_LEFT_SIDE = 8,
};

/* The types of Fill Attributes. Others are as VT_FILL_OWN. */
enum vt_fill_type {
    VT_FILL_NOTHING = 0,
    VT_FILL_LINE = 1,
    VT_FILL_OWN = 2,
    VT_FILL_PATTERN = 3,
};

/* The types of an Ellipse. */
enum vt_ellipse_type {
    VT_WHOLE = 0,
    VT_ARC = 1,
    VT_SEGMENT = 2,
    VT_SECTOR = 3,
};

/* The type of a Polygon that does not go back to its first point. Those of other types are closed, and filled. */
enum vt_polygon_type {
    VT_OPEN_POLYGON = 3,
};

/* The bits of the options of a Meter. */
enum vt_meter_options {
    VT_METER_HAS_ARC = 1,
    VT_METER_HAS_BORDER = 2,
    VT_METER_HAS_TICKS = 4,
    VT_METER_CLOCKWISE = 8,
};

/* The bits of the options of a Linear Bar. */
enum vt_linear_bar_options {
    VT_LINEAR_HAS_BORDER = 1,
    VT_LINEAR_HAS_TARGET = 2,
    VT_LINEAR_HAS_TICKS = 4,
    VT_LINEAR_AS_LINE = 8,
    VT_LINEAR_LEVEL = 16,
    VT_LINEAR_FORWARDS = 32,
};

/* The bits of the options of an Arched Bar. */
enum vt_arched_bar_options {
    VT_ARCHED_HAS_BORDER = 1,
    VT_ARCHED_HAS_TARGET = 2,
    VT_ARCHED_AS_LINE = 8,
    VT_ARCHED_CLOCKWISE = 16,
};

/* The bits of the options of a Picture: pixels of the transparency colour are not drawn; the bytes are pairs of a count and a byte. */
enum vt_picture_options {
    VT_PICTURE_TRANSPARENT = 1,
    VT_PICTURE_PACKED = 4,
};

/* ---- the record of a working set, kind 0 */

enum {
    VT_WORKING_SET_COLOUR = 3, /* 1 byte */
    VT_WORKING_SET_SELECTABLE = 4, /* 1 byte */
    VT_WORKING_SET_ACTIVE_MASK = 5, /* 2 bytes */
    VT_WORKING_SET_COUNT_OF_CHILDREN = 7, /* 1 byte */
    VT_WORKING_SET_COUNT_OF_MACROS = 8, /* 1 byte */
    VT_WORKING_SET_COUNT_OF_LANGUAGES = 9, /* 1 byte */
    VT_WORKING_SET_CHILDREN = 10, /* 6 bytes each: ID, x and y, signed */
};

/* 2 bytes each: the event and the macro. */
static inline size_t vt_working_set_macros_at(const uint8_t *record)
{
    return 10 + 6 * (size_t)vt_number(record, 7, 1);
}

/* 2 bytes each: two letters. */
static inline size_t vt_working_set_languages_at(const uint8_t *record)
{
    return 10 + 6 * (size_t)vt_number(record, 7, 1) + 2 * (size_t)vt_number(record, 8, 1);
}

/* ---- the record of a data mask, kind 1 */

enum {
    VT_DATA_MASK_COLOUR = 3, /* 1 byte */
    VT_DATA_MASK_SOFT_KEY_MASK = 4, /* 2 bytes */
    VT_DATA_MASK_COUNT_OF_CHILDREN = 6, /* 1 byte */
    VT_DATA_MASK_COUNT_OF_MACROS = 7, /* 1 byte */
    VT_DATA_MASK_CHILDREN = 8, /* 6 bytes each: ID, x and y, signed */
};

/* 2 bytes each: the event and the macro. */
static inline size_t vt_data_mask_macros_at(const uint8_t *record)
{
    return 8 + 6 * (size_t)vt_number(record, 6, 1);
}

/* ---- the record of an alarm mask, kind 2 */

enum {
    VT_ALARM_MASK_COLOUR = 3, /* 1 byte */
    VT_ALARM_MASK_SOFT_KEY_MASK = 4, /* 2 bytes */
    VT_ALARM_MASK_PRIORITY = 6, /* 1 byte */
    VT_ALARM_MASK_ACOUSTIC = 7, /* 1 byte */
    VT_ALARM_MASK_COUNT_OF_CHILDREN = 8, /* 1 byte */
    VT_ALARM_MASK_COUNT_OF_MACROS = 9, /* 1 byte */
    VT_ALARM_MASK_CHILDREN = 10, /* 6 bytes each: ID, x and y, signed */
};

/* 2 bytes each: the event and the macro. */
static inline size_t vt_alarm_mask_macros_at(const uint8_t *record)
{
    return 10 + 6 * (size_t)vt_number(record, 8, 1);
}

/* ---- the record of a container, kind 3 */

enum {
    VT_CONTAINER_WIDTH = 3, /* 2 bytes */
    VT_CONTAINER_HEIGHT = 5, /* 2 bytes */
    VT_CONTAINER_HIDDEN = 7, /* 1 byte */
    VT_CONTAINER_COUNT_OF_CHILDREN = 8, /* 1 byte */
    VT_CONTAINER_COUNT_OF_MACROS = 9, /* 1 byte */
    VT_CONTAINER_CHILDREN = 10, /* 6 bytes each: ID, x and y, signed */
};

/* 2 bytes each: the event and the macro. */
static inline size_t vt_container_macros_at(const uint8_t *record)
{
    return 10 + 6 * (size_t)vt_number(record, 8, 1);
}

/* ---- the record of a soft key mask, kind 4 */

enum {
    VT_SOFT_KEY_MASK_COLOUR = 3, /* 1 byte */
    VT_SOFT_KEY_MASK_COUNT_OF_KEYS = 4, /* 1 byte */
    VT_SOFT_KEY_MASK_COUNT_OF_MACROS = 5, /* 1 byte */
    VT_SOFT_KEY_MASK_KEYS = 6, /* 2 bytes each: ID */
};

/* 2 bytes each: the event and the macro. */
static inline size_t vt_soft_key_mask_macros_at(const uint8_t *record)
{
    return 6 + 2 * (size_t)vt_number(record, 4, 1);
}

/* ---- the record of a key, kind 5 */

enum {
    VT_KEY_COLOUR = 3, /* 1 byte */
    VT_KEY_KEY_CODE = 4, /* 1 byte */
    VT_KEY_COUNT_OF_CHILDREN = 5, /* 1 byte */
    VT_KEY_COUNT_OF_MACROS = 6, /* 1 byte */
    VT_KEY_CHILDREN = 7, /* 6 bytes each: ID, x and y, signed */
};

/* 2 bytes each: the event and the macro. */
static inline size_t vt_key_macros_at(const uint8_t *record)
{
    return 7 + 6 * (size_t)vt_number(record, 5, 1);
}

/* ---- the record of a button, kind 6 */

enum {
    VT_BUTTON_WIDTH = 3, /* 2 bytes */
    VT_BUTTON_HEIGHT = 5, /* 2 bytes */
    VT_BUTTON_COLOUR = 7, /* 1 byte */
    VT_BUTTON_BORDER = 8, /* 1 byte */
    VT_BUTTON_KEY_CODE = 9, /* 1 byte */
    VT_BUTTON_OPTIONS = 10, /* 1 byte */
    VT_BUTTON_COUNT_OF_CHILDREN = 11, /* 1 byte */
    VT_BUTTON_COUNT_OF_MACROS = 12, /* 1 byte */
    VT_BUTTON_CHILDREN = 13, /* 6 bytes each: ID, x and y, signed */
};

/* 2 bytes each: the event and the macro. */
static inline size_t vt_button_macros_at(const uint8_t *record)
{
    return 13 + 6 * (size_t)vt_number(record, 11, 1);
}

/* ---- the record of an input boolean, kind 7 */

enum {
    VT_INPUT_BOOLEAN_COLOUR = 3, /* 1 byte */
    VT_INPUT_BOOLEAN_WIDTH = 4, /* 2 bytes */
    VT_INPUT_BOOLEAN_FONT = 6, /* 2 bytes */
    VT_INPUT_BOOLEAN_VARIABLE = 8, /* 2 bytes */
    VT_INPUT_BOOLEAN_VALUE = 10, /* 1 byte */
    VT_INPUT_BOOLEAN_ENABLED = 11, /* 1 byte */
    VT_INPUT_BOOLEAN_COUNT_OF_MACROS = 12, /* 1 byte */
    VT_INPUT_BOOLEAN_MACROS = 13, /* 2 bytes each: the event and the macro */
};

/* ---- the record of an input string, kind 8 */

enum {
    VT_INPUT_STRING_WIDTH = 3, /* 2 bytes */
    VT_INPUT_STRING_HEIGHT = 5, /* 2 bytes */
    VT_INPUT_STRING_COLOUR = 7, /* 1 byte */
    VT_INPUT_STRING_FONT = 8, /* 2 bytes */
    VT_INPUT_STRING_INPUT_ATTRIBUTES = 10, /* 2 bytes */
    VT_INPUT_STRING_OPTIONS = 12, /* 1 byte */
    VT_INPUT_STRING_VARIABLE = 13, /* 2 bytes */
    VT_INPUT_STRING_JUSTIFICATION = 15, /* 1 byte */
    VT_INPUT_STRING_COUNT_OF_TEXT = 16, /* 1 byte */
    VT_INPUT_STRING_TEXT = 17, /* bytes */
};

/* 1 byte. */
static inline size_t vt_input_string_enabled_at(const uint8_t *record)
{
    return 17 + (size_t)vt_number(record, 16, 1);
}

/* 1 byte. */
static inline size_t vt_input_string_count_of_macros_at(const uint8_t *record)
{
    return 18 + (size_t)vt_number(record, 16, 1);
}

/* 2 bytes each: the event and the macro. */
static inline size_t vt_input_string_macros_at(const uint8_t *record)
{
    return 19 + (size_t)vt_number(record, 16, 1);
}

/* ---- the record of an input number, kind 9 */

enum {
    VT_INPUT_NUMBER_WIDTH = 3, /* 2 bytes */
    VT_INPUT_NUMBER_HEIGHT = 5, /* 2 bytes */
    VT_INPUT_NUMBER_COLOUR = 7, /* 1 byte */
    VT_INPUT_NUMBER_FONT = 8, /* 2 bytes */
    VT_INPUT_NUMBER_OPTIONS = 10, /* 1 byte */
    VT_INPUT_NUMBER_VARIABLE = 11, /* 2 bytes */
    VT_INPUT_NUMBER_VALUE = 13, /* 4 bytes */
    VT_INPUT_NUMBER_MIN = 17, /* 4 bytes */
    VT_INPUT_NUMBER_MAX = 21, /* 4 bytes */
    VT_INPUT_NUMBER_OFFSET = 25, /* 4 bytes, signed */
    VT_INPUT_NUMBER_SCALE = 29, /* 4 bytes, a float of IEEE 754 */
    VT_INPUT_NUMBER_DECIMALS = 33, /* 1 byte */
    VT_INPUT_NUMBER_FORMAT = 34, /* 1 byte */
    VT_INPUT_NUMBER_JUSTIFICATION = 35, /* 1 byte */
    VT_INPUT_NUMBER_OPTIONS_TWO = 36, /* 1 byte */
    VT_INPUT_NUMBER_COUNT_OF_MACROS = 37, /* 1 byte */
    VT_INPUT_NUMBER_MACROS = 38, /* 2 bytes each: the event and the macro */
};

/* ---- the record of an input list, kind 10 */

enum {
    VT_INPUT_LIST_WIDTH = 3, /* 2 bytes */
    VT_INPUT_LIST_HEIGHT = 5, /* 2 bytes */
    VT_INPUT_LIST_VARIABLE = 7, /* 2 bytes */
    VT_INPUT_LIST_VALUE = 9, /* 1 byte */
    VT_INPUT_LIST_COUNT_OF_ITEMS = 10, /* 1 byte */
    VT_INPUT_LIST_OPTIONS = 11, /* 1 byte */
    VT_INPUT_LIST_COUNT_OF_MACROS = 12, /* 1 byte */
    VT_INPUT_LIST_ITEMS = 13, /* 2 bytes each: ID */
};

/* 2 bytes each: the event and the macro. */
static inline size_t vt_input_list_macros_at(const uint8_t *record)
{
    return 13 + 2 * (size_t)vt_number(record, 10, 1);
}

/* ---- the record of an output string, kind 11 */

enum {
    VT_OUTPUT_STRING_WIDTH = 3, /* 2 bytes */
    VT_OUTPUT_STRING_HEIGHT = 5, /* 2 bytes */
    VT_OUTPUT_STRING_COLOUR = 7, /* 1 byte */
    VT_OUTPUT_STRING_FONT = 8, /* 2 bytes */
    VT_OUTPUT_STRING_OPTIONS = 10, /* 1 byte */
    VT_OUTPUT_STRING_VARIABLE = 11, /* 2 bytes */
    VT_OUTPUT_STRING_JUSTIFICATION = 13, /* 1 byte */
    VT_OUTPUT_STRING_COUNT_OF_TEXT = 14, /* 2 bytes */
    VT_OUTPUT_STRING_TEXT = 16, /* bytes */
};

/* 1 byte. */
static inline size_t vt_output_string_count_of_macros_at(const uint8_t *record)
{
    return 16 + (size_t)vt_number(record, 14, 2);
}

/* 2 bytes each: the event and the macro. */
static inline size_t vt_output_string_macros_at(const uint8_t *record)
{
    return 17 + (size_t)vt_number(record, 14, 2);
}

/* ---- the record of an output number, kind 12 */

enum {
    VT_OUTPUT_NUMBER_WIDTH = 3, /* 2 bytes */
    VT_OUTPUT_NUMBER_HEIGHT = 5, /* 2 bytes */
    VT_OUTPUT_NUMBER_COLOUR = 7, /* 1 byte */
    VT_OUTPUT_NUMBER_FONT = 8, /* 2 bytes */
    VT_OUTPUT_NUMBER_OPTIONS = 10, /* 1 byte */
    VT_OUTPUT_NUMBER_VARIABLE = 11, /* 2 bytes */
    VT_OUTPUT_NUMBER_VALUE = 13, /* 4 bytes */
    VT_OUTPUT_NUMBER_OFFSET = 17, /* 4 bytes, signed */
    VT_OUTPUT_NUMBER_SCALE = 21, /* 4 bytes, a float of IEEE 754 */
    VT_OUTPUT_NUMBER_DECIMALS = 25, /* 1 byte */
    VT_OUTPUT_NUMBER_FORMAT = 26, /* 1 byte */
    VT_OUTPUT_NUMBER_JUSTIFICATION = 27, /* 1 byte */
    VT_OUTPUT_NUMBER_COUNT_OF_MACROS = 28, /* 1 byte */
    VT_OUTPUT_NUMBER_MACROS = 29, /* 2 bytes each: the event and the macro */
};

/* ---- the record of a line, kind 13 */

enum {
    VT_LINE_LINE_ATTRIBUTES = 3, /* 2 bytes */
    VT_LINE_WIDTH = 5, /* 2 bytes */
    VT_LINE_HEIGHT = 7, /* 2 bytes */
    VT_LINE_DIRECTION = 9, /* 1 byte */
    VT_LINE_COUNT_OF_MACROS = 10, /* 1 byte */
    VT_LINE_MACROS = 11, /* 2 bytes each: the event and the macro */
};

/* ---- the record of a rectangle, kind 14 */

enum {
    VT_RECTANGLE_LINE_ATTRIBUTES = 3, /* 2 bytes */
    VT_RECTANGLE_WIDTH = 5, /* 2 bytes */
    VT_RECTANGLE_HEIGHT = 7, /* 2 bytes */
    VT_RECTANGLE_SUPPRESSION = 9, /* 1 byte */
    VT_RECTANGLE_FILL = 10, /* 2 bytes */
    VT_RECTANGLE_COUNT_OF_MACROS = 12, /* 1 byte */
    VT_RECTANGLE_MACROS = 13, /* 2 bytes each: the event and the macro */
};

/* ---- the record of an ellipse, kind 15 */

enum {
    VT_ELLIPSE_LINE_ATTRIBUTES = 3, /* 2 bytes */
    VT_ELLIPSE_WIDTH = 5, /* 2 bytes */
    VT_ELLIPSE_HEIGHT = 7, /* 2 bytes */
    VT_ELLIPSE_ELLIPSE_TYPE = 9, /* 1 byte */
    VT_ELLIPSE_START = 10, /* 1 byte */
    VT_ELLIPSE_END = 11, /* 1 byte */
    VT_ELLIPSE_FILL = 12, /* 2 bytes */
    VT_ELLIPSE_COUNT_OF_MACROS = 14, /* 1 byte */
    VT_ELLIPSE_MACROS = 15, /* 2 bytes each: the event and the macro */
};

/* ---- the record of a polygon, kind 16 */

enum {
    VT_POLYGON_WIDTH = 3, /* 2 bytes */
    VT_POLYGON_HEIGHT = 5, /* 2 bytes */
    VT_POLYGON_LINE_ATTRIBUTES = 7, /* 2 bytes */
    VT_POLYGON_FILL = 9, /* 2 bytes */
    VT_POLYGON_POLYGON_TYPE = 11, /* 1 byte */
    VT_POLYGON_COUNT_OF_POINTS = 12, /* 1 byte */
    VT_POLYGON_COUNT_OF_MACROS = 13, /* 1 byte */
    VT_POLYGON_POINTS = 14, /* 4 bytes each: x and y */
};

/* 2 bytes each: the event and the macro. */
static inline size_t vt_polygon_macros_at(const uint8_t *record)
{
    return 14 + 4 * (size_t)vt_number(record, 12, 1);
}

/* ---- the record of a meter, kind 17 */

enum {
    VT_METER_WIDTH = 3, /* 2 bytes */
    VT_METER_NEEDLE_COLOUR = 5, /* 1 byte */
    VT_METER_BORDER_COLOUR = 6, /* 1 byte */
    VT_METER_ARC_COLOUR = 7, /* 1 byte */
    VT_METER_OPTIONS = 8, /* 1 byte */
    VT_METER_TICKS = 9, /* 1 byte */
    VT_METER_START = 10, /* 1 byte */
    VT_METER_END = 11, /* 1 byte */
    VT_METER_MIN = 12, /* 2 bytes */
    VT_METER_MAX = 14, /* 2 bytes */
    VT_METER_VARIABLE = 16, /* 2 bytes */
    VT_METER_VALUE = 18, /* 2 bytes */
    VT_METER_COUNT_OF_MACROS = 20, /* 1 byte */
    VT_METER_MACROS = 21, /* 2 bytes each: the event and the macro */
};

/* ---- the record of a linear bar, kind 18 */

enum {
    VT_LINEAR_BAR_WIDTH = 3, /* 2 bytes */
    VT_LINEAR_BAR_HEIGHT = 5, /* 2 bytes */
    VT_LINEAR_BAR_COLOUR = 7, /* 1 byte */
    VT_LINEAR_BAR_TARGET_COLOUR = 8, /* 1 byte */
    VT_LINEAR_BAR_OPTIONS = 9, /* 1 byte */
    VT_LINEAR_BAR_TICKS = 10, /* 1 byte */
    VT_LINEAR_BAR_MIN = 11, /* 2 bytes */
    VT_LINEAR_BAR_MAX = 13, /* 2 bytes */
    VT_LINEAR_BAR_VARIABLE = 15, /* 2 bytes */
    VT_LINEAR_BAR_VALUE = 17, /* 2 bytes */
    VT_LINEAR_BAR_TARGET_VARIABLE = 19, /* 2 bytes */
    VT_LINEAR_BAR_TARGET = 21, /* 2 bytes */
    VT_LINEAR_BAR_COUNT_OF_MACROS = 23, /* 1 byte */
    VT_LINEAR_BAR_MACROS = 24, /* 2 bytes each: the event and the macro */
};

/* ---- the record of an arched bar, kind 19 */

enum {
    VT_ARCHED_BAR_WIDTH = 3, /* 2 bytes */
    VT_ARCHED_BAR_HEIGHT = 5, /* 2 bytes */
    VT_ARCHED_BAR_COLOUR = 7, /* 1 byte */
    VT_ARCHED_BAR_TARGET_COLOUR = 8, /* 1 byte */
    VT_ARCHED_BAR_OPTIONS = 9, /* 1 byte */
    VT_ARCHED_BAR_START = 10, /* 1 byte */
    VT_ARCHED_BAR_END = 11, /* 1 byte */
    VT_ARCHED_BAR_BAR_WIDTH = 12, /* 2 bytes */
    VT_ARCHED_BAR_MIN = 14, /* 2 bytes */
    VT_ARCHED_BAR_MAX = 16, /* 2 bytes */
    VT_ARCHED_BAR_VARIABLE = 18, /* 2 bytes */
    VT_ARCHED_BAR_VALUE = 20, /* 2 bytes */
    VT_ARCHED_BAR_TARGET_VARIABLE = 22, /* 2 bytes */
    VT_ARCHED_BAR_TARGET = 24, /* 2 bytes */
    VT_ARCHED_BAR_COUNT_OF_MACROS = 26, /* 1 byte */
    VT_ARCHED_BAR_MACROS = 27, /* 2 bytes each: the event and the macro */
};

/* ---- the record of a picture, kind 20 */

enum {
    VT_PICTURE_WIDTH = 3, /* 2 bytes */
    VT_PICTURE_ACTUAL_WIDTH = 5, /* 2 bytes */
    VT_PICTURE_ACTUAL_HEIGHT = 7, /* 2 bytes */
    VT_PICTURE_FORMAT = 9, /* 1 byte */
    VT_PICTURE_OPTIONS = 10, /* 1 byte */
    VT_PICTURE_TRANSPARENCY = 11, /* 1 byte */
    VT_PICTURE_COUNT_OF_BYTES = 12, /* 4 bytes */
    VT_PICTURE_COUNT_OF_MACROS = 16, /* 1 byte */
    VT_PICTURE_BYTES = 17, /* bytes */
};

/* 2 bytes each: the event and the macro. */
static inline size_t vt_picture_macros_at(const uint8_t *record)
{
    return 17 + (size_t)vt_number(record, 12, 4);
}

/* ---- the record of a number variable, kind 21 */

enum {
    VT_NUMBER_VARIABLE_VALUE = 3, /* 4 bytes */
};

/* ---- the record of a string variable, kind 22 */

enum {
    VT_STRING_VARIABLE_COUNT_OF_TEXT = 3, /* 2 bytes */
    VT_STRING_VARIABLE_TEXT = 5, /* bytes */
};

/* ---- the record of a font, kind 23 */

enum {
    VT_FONT_COLOUR = 3, /* 1 byte */
    VT_FONT_SIZE = 4, /* 1 byte */
    VT_FONT_FONT_TYPE = 5, /* 1 byte */
    VT_FONT_STYLE = 6, /* 1 byte */
    VT_FONT_COUNT_OF_MACROS = 7, /* 1 byte */
    VT_FONT_MACROS = 8, /* 2 bytes each: the event and the macro */
};

/* ---- the record of a line attributes, kind 24 */

enum {
    VT_LINE_ATTRIBUTES_COLOUR = 3, /* 1 byte */
    VT_LINE_ATTRIBUTES_WIDTH = 4, /* 1 byte */
    VT_LINE_ATTRIBUTES_LINE_ART = 5, /* 2 bytes */
    VT_LINE_ATTRIBUTES_COUNT_OF_MACROS = 7, /* 1 byte */
    VT_LINE_ATTRIBUTES_MACROS = 8, /* 2 bytes each: the event and the macro */
};

/* ---- the record of a fill attributes, kind 25 */

enum {
    VT_FILL_ATTRIBUTES_FILL_TYPE = 3, /* 1 byte */
    VT_FILL_ATTRIBUTES_COLOUR = 4, /* 1 byte */
    VT_FILL_ATTRIBUTES_PATTERN = 5, /* 2 bytes */
    VT_FILL_ATTRIBUTES_COUNT_OF_MACROS = 7, /* 1 byte */
    VT_FILL_ATTRIBUTES_MACROS = 8, /* 2 bytes each: the event and the macro */
};

/* ---- the record of an input attributes, kind 26 */

enum {
    VT_INPUT_ATTRIBUTES_VALIDATION_TYPE = 3, /* 1 byte */
    VT_INPUT_ATTRIBUTES_COUNT_OF_TEXT = 4, /* 1 byte */
    VT_INPUT_ATTRIBUTES_TEXT = 5, /* bytes */
};

/* 1 byte. */
static inline size_t vt_input_attributes_count_of_macros_at(const uint8_t *record)
{
    return 5 + (size_t)vt_number(record, 4, 1);
}

/* 2 bytes each: the event and the macro. */
static inline size_t vt_input_attributes_macros_at(const uint8_t *record)
{
    return 6 + (size_t)vt_number(record, 4, 1);
}

/* ---- the record of an object pointer, kind 27 */

enum {
    VT_OBJECT_POINTER_VALUE = 3, /* 2 bytes */
};

/* ---- the record of a macro, kind 28 */

enum {
    VT_MACRO_COUNT_OF_BYTES = 3, /* 2 bytes */
    VT_MACRO_BYTES = 5, /* bytes */
};

/* The number of bytes of a whole record by its kind and its counts, or 0 for a kind that is not known. */
static inline size_t vt_record_length(const uint8_t *record)
{
    switch (record[VT_RECORD_KIND]) {
    case VT_WORKING_SET:
        return 10 + 6 * (size_t)vt_number(record, 7, 1) + 2 * (size_t)vt_number(record, 8, 1)
               + 2 * (size_t)vt_number(record, 9, 1);
    case VT_DATA_MASK:
        return 8 + 6 * (size_t)vt_number(record, 6, 1) + 2 * (size_t)vt_number(record, 7, 1);
    case VT_ALARM_MASK:
        return 10 + 6 * (size_t)vt_number(record, 8, 1) + 2 * (size_t)vt_number(record, 9, 1);
    case VT_CONTAINER:
        return 10 + 6 * (size_t)vt_number(record, 8, 1) + 2 * (size_t)vt_number(record, 9, 1);
    case VT_SOFT_KEY_MASK:
        return 6 + 2 * (size_t)vt_number(record, 4, 1) + 2 * (size_t)vt_number(record, 5, 1);
    case VT_KEY:
        return 7 + 6 * (size_t)vt_number(record, 5, 1) + 2 * (size_t)vt_number(record, 6, 1);
    case VT_BUTTON:
        return 13 + 6 * (size_t)vt_number(record, 11, 1) + 2 * (size_t)vt_number(record, 12, 1);
    case VT_INPUT_BOOLEAN:
        return 13 + 2 * (size_t)vt_number(record, 12, 1);
    case VT_INPUT_STRING:
        return 19 + (size_t)vt_number(record, 16, 1)
               + 2 * (size_t)vt_number(record, vt_input_string_count_of_macros_at(record), 1);
    case VT_INPUT_NUMBER:
        return 38 + 2 * (size_t)vt_number(record, 37, 1);
    case VT_INPUT_LIST:
        return 13 + 2 * (size_t)vt_number(record, 10, 1) + 2 * (size_t)vt_number(record, 12, 1);
    case VT_OUTPUT_STRING:
        return 17 + (size_t)vt_number(record, 14, 2)
               + 2 * (size_t)vt_number(record, vt_output_string_count_of_macros_at(record), 1);
    case VT_OUTPUT_NUMBER:
        return 29 + 2 * (size_t)vt_number(record, 28, 1);
    case VT_LINE:
        return 11 + 2 * (size_t)vt_number(record, 10, 1);
    case VT_RECTANGLE:
        return 13 + 2 * (size_t)vt_number(record, 12, 1);
    case VT_ELLIPSE:
        return 15 + 2 * (size_t)vt_number(record, 14, 1);
    case VT_POLYGON:
        return 14 + 4 * (size_t)vt_number(record, 12, 1) + 2 * (size_t)vt_number(record, 13, 1);
    case VT_METER:
        return 21 + 2 * (size_t)vt_number(record, 20, 1);
    case VT_LINEAR_BAR:
        return 24 + 2 * (size_t)vt_number(record, 23, 1);
    case VT_ARCHED_BAR:
        return 27 + 2 * (size_t)vt_number(record, 26, 1);
    case VT_PICTURE:
        return 17 + (size_t)vt_number(record, 12, 4) + 2 * (size_t)vt_number(record, 16, 1);
    case VT_NUMBER_VARIABLE:
        return 7;
    case VT_STRING_VARIABLE:
        return 5 + (size_t)vt_number(record, 3, 2);
    case VT_FONT:
        return 8 + 2 * (size_t)vt_number(record, 7, 1);
    case VT_LINE_ATTRIBUTES:
        return 8 + 2 * (size_t)vt_number(record, 7, 1);
    case VT_FILL_ATTRIBUTES:
        return 8 + 2 * (size_t)vt_number(record, 7, 1);
    case VT_INPUT_ATTRIBUTES:
        return 6 + (size_t)vt_number(record, 4, 1)
               + 2 * (size_t)vt_number(record, vt_input_attributes_count_of_macros_at(record), 1);
    case VT_OBJECT_POINTER:
        return 5;
    case VT_MACRO:
        return 5 + (size_t)vt_number(record, 3, 2);
    default:
        return 0;
    }
}

#endif
