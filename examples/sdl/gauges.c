/* Meters, linear bars and arched bars (docs/PROFILE.md, "Meters and bars"). */
#include "painter.h"
#include "pens.h"
#include <math.h>

/* The colour of the ticks of a bar, black. */
enum { TICK_COLOUR = 0 };

/* How far a value is between the least and the greatest one, as a part of a length. A value outside counts as the one next to it. */
static uint32_t share(uint32_t length, uint32_t least, uint32_t greatest, uint32_t value)
{
    if (greatest <= least) {
        return 0;
    }
    uint32_t inside = value < least ? least : value > greatest ? greatest : value;
    return (uint32_t)((uint64_t)length * (inside - least) / (greatest - least));
}

/* The place of a tick: the first at the beginning of a length, and the last at its end. */
static uint32_t tick_at(uint32_t length, uint32_t ticks, uint32_t tick)
{
    return ticks <= 1 ? 0 : length * tick / (ticks - 1);
}

/* The number of the variable that a field names, or that of a field with two bytes. */
static uint32_t value_of(struct painter *painter, const uint8_t *record, size_t variable, size_t own)
{
    return number_shown(&painter->objects, vt_number(record, variable, 2), vt_number(record, own, 2));
}

/* ---- angles of meters and arched bars, in steps of 2 degrees */

/* An arc on which a value goes from its start counterclockwise, or from its end clockwise. */
struct scale {
    uint32_t start;
    uint32_t steps;
    bool is_clockwise;
};

/* The angle after some steps from where the least value is. */
static uint32_t angle_at(struct scale scale, uint32_t steps)
{
    return scale.start % CIRCLE + (scale.is_clockwise ? scale.steps - steps : steps);
}

static void draw_arc(struct canvas *canvas, struct oval oval, struct scale scale, struct pen pen)
{
    struct point points[MOST_POINTS];
    size_t count = arc_points(oval, scale.start, scale.steps, points);
    draw_along(canvas, points, count, false, pen);
}

/* ---- meters */

/* A circle in a meter, with so many tenths of its radius. */
static struct oval dial(const struct vt_element *one, double width, int tenths)
{
    struct oval oval = {{one->x + width / 2, one->y + width / 2}, width * tenths / 20, width * tenths / 20};
    return oval;
}

static void draw_dial(struct canvas *canvas, const struct vt_element *one, const uint8_t *record, struct scale scale)
{
    double width = vt_number(record, VT_METER_WIDTH, 2);
    uint8_t options = record[VT_METER_OPTIONS];
    struct pen arc = plain_pen(record[VT_METER_ARC_COLOUR], 2), border = plain_pen(record[VT_METER_BORDER_COLOUR], 2);
    struct point circle[MOST_POINTS];

    if ((options & VT_METER_HAS_ARC) != 0) {
        draw_arc(canvas, dial(one, width, 9), scale, arc);
    }
    if ((options & VT_METER_HAS_BORDER) != 0 && width > 0) {
        arc_points(dial(one, width, 10), 0, CIRCLE - 1, circle);
        draw_along(canvas, circle, CIRCLE, true, border);
    }
    for (uint32_t k = 0; (options & VT_METER_HAS_TICKS) != 0 && k < record[VT_METER_TICKS]; k++) {
        uint32_t angle = angle_at(scale, tick_at(scale.steps, record[VT_METER_TICKS], k));
        draw_between(canvas, point_on(dial(one, width, 8), angle), point_on(dial(one, width, 9), angle), arc);
    }
}

void draw_meter(struct painter *painter, const struct vt_element *one, const uint8_t *record)
{
    struct scale scale = {record[VT_METER_START], steps_between(record[VT_METER_START], record[VT_METER_END]),
                          (record[VT_METER_OPTIONS] & VT_METER_CLOCKWISE) != 0};
    uint32_t value = value_of(painter, record, VT_METER_VARIABLE, VT_METER_VALUE);
    uint32_t steps = share(scale.steps, vt_number(record, VT_METER_MIN, 2), vt_number(record, VT_METER_MAX, 2), value);
    struct oval needle = dial(one, vt_number(record, VT_METER_WIDTH, 2), 8);

    draw_dial(&painter->canvas, one, record, scale);
    draw_between(&painter->canvas, needle.centre, point_on(needle, angle_at(scale, steps)),
                 plain_pen(record[VT_METER_NEEDLE_COLOUR], 3));
}

/* ---- linear bars, with lengths in tenths of a pixel */

/* The axis of a bar: from the end at which it begins to the other one. */
struct axis {
    const struct vt_element *one;
    bool is_level;   /* it goes to the right or to the left, and else up or down */
    bool is_turned;  /* it begins at the right or the lower end */
    uint32_t length;
    uint32_t across; /* how long a line across the bar is */
};

static struct axis axis_of(const struct vt_element *one, const uint8_t *record)
{
    uint32_t width = 10 * vt_number(record, VT_LINEAR_BAR_WIDTH, 2), height = 10 * vt_number(record, VT_LINEAR_BAR_HEIGHT, 2);
    bool is_level = (record[VT_LINEAR_BAR_OPTIONS] & VT_LINEAR_LEVEL) != 0;
    bool is_forwards = (record[VT_LINEAR_BAR_OPTIONS] & VT_LINEAR_FORWARDS) != 0; /* to the right or up */
    struct axis axis = {one, is_level, is_level != is_forwards, is_level ? width : height, is_level ? height : width};
    return axis;
}

/* The place in a bar after a length along its axis, and so far across it. */
static struct point place_in(struct axis axis, uint32_t along, uint32_t across)
{
    double length = (axis.is_turned ? axis.length - along : along) / 10.0;
    struct point place = {axis.one->x + (axis.is_level ? length : across / 10.0),
                          axis.one->y + (axis.is_level ? across / 10.0 : length)};
    return place;
}

static void draw_across(struct canvas *canvas, struct axis axis, uint32_t along, uint32_t across, struct pen pen)
{
    draw_between(canvas, place_in(axis, along, 0), place_in(axis, along, across), pen);
}

void draw_linear_bar(struct painter *painter, const struct vt_element *one, const uint8_t *record)
{
    struct canvas *canvas = &painter->canvas;
    struct axis axis = axis_of(one, record);
    uint8_t options = record[VT_LINEAR_BAR_OPTIONS], colour = record[VT_LINEAR_BAR_COLOUR];
    uint32_t least = vt_number(record, VT_LINEAR_BAR_MIN, 2), greatest = vt_number(record, VT_LINEAR_BAR_MAX, 2);
    uint32_t value = value_of(painter, record, VT_LINEAR_BAR_VARIABLE, VT_LINEAR_BAR_VALUE);
    uint32_t target = value_of(painter, record, VT_LINEAR_BAR_TARGET_VARIABLE, VT_LINEAR_BAR_TARGET);
    uint32_t length = share(axis.length, least, greatest, value), tick = axis.across < 40 ? axis.across : 40;
    struct point filled[4] = {place_in(axis, 0, 0), place_in(axis, length, 0), place_in(axis, length, axis.across),
                              place_in(axis, 0, axis.across)};
    struct point border[4] = {filled[0], place_in(axis, axis.length, 0), place_in(axis, axis.length, axis.across), filled[3]};

    if ((options & VT_LINEAR_AS_LINE) != 0) {
        draw_across(canvas, axis, length, axis.across, plain_pen(colour, 2));
    } else {
        add_area(canvas, filled, 4);
        fill_area(canvas, plain(colour));
    }
    if ((options & VT_LINEAR_HAS_BORDER) != 0) {
        draw_along(canvas, border, 4, true, plain_pen(colour, 1));
    }
    for (uint32_t k = 0; (options & VT_LINEAR_HAS_TICKS) != 0 && k < record[VT_LINEAR_BAR_TICKS]; k++) {
        draw_across(canvas, axis, tick_at(axis.length, record[VT_LINEAR_BAR_TICKS], k), tick, plain_pen(TICK_COLOUR, 1));
    }
    if ((options & VT_LINEAR_HAS_TARGET) != 0) {
        struct pen pen = plain_pen(record[VT_LINEAR_BAR_TARGET_COLOUR], 2);
        draw_across(canvas, axis, share(axis.length, least, greatest, target), axis.across, pen);
    }
}

/* ---- arched bars */

/* The outer edge of an arched bar, or with its width as the distance the inner one. */
static struct oval ring(const struct vt_element *one, const uint8_t *record, double distance)
{
    double x = vt_number(record, VT_ARCHED_BAR_WIDTH, 2) / 2.0, y = vt_number(record, VT_ARCHED_BAR_HEIGHT, 2) / 2.0;
    struct oval oval = {{one->x + x, one->y + y}, fmax(0, x - distance), fmax(0, y - distance)};
    return oval;
}

/* Fills the bar: along the outer edge, and back along the inner one. */
static void fill_arch(struct canvas *canvas, struct oval outer, struct oval inner, uint32_t start, uint32_t steps, uint8_t colour)
{
    struct point points[MOST_POINTS];
    size_t count = arc_points(outer, start, steps, points);
    size_t back = arc_points(inner, start, steps, points + count);

    turn_around(points + count, back);
    add_area(canvas, points, count + back);
    fill_area(canvas, plain(colour));
}

void draw_arched_bar(struct painter *painter, const struct vt_element *one, const uint8_t *record)
{
    struct canvas *canvas = &painter->canvas;
    uint8_t options = record[VT_ARCHED_BAR_OPTIONS], colour = record[VT_ARCHED_BAR_COLOUR];
    struct scale scale = {record[VT_ARCHED_BAR_START], steps_between(record[VT_ARCHED_BAR_START], record[VT_ARCHED_BAR_END]),
                          (options & VT_ARCHED_CLOCKWISE) != 0};
    struct oval outer = ring(one, record, 0), inner = ring(one, record, vt_number(record, VT_ARCHED_BAR_BAR_WIDTH, 2));
    uint32_t least = vt_number(record, VT_ARCHED_BAR_MIN, 2), greatest = vt_number(record, VT_ARCHED_BAR_MAX, 2);
    uint32_t value = value_of(painter, record, VT_ARCHED_BAR_VARIABLE, VT_ARCHED_BAR_VALUE);
    uint32_t target = value_of(painter, record, VT_ARCHED_BAR_TARGET_VARIABLE, VT_ARCHED_BAR_TARGET);
    uint32_t steps = share(scale.steps, least, greatest, value), angle = angle_at(scale, steps);

    if ((options & VT_ARCHED_AS_LINE) != 0) {
        draw_between(canvas, point_on(inner, angle), point_on(outer, angle), plain_pen(colour, 2));
    } else {
        fill_arch(canvas, outer, inner, scale.is_clockwise ? angle : scale.start, steps, colour);
    }
    if ((options & VT_ARCHED_HAS_BORDER) != 0) {
        draw_arc(canvas, outer, scale, plain_pen(colour, 1));
        draw_arc(canvas, inner, scale, plain_pen(colour, 1));
    }
    if ((options & VT_ARCHED_HAS_TARGET) != 0) {
        angle = angle_at(scale, share(scale.steps, least, greatest, target));
        draw_between(canvas, point_on(inner, angle), point_on(outer, angle), plain_pen(record[VT_ARCHED_BAR_TARGET_COLOUR], 2));
    }
}
