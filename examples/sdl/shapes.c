/* Lines, rectangles, ellipses and polygons (docs/PROFILE.md, "Lines and fillings" and "Shapes"). */
#include "painter.h"
#include "pens.h"
#include <math.h>

/* ---- the attributes of lines and of fillings */

/* The pen of Line Attributes. Without them no line is drawn. */
static struct pen pen_of(struct painter *painter, uint32_t attributes)
{
    struct pen pen = plain_pen(NO_COLOUR, 0);
    const uint8_t *record = record_named(&painter->objects, attributes, VT_LINE_ATTRIBUTES);
    if (record != NULL) {
        pen.colour = record[VT_LINE_ATTRIBUTES_COLOUR];
        pen.width = record[VT_LINE_ATTRIBUTES_WIDTH];
        pen.art = (uint16_t)vt_number(record, VT_LINE_ATTRIBUTES_LINE_ART, 2);
    }
    return pen;
}

/* The pattern of Fill Attributes, which begins at the upper left corner of the element. */
static struct paint pattern_of(struct painter *painter, const struct vt_element *one, uint32_t picture)
{
    struct paint paint = plain(NO_COLOUR);
    const uint8_t *record = record_named(&painter->objects, picture, VT_PICTURE);
    if (record != NULL && read_image(painter, record)) {
        paint.image = &painter->image;
        paint.left = one->x;
        paint.top = one->y;
    }
    return paint;
}

/* What Fill Attributes fill with: nothing, the colour of the line, a colour of their own, or a pattern. */
static struct paint paint_of(struct painter *painter, const struct vt_element *one, uint32_t attributes, struct pen pen)
{
    const uint8_t *record = record_named(&painter->objects, attributes, VT_FILL_ATTRIBUTES);
    if (record == NULL) {
        return plain(NO_COLOUR);
    }
    switch (record[VT_FILL_ATTRIBUTES_FILL_TYPE]) {
    case VT_FILL_NOTHING:
        return plain(NO_COLOUR);
    case VT_FILL_LINE:
        return plain(pen.colour);
    case VT_FILL_PATTERN:
        return pattern_of(painter, one, vt_number(record, VT_FILL_ATTRIBUTES_PATTERN, 2));
    default:
        return plain(record[VT_FILL_ATTRIBUTES_COLOUR]);
    }
}

/* ---- shapes */

static struct point at(const struct vt_element *one, double x, double y)
{
    struct point place = {one->x + x, one->y + y};
    return place;
}

/* Where the middle of a line lies at the right or lower end of a length: half its width before the end. */
static double far_end(struct pen pen, double length)
{
    return fmax(pen.width / 2, length - pen.width / 2);
}

void draw_line(struct painter *painter, const struct vt_element *one, const uint8_t *record)
{
    struct pen pen = pen_of(painter, vt_number(record, VT_LINE_LINE_ATTRIBUTES, 2));
    double near = pen.width / 2;
    double right = far_end(pen, vt_number(record, VT_LINE_WIDTH, 2));
    double bottom = far_end(pen, vt_number(record, VT_LINE_HEIGHT, 2));
    bool is_falling = record[VT_LINE_DIRECTION] == 0;

    pen.has_square_ends = pen.art == SOLID;
    draw_between(&painter->canvas, at(one, near, is_falling ? near : bottom), at(one, right, is_falling ? bottom : near), pen);
}

void draw_rectangle(struct painter *painter, const struct vt_element *one, const uint8_t *record)
{
    struct canvas *canvas = &painter->canvas;
    struct pen pen = pen_of(painter, vt_number(record, VT_RECTANGLE_LINE_ATTRIBUTES, 2));
    double width = vt_number(record, VT_RECTANGLE_WIDTH, 2), height = vt_number(record, VT_RECTANGLE_HEIGHT, 2);
    double near = pen.width / 2, right = far_end(pen, width), bottom = far_end(pen, height);
    struct point corners[4] = {at(one, 0, 0), at(one, width, 0), at(one, width, height), at(one, 0, height)};
    struct point sides[4][2] = {{at(one, 0, near), at(one, width, near)},     /* the upper one */
                                {at(one, right, 0), at(one, right, height)},  /* the right one */
                                {at(one, 0, bottom), at(one, width, bottom)}, /* the lower one */
                                {at(one, near, 0), at(one, near, height)}};   /* the left one */

    add_area(canvas, corners, 4);
    fill_area(canvas, paint_of(painter, one, vt_number(record, VT_RECTANGLE_FILL, 2), pen));
    for (int k = 0; k < 4; k++) {
        bool is_suppressed = (record[VT_RECTANGLE_SUPPRESSION] >> k & 1) != 0;
        if (!is_suppressed) {
            draw_between(canvas, sides[k][0], sides[k][1], pen);
        }
    }
}

/* Fills the inside of a closed line, and draws the line. */
static void draw_closed(struct painter *painter, const struct point *points, size_t count, struct paint paint, struct pen pen)
{
    add_area(&painter->canvas, points, count);
    fill_area(&painter->canvas, paint);
    draw_along(&painter->canvas, points, count, true, pen);
}

void draw_ellipse(struct painter *painter, const struct vt_element *one, const uint8_t *record)
{
    struct pen pen = pen_of(painter, vt_number(record, VT_ELLIPSE_LINE_ATTRIBUTES, 2));
    struct paint paint = paint_of(painter, one, vt_number(record, VT_ELLIPSE_FILL, 2), pen);
    double x = vt_number(record, VT_ELLIPSE_WIDTH, 2) / 2.0, y = vt_number(record, VT_ELLIPSE_HEIGHT, 2) / 2.0;
    struct oval oval = {at(one, x, y), fmax(0, x - pen.width / 2), fmax(0, y - pen.width / 2)};
    uint8_t type = record[VT_ELLIPSE_ELLIPSE_TYPE], start = record[VT_ELLIPSE_START];
    uint32_t steps = steps_between(start, record[VT_ELLIPSE_END]);
    struct point points[MOST_POINTS];

    if (type == VT_WHOLE || (type != VT_ARC && steps == CIRCLE)) {
        if (oval.radius_x > 0 && oval.radius_y > 0) {
            arc_points(oval, 0, CIRCLE, points);
            turn_around(points, CIRCLE + 1); /* line art begins at the right and goes clockwise, as in SVG */
            draw_closed(painter, points, CIRCLE, paint, pen);
        }
        return;
    }
    size_t count = arc_points(oval, start, steps, points);
    if (type == VT_ARC) {
        draw_along(&painter->canvas, points, count, false, pen);
        return;
    }
    if (type != VT_SEGMENT) {
        points[count++] = oval.centre;
    }
    draw_closed(painter, points, count, paint, pen);
}

void draw_polygon(struct painter *painter, const struct vt_element *one, const uint8_t *record)
{
    struct pen pen = pen_of(painter, vt_number(record, VT_POLYGON_LINE_ATTRIBUTES, 2));
    size_t count = record[VT_POLYGON_COUNT_OF_POINTS];
    struct point points[MOST_POINTS];

    for (size_t k = 0; k < count; k++) {
        size_t field = VT_POLYGON_POINTS + 4 * k;
        points[k] = at(one, vt_number(record, field, 2) + 0.5, vt_number(record, field + 2, 2) + 0.5);
    }
    if (record[VT_POLYGON_POLYGON_TYPE] == VT_OPEN_POLYGON) {
        draw_along(&painter->canvas, points, count, false, pen);
    } else {
        draw_closed(painter, points, count, paint_of(painter, one, vt_number(record, VT_POLYGON_FILL, 2), pen), pen);
    }
}
