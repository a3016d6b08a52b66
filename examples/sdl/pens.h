/* Lines along points, with their width, their line art and their corners, and the arcs of ellipses as points. Lengths are in pixels. */
#ifndef PENS_H
#define PENS_H

#include "canvas.h"

/* The most points of a line: a polygon has 255, and an arched bar twice the 181 of an arc. */
enum { MOST_POINTS = 400 };

/* The line art of a line without spaces. */
enum { SOLID = 0xFFFF };

/* What lines are drawn with. */
struct pen {
    uint16_t colour;       /* NO_COLOUR draws nothing */
    double width;
    uint16_t art;          /* a bit is as long as the line is wide, the highest first; nothing is drawn for a bit that is 0 */
    bool has_square_ends;  /* the ends reach half the width farther */
};

/* A pen for a line without spaces. */
struct pen plain_pen(uint16_t colour, double width);

/* Draws a line along at most MOST_POINTS points; a closed one goes back to the first. */
void draw_along(struct canvas *canvas, const struct point *points, size_t count, bool is_closed, struct pen pen);

/* Draws a line between two points. */
void draw_between(struct canvas *canvas, struct point from, struct point to, struct pen pen);

/* An ellipse. */
struct oval {
    struct point centre;
    double radius_x;
    double radius_y;
};

/* The steps of a circle. A step is 2 degrees, counted counterclockwise from the right. */
enum { CIRCLE = 180 };

/* The place on an ellipse at a step. */
struct point point_on(struct oval oval, uint32_t step);

/* The steps from a start counterclockwise to an end: those of a whole circle if both are the same. */
uint32_t steps_between(uint8_t start, uint8_t end);

/* Writes the points of an arc, from a step on counterclockwise, and returns their number: one for each step, and one more. */
size_t arc_points(struct oval oval, uint32_t start, uint32_t steps, struct point *points);

/* Changes the order of points to the opposite one. */
void turn_around(struct point *points, size_t count);

#endif
