#include "pens.h"
#include <math.h>

/* A corner's tip is left out where it would be farther out than four times the line is wide, as below 29 degrees. */
static const double LONGEST_TIP = 4;

static const double PI = 3.14159265358979324;

struct pen plain_pen(uint16_t colour, double width)
{
    struct pen pen = {colour, width, SOLID, false};
    return pen;
}

/* ---- points */

static struct point moved(struct point from, struct point by, double times)
{
    struct point there = {from.x + by.x * times, from.y + by.y * times};
    return there;
}

static double distance(struct point from, struct point to)
{
    return hypot(to.x - from.x, to.y - from.y);
}

/* The direction from a point to another one, with the length 1. */
static struct point direction(struct point from, struct point to)
{
    double length = distance(from, to);
    struct point way = {(to.x - from.x) / length, (to.y - from.y) / length};
    return way;
}

/* A direction, turned by a right angle. */
static struct point across(struct point way)
{
    struct point turned = {-way.y, way.x};
    return turned;
}

/* ---- one line without spaces */

/* Adds a part of a line. All parts go around in the same direction, so that what two of them cover is filled as well. */
static void add_part(struct canvas *canvas, struct point *points, size_t count)
{
    double twice = 0; /* the size of the part, below 0 if it goes around the other way */
    for (size_t k = 0; k < count; k++) {
        struct point one = points[k], next = points[(k + 1) % count];
        twice += one.x * next.y - next.x * one.y;
    }
    if (twice < 0) {
        turn_around(points, count);
    }
    add_area(canvas, points, count);
}

static void add_segment(struct canvas *canvas, struct point from, struct point to, double half)
{
    struct point side = across(direction(from, to));
    struct point part[4] = {moved(from, side, half), moved(to, side, half), moved(to, side, -half), moved(from, side, -half)};
    add_part(canvas, part, 4);
}

/* Adds what is between the outer edges of two segments at their corner. */
static void add_corner(struct canvas *canvas, struct point before, struct point at, struct point after, double half)
{
    struct point in = direction(before, at), out = direction(at, after);
    double turn = in.x * out.y - in.y * out.x, along = in.x * out.x + in.y * out.y;
    double outer = turn > 0 ? -half : half;
    struct point one = across(in), other = across(out);
    struct point first = moved(at, one, outer), last = moved(at, other, outer);

    if (2 <= (1 + along) * LONGEST_TIP * LONGEST_TIP) {
        struct point both = {one.x + other.x, one.y + other.y};
        struct point part[4] = {at, first, moved(at, both, outer / (1 + along)), last};
        add_part(canvas, part, 4);
    } else {
        struct point part[3] = {at, first, last};
        add_part(canvas, part, 3);
    }
}

/* Copies points without those that are where the one before them is. */
static size_t without_repeats(const struct point *points, size_t count, bool is_closed, struct point *kept)
{
    size_t left = 0;
    for (size_t k = 0; k < count; k++) {
        if (left == 0 || distance(kept[left - 1], points[k]) > 0) {
            kept[left++] = points[k];
        }
    }
    while (is_closed && left > 1 && distance(kept[left - 1], kept[0]) == 0) {
        left--;
    }
    return left;
}

/* Makes the ends of a line reach half its width farther. A line without a length becomes a square. */
static size_t with_square_ends(struct point *points, size_t count, double half)
{
    if (count == 1) {
        points[1] = points[0];
        points[0].x -= half;
        points[1].x += half;
        return 2;
    }
    points[0] = moved(points[0], direction(points[1], points[0]), half);
    points[count - 1] = moved(points[count - 1], direction(points[count - 2], points[count - 1]), half);
    return count;
}

/* Draws a line without spaces. */
static void draw_solid(struct canvas *canvas, const struct point *points, size_t count, bool is_closed, struct pen pen)
{
    struct point kept[MOST_POINTS + 2];
    double half = pen.width / 2;

    count = without_repeats(points, count, is_closed, kept);
    if (count > 0 && pen.has_square_ends) {
        count = with_square_ends(kept, count, half);
    }
    for (size_t k = 0; k + 1 < count + is_closed && count > 1; k++) {
        add_segment(canvas, kept[k], kept[(k + 1) % count], half);
        if (is_closed || k + 2 < count) {
            add_corner(canvas, kept[k], kept[(k + 1) % count], kept[(k + 2) % count], half);
        }
    }
    fill_area(canvas, plain(pen.colour));
}

/* ---- line art */

/* A walk along a line with line art. */
struct walk {
    struct canvas *canvas;
    struct pen pen;
    int bit;           /* of the line art, the highest first */
    double left;       /* how much of it is still to come */
    struct point piece[MOST_POINTS + 2]; /* the dash that is not ended */
    size_t count;
};

static bool is_dash(const struct walk *walk)
{
    return (walk->pen.art >> walk->bit & 1) != 0;
}

static void end_piece(struct walk *walk)
{
    if (walk->count > 1) {
        draw_solid(walk->canvas, walk->piece, walk->count, false, walk->pen);
    }
    walk->count = 0;
}

/* Takes the next bit of the line art at a place. */
static void take_bit(struct walk *walk, struct point at)
{
    if (is_dash(walk)) {
        walk->piece[walk->count++] = at;
    }
    walk->bit = walk->bit == 0 ? 15 : walk->bit - 1;
    walk->left = walk->pen.width;
    if (!is_dash(walk)) {
        end_piece(walk);
    } else if (walk->count == 0) {
        walk->piece[walk->count++] = at;
    } else {
        walk->count--; /* the dash goes on straight ahead */
    }
}

static void walk_segment(struct walk *walk, struct point from, struct point to)
{
    double length = distance(from, to), done = 0;
    while (walk->left < length - done) {
        done += walk->left;
        take_bit(walk, moved(from, direction(from, to), done));
    }
    walk->left -= length - done;
    if (is_dash(walk)) {
        walk->piece[walk->count++] = to;
    }
}

/* Draws a line with line art. */
static void draw_dashed(struct canvas *canvas, const struct point *points, size_t count, bool is_closed, struct pen pen)
{
    struct walk walk = {.canvas = canvas, .pen = pen, .bit = 15, .left = pen.width};
    if (count > 0 && is_dash(&walk)) {
        walk.piece[walk.count++] = points[0];
    }
    for (size_t k = 0; k + 1 < count + is_closed; k++) {
        walk_segment(&walk, points[k], points[(k + 1) % count]);
    }
    end_piece(&walk);
}

void draw_along(struct canvas *canvas, const struct point *points, size_t count, bool is_closed, struct pen pen)
{
    if (pen.colour >= NO_COLOUR || pen.width <= 0 || count > MOST_POINTS) {
        return;
    }
    if (pen.art == SOLID) {
        draw_solid(canvas, points, count, is_closed, pen);
    } else {
        draw_dashed(canvas, points, count, is_closed, pen);
    }
}

void draw_between(struct canvas *canvas, struct point from, struct point to, struct pen pen)
{
    struct point ends[2] = {from, to};
    draw_along(canvas, ends, 2, false, pen);
}

/* ---- arcs */

struct point point_on(struct oval oval, uint32_t step)
{
    double angle = step % CIRCLE * (2 * PI / CIRCLE);
    struct point place = {oval.centre.x + oval.radius_x * cos(angle), oval.centre.y - oval.radius_y * sin(angle)};
    return place;
}

uint32_t steps_between(uint8_t start, uint8_t end)
{
    uint32_t steps = (uint32_t)(end % CIRCLE + CIRCLE - start % CIRCLE) % CIRCLE;
    return steps == 0 ? CIRCLE : steps;
}

size_t arc_points(struct oval oval, uint32_t start, uint32_t steps, struct point *points)
{
    for (uint32_t k = 0; k <= steps; k++) {
        points[k] = point_on(oval, start % CIRCLE + k);
    }
    return steps + 1;
}

void turn_around(struct point *points, size_t count)
{
    for (size_t k = 0; k < count / 2; k++) {
        struct point one = points[k];
        points[k] = points[count - 1 - k];
        points[count - 1 - k] = one;
    }
}
