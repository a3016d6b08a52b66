#include "canvas.h"
#include <math.h>
#include <stdlib.h>

/* An edge of an area, from its upper end down. */
struct edge {
    double x;      /* the upper end */
    double y;
    double bottom; /* the lower end */
    double slope;  /* how much farther to the right each row is */
    int turn;      /* 1 if the line goes down here, -1 if it goes up */
};

/* Where an edge crosses a level. */
struct crossing {
    double x;
    int turn;
};

/* The levels in each row of pixels on which an area is measured. */
enum { LEVELS = 16 };

/* ---- colours and clipping */

struct paint plain(uint16_t colour)
{
    struct paint paint = {colour, NULL, 0, 0};
    return paint;
}

SDL_Color palette(uint8_t colour)
{
    static const uint32_t named[16] = {0x000000, 0xFFFFFF, 0x009900, 0x009999, 0x990000, 0x990099, 0x999900, 0xCCCCCC,
                                       0x999999, 0x0000FF, 0x00FF00, 0x00FFFF, 0xFF0000, 0xFF00FF, 0xFFFF00, 0x000099};
    uint32_t rgb = 0xFF00FF; /* colours from 232 on are a maker's own: magenta here */
    if (colour < 16) {
        rgb = named[colour];
    } else if (colour < 232) {
        uint32_t mixed = colour - 16u; /* six levels each of red, green and blue */
        rgb = mixed / 36 * 0x330000 + mixed / 6 % 6 * 0x3300 + mixed % 6 * 0x33;
    }
    SDL_Color parts = {(uint8_t)(rgb >> 16), (uint8_t)(rgb >> 8), (uint8_t)rgb, 255};
    return parts;
}

static void set_colour(struct canvas *canvas, uint8_t colour, uint8_t alpha)
{
    SDL_Color parts = palette(colour);
    SDL_SetRenderDrawColor(canvas->renderer, parts.r, parts.g, parts.b, alpha);
}

bool set_clip(struct canvas *canvas, int32_t left, int32_t top, int32_t right, int32_t bottom)
{
    if (right <= left || bottom <= top) {
        return false;
    }
    SDL_Rect clip = {left, top, right - left, bottom - top};
    canvas->clip = clip;
    return SDL_RenderSetClipRect(canvas->renderer, &clip) == 0;
}

void fill_box(struct canvas *canvas, int32_t x, int32_t y, uint32_t width, uint32_t height, uint16_t colour)
{
    SDL_Rect box = {x, y, (int)width, (int)height};
    if (colour < NO_COLOUR) {
        set_colour(canvas, (uint8_t)colour, 255);
        SDL_RenderFillRect(canvas->renderer, &box);
    }
}

/* ---- making an area */

static bool make_room(struct canvas *canvas)
{
    if (canvas->count < canvas->room) {
        return true;
    }
    size_t room = 2 * canvas->room + 64;
    struct edge *edges = realloc(canvas->edges, room * sizeof *edges);
    canvas->edges = edges == NULL ? canvas->edges : edges;
    struct crossing *crossings = realloc(canvas->crossings, room * sizeof *crossings);
    canvas->crossings = crossings == NULL ? canvas->crossings : crossings;
    if (edges == NULL || crossings == NULL) {
        canvas->lacks_memory = true;
        return false;
    }
    canvas->room = room;
    return true;
}

/* Adds an edge. A level one crosses no level, and one above, below or to the right of the clipping changes nothing in it. */
static void add_edge(struct canvas *canvas, struct point from, struct point to)
{
    const SDL_Rect *clip = &canvas->clip;
    bool is_down = from.y < to.y;
    struct point upper = is_down ? from : to, lower = is_down ? to : from;

    if (from.y == to.y || lower.y <= clip->y || upper.y >= clip->y + clip->h) {
        return;
    }
    if ((from.x >= clip->x + clip->w && to.x >= clip->x + clip->w) || !make_room(canvas)) {
        return;
    }
    struct edge edge = {upper.x, upper.y, lower.y, (lower.x - upper.x) / (lower.y - upper.y), is_down ? 1 : -1};
    canvas->edges[canvas->count++] = edge;
}

void add_area(struct canvas *canvas, const struct point *points, size_t count)
{
    for (size_t k = 0; k < count; k++) {
        add_edge(canvas, points[k], points[(k + 1) % count]);
    }
}

/* ---- filling it */

static int compare(const void *one, const void *other)
{
    double a = ((const struct crossing *)one)->x, b = ((const struct crossing *)other)->x;
    return (a > b) - (a < b);
}

/* Finds where edges cross a level, from the left to the right. */
static size_t find_crossings(struct canvas *canvas, double level)
{
    size_t count = 0;
    for (size_t k = 0; k < canvas->count; k++) {
        const struct edge *edge = &canvas->edges[k];
        if (edge->y <= level && level < edge->bottom) {
            struct crossing crossing = {edge->x + (level - edge->y) * edge->slope, edge->turn};
            canvas->crossings[count++] = crossing;
        }
    }
    qsort(canvas->crossings, count, sizeof *canvas->crossings, compare);
    return count;
}

/* Counts a span of a level as covered. Its ends may cover a part of a pixel. */
static void cover(struct canvas *canvas, double from, double to)
{
    double width = canvas->clip.w;
    from = fmin(fmax(from - canvas->clip.x, 0), width);
    to = fmin(fmax(to - canvas->clip.x, 0), width);
    size_t first = (size_t)from, last = (size_t)to;

    if (first == last) {
        canvas->covered[first] += to - from;
        return;
    }
    canvas->covered[first] += (double)(first + 1) - from;
    for (size_t k = first + 1; k < last; k++) {
        canvas->covered[k] += 1;
    }
    canvas->covered[last] += to - (double)last;
}

/* Measures how much of each pixel of a row is covered. */
static void measure_row(struct canvas *canvas, int row)
{
    for (size_t k = 0; k < canvas->columns; k++) {
        canvas->covered[k] = 0;
    }
    for (int k = 0; k < LEVELS; k++) {
        size_t count = find_crossings(canvas, row + (k + 0.5) / LEVELS);
        int turns = 0;
        for (size_t i = 0; i < count; i++) {
            turns += canvas->crossings[i].turn;
            if (turns != 0) {
                double end = i + 1 < count ? canvas->crossings[i + 1].x : canvas->clip.x + canvas->clip.w;
                cover(canvas, canvas->crossings[i].x, end);
            }
        }
    }
}

/* The colour of a paint at a place. */
static uint16_t colour_at(const struct paint *paint, int x, int y)
{
    const struct image *image = paint->image;
    if (image == NULL) {
        return paint->colour;
    }
    if (image->width == 0 || image->height == 0) {
        return NO_COLOUR;
    }
    int64_t column = ((int64_t)x - paint->left) % image->width, row = ((int64_t)y - paint->top) % image->height;
    column += column < 0 ? image->width : 0;
    row += row < 0 ? image->height : 0;
    return image->colours[(size_t)row * image->width + (size_t)column];
}

static uint8_t alpha_at(const struct canvas *canvas, int column)
{
    return (uint8_t)lround(fmin(canvas->covered[column] / LEVELS, 1) * 255);
}

/* Draws the covered pixels of a row: those side by side that look the same at once. */
static void draw_row(struct canvas *canvas, int row, const struct paint *paint)
{
    int column = 0;
    while (column < canvas->clip.w) {
        int first = column, x = canvas->clip.x + column;
        uint8_t alpha = alpha_at(canvas, first);
        uint16_t colour = colour_at(paint, x, row);
        do {
            column++;
        } while (column < canvas->clip.w && alpha_at(canvas, column) == alpha &&
                 colour_at(paint, canvas->clip.x + column, row) == colour);
        if (alpha > 0 && colour < NO_COLOUR) {
            SDL_Rect span = {x, row, column - first, 1};
            set_colour(canvas, (uint8_t)colour, alpha);
            SDL_RenderFillRect(canvas->renderer, &span);
        }
    }
}

/* Makes room for a row, and for one more column, which a span may end before. */
static bool make_columns(struct canvas *canvas)
{
    size_t columns = (size_t)canvas->clip.w + 1;
    double *covered = columns <= canvas->columns ? canvas->covered : realloc(canvas->covered, columns * sizeof *covered);
    if (covered == NULL) {
        canvas->lacks_memory = true;
        return false;
    }
    canvas->covered = covered;
    canvas->columns = columns > canvas->columns ? columns : canvas->columns;
    return true;
}

/* The rows of the area within the clipping: from the first to before the end. */
static void find_rows(const struct canvas *canvas, int *first, int *end)
{
    double top = canvas->clip.y + canvas->clip.h, bottom = canvas->clip.y;
    for (size_t k = 0; k < canvas->count; k++) {
        top = fmin(top, canvas->edges[k].y);
        bottom = fmax(bottom, canvas->edges[k].bottom);
    }
    *first = (int)floor(fmax(top, canvas->clip.y));
    *end = (int)ceil(fmin(bottom, canvas->clip.y + canvas->clip.h));
}

void fill_area(struct canvas *canvas, struct paint paint)
{
    int row, end;
    find_rows(canvas, &row, &end);
    bool is_seen = paint.image != NULL || paint.colour < NO_COLOUR;
    while (is_seen && row < end && make_columns(canvas)) {
        measure_row(canvas, row);
        draw_row(canvas, row, &paint);
        row++;
    }
    canvas->count = 0;
}

void end_canvas(struct canvas *canvas)
{
    free(canvas->edges);
    free(canvas->crossings);
    free(canvas->covered);
}
