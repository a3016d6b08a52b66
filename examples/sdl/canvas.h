/* A canvas: areas with smooth edges, in the colours of the terminal, on a renderer of SDL. Lengths are in pixels. */
#ifndef CANVAS_H
#define CANVAS_H

#include <SDL.h>
#include <stdbool.h>
#include <stdint.h>

/* A place, from the upper left corner of the window: x to the right, y down. */
struct point {
    double x;
    double y;
};

/* The number of no colour. */
enum { NO_COLOUR = 256 };

/* The colours of pixels, row after row from the top, NO_COLOUR where what is behind the image is seen. */
struct image {
    uint32_t width;
    uint32_t height;
    uint16_t *colours;
};

/* What an area is filled with: a colour, or an image side by side, whose first copy begins at a place. */
struct paint {
    uint16_t colour;            /* NO_COLOUR fills nothing */
    const struct image *image;  /* null for the colour alone */
    int32_t left;
    int32_t top;
};

struct edge;
struct crossing;

struct canvas {
    SDL_Renderer *renderer;
    SDL_Rect clip;               /* nothing is drawn outside of it */
    struct edge *edges;          /* of the area that is made now */
    struct crossing *crossings;  /* room for as many as there are edges */
    size_t count;
    size_t room;
    double *covered;             /* how much of each pixel of a row is covered */
    size_t columns;
    bool lacks_memory;
};

/* A paint of one colour. */
struct paint plain(uint16_t colour);

/* The red, green and blue of a colour of the standard palette (docs/PROFILE.md, "Colours"). */
SDL_Color palette(uint8_t colour);

/* Draws nothing outside of these bounds from now on. Returns false if they are empty. */
bool set_clip(struct canvas *canvas, int32_t left, int32_t top, int32_t right, int32_t bottom);

/* Adds the inside of a closed line to the area that is made. The point after the last is the first. */
void add_area(struct canvas *canvas, const struct point *points, size_t count);

/* Fills the area that was made, and begins a new one. Filled is what the lines go around more often in one direction than in the other. */
void fill_area(struct canvas *canvas, struct paint paint);

/* Fills whole pixels with a colour. */
void fill_box(struct canvas *canvas, int32_t x, int32_t y, uint32_t width, uint32_t height, uint16_t colour);

/* Gives the memory back. The renderer is the caller's. */
void end_canvas(struct canvas *canvas);

#endif
