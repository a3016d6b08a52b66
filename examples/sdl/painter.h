/* What draws the elements of each kind: the objects that are read, the canvas, the fonts, and memory for an image. */
#ifndef PAINTER_H
#define PAINTER_H

#include "canvas.h"
#include "objects.h"
#include "texts.h"

struct painter {
    struct objects objects;
    struct canvas canvas;
    struct texts texts;
    struct image image; /* the Picture or the pattern that is drawn now */
};

/* Draws what read_shown read: the mask on its background, and its soft keys. Returns false if memory is lacking for a part of it. */
bool draw_shown(struct painter *painter);

/* Gives the memory back. The renderer is the caller's. */
void end_painter(struct painter *painter);

/* Each of the functions below draws an element by its record, and not what is in it. */

/* shapes.c */
void draw_line(struct painter *painter, const struct vt_element *one, const uint8_t *record);
void draw_rectangle(struct painter *painter, const struct vt_element *one, const uint8_t *record);
void draw_ellipse(struct painter *painter, const struct vt_element *one, const uint8_t *record);
void draw_polygon(struct painter *painter, const struct vt_element *one, const uint8_t *record);

/* gauges.c */
void draw_meter(struct painter *painter, const struct vt_element *one, const uint8_t *record);
void draw_linear_bar(struct painter *painter, const struct vt_element *one, const uint8_t *record);
void draw_arched_bar(struct painter *painter, const struct vt_element *one, const uint8_t *record);

/* fields.c */
void draw_key(struct painter *painter, const struct vt_element *one, const uint8_t *record);
void draw_button(struct painter *painter, const struct vt_element *one, const uint8_t *record);
void draw_input_boolean(struct painter *painter, const struct vt_element *one, const uint8_t *record);
void draw_input_string(struct painter *painter, const struct vt_element *one, const uint8_t *record);
void draw_input_number(struct painter *painter, const struct vt_element *one, const uint8_t *record);
void draw_input_list(struct painter *painter, const struct vt_element *one, const uint8_t *record);
void draw_output_string(struct painter *painter, const struct vt_element *one, const uint8_t *record);
void draw_output_number(struct painter *painter, const struct vt_element *one, const uint8_t *record);

/* images.c */
void draw_picture(struct painter *painter, const struct vt_element *one, const uint8_t *record);

/* Reads the pixels of a Picture into the image of the painter. Returns false if memory is lacking or the image is too large. */
bool read_image(struct painter *painter, const uint8_t *record);

#endif
