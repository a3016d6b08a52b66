/* Picture objects: their pixels, and how they are drawn (docs/PROFILE.md, "Image data" and "Picture objects"). */
#include "painter.h"
#include <stdlib.h>

/* The most pixels of an image. A larger one is not drawn. */
enum { MOST_PIXELS = 4000000 };

/* ---- the pixels of a record */

/* The bytes of image data, which may be packed: pairs of a count and a byte. */
struct source {
    const uint8_t *at;
    const uint8_t *end;
    bool is_packed;
    uint8_t repeats; /* how often the byte still comes */
    uint8_t byte;
};

/* Takes the next byte. Returns false at the end. */
static bool take_byte(struct source *source)
{
    while (source->repeats == 0) {
        size_t left = (size_t)(source->end - source->at);
        if (left < (source->is_packed ? 2u : 1u)) {
            return false;
        }
        source->repeats = source->is_packed ? *source->at++ : 1;
        source->byte = *source->at++;
    }
    source->repeats--;
    return true;
}

/* The bits of a pixel in each format. */
static unsigned bits_of(uint8_t format)
{
    return format == 0 ? 1 : format == 1 ? 4 : 8;
}

/* Takes the pixels of a row, which begins with a byte of its own. Returns false at the end of the data. */
static bool take_row(struct source *source, unsigned bits, int clear, uint16_t *row, uint32_t width)
{
    for (uint32_t k = 0; k < width; k++) {
        unsigned place = k * bits % 8; /* in its byte, the leftmost pixel in the highest bits */
        if (place == 0 && !take_byte(source)) {
            return false;
        }
        unsigned colour = (unsigned)source->byte >> (8 - bits - place) & ((1u << bits) - 1);
        row[k] = (int)colour == clear ? NO_COLOUR : (uint16_t)colour;
    }
    return true;
}

/* Makes an image without pixels. */
static bool make_image(struct painter *painter, uint32_t width, uint32_t height)
{
    struct image *image = &painter->image;
    uint64_t count = (uint64_t)width * height;
    if (count > MOST_PIXELS) {
        return false;
    }
    uint16_t *colours = realloc(image->colours, (size_t)(count + 1) * sizeof *colours);
    if (colours == NULL) {
        painter->canvas.lacks_memory = true;
        return false;
    }
    image->colours = colours;
    image->width = width;
    image->height = height;
    for (size_t k = 0; k < count; k++) {
        colours[k] = NO_COLOUR;
    }
    return true;
}

bool read_image(struct painter *painter, const uint8_t *record)
{
    uint8_t options = record[VT_PICTURE_OPTIONS], format = record[VT_PICTURE_FORMAT];
    const uint8_t *bytes = record + VT_PICTURE_BYTES;
    struct source source = {bytes, bytes + vt_number(record, VT_PICTURE_COUNT_OF_BYTES, 4), (options & VT_PICTURE_PACKED) != 0, 0, 0};
    int clear = (options & VT_PICTURE_TRANSPARENT) != 0 ? record[VT_PICTURE_TRANSPARENCY] : -1;
    struct image *image = &painter->image;

    if (!make_image(painter, vt_number(record, VT_PICTURE_ACTUAL_WIDTH, 2), vt_number(record, VT_PICTURE_ACTUAL_HEIGHT, 2))) {
        return false;
    }
    for (uint32_t row = 0; format <= 2 && row < image->height; row++) {
        uint16_t *colours = image->colours + (size_t)row * image->width;
        if (!take_row(&source, bits_of(format), clear, colours, image->width)) {
            break;
        }
    }
    return true;
}

/* ---- drawing */

/* The row or column of an image that is shown at a place of its area. */
static uint32_t index_at(int64_t place, uint32_t area, uint32_t count)
{
    return (uint32_t)((uint64_t)(2 * place + 1) * count / (2 * (uint64_t)area));
}

/* Draws the pixels of an image that are shown in a row of the window: those of a colour side by side at once. */
static void draw_image_row(struct painter *painter, const struct vt_element *one, int y)
{
    const struct image *image = &painter->image;
    const uint16_t *colours = image->colours + (size_t)index_at((int64_t)y - one->y, one->height, image->height) * image->width;
    int x = one->left, end = one->right;

    while (x < end) {
        int first = x;
        uint16_t colour = colours[index_at((int64_t)first - one->x, one->width, image->width)];
        do {
            x++;
        } while (x < end && colours[index_at((int64_t)x - one->x, one->width, image->width)] == colour);
        fill_box(&painter->canvas, first, y, (uint32_t)(x - first), 1, colour);
    }
}

/* The bounds of the element are within its area, so that each place in them has a pixel. */
void draw_picture(struct painter *painter, const struct vt_element *one, const uint8_t *record)
{
    if (!read_image(painter, record) || painter->image.width == 0 || painter->image.height == 0) {
        return;
    }
    for (int y = one->top; y < one->bottom; y++) {
        draw_image_row(painter, one, y);
    }
}
