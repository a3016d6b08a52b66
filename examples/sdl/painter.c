#include "painter.h"
#include <stdlib.h>

/* The colour of the window beside the mask. */
static const SDL_Color BESIDE = {64, 64, 64, 255};

/* Draws an element, and not what is in it: that comes later in the list. */
static void draw_element(struct painter *painter, const struct vt_element *one)
{
    static void (*const draw[])(struct painter *, const struct vt_element *, const uint8_t *) = {
        [VT_KEY] = draw_key,
        [VT_BUTTON] = draw_button,
        [VT_INPUT_BOOLEAN] = draw_input_boolean,
        [VT_INPUT_STRING] = draw_input_string,
        [VT_INPUT_NUMBER] = draw_input_number,
        [VT_INPUT_LIST] = draw_input_list,
        [VT_OUTPUT_STRING] = draw_output_string,
        [VT_OUTPUT_NUMBER] = draw_output_number,
        [VT_LINE] = draw_line,
        [VT_RECTANGLE] = draw_rectangle,
        [VT_ELLIPSE] = draw_ellipse,
        [VT_POLYGON] = draw_polygon,
        [VT_METER] = draw_meter,
        [VT_LINEAR_BAR] = draw_linear_bar,
        [VT_ARCHED_BAR] = draw_arched_bar,
        [VT_PICTURE] = draw_picture,
    };

    /* A Working Set and a Container have no look of their own. */
    if (one->kind >= sizeof draw / sizeof draw[0] || draw[one->kind] == NULL) {
        return;
    }
    if (set_clip(&painter->canvas, one->left, one->top, one->right, one->bottom)) {
        const uint8_t *record = record_of(&painter->objects, one);
        if (record != NULL) {
            draw[one->kind](painter, one, record);
        }
    }
}

bool draw_shown(struct painter *painter)
{
    struct canvas *canvas = &painter->canvas;
    struct sizes sizes = sizes_of(&painter->objects);
    int background = background_of(&painter->objects);

    canvas->lacks_memory = false;
    SDL_RenderSetClipRect(canvas->renderer, NULL);
    SDL_SetRenderDrawBlendMode(canvas->renderer, SDL_BLENDMODE_BLEND);
    SDL_SetRenderDrawColor(canvas->renderer, BESIDE.r, BESIDE.g, BESIDE.b, BESIDE.a);
    SDL_RenderClear(canvas->renderer);
    if (background >= 0) {
        fill_box(canvas, 0, 0, (uint32_t)sizes.mask_width, (uint32_t)sizes.mask_height, (uint16_t)background);
    }
    for (size_t k = 0; k < painter->objects.count; k++) {
        draw_element(painter, &painter->objects.elements[k]);
    }
    return !canvas->lacks_memory && !painter->objects.lacks_memory;
}

void end_painter(struct painter *painter)
{
    end_objects(&painter->objects);
    end_canvas(&painter->canvas);
    end_texts(&painter->texts);
    free(painter->image.colours);
}
