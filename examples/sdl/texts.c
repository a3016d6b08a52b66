#include "texts.h"
#include <stdlib.h>

struct look look_with(uint8_t size, uint8_t colour, uint8_t style)
{
    /* The width and the height of a character in each size (ISO 11783-6). */
    static const uint8_t cells[FONT_SIZES][2] = {{6, 8},   {8, 8},   {8, 12},  {12, 16}, {16, 16},  {16, 24},   {24, 32},  {32, 32},
                                                 {32, 48}, {48, 64}, {64, 64}, {64, 96}, {96, 128}, {128, 128}, {128, 192}};
    struct look look = {false, size, 0, 0, colour, style};
    if (size < FONT_SIZES) {
        look.is_known = true;
        look.width = cells[size][0];
        look.height = cells[size][1];
    }
    return look;
}

/* Opens the font in a size: it has five sixths of the height of a character, and is stretched to its width. The dots of an inch set the
 * two apart: as many as points make a pixel of a point. */
static TTF_Font *open_font(const char *path, struct look look)
{
    enum { POINTS = 72, LARGE = 1000 };
    int advance = 0, size = (int)(look.height * 5 + 3) / 6;
    TTF_Font *font = TTF_OpenFont(path, LARGE);

    if (font != NULL && TTF_GlyphMetrics(font, '0', NULL, NULL, NULL, NULL, &advance) == 0 && advance > 0) {
        unsigned width = look.width * POINTS * LARGE / (unsigned)(size * advance);
        TTF_SetFontSizeDPI(font, size, width, POINTS);
    }
    return font;
}

static TTF_Font *font_of(struct texts *texts, struct look look)
{
    TTF_Font **font = &texts->fonts[look.size];
    if (*font == NULL) {
        *font = open_font(texts->path, look);
    }
    return *font;
}

static int style_of(uint8_t style)
{
    return (style & VT_BOLD ? TTF_STYLE_BOLD : 0) | (style & VT_ITALIC ? TTF_STYLE_ITALIC : 0) |
           (style & VT_UNDERLINED ? TTF_STYLE_UNDERLINE : 0) |
           (style & VT_CROSSED_OUT ? TTF_STYLE_STRIKETHROUGH : 0);
}

/* Copies characters as a text for SDL_ttf, which ends with a NUL. A dot in the middle of the line stands for a control character. */
static const char *as_text(struct texts *texts, const uint8_t *characters, size_t count)
{
    if (count >= texts->room) {
        char *row = realloc(texts->row, count + 1);
        if (row == NULL) {
            return NULL;
        }
        texts->row = row;
        texts->room = count + 1;
    }
    for (size_t k = 0; k < count; k++) {
        bool is_control = characters[k] < 0x20 || (characters[k] >= 0x7F && characters[k] < 0xA0);
        texts->row[k] = (char)(is_control ? 0xB7 : characters[k]);
    }
    texts->row[count] = '\0';
    return texts->row;
}

bool draw_text_row(struct texts *texts, SDL_Renderer *renderer, struct look look, SDL_Color ink, int x, int y, const uint8_t *characters,
              size_t count)
{
    TTF_Font *font = font_of(texts, look);
    const char *text = as_text(texts, characters, count);
    if (font == NULL || text == NULL) {
        return false;
    }
    TTF_SetFontStyle(font, style_of(look.style));
    SDL_Surface *drawn = TTF_RenderText_Blended(font, text, ink);
    SDL_Texture *texture = drawn == NULL ? NULL : SDL_CreateTextureFromSurface(renderer, drawn);
    bool is_drawn = false;
    if (texture != NULL) {
        /* The base line is at 19 of 24 parts of the height. The row is stretched to the width of its characters. */
        int base = y + (int)(look.height * 19 / 24);
        SDL_Rect place = {x, base - TTF_FontAscent(font), (int)(look.width * count), drawn->h};
        SDL_SetTextureScaleMode(texture, SDL_ScaleModeLinear);
        is_drawn = SDL_RenderCopy(renderer, texture, NULL, &place) == 0;
    }
    SDL_DestroyTexture(texture);
    SDL_FreeSurface(drawn);
    return is_drawn;
}

void end_texts(struct texts *texts)
{
    for (int k = 0; k < FONT_SIZES; k++) {
        if (texts->fonts[k] != NULL) {
            TTF_CloseFont(texts->fonts[k]);
        }
    }
    free(texts->row);
}
