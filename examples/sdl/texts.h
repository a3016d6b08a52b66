/* The characters of fonts, drawn by SDL_ttf. */
#ifndef TEXTS_H
#define TEXTS_H

#include "vt_records.h"
#include <SDL.h>
#include <SDL_ttf.h>
#include <stdbool.h>
#include <stddef.h>
#include <stdint.h>

/* The sizes of fonts, which have numbers from 0 on. */
enum { FONT_SIZES = 15 };

/* A file of a font whose characters are all as wide, opened in each size when that is first needed. */
struct texts {
    const char *path;
    TTF_Font *fonts[FONT_SIZES];
    char *row; /* memory for the characters of a row */
    size_t room;
};

/* How characters look. */
struct look {
    bool is_known;   /* there is a font, and its size is in the table */
    uint8_t size;    /* the number of the size */
    uint32_t width;  /* of a character, in pixels */
    uint32_t height;
    uint8_t colour;
    uint8_t style;   /* bits */
};

/* How the characters of a font look. */
struct look look_with(uint8_t size, uint8_t colour, uint8_t style);

/* Draws characters of Latin 1 in a row whose upper left corner is at x y. Returns false if they cannot be drawn. */
bool draw_text_row(struct texts *texts, SDL_Renderer *renderer, struct look look, SDL_Color ink, int x, int y, const uint8_t *characters,
              size_t count);

/* Closes the fonts. */
void end_texts(struct texts *texts);

#endif
