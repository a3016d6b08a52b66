/* A window that shows the terminal, with a mouse as its touch screen and a keyboard for what is entered. */
#ifndef WINDOW_H
#define WINDOW_H

#include "entry.h"
#include "host.h"
#include "painter.h"

struct window {
    struct host *host;
    struct painter painter;
    SDL_Window *window;
    struct entry entry;
    bool is_stale; /* what is seen may differ from what the terminal shows */
    bool is_open;
};

/* Opens a window over a terminal. `font` is a file with a font whose characters are all as wide. Returns false if it cannot be opened, with
 * SDL_GetError for the reason. */
bool open_window(struct window *window, struct host *host, const char *font);

/* Shows the terminal until the window is closed. */
void run_window(struct window *window);

/* Draws the terminal and saves what the window shows as a BMP. */
bool save_shot(struct window *window, const char *path);

/* Closes the window. A key that is held is released first. */
void close_window(struct window *window);

#endif
