#include "window.h"

/* The title of the window, behind which stands what is being typed. */
#define TITLE "Virtual terminal"

/* ---- opening and drawing */

bool open_window(struct window *window, struct host *host, const char *font)
{
    window->host = host;
    window->is_stale = true;
    window->is_open = true;
    window->entry.id = VT_NO_ID;
    window->painter.objects.vt = host->vt;
    window->painter.texts.path = font;
    if (SDL_Init(SDL_INIT_VIDEO) != 0 || TTF_Init() != 0) {
        return false;
    }
    read_shown(&window->painter.objects);
    struct sizes sizes = sizes_of(&window->painter.objects);
    window->window = SDL_CreateWindow(TITLE, SDL_WINDOWPOS_CENTERED, SDL_WINDOWPOS_CENTERED, sizes.width, sizes.height, 0);
    if (window->window == NULL) {
        return false;
    }
    /* The same pixels on every machine: SDL draws by itself, without a graphics card. */
    window->painter.canvas.renderer = SDL_CreateRenderer(window->window, -1, SDL_RENDERER_SOFTWARE);
    if (window->painter.canvas.renderer == NULL) {
        return false;
    }
    TTF_Font *found = TTF_OpenFont(font, 8);
    if (found != NULL) {
        TTF_CloseFont(found);
    }
    return found != NULL;
}

/* Draws what the terminal shows now, in a window as large as that. */
static bool draw_window(struct window *window)
{
    int width, height;
    read_shown(&window->painter.objects);
    struct sizes sizes = sizes_of(&window->painter.objects);
    SDL_GetWindowSize(window->window, &width, &height);
    if (width != sizes.width || height != sizes.height) {
        SDL_SetWindowSize(window->window, sizes.width, sizes.height);
    }
    return draw_shown(&window->painter);
}

bool save_shot(struct window *window, const char *path)
{
    int width, height;
    SDL_GetWindowSize(window->window, &width, &height);
    SDL_Surface *shot = SDL_CreateRGBSurfaceWithFormat(0, width, height, 24, SDL_PIXELFORMAT_BGR24);
    bool is_saved = shot != NULL && draw_window(window) &&
                    SDL_RenderReadPixels(window->painter.canvas.renderer, NULL, shot->format->format, shot->pixels, shot->pitch) == 0;
    SDL_RenderPresent(window->painter.canvas.renderer);
    is_saved = is_saved && SDL_SaveBMP(shot, path) == 0;
    SDL_FreeSurface(shot);
    return is_saved;
}

/* ---- the operator */

/* Prints what the terminal sends for the last action, and its refusals. */
static void print_outputs(struct host *host)
{
    struct vt_out out;
    while (vt_take(host->vt, &out) != VT_NONE) {
        if (out.kind == VT_REFUSED) {
            printf("operator %s\n", host_refusal(&out));
        } else if (out.kind == VT_FRAME) {
            print_frame(&out, stdout);
        }
    }
    fflush(stdout);
}

static void do_action(struct window *window, const struct action *action)
{
    if (host_act(window->host, VT_LATEST, action) == VT_NO_MEMORY) {
        fprintf(stderr, "display: the memory for an action was refused\n");
    }
    print_outputs(window->host);
    window->is_stale = window->is_stale || is_changed(&window->painter.objects);
}

static void act(struct window *window, enum vt_action kind, uint32_t id)
{
    struct action action = {.kind = kind, .id = id};
    do_action(window, &action);
}

/* Shows what is being typed in the title of the window. */
static void show_entry(struct window *window)
{
    char title[sizeof TITLE + sizeof window->entry.text + 2];
    snprintf(title, sizeof title, window->entry.id == VT_NO_ID ? "%s" : "%s: %s", TITLE, window->entry.text);
    SDL_SetWindowTitle(window->window, title);
}

/* Enters what was typed. What is no number of the input is told, and not entered. */
static void enter(struct window *window)
{
    struct action action;
    if (finish_entry(&window->entry, &window->painter.objects, &action)) {
        do_action(window, &action);
    } else {
        fprintf(stderr, "display: `%s` is no number of the input\n", window->entry.text);
    }
}

/* Return enters what was typed for the selected input, Escape drops it, and Backspace takes the last character back. */
static void take_key(struct window *window, SDL_Keycode key)
{
    if (window->entry.id == VT_NO_ID) {
        return;
    }
    switch (key) {
    case SDLK_RETURN:
    case SDLK_KP_ENTER:
        enter(window);
        break;
    case SDLK_ESCAPE:
        window->entry.id = VT_NO_ID;
        break;
    case SDLK_BACKSPACE:
        erase_last(&window->entry);
        break;
    default:
        return;
    }
    show_entry(window);
}

/* Presses the key or button at a place, or selects the input there, for which then is typed. */
static void touch(struct window *window, int32_t x, int32_t y)
{
    struct objects *objects = &window->painter.objects;
    uint32_t id = object_at(objects, x, y);
    if (id == VT_NO_ID) {
        return;
    }
    int kind = kind_of(objects, id);
    bool is_key = kind == VT_KEY || kind == VT_BUTTON;
    act(window, is_key ? VT_PRESS : VT_SELECT, id);
    if (!is_key && selected_input(objects) == id) {
        begin_entry(&window->entry, objects, id);
        show_entry(window);
    }
}

/* Releases the key or button that is held, wherever the pointer is now. */
static void let_go(struct window *window)
{
    uint32_t key = held_key(&window->painter.objects);
    if (key != VT_NO_ID) {
        act(window, VT_RELEASE, key);
    }
}

/* ---- events */

static void take_event(struct window *window, const SDL_Event *event)
{
    switch (event->type) {
    case SDL_QUIT:
        window->is_open = false;
        break;
    case SDL_WINDOWEVENT:
        window->is_stale = window->is_stale || event->window.event == SDL_WINDOWEVENT_EXPOSED;
        break;
    case SDL_MOUSEBUTTONDOWN:
        if (event->button.button == SDL_BUTTON_LEFT) {
            SDL_CaptureMouse(SDL_TRUE); /* so that its release is told outside of the window too */
            touch(window, event->button.x, event->button.y);
        }
        break;
    case SDL_MOUSEBUTTONUP:
        if (event->button.button == SDL_BUTTON_LEFT) {
            SDL_CaptureMouse(SDL_FALSE);
            let_go(window);
        }
        break;
    case SDL_TEXTINPUT:
        if (window->entry.id != VT_NO_ID) {
            type_text(&window->entry, event->text.text);
            show_entry(window);
        }
        break;
    case SDL_KEYDOWN:
        take_key(window, event->key.keysym.sym);
        break;
    default:
        break;
    }
}

/* Takes all events that wait, and then draws once. */
void run_window(struct window *window)
{
    SDL_Event event;
    while (window->is_open) {
        if (window->is_stale) {
            window->is_stale = !draw_window(window);
            if (window->is_stale) {
                fprintf(stderr, "display: a part of the picture could not be drawn\n");
            }
            SDL_RenderPresent(window->painter.canvas.renderer);
        }
        if (SDL_WaitEvent(&event) != 1) {
            fprintf(stderr, "display: %s\n", SDL_GetError());
            return;
        }
        do {
            take_event(window, &event);
        } while (SDL_PollEvent(&event) == 1);
    }
}

void close_window(struct window *window)
{
    let_go(window);
    end_painter(&window->painter);
    SDL_DestroyRenderer(window->painter.canvas.renderer);
    SDL_DestroyWindow(window->window);
    TTF_Quit();
    SDL_Quit();
}
