/* Reading a line with its editing keys. */
#include "private.h"

#include <string.h>

#include "calls.h"

/* A line that is being read: where it begins in the window, and its characters so far. */
struct line {
    WINDOW *window;
    int y, x;
    char *text;
    int count, most;
    bool is_shown;
};

/* Removes the last character, and shows the line without it. */
static void wipe(struct line *line) {
    WINDOW *window = line->window;
    int end_y = getcury(window), end_x = getcurx(window), y, x;
    line->text[--line->count] = 0;
    if (!line->is_shown) return;
    wmove(window, line->y, line->x);
    waddstr(window, line->text);
    y = getcury(window);
    x = getcurx(window);
    while (getcury(window) < end_y || (getcury(window) == end_y && getcurx(window) < end_x))
        if (waddch(window, ' ') != OK) break;
    wmove(window, y, x);
    wrefresh(window);
}

/* Shows the character that was added, and removes it again if the window has no place for it. */
static void show(struct line *line, int key) {
    WINDOW *window = line->window;
    int before = getcury(window), after;
    if (waddch(window, (chtype)key) != OK) {
        wipe(line);
        return;
    }
    after = getcury(window);
    /* the window has scrolled below the line */
    if (window->scrolls && after == before && getcurx(window) == 0 && after == window->region_bottom) line->y--;
    wrefresh(window);
}

static void add(struct line *line, int key) {
    if (key > 255 || line->count >= line->most) {
        beep();
        return;
    }
    line->text[line->count++] = (char)key;
    line->text[line->count] = 0;
    if (line->is_shown) show(line, key);
}

static bool is_end(int key) {
    return key == '\n' || key == '\r' || key == KEY_DOWN || key == KEY_UP || key == KEY_ENTER;
}

static bool is_wiping(int key) {
    return key == KEY_LEFT || key == KEY_BACKSPACE || (erasechar() != 0 && key == (unsigned char)erasechar());
}

/* Reads keys up to the line's end and returns the last one. */
static int read_keys(struct line *line) {
    int key;
    while ((key = wgetch(line->window)) != ERR && key != KEY_RESIZE && !is_end(key)) {
        if (is_wiping(key)) {
            if (line->count > 0) wipe(line);
        } else if (killchar() != 0 && key == (unsigned char)killchar()) {
            while (line->count > 0) wipe(line);
        } else {
            add(line, key);
        }
    }
    return key;
}

/* Moves the cursor to the beginning of the next line, if there is one. */
static void go_on(WINDOW *window, bool is_shown) {
    if (is_shown && window->scrolls && getcury(window) == window->region_bottom) waddch(window, '\n');
    else wmove(window, getcury(window) < window->lines - 1 ? getcury(window) + 1 : getcury(window), 0);
    if (!window->is_pad) wrefresh(window);
}

int wgetnstr(WINDOW *window, char *text, int count) {
    struct line line = {window, 0, 0, text, 0, count < 0 ? 255 : count, tcu_modes.echoes};
    bool was_cbreak = tcu_modes.is_cbreak, was_raw = tcu_modes.is_raw, read_newlines = tcu_modes.reads_newlines;
    int half_delay = tcu_modes.half_delay, key;
    if (!tcu_is_own(window) || !text) return ERR;
    if (session_cursor(window->number, &line.y, &line.x) != OK) return ERR;
    *text = 0;
    if (!was_cbreak) cbreak();
    noecho();
    nl();
    key = read_keys(&line);
    if (key != ERR && key != KEY_RESIZE) go_on(window, line.is_shown);
    if (line.is_shown) echo();
    if (!read_newlines) nonl();
    if (!was_cbreak) nocbreak();
    if (was_raw) raw();
    tcu_modes.half_delay = half_delay;
    return key == ERR || key == KEY_RESIZE ? key : OK;
}

int wgetstr(WINDOW *window, char *text) {
    return wgetnstr(window, text, -1);
}
