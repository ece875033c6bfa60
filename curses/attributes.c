/* The attributes and the pair with which a window's characters are written, and its background. */
#include "private.h"

#include "calls.h"

static int set(WINDOW *window, chtype attrs) {
    attrs &= TCU_SHOWN | A_COLOR;
    if (!tcu_is_own(window)) return ERR;
    if (attrs == window->attrs) return OK;
    if (session_attrset(window->number, attrs) != OK) return ERR;
    window->attrs = attrs;
    return OK;
}

int wattrset(WINDOW *window, int attrs) {
    return set(window, (chtype)attrs);
}

/* Turns `attrs` on; a color pair in it replaces the window's pair. */
static int turn_on(WINDOW *window, chtype attrs) {
    if (!window) return ERR;
    return set(window, attrs & A_COLOR ? (window->attrs & ~A_COLOR) | attrs : window->attrs | attrs);
}

static int turn_off(WINDOW *window, chtype attrs) {
    if (!window) return ERR;
    return set(window, window->attrs & ~(attrs & A_COLOR ? attrs | A_COLOR : attrs));
}

int wattron(WINDOW *window, int attrs) {
    return turn_on(window, (chtype)attrs);
}

int wattroff(WINDOW *window, int attrs) {
    return turn_off(window, (chtype)attrs);
}

int wattr_on(WINDOW *window, attr_t attrs, void *options) {
    return options ? ERR : turn_on(window, attrs);
}

int wattr_off(WINDOW *window, attr_t attrs, void *options) {
    return options ? ERR : turn_off(window, attrs);
}

int wattr_set(WINDOW *window, attr_t attrs, short pair, void *options) {
    return options || pair < 0 ? ERR : set(window, (attrs & ~A_COLOR) | (pair > 255 ? 0 : COLOR_PAIR(pair)));
}

int wattr_get(WINDOW *window, attr_t *attrs, short *pair, void *options) {
    if (!tcu_is_own(window) || options) return ERR;
    if (attrs) *attrs = window->attrs;
    if (pair) *pair = (short)PAIR_NUMBER(window->attrs);
    return OK;
}

int wcolor_set(WINDOW *window, short pair, void *options) {
    if (!window || options || !tcu.has_colors || pair < 0 || pair > 255) return ERR;
    return set(window, (window->attrs & ~A_COLOR) | COLOR_PAIR(pair));
}

int wstandout(WINDOW *window) {
    return turn_on(window, A_STANDOUT);
}

int wstandend(WINDOW *window) {
    return set(window, A_NORMAL);
}

attr_t getattrs(const WINDOW *window) {
    return window ? window->attrs : A_NORMAL;
}

/* The background that `ch` asks for: spaces if it has no character. */
static chtype background_of(chtype ch) {
    return (ch & (TCU_SHOWN | A_COLOR)) | (TCU_BYTE(ch) ? TCU_BYTE(ch) : ' ');
}

void wbkgdset(WINDOW *window, chtype ch) {
    if (!tcu_is_own(window) || session_bkgdset(window->number, background_of(ch)) != OK) return;
    window->background = background_of(ch);
}

int wbkgd(WINDOW *window, chtype ch) {
    if (!tcu_is_own(window) || session_bkgd(window->number, background_of(ch)) != OK) return ERR;
    window->background = background_of(ch);
    tcu_touch_lines(window, 0, window->lines - 1);
    return tcu_changed(window, OK);
}

chtype getbkgd(WINDOW *window) {
    return window ? window->background : 0;
}
