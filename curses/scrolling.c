/* Scrolling, and the region that scrolls. */
#include "private.h"

#include "calls.h"

int wscrl(WINDOW *window, int count) {
    if (!tcu_is_own(window) || !window->scrolls) return ERR;
    if (count != 0) tcu_touch_lines(window, window->region_top, window->region_bottom);
    return tcu_changed(window, session_scroll(window->number, count));
}

int scroll(WINDOW *window) {
    return wscrl(window, 1);
}

/* A region has two lines or more. */
int wsetscrreg(WINDOW *window, int top, int bottom) {
    if (!tcu_is_own(window) || top >= bottom || session_setscrreg(window->number, top, bottom) != OK) return ERR;
    window->region_top = top;
    window->region_bottom = bottom;
    return OK;
}

int wgetscrreg(const WINDOW *window, int *top, int *bottom) {
    if (!window || !top || !bottom) return ERR;
    *top = window->region_top;
    *bottom = window->region_bottom;
    return OK;
}

int scrollok(WINDOW *window, bool is_on) {
    if (!tcu_is_own(window) || session_scrollok(window->number, is_on) != OK) return ERR;
    window->scrolls = is_on;
    return OK;
}

bool is_scrollok(const WINDOW *window) {
    return window && window->scrolls;
}
