/* Erasing with the background. */
#include "private.h"

#include "calls.h"

int werase(WINDOW *window) {
    if (!tcu_is_own(window)) return ERR;
    window->has_wrapped = false;
    tcu_touch_lines(window, 0, window->lines - 1);
    return tcu_changed(window, session_erase(window->number));
}

int wclear(WINDOW *window) {
    if (!tcu_is_own(window)) return ERR;
    window->clears = true;
    return werase(window);
}

int wclrtoeol(WINDOW *window) {
    if (!tcu_is_own(window) || tcu_clear_rest(window) != OK) return ERR;
    return tcu_changed(window, OK);
}

int wclrtobot(WINDOW *window) {
    int y, x;
    if (!tcu_is_own(window) || session_cursor(window->number, &y, &x) != OK) return ERR;
    tcu_touch(window, y, x, window->columns - 1);
    tcu_touch_lines(window, y + 1, window->lines - 1);
    return tcu_changed(window, session_clrtobot(window->number));
}
