/* Options of windows that the session doesn't know. */
#include "private.h"

int clearok(WINDOW *window, bool is_on) {
    if (!window || !tcu.is_open) return ERR;
    window->clears = is_on;
    return OK;
}

int leaveok(WINDOW *window, bool is_on) {
    if (!tcu_is_own(window)) return ERR;
    window->leaves = is_on;
    return OK;
}

/* Only keeps the option: the session's painter chooses by itself how it moves lines and characters. */
int idlok(WINDOW *window, bool is_on) {
    if (!tcu_is_own(window)) return ERR;
    window->shifts_lines = is_on;
    return OK;
}

void idcok(WINDOW *window, bool is_on) {
    if (tcu_is_own(window)) window->shifts_characters = is_on;
}

void immedok(WINDOW *window, bool is_on) {
    if (tcu_is_own(window)) window->shows_changes = is_on;
}

int syncok(WINDOW *window, bool is_on) {
    if (!tcu_is_own(window)) return ERR;
    window->syncs = is_on;
    return OK;
}

int nodelay(WINDOW *window, bool is_on) {
    if (!tcu_is_own(window)) return ERR;
    window->delay = is_on ? 0 : -1;
    return OK;
}

void wtimeout(WINDOW *window, int milliseconds) {
    if (tcu_is_own(window)) window->delay = milliseconds;
}

int notimeout(WINDOW *window, bool is_on) {
    if (!tcu_is_own(window)) return ERR;
    window->waits_in_keys = is_on;
    return OK;
}

bool is_cleared(const WINDOW *window) {
    return window && window->clears;
}

bool is_leaveok(const WINDOW *window) {
    return window && window->leaves;
}

bool is_idlok(const WINDOW *window) {
    return window && window->shifts_lines;
}

bool is_idcok(const WINDOW *window) {
    return window && window->shifts_characters;
}

bool is_immedok(const WINDOW *window) {
    return window && window->shows_changes;
}

bool is_syncok(const WINDOW *window) {
    return window && window->syncs;
}

bool is_nodelay(const WINDOW *window) {
    return window && window->delay == 0;
}

bool is_notimeout(const WINDOW *window) {
    return window && window->waits_in_keys;
}

bool is_keypad(const WINDOW *window) {
    return window && window->has_keypad;
}

int wgetdelay(const WINDOW *window) {
    return window ? window->delay : 0;
}
