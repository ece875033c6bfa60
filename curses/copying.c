/* Copying from one window to another. */
#include "private.h"

#include "calls.h"

int copywin(const WINDOW *source, WINDOW *target, int source_y, int source_x, int y, int x, int last_y, int last_x,
            int is_overlay) {
    if (!source || !tcu_is_own(target)) return ERR;
    if (session_copywin(source->number, target->number, source_y, source_x, y, x, last_y, last_x,
                        is_overlay != 0) != OK)
        return ERR;
    for (int line = y; line <= last_y; line++) tcu_touch(target, line, x, last_x);
    return tcu_changed(target, OK);
}

static int larger(int one, int other) {
    return one > other ? one : other;
}

static int smaller(int one, int other) {
    return one < other ? one : other;
}

/* Copies the part of the screen that both windows cover. */
static int copy_common(const WINDOW *source, WINDOW *target, bool is_overlay) {
    int top, left, bottom, right;
    if (!source || !tcu_is_own(target)) return ERR;
    top = larger(source->y, target->y);
    left = larger(source->x, target->x);
    bottom = smaller(source->y + source->lines, target->y + target->lines) - 1;
    right = smaller(source->x + source->columns, target->x + target->columns) - 1;
    if (top > bottom || left > right) return ERR;
    return copywin(source, target, top - source->y, left - source->x, top - target->y, left - target->x,
                   bottom - target->y, right - target->x, is_overlay);
}

int overlay(const WINDOW *source, WINDOW *target) {
    return copy_common(source, target, true);
}

int overwrite(const WINDOW *source, WINDOW *target) {
    return copy_common(source, target, false);
}
