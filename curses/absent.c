/* Functions that this library only refuses: soft labels, lines set apart by ripoffline, mice. */
#include "private.h"

int ripoffline(int line, int (*start)(WINDOW *, int)) {
    (void)line;
    (void)start;
    return ERR;
}

/* Does nothing: a session always has the size of its terminal. */
void filter(void) {
}

void nofilter(void) {
}

void use_env(bool is_used) {
    (void)is_used;
}

int slk_init(int format) {
    (void)format;
    return ERR;
}

int slk_set(int label, const char *text, int justification) {
    (void)label;
    (void)text;
    (void)justification;
    return ERR;
}

int slk_refresh(void) {
    return ERR;
}

int slk_noutrefresh(void) {
    return ERR;
}

char *slk_label(int label) {
    (void)label;
    return NULL;
}

int slk_clear(void) {
    return ERR;
}

int slk_restore(void) {
    return ERR;
}

int slk_touch(void) {
    return ERR;
}

int slk_attron(chtype attrs) {
    (void)attrs;
    return ERR;
}

int slk_attroff(chtype attrs) {
    (void)attrs;
    return ERR;
}

int slk_attrset(chtype attrs) {
    (void)attrs;
    return ERR;
}

int slk_attr_on(attr_t attrs, void *options) {
    (void)attrs;
    (void)options;
    return ERR;
}

int slk_attr_off(attr_t attrs, void *options) {
    (void)attrs;
    (void)options;
    return ERR;
}

int slk_attr_set(attr_t attrs, short pair, void *options) {
    (void)attrs;
    (void)pair;
    (void)options;
    return ERR;
}

int slk_color(short pair) {
    (void)pair;
    return ERR;
}

mmask_t mousemask(mmask_t wanted, mmask_t *before) {
    (void)wanted;
    if (before) *before = 0;
    return 0;
}

int getmouse(MEVENT *event) {
    (void)event;
    return ERR;
}

int ungetmouse(MEVENT *event) {
    (void)event;
    return ERR;
}

int mouseinterval(int milliseconds) {
    (void)milliseconds;
    return 0;
}

bool has_mouse(void) {
    return false;
}
