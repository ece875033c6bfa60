/* Colors: eight of them, and 64 pairs. Pair 0 has the terminal's own colors. With default colors a program may set some
 * pairs more: each of these takes the session's pair of one that nothing was drawn with so far. */
#include "private.h"

#include <string.h>

#include "calls.h"

enum { SHADES = 8 };

static short pairs[TCU_ALL_PAIRS][2];
static bool has_pair[TCU_ALL_PAIRS];

/* The session's pairs of those that the session doesn't number; which of them has a pair of the session's; and what was
 * drawn with. */
static unsigned char more[TCU_ALL_PAIRS - TCU_PAIRS], taken_by[TCU_PAIRS];
static bool is_used[TCU_PAIRS];

int tcu_slot(int pair) {
    int slot = 0;
    if (pair >= 0 && pair < TCU_PAIRS) slot = taken_by[pair] ? 0 : pair;
    if (pair >= TCU_PAIRS && pair < TCU_ALL_PAIRS) slot = more[pair - TCU_PAIRS];
    return slot;
}

int tcu_use(int pair) {
    int slot = tcu_slot(pair);
    is_used[slot] = true;
    return slot;
}

int tcu_pair_of(int slot) {
    return taken_by[slot] ? taken_by[slot] : slot;
}

/* Gives a pair that the session doesn't number one of the session's; false if all are used. */
static bool has_taken(int pair) {
    int slot = TCU_PAIRS - 1;
    if (more[pair - TCU_PAIRS]) return true;
    while (slot > 0 && (is_used[slot] || taken_by[slot])) slot--;
    if (slot == 0) return false;
    more[pair - TCU_PAIRS] = (unsigned char)slot;
    taken_by[slot] = (unsigned char)pair;
    return true;
}

/* Whether the program has set the pair. */
bool tcu_has_pair(int pair) {
    return has_pair[pair];
}

bool has_colors(void) {
    return tcu.is_open && entry_colors() >= SHADES && entry_string("setaf") && entry_string("setab") &&
           entry_string("op");
}

bool can_change_color(void) {
    return false;
}

/* Pair 0 has the terminal's own colors: they are called white on black until the program says that it knows them. */
static void note_pair_0(void) {
    pairs[0][0] = tcu.has_default_colors ? -1 : COLOR_WHITE;
    pairs[0][1] = tcu.has_default_colors ? -1 : COLOR_BLACK;
}

/* On a terminal without colors this is no error: COLORS and COLOR_PAIRS stay 0, and has_colors says no. */
int start_color(void) {
    if (!tcu.is_open) return ERR;
    if (tcu.has_colors || !has_colors()) return OK;
    tcu.has_colors = true;
    COLORS = SHADES;
    COLOR_PAIRS = TCU_PAIRS;
    for (int pair = 0; pair < TCU_ALL_PAIRS; pair++) {
        pairs[pair][0] = pairs[pair][1] = 0;
        has_pair[pair] = false;
    }
    memset(more, 0, sizeof more);
    memset(taken_by, 0, sizeof taken_by);
    memset(is_used, 0, sizeof is_used);
    note_pair_0();
    return OK;
}

static bool is_color(short color) {
    return color >= (tcu.has_default_colors ? -1 : 0) && color < SHADES;
}

/* Whether it is a number of a pair that the program may set. */
static bool is_pair(short pair) {
    return tcu.has_colors && pair >= 0 && pair < (tcu.has_default_colors ? TCU_ALL_PAIRS : TCU_PAIRS);
}

/* How many pairs have a default color, once this one has these. */
static int defaults_with(short pair, short foreground, short background) {
    int count = foreground < 0 || background < 0;
    for (int at = 1; at < TCU_ALL_PAIRS; at++)
        if (at != pair && has_pair[at] && (pairs[at][0] < 0 || pairs[at][1] < 0)) count++;
    return count;
}

/* As in ncurses, the session's pairs and as many more as have a default color can be set. */
int init_pair(short pair, short foreground, short background) {
    if (!is_pair(pair) || pair == 0 || !is_color(foreground) || !is_color(background)) return ERR;
    if (pair > TCU_PAIRS + defaults_with(pair, foreground, background)) return ERR;
    if (pair >= TCU_PAIRS && !has_taken(pair)) return ERR;
    if (tcu_slot(pair) > 0 && session_init_pair(tcu_slot(pair), foreground, background) != OK) return ERR;
    pairs[pair][0] = foreground;
    pairs[pair][1] = background;
    has_pair[pair] = true;
    return OK;
}

int pair_content(short pair, short *foreground, short *background) {
    if (!is_pair(pair)) return ERR;
    if (foreground) *foreground = pairs[pair][0];
    if (background) *background = pairs[pair][1];
    return OK;
}

int init_color(short color, short red, short green, short blue) {
    (void)color;
    (void)red;
    (void)green;
    (void)blue;
    return ERR;
}

/* The red, green and blue of a color: each is 0 or 680, as the color's name says. */
int color_content(short color, short *red, short *green, short *blue) {
    enum { FULL = 680 };
    if (!tcu.has_colors || color < 0 || color >= SHADES) return ERR;
    if (red) *red = color & 1 ? FULL : 0;
    if (green) *green = color & 2 ? FULL : 0;
    if (blue) *blue = color & 4 ? FULL : 0;
    return OK;
}

int use_default_colors(void) {
    return assume_default_colors(-1, -1);
}

/* Takes -1 and -1 only: pair 0 has the terminal's own colors and can't have others. A program may call this before
 * start_color too. */
int assume_default_colors(int foreground, int background) {
    if (!has_colors() || foreground != -1 || background != -1) return ERR;
    tcu.has_default_colors = true;
    note_pair_0();
    return OK;
}
