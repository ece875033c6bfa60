/* The name by which programs for ncurses include it. */
#include "curses.h"
