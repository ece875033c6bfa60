/* unctrl, which <curses.h> has. */
#include "curses.h"
