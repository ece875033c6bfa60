/* In place of a system's header, which would go with another <curses.h>. */
#error "ticurses-curses has no panels: a program that needs <panel.h> can't use this library"
