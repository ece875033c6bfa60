/* In place of a system's header, which would go with another <curses.h>. */
#error "ticurses-curses has no menus: a program that needs <menu.h> can't use this library"
