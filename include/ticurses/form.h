/* In place of a system's header, which would go with another <curses.h>. */
#error "ticurses-curses has no forms: a program that needs <form.h> can't use this library"
