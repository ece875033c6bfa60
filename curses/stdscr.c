/* The calls on stdscr, and those that move the cursor first: each uses the call on a window. */
#include "private.h"

int move(int y, int x) {
    return wmove(stdscr, y, x);
}

int addch(chtype ch) {
    return waddch(stdscr, ch);
}

int mvaddch(int y, int x, chtype ch) {
    return wmove(stdscr, y, x) == OK ? waddch(stdscr, ch) : ERR;
}

int mvwaddch(WINDOW *window, int y, int x, chtype ch) {
    return wmove(window, y, x) == OK ? waddch(window, ch) : ERR;
}

int echochar(chtype ch) {
    return wechochar(stdscr, ch);
}

int addstr(const char *text) {
    return waddstr(stdscr, text);
}

int addnstr(const char *text, int count) {
    return waddnstr(stdscr, text, count);
}

int mvaddstr(int y, int x, const char *text) {
    return wmove(stdscr, y, x) == OK ? waddstr(stdscr, text) : ERR;
}

int mvaddnstr(int y, int x, const char *text, int count) {
    return wmove(stdscr, y, x) == OK ? waddnstr(stdscr, text, count) : ERR;
}

int mvwaddstr(WINDOW *window, int y, int x, const char *text) {
    return wmove(window, y, x) == OK ? waddstr(window, text) : ERR;
}

int mvwaddnstr(WINDOW *window, int y, int x, const char *text, int count) {
    return wmove(window, y, x) == OK ? waddnstr(window, text, count) : ERR;
}

int addchstr(const chtype *cells) {
    return waddchstr(stdscr, cells);
}

int addchnstr(const chtype *cells, int count) {
    return waddchnstr(stdscr, cells, count);
}

int mvaddchstr(int y, int x, const chtype *cells) {
    return wmove(stdscr, y, x) == OK ? waddchstr(stdscr, cells) : ERR;
}

int mvaddchnstr(int y, int x, const chtype *cells, int count) {
    return wmove(stdscr, y, x) == OK ? waddchnstr(stdscr, cells, count) : ERR;
}

int mvwaddchstr(WINDOW *window, int y, int x, const chtype *cells) {
    return wmove(window, y, x) == OK ? waddchstr(window, cells) : ERR;
}

int mvwaddchnstr(WINDOW *window, int y, int x, const chtype *cells, int count) {
    return wmove(window, y, x) == OK ? waddchnstr(window, cells, count) : ERR;
}

int insch(chtype ch) {
    return winsch(stdscr, ch);
}

int mvinsch(int y, int x, chtype ch) {
    return wmove(stdscr, y, x) == OK ? winsch(stdscr, ch) : ERR;
}

int mvwinsch(WINDOW *window, int y, int x, chtype ch) {
    return wmove(window, y, x) == OK ? winsch(window, ch) : ERR;
}

int insstr(const char *text) {
    return winsstr(stdscr, text);
}

int insnstr(const char *text, int count) {
    return winsnstr(stdscr, text, count);
}

int mvinsstr(int y, int x, const char *text) {
    return wmove(stdscr, y, x) == OK ? winsstr(stdscr, text) : ERR;
}

int mvinsnstr(int y, int x, const char *text, int count) {
    return wmove(stdscr, y, x) == OK ? winsnstr(stdscr, text, count) : ERR;
}

int mvwinsstr(WINDOW *window, int y, int x, const char *text) {
    return wmove(window, y, x) == OK ? winsstr(window, text) : ERR;
}

int mvwinsnstr(WINDOW *window, int y, int x, const char *text, int count) {
    return wmove(window, y, x) == OK ? winsnstr(window, text, count) : ERR;
}

int delch(void) {
    return wdelch(stdscr);
}

int mvdelch(int y, int x) {
    return wmove(stdscr, y, x) == OK ? wdelch(stdscr) : ERR;
}

int mvwdelch(WINDOW *window, int y, int x) {
    return wmove(window, y, x) == OK ? wdelch(window) : ERR;
}

int insertln(void) {
    return winsertln(stdscr);
}

int deleteln(void) {
    return wdeleteln(stdscr);
}

int insdelln(int count) {
    return winsdelln(stdscr, count);
}

int erase(void) {
    return werase(stdscr);
}

int clear(void) {
    return wclear(stdscr);
}

int clrtoeol(void) {
    return wclrtoeol(stdscr);
}

int clrtobot(void) {
    return wclrtobot(stdscr);
}

int hline(chtype ch, int count) {
    return whline(stdscr, ch, count);
}

int mvhline(int y, int x, chtype ch, int count) {
    return wmove(stdscr, y, x) == OK ? whline(stdscr, ch, count) : ERR;
}

int mvwhline(WINDOW *window, int y, int x, chtype ch, int count) {
    return wmove(window, y, x) == OK ? whline(window, ch, count) : ERR;
}

int vline(chtype ch, int count) {
    return wvline(stdscr, ch, count);
}

int mvvline(int y, int x, chtype ch, int count) {
    return wmove(stdscr, y, x) == OK ? wvline(stdscr, ch, count) : ERR;
}

int mvwvline(WINDOW *window, int y, int x, chtype ch, int count) {
    return wmove(window, y, x) == OK ? wvline(window, ch, count) : ERR;
}

int border(chtype left, chtype right, chtype top, chtype bottom, chtype top_left, chtype top_right, chtype bottom_left,
           chtype bottom_right) {
    return wborder(stdscr, left, right, top, bottom, top_left, top_right, bottom_left, bottom_right);
}

int scrl(int count) {
    return wscrl(stdscr, count);
}

int setscrreg(int top, int bottom) {
    return wsetscrreg(stdscr, top, bottom);
}

int attron(int attrs) {
    return wattron(stdscr, attrs);
}

int attroff(int attrs) {
    return wattroff(stdscr, attrs);
}

int attrset(int attrs) {
    return wattrset(stdscr, attrs);
}

int attr_on(attr_t attrs, void *options) {
    return wattr_on(stdscr, attrs, options);
}

int attr_off(attr_t attrs, void *options) {
    return wattr_off(stdscr, attrs, options);
}

int attr_set(attr_t attrs, short pair, void *options) {
    return wattr_set(stdscr, attrs, pair, options);
}

int attr_get(attr_t *attrs, short *pair, void *options) {
    return wattr_get(stdscr, attrs, pair, options);
}

int color_set(short pair, void *options) {
    return wcolor_set(stdscr, pair, options);
}

int standout(void) {
    return wstandout(stdscr);
}

int standend(void) {
    return wstandend(stdscr);
}

int chgat(int count, attr_t attrs, short pair, const void *options) {
    return wchgat(stdscr, count, attrs, pair, options);
}

int mvchgat(int y, int x, int count, attr_t attrs, short pair, const void *options) {
    return wmove(stdscr, y, x) == OK ? wchgat(stdscr, count, attrs, pair, options) : ERR;
}

int mvwchgat(WINDOW *window, int y, int x, int count, attr_t attrs, short pair, const void *options) {
    return wmove(window, y, x) == OK ? wchgat(window, count, attrs, pair, options) : ERR;
}

void bkgdset(chtype ch) {
    wbkgdset(stdscr, ch);
}

int bkgd(chtype ch) {
    return wbkgd(stdscr, ch);
}

int refresh(void) {
    return wrefresh(stdscr);
}

chtype inch(void) {
    return winch(stdscr);
}

chtype mvinch(int y, int x) {
    return wmove(stdscr, y, x) == OK ? winch(stdscr) : (chtype)ERR;
}

chtype mvwinch(WINDOW *window, int y, int x) {
    return wmove(window, y, x) == OK ? winch(window) : (chtype)ERR;
}

int inchstr(chtype *cells) {
    return winchstr(stdscr, cells);
}

int inchnstr(chtype *cells, int count) {
    return winchnstr(stdscr, cells, count);
}

int mvinchstr(int y, int x, chtype *cells) {
    return wmove(stdscr, y, x) == OK ? winchstr(stdscr, cells) : ERR;
}

int mvinchnstr(int y, int x, chtype *cells, int count) {
    return wmove(stdscr, y, x) == OK ? winchnstr(stdscr, cells, count) : ERR;
}

int mvwinchstr(WINDOW *window, int y, int x, chtype *cells) {
    return wmove(window, y, x) == OK ? winchstr(window, cells) : ERR;
}

int mvwinchnstr(WINDOW *window, int y, int x, chtype *cells, int count) {
    return wmove(window, y, x) == OK ? winchnstr(window, cells, count) : ERR;
}

int instr(char *text) {
    return winstr(stdscr, text);
}

int innstr(char *text, int count) {
    return winnstr(stdscr, text, count);
}

int mvinstr(int y, int x, char *text) {
    return wmove(stdscr, y, x) == OK ? winstr(stdscr, text) : ERR;
}

int mvinnstr(int y, int x, char *text, int count) {
    return wmove(stdscr, y, x) == OK ? winnstr(stdscr, text, count) : ERR;
}

int mvwinstr(WINDOW *window, int y, int x, char *text) {
    return wmove(window, y, x) == OK ? winstr(window, text) : ERR;
}

int mvwinnstr(WINDOW *window, int y, int x, char *text, int count) {
    return wmove(window, y, x) == OK ? winnstr(window, text, count) : ERR;
}

int getch(void) {
    return wgetch(stdscr);
}

int mvgetch(int y, int x) {
    return wmove(stdscr, y, x) == OK ? wgetch(stdscr) : ERR;
}

int mvwgetch(WINDOW *window, int y, int x) {
    return wmove(window, y, x) == OK ? wgetch(window) : ERR;
}

int getstr(char *text) {
    return wgetstr(stdscr, text);
}

int getnstr(char *text, int count) {
    return wgetnstr(stdscr, text, count);
}

int mvgetstr(int y, int x, char *text) {
    return wmove(stdscr, y, x) == OK ? wgetstr(stdscr, text) : ERR;
}

int mvgetnstr(int y, int x, char *text, int count) {
    return wmove(stdscr, y, x) == OK ? wgetnstr(stdscr, text, count) : ERR;
}

int mvwgetstr(WINDOW *window, int y, int x, char *text) {
    return wmove(window, y, x) == OK ? wgetstr(window, text) : ERR;
}

int mvwgetnstr(WINDOW *window, int y, int x, char *text, int count) {
    return wmove(window, y, x) == OK ? wgetnstr(window, text, count) : ERR;
}

void timeout(int milliseconds) {
    wtimeout(stdscr, milliseconds);
}
