/* The functions of X/Open Curses Issue 7 over ticurses: single-width characters, one terminal, and a refresh that is
 * proved.
 *
 *     cc game.c $(pkg-config --cflags --libs ticurses-curses)
 *
 * docs/CURSES.md has a table of all functions of the standard: which are here, which differ, and which are missing.
 * Drawing goes through the proved calls of libticurses; keys, the terminal's modes and all other output are outside the
 * theorem. The header is C99 and C++11. */
#ifndef TICURSES_CURSES_H
#define TICURSES_CURSES_H

#include <stdarg.h>
#ifndef __cplusplus
#include <stdbool.h>
#endif
#include <stdio.h>

#include "term_calls.h"

#if defined(__GNUC__)
#define TICURSES_CURSES_PRINTF(at, rest) __attribute__((__format__(__printf__, at, rest)))
#define TICURSES_CURSES_SCANF(at, rest) __attribute__((__format__(__scanf__, at, rest)))
#define TICURSES_CURSES_NO_RETURN __attribute__((__noreturn__))
#else
#define TICURSES_CURSES_PRINTF(at, rest)
#define TICURSES_CURSES_SCANF(at, rest)
#define TICURSES_CURSES_NO_RETURN
#endif

#ifdef __cplusplus
extern "C" {
#endif

#define TICURSES_CURSES 1

typedef struct ticurses_window WINDOW;
typedef struct ticurses_screen SCREEN;

#undef TRUE
#undef FALSE
#define TRUE 1
#define FALSE 0

#define COLOR_PAIR(n) (((chtype)(n) << 8) & A_COLOR)
#define PAIR_NUMBER(a) ((int)(((chtype)(a) & A_COLOR) >> 8))

#define COLOR_BLACK 0
#define COLOR_RED 1
#define COLOR_GREEN 2
#define COLOR_YELLOW 3
#define COLOR_BLUE 4
#define COLOR_MAGENTA 5
#define COLOR_CYAN 6
#define COLOR_WHITE 7

extern WINDOW *stdscr, *curscr, *newscr;
extern int LINES, COLS, COLORS, COLOR_PAIRS, TABSIZE, ESCDELAY;
extern chtype acs_map[128];

#define TICURSES_ACS(letter) (acs_map[(unsigned char)(letter)])
#define ACS_ULCORNER TICURSES_ACS('l')
#define ACS_LLCORNER TICURSES_ACS('m')
#define ACS_URCORNER TICURSES_ACS('k')
#define ACS_LRCORNER TICURSES_ACS('j')
#define ACS_LTEE TICURSES_ACS('t')
#define ACS_RTEE TICURSES_ACS('u')
#define ACS_BTEE TICURSES_ACS('v')
#define ACS_TTEE TICURSES_ACS('w')
#define ACS_HLINE TICURSES_ACS('q')
#define ACS_VLINE TICURSES_ACS('x')
#define ACS_PLUS TICURSES_ACS('n')
#define ACS_S1 TICURSES_ACS('o')
#define ACS_S3 TICURSES_ACS('p')
#define ACS_S7 TICURSES_ACS('r')
#define ACS_S9 TICURSES_ACS('s')
#define ACS_DIAMOND TICURSES_ACS('`')
#define ACS_CKBOARD TICURSES_ACS('a')
#define ACS_DEGREE TICURSES_ACS('f')
#define ACS_PLMINUS TICURSES_ACS('g')
#define ACS_BULLET TICURSES_ACS('~')
#define ACS_LARROW TICURSES_ACS(',')
#define ACS_RARROW TICURSES_ACS('+')
#define ACS_DARROW TICURSES_ACS('.')
#define ACS_UARROW TICURSES_ACS('-')
#define ACS_BOARD TICURSES_ACS('h')
#define ACS_LANTERN TICURSES_ACS('i')
#define ACS_BLOCK TICURSES_ACS('0')
#define ACS_LEQUAL TICURSES_ACS('y')
#define ACS_GEQUAL TICURSES_ACS('z')
#define ACS_PI TICURSES_ACS('{')
#define ACS_NEQUAL TICURSES_ACS('|')
#define ACS_STERLING TICURSES_ACS('}')
#define ACS_BSSB ACS_ULCORNER
#define ACS_SSBB ACS_LLCORNER
#define ACS_BBSS ACS_URCORNER
#define ACS_SBBS ACS_LRCORNER
#define ACS_SBSS ACS_RTEE
#define ACS_SSSB ACS_LTEE
#define ACS_SSBS ACS_BTEE
#define ACS_BSSS ACS_TTEE
#define ACS_BSBS ACS_HLINE
#define ACS_SBSB ACS_VLINE
#define ACS_SSSS ACS_PLUS

/* The terminal, which becomes the current one of <term.h> too. If there is none, initscr says why and ends the program,
 * and newterm returns a null pointer. */
WINDOW *initscr(void);
SCREEN *newterm(const char *type, FILE *output, FILE *input);
SCREEN *set_term(SCREEN *screen);
void delscreen(SCREEN *screen);
int endwin(void);
bool isendwin(void);
int ripoffline(int line, int (*start)(WINDOW *, int));
void filter(void);
void use_env(bool is_used);
chtype termattrs(void);
attr_t term_attrs(void);
int baudrate(void);
char erasechar(void);
char killchar(void);
bool has_ic(void);
bool has_il(void);
int beep(void);
int flash(void);
int curs_set(int visibility);
int napms(int milliseconds);
int delay_output(int milliseconds);
int def_prog_mode(void);
int def_shell_mode(void);
int reset_prog_mode(void);
int reset_shell_mode(void);
int savetty(void);
int resetty(void);

/* Windows and pads. */
WINDOW *newwin(int lines, int columns, int y, int x);
WINDOW *subwin(WINDOW *parent, int lines, int columns, int y, int x);
WINDOW *derwin(WINDOW *parent, int lines, int columns, int y, int x);
WINDOW *newpad(int lines, int columns);
WINDOW *subpad(WINDOW *parent, int lines, int columns, int y, int x);
WINDOW *dupwin(WINDOW *window);
int delwin(WINDOW *window);
int mvwin(WINDOW *window, int y, int x);
int mvderwin(WINDOW *window, int y, int x);
int getcury(const WINDOW *window);
int getcurx(const WINDOW *window);
int getbegy(const WINDOW *window);
int getbegx(const WINDOW *window);
int getmaxy(const WINDOW *window);
int getmaxx(const WINDOW *window);
int getpary(const WINDOW *window);
int getparx(const WINDOW *window);

#define getyx(window, y, x) ((void)((y) = getcury(window), (x) = getcurx(window)))
#define getbegyx(window, y, x) ((void)((y) = getbegy(window), (x) = getbegx(window)))
#define getmaxyx(window, y, x) ((void)((y) = getmaxy(window), (x) = getmaxx(window)))
#define getparyx(window, y, x) ((void)((y) = getpary(window), (x) = getparx(window)))

/* Characters. */
int move(int y, int x);
int wmove(WINDOW *window, int y, int x);
int addch(chtype ch);
int waddch(WINDOW *window, chtype ch);
int mvaddch(int y, int x, chtype ch);
int mvwaddch(WINDOW *window, int y, int x, chtype ch);
int echochar(chtype ch);
int wechochar(WINDOW *window, chtype ch);
int pechochar(WINDOW *pad, chtype ch);
int addstr(const char *text);
int addnstr(const char *text, int count);
int waddstr(WINDOW *window, const char *text);
int waddnstr(WINDOW *window, const char *text, int count);
int mvaddstr(int y, int x, const char *text);
int mvaddnstr(int y, int x, const char *text, int count);
int mvwaddstr(WINDOW *window, int y, int x, const char *text);
int mvwaddnstr(WINDOW *window, int y, int x, const char *text, int count);
int addchstr(const chtype *cells);
int addchnstr(const chtype *cells, int count);
int waddchstr(WINDOW *window, const chtype *cells);
int waddchnstr(WINDOW *window, const chtype *cells, int count);
int mvaddchstr(int y, int x, const chtype *cells);
int mvaddchnstr(int y, int x, const chtype *cells, int count);
int mvwaddchstr(WINDOW *window, int y, int x, const chtype *cells);
int mvwaddchnstr(WINDOW *window, int y, int x, const chtype *cells, int count);

/* Insertion and deletion. */
int insch(chtype ch);
int winsch(WINDOW *window, chtype ch);
int mvinsch(int y, int x, chtype ch);
int mvwinsch(WINDOW *window, int y, int x, chtype ch);
int insstr(const char *text);
int insnstr(const char *text, int count);
int winsstr(WINDOW *window, const char *text);
int winsnstr(WINDOW *window, const char *text, int count);
int mvinsstr(int y, int x, const char *text);
int mvinsnstr(int y, int x, const char *text, int count);
int mvwinsstr(WINDOW *window, int y, int x, const char *text);
int mvwinsnstr(WINDOW *window, int y, int x, const char *text, int count);
int delch(void);
int wdelch(WINDOW *window);
int mvdelch(int y, int x);
int mvwdelch(WINDOW *window, int y, int x);
int insertln(void);
int winsertln(WINDOW *window);
int deleteln(void);
int wdeleteln(WINDOW *window);
int insdelln(int count);
int winsdelln(WINDOW *window, int count);

/* Clearing, lines and scrolling. A character of 0 means the default one. */
int erase(void);
int werase(WINDOW *window);
int clear(void);
int wclear(WINDOW *window);
int clrtoeol(void);
int wclrtoeol(WINDOW *window);
int clrtobot(void);
int wclrtobot(WINDOW *window);
int hline(chtype ch, int count);
int whline(WINDOW *window, chtype ch, int count);
int mvhline(int y, int x, chtype ch, int count);
int mvwhline(WINDOW *window, int y, int x, chtype ch, int count);
int vline(chtype ch, int count);
int wvline(WINDOW *window, chtype ch, int count);
int mvvline(int y, int x, chtype ch, int count);
int mvwvline(WINDOW *window, int y, int x, chtype ch, int count);
int border(chtype left, chtype right, chtype top, chtype bottom, chtype top_left, chtype top_right, chtype bottom_left,
           chtype bottom_right);
int wborder(WINDOW *window, chtype left, chtype right, chtype top, chtype bottom, chtype top_left, chtype top_right,
            chtype bottom_left, chtype bottom_right);
int box(WINDOW *window, chtype vertical, chtype horizontal);
int scroll(WINDOW *window);
int scrl(int count);
int wscrl(WINDOW *window, int count);
int setscrreg(int top, int bottom);
int wsetscrreg(WINDOW *window, int top, int bottom);

/* Attributes, background and colors. Each pointer to options must be null. */
int attron(int attrs);
int wattron(WINDOW *window, int attrs);
int attroff(int attrs);
int wattroff(WINDOW *window, int attrs);
int attrset(int attrs);
int wattrset(WINDOW *window, int attrs);
int attr_on(attr_t attrs, void *options);
int wattr_on(WINDOW *window, attr_t attrs, void *options);
int attr_off(attr_t attrs, void *options);
int wattr_off(WINDOW *window, attr_t attrs, void *options);
int attr_set(attr_t attrs, short pair, void *options);
int wattr_set(WINDOW *window, attr_t attrs, short pair, void *options);
int attr_get(attr_t *attrs, short *pair, void *options);
int wattr_get(WINDOW *window, attr_t *attrs, short *pair, void *options);
int color_set(short pair, void *options);
int wcolor_set(WINDOW *window, short pair, void *options);
int standout(void);
int wstandout(WINDOW *window);
int standend(void);
int wstandend(WINDOW *window);
int chgat(int count, attr_t attrs, short pair, const void *options);
int wchgat(WINDOW *window, int count, attr_t attrs, short pair, const void *options);
int mvchgat(int y, int x, int count, attr_t attrs, short pair, const void *options);
int mvwchgat(WINDOW *window, int y, int x, int count, attr_t attrs, short pair, const void *options);
void bkgdset(chtype ch);
void wbkgdset(WINDOW *window, chtype ch);
int bkgd(chtype ch);
int wbkgd(WINDOW *window, chtype ch);
chtype getbkgd(WINDOW *window);
int start_color(void);
bool has_colors(void);
bool can_change_color(void);
int init_pair(short pair, short foreground, short background);
int pair_content(short pair, short *foreground, short *background);
int init_color(short color, short red, short green, short blue);
int color_content(short color, short *red, short *green, short *blue);

/* Copying. */
int overlay(const WINDOW *source, WINDOW *target);
int overwrite(const WINDOW *source, WINDOW *target);
int copywin(const WINDOW *source, WINDOW *target, int source_y, int source_x, int y, int x, int last_y, int last_x,
            int is_overlay);

/* Refreshing, and touched lines. */
int refresh(void);
int wrefresh(WINDOW *window);
int wnoutrefresh(WINDOW *window);
int doupdate(void);
int mvcur(int y, int x, int new_y, int new_x);
int prefresh(WINDOW *pad, int pad_y, int pad_x, int y, int x, int last_y, int last_x);
int pnoutrefresh(WINDOW *pad, int pad_y, int pad_x, int y, int x, int last_y, int last_x);
int redrawwin(WINDOW *window);
int wredrawln(WINDOW *window, int first, int count);
int touchwin(WINDOW *window);
int touchline(WINDOW *window, int first, int count);
int untouchwin(WINDOW *window);
int wtouchln(WINDOW *window, int first, int count, int is_touched);
bool is_linetouched(WINDOW *window, int line);
bool is_wintouched(WINDOW *window);
void wsyncup(WINDOW *window);
void wsyncdown(WINDOW *window);
void wcursyncup(WINDOW *window);

/* Options. */
int clearok(WINDOW *window, bool is_on);
int idlok(WINDOW *window, bool is_on);
void idcok(WINDOW *window, bool is_on);
void immedok(WINDOW *window, bool is_on);
int leaveok(WINDOW *window, bool is_on);
int scrollok(WINDOW *window, bool is_on);
int syncok(WINDOW *window, bool is_on);

/* The content of windows. */
chtype inch(void);
chtype winch(WINDOW *window);
chtype mvinch(int y, int x);
chtype mvwinch(WINDOW *window, int y, int x);
int inchstr(chtype *cells);
int inchnstr(chtype *cells, int count);
int winchstr(WINDOW *window, chtype *cells);
int winchnstr(WINDOW *window, chtype *cells, int count);
int mvinchstr(int y, int x, chtype *cells);
int mvinchnstr(int y, int x, chtype *cells, int count);
int mvwinchstr(WINDOW *window, int y, int x, chtype *cells);
int mvwinchnstr(WINDOW *window, int y, int x, chtype *cells, int count);
int instr(char *text);
int innstr(char *text, int count);
int winstr(WINDOW *window, char *text);
int winnstr(WINDOW *window, char *text, int count);
int mvinstr(int y, int x, char *text);
int mvinnstr(int y, int x, char *text, int count);
int mvwinstr(WINDOW *window, int y, int x, char *text);
int mvwinnstr(WINDOW *window, int y, int x, char *text, int count);

/* Keys. */
int getch(void);
int wgetch(WINDOW *window);
int mvgetch(int y, int x);
int mvwgetch(WINDOW *window, int y, int x);
int ungetch(int ch);
int getstr(char *text);
int getnstr(char *text, int count);
int wgetstr(WINDOW *window, char *text);
int wgetnstr(WINDOW *window, char *text, int count);
int mvgetstr(int y, int x, char *text);
int mvgetnstr(int y, int x, char *text, int count);
int mvwgetstr(WINDOW *window, int y, int x, char *text);
int mvwgetnstr(WINDOW *window, int y, int x, char *text, int count);
int flushinp(void);
int keypad(WINDOW *window, bool is_on);
int meta(WINDOW *window, bool is_on);
int nodelay(WINDOW *window, bool is_on);
int notimeout(WINDOW *window, bool is_on);
void timeout(int milliseconds);
void wtimeout(WINDOW *window, int milliseconds);
int cbreak(void);
int nocbreak(void);
int raw(void);
int noraw(void);
int echo(void);
int noecho(void);
int nl(void);
int nonl(void);
int halfdelay(int tenths);
int intrflush(WINDOW *window, bool is_on);
int typeahead(int fd);
void qiflush(void);
void noqiflush(void);
const char *keyname(int key);
const char *unctrl(chtype ch);

/* printf and scanf. */
int printw(const char *format, ...) TICURSES_CURSES_PRINTF(1, 2);
int wprintw(WINDOW *window, const char *format, ...) TICURSES_CURSES_PRINTF(2, 3);
int mvprintw(int y, int x, const char *format, ...) TICURSES_CURSES_PRINTF(3, 4);
int mvwprintw(WINDOW *window, int y, int x, const char *format, ...) TICURSES_CURSES_PRINTF(4, 5);
int vwprintw(WINDOW *window, const char *format, va_list rest) TICURSES_CURSES_PRINTF(2, 0);
int vw_printw(WINDOW *window, const char *format, va_list rest) TICURSES_CURSES_PRINTF(2, 0);
int scanw(const char *format, ...) TICURSES_CURSES_SCANF(1, 2);
int wscanw(WINDOW *window, const char *format, ...) TICURSES_CURSES_SCANF(2, 3);
int mvscanw(int y, int x, const char *format, ...) TICURSES_CURSES_SCANF(3, 4);
int mvwscanw(WINDOW *window, int y, int x, const char *format, ...) TICURSES_CURSES_SCANF(4, 5);
int vwscanw(WINDOW *window, const char *format, va_list rest) TICURSES_CURSES_SCANF(2, 0);
int vw_scanw(WINDOW *window, const char *format, va_list rest) TICURSES_CURSES_SCANF(2, 0);

/* Soft labels, which this library doesn't have: each call returns ERR or a null pointer. */
int slk_init(int format);
int slk_set(int label, const char *text, int justification);
int slk_refresh(void);
int slk_noutrefresh(void);
char *slk_label(int label);
int slk_clear(void);
int slk_restore(void);
int slk_touch(void);
int slk_attron(chtype attrs);
int slk_attroff(chtype attrs);
int slk_attrset(chtype attrs);
int slk_attr_on(attr_t attrs, void *options);
int slk_attr_off(attr_t attrs, void *options);
int slk_attr_set(attr_t attrs, short pair, void *options);
int slk_color(short pair);

/* Mice, which this library doesn't have: it asks for no event, and none comes. */
typedef uint32_t mmask_t;
typedef struct MEVENT {
    short id;
    int x, y, z;
    mmask_t bstate;
} MEVENT;
mmask_t mousemask(mmask_t wanted, mmask_t *before);
int getmouse(MEVENT *event);
int ungetmouse(MEVENT *event);
int mouseinterval(int milliseconds);
bool has_mouse(void);

#define TICURSES_BUTTON(button, event) ((mmask_t)(event) << (((button) - 1) * 5))
#define BUTTON1_RELEASED TICURSES_BUTTON(1, 1)
#define BUTTON1_PRESSED TICURSES_BUTTON(1, 2)
#define BUTTON1_CLICKED TICURSES_BUTTON(1, 4)
#define BUTTON1_DOUBLE_CLICKED TICURSES_BUTTON(1, 8)
#define BUTTON1_TRIPLE_CLICKED TICURSES_BUTTON(1, 16)
#define BUTTON2_RELEASED TICURSES_BUTTON(2, 1)
#define BUTTON2_PRESSED TICURSES_BUTTON(2, 2)
#define BUTTON2_CLICKED TICURSES_BUTTON(2, 4)
#define BUTTON2_DOUBLE_CLICKED TICURSES_BUTTON(2, 8)
#define BUTTON2_TRIPLE_CLICKED TICURSES_BUTTON(2, 16)
#define BUTTON3_RELEASED TICURSES_BUTTON(3, 1)
#define BUTTON3_PRESSED TICURSES_BUTTON(3, 2)
#define BUTTON3_CLICKED TICURSES_BUTTON(3, 4)
#define BUTTON3_DOUBLE_CLICKED TICURSES_BUTTON(3, 8)
#define BUTTON3_TRIPLE_CLICKED TICURSES_BUTTON(3, 16)
#define BUTTON4_RELEASED TICURSES_BUTTON(4, 1)
#define BUTTON4_PRESSED TICURSES_BUTTON(4, 2)
#define BUTTON4_CLICKED TICURSES_BUTTON(4, 4)
#define BUTTON4_DOUBLE_CLICKED TICURSES_BUTTON(4, 8)
#define BUTTON4_TRIPLE_CLICKED TICURSES_BUTTON(4, 16)
#define BUTTON5_RELEASED TICURSES_BUTTON(5, 1)
#define BUTTON5_PRESSED TICURSES_BUTTON(5, 2)
#define BUTTON5_CLICKED TICURSES_BUTTON(5, 4)
#define BUTTON5_DOUBLE_CLICKED TICURSES_BUTTON(5, 8)
#define BUTTON5_TRIPLE_CLICKED TICURSES_BUTTON(5, 16)
#define BUTTON_CTRL 0x02000000u
#define BUTTON_SHIFT 0x04000000u
#define BUTTON_ALT 0x08000000u
#define REPORT_MOUSE_POSITION 0x10000000u
#define ALL_MOUSE_EVENTS 0x01ffffffu

/* Beyond the standard: functions of ncurses that programs use. */
int use_default_colors(void);
int assume_default_colors(int foreground, int background);
int has_key(int key);
/* Binds one more string to a key, instead of the key that had it. A null string removes those of the key, and a key of 0
 * or less unbinds the string. ERR if a key's string begins with this one, or is its beginning. */
int define_key(const char *text, int key);
/* The key that has this string or its beginning: 0 if none has, -1 if longer strings of keys begin so. */
int key_defined(const char *text);
/* A copy, for free, of the string of a key, counted from 0; null if it has none of this number. */
char *keybound(int key, int count);
/* Turns the strings of a key off or on. ERR if there are none that are on or off. */
int keyok(int key, bool is_on);
void nofilter(void);
/* The place of the cursor after the next doupdate; -1 and -1 if it may stay anywhere. getsyx sets both variables. */
void setsyx(int y, int x);
void ticurses_getsyx(int *y, int *x);
#define getsyx(y, x) ticurses_getsyx(&(y), &(x))
int set_escdelay(int milliseconds);
int get_escdelay(void);
int set_tabsize(int columns);
int wresize(WINDOW *window, int lines, int columns);
int resizeterm(int lines, int columns);
int resize_term(int lines, int columns);
bool is_term_resized(int lines, int columns);
attr_t getattrs(const WINDOW *window);
WINDOW *wgetparent(const WINDOW *window);
int wgetscrreg(const WINDOW *window, int *top, int *bottom);
int wgetdelay(const WINDOW *window);
/* Reads a key as wgetch does where keys come one by one, and waits for nothing; for programs that wait in their own way.
 * Answers ERR if no key is there. If the first bytes of a function key are, *count becomes their number and
 * *milliseconds the time that wgetch would wait for the rest, without end if negative; else *count becomes 0. The next
 * read continues with these bytes, or takes each as a key if `takes_rest` and the rest isn't there. Either pointer may
 * be null. */
int ticurses_wgetch(WINDOW *window, bool takes_rest, int *count, int *milliseconds);
bool is_cleared(const WINDOW *window);
bool is_idcok(const WINDOW *window);
bool is_idlok(const WINDOW *window);
bool is_immedok(const WINDOW *window);
bool is_keypad(const WINDOW *window);
bool is_leaveok(const WINDOW *window);
bool is_nodelay(const WINDOW *window);
bool is_notimeout(const WINDOW *window);
bool is_pad(const WINDOW *window);
bool is_scrollok(const WINDOW *window);
bool is_subwin(const WINDOW *window);
bool is_syncok(const WINDOW *window);
bool wenclose(const WINDOW *window, int y, int x);
const char *curses_version(void);
void exit_curses(int status) TICURSES_CURSES_NO_RETURN;

#define KEY_CODE_YES 0400
#define KEY_MIN 0401
#define KEY_BREAK 0401
#define KEY_DOWN 0402
#define KEY_UP 0403
#define KEY_LEFT 0404
#define KEY_RIGHT 0405
#define KEY_HOME 0406
#define KEY_BACKSPACE 0407
#define KEY_F0 0410
#define KEY_F(n) (KEY_F0 + (n))
#define KEY_DL 0510
#define KEY_IL 0511
#define KEY_DC 0512
#define KEY_IC 0513
#define KEY_EIC 0514
#define KEY_CLEAR 0515
#define KEY_EOS 0516
#define KEY_EOL 0517
#define KEY_SF 0520
#define KEY_SR 0521
#define KEY_NPAGE 0522
#define KEY_PPAGE 0523
#define KEY_STAB 0524
#define KEY_CTAB 0525
#define KEY_CATAB 0526
#define KEY_ENTER 0527
#define KEY_PRINT 0532
#define KEY_LL 0533
#define KEY_A1 0534
#define KEY_A3 0535
#define KEY_B2 0536
#define KEY_C1 0537
#define KEY_C3 0540
#define KEY_BTAB 0541
#define KEY_BEG 0542
#define KEY_CANCEL 0543
#define KEY_CLOSE 0544
#define KEY_COMMAND 0545
#define KEY_COPY 0546
#define KEY_CREATE 0547
#define KEY_END 0550
#define KEY_EXIT 0551
#define KEY_FIND 0552
#define KEY_HELP 0553
#define KEY_MARK 0554
#define KEY_MESSAGE 0555
#define KEY_MOVE 0556
#define KEY_NEXT 0557
#define KEY_OPEN 0560
#define KEY_OPTIONS 0561
#define KEY_PREVIOUS 0562
#define KEY_REDO 0563
#define KEY_REFERENCE 0564
#define KEY_REFRESH 0565
#define KEY_REPLACE 0566
#define KEY_RESTART 0567
#define KEY_RESUME 0570
#define KEY_SAVE 0571
#define KEY_SBEG 0572
#define KEY_SCANCEL 0573
#define KEY_SCOMMAND 0574
#define KEY_SCOPY 0575
#define KEY_SCREATE 0576
#define KEY_SDC 0577
#define KEY_SDL 0600
#define KEY_SELECT 0601
#define KEY_SEND 0602
#define KEY_SEOL 0603
#define KEY_SEXIT 0604
#define KEY_SFIND 0605
#define KEY_SHELP 0606
#define KEY_SHOME 0607
#define KEY_SIC 0610
#define KEY_SLEFT 0611
#define KEY_SMESSAGE 0612
#define KEY_SMOVE 0613
#define KEY_SNEXT 0614
#define KEY_SOPTIONS 0615
#define KEY_SPREVIOUS 0616
#define KEY_SPRINT 0617
#define KEY_SREDO 0620
#define KEY_SREPLACE 0621
#define KEY_SRIGHT 0622
#define KEY_SRSUME 0623
#define KEY_SSAVE 0624
#define KEY_SSUSPEND 0625
#define KEY_SUNDO 0626
#define KEY_SUSPEND 0627
#define KEY_UNDO 0630
#define KEY_MOUSE 0631
#define KEY_RESET 0531
#define KEY_SRESET 0530
#define KEY_RESIZE 0632
#define KEY_MAX 0777

#include "not_there.h"

#ifdef __cplusplus
}
#endif
#endif
