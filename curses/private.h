/* Declarations that the files of this folder share. The library exports none of their names: its objects are linked
 * into one, in which all names but those of <curses.h> become local. */
#ifndef TICURSES_CURSES_PRIVATE_H
#define TICURSES_CURSES_PRIVATE_H

#include <stddef.h>

#include "../include/ticurses/curses.h"

/* The numbers of windows in the proved session: 0 is stdscr, and these two are the library's own. */
enum {
    TCU_NEWSCR = 63,  /* as large as the screen: what the next doupdate shows */
    TCU_SCRATCH = 62, /* a pad of one line, from which cells are copied as they are */
    TCU_WINDOWS = 62  /* the number of windows that a program can have, with stdscr */
};
/* the most lines or columns of a pad, the number of color pairs of a session, and of those that a program may set, as
 * many as in ncurses with eight colors */
enum { TCU_PAD_MAX = 1000, TCU_PAIRS = 64, TCU_ALL_PAIRS = TCU_PAIRS + 17 };
/* the attributes that cells have */
#define TCU_SHOWN (A_STANDOUT | A_UNDERLINE | A_REVERSE | A_BLINK | A_DIM | A_BOLD | A_INVIS | A_ALTCHARSET)
#define TCU_BYTE(ch) ((unsigned)((ch) & A_CHARTEXT))

/* colors.c */
/* The session's pair for a pair of the program's; 0 if there is none. */
int tcu_slot(int pair);
/* The session's pair for something that is drawn with `pair`; no other pair takes its place afterwards. */
int tcu_use(int pair);
/* The program's pair that the session has as `slot`. */
int tcu_pair_of(int slot);

/* A character or attributes in the colors that the session has: a pair that it lacks counts as pair 0. */
static inline chtype tcu_colored(chtype ch) {
    return !(ch & A_COLOR) || tcu_use((int)PAIR_NUMBER(ch)) > 0 ? ch : ch & ~A_COLOR;
}

/* The touched columns of a line; none if `first` is above `last`. */
struct tcu_line {
    int first, last;
};

struct ticurses_window {
    int number;            /* of the window in the proved session */
    int lines, columns;
    int y, x;              /* the place on the screen, or of a pad's part in its parent */
    int parent_y, parent_x;
    WINDOW *parent;
    struct tcu_line *touched;
    chtype attrs, background;
    int region_top, region_bottom;
    int delay;             /* milliseconds to wait for a key; without end if negative */
    bool is_pad;           /* of the program: it has no place on the screen */
    bool is_below_pad;     /* of the session: a pad, or a part of one */
    bool is_moved;         /* the cursor was moved since the last refresh */
    bool has_wrapped;      /* text has passed a line's end, or was to, and the cursor wasn't moved since */
    bool clears, leaves, scrolls, shifts_lines, shifts_characters, shows_changes, syncs;
    bool has_keypad, waits_in_keys;
    int shown[6];          /* the part of a pad that was shown last, for pechochar */
    bool is_shown;
};

/* The state of the one screen. */
struct ticurses_screen {
    bool is_open;          /* there is a session */
    bool is_ended;         /* endwin was the last call; a refresh resumes the session */
    bool is_current;       /* the terminal shows what the last refresh was to show */
    bool is_unfit;         /* the terminal has a size that no session can have */
    int input, output;     /* descriptors */
    FILE *stream;          /* the output as the program has it */
    WINDOW *windows[TCU_WINDOWS];
    WINDOW newscr, curscr;
    bool is_cursor_left;   /* leaveok of the window that was copied last */
    int visibility;        /* of the cursor */
    bool has_colors;       /* start_color was done */
    bool has_default_colors;
};
extern struct ticurses_screen tcu;

/* Whether `window` is one that the program may draw in. */
static inline bool tcu_is_own(const WINDOW *window) {
    return window && tcu.is_open && window != &tcu.newscr && window != &tcu.curscr;
}

/* windows.c */
int tcu_make_part(int number, const WINDOW *parent, int lines, int columns, int y, int x);
WINDOW *tcu_made(int number, int lines, int columns, WINDOW *parent);
void tcu_freed(WINDOW *window);
void tcu_restored(WINDOW *window, int cursor_y, int cursor_x);

/* output.c */
int tcu_advance(WINDOW *window, int y);
int tcu_clear_rest(WINDOW *window);

/* touch.c */
void tcu_touch(WINDOW *window, int line, int first, int last);
void tcu_touch_lines(WINDOW *window, int top, int bottom);
void tcu_pass_on(WINDOW *window);

/* Touches one place, which must be in the window. */
static inline void tcu_touch_place(WINDOW *window, int line, int column) {
    struct tcu_line *at = &window->touched[line];
    if (column < at->first) at->first = column;
    if (column > at->last) at->last = column;
}

/* Does after a change what the window's options ask for. Returns `code`. */
static inline int tcu_changed(WINDOW *window, int code) {
    if (window->syncs || window->shows_changes) tcu_pass_on(window);
    return code;
}

/* cells.c */
int tcu_put_row(int number, int line, int column, const chtype *cells, int count);
int tcu_put_cells(WINDOW *window, int line, int column, const chtype *cells, int count);

/* colors.c */
bool tcu_has_pair(int pair);

/* entry.c */
/* Finds the entry of a terminal and makes that one current, for the program's own calls of <term.h> too; `fd` is for
 * its output. If there is none, false, and the terminal that was current stays. */
bool entry_find(const char *type, int fd);
/* Frees the terminal, unless another one is current. */
void entry_leave(void);
const void *entry_bytes(size_t *len);
/* A string of the entry, or null if it has none of this name. entry_learn is for keys: it reads the string, which stays
 * until entry_find is called again. entry_string is for all other names that this library asks for, and returns null for
 * a string that the session goes without. */
const char *entry_learn(const char *name);
const char *entry_string(const char *name);
/* Notes which strings the session goes without, by the lines of ticurses_left_out. */
void entry_leave_out(const char *lines, size_t len);
/* How many colors the terminal has; negative if the entry doesn't say. */
int entry_colors(void);

/* beside.c */
int beside_send(const char *text, bool is_waiting);
size_t beside_plain(const char *text, char *room, size_t room_len);

/* keys.c */
struct tcu_key {
    const char *name; /* the capability */
    int key;
};
extern const struct tcu_key tcu_keys[];
extern const size_t tcu_key_count;

/* input.c */
int tcu_keypad(bool is_on);
void tcu_learn_keys(void);
void tcu_forget_keys(void);

/* signs.c */
/* Fills acs_map for the entry. */
void tcu_map_signs(void);

/* modes.c */
struct tcu_modes {
    bool is_raw, is_cbreak, echoes, reads_newlines;
    int half_delay; /* tenths of a second; 0 without */
};
extern struct tcu_modes tcu_modes;
void modes_begin(void);
int modes_program(void);
int modes_shell(void);
bool modes_are_known(void);
bool modes_keep_meta(void);

/* refresh.c */
int tcu_leave_cursor(void);

/* init.c */
void tcu_resume(void);
int tcu_suspend(void);

/* resize.c */
int tcu_resize(void);

/* signals.c */
void signals_begin(void);
/* Learns anew what a signal that ends the program sends, which is only safe while a call is being made. */
void signals_learn(void);
void signals_forget(void);
void signals_enter(void);
void signals_leave(void);
void signals_leave_terminal(void);
bool signals_is_ending(void);
int signals_wait(int fd, int milliseconds);
bool signals_has_size_changed(void);
bool signals_take_size_change(void);
void signals_heed(void);

#endif
