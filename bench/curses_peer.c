/* Plays a script of curses calls with the system's ncurses, as `ticurses play` does: curses_peer TERM ROWS COLS SCRIPT.
   The bytes go to standard output, without padding. The program knows only the calls that scripts.awk and script_peer.h
   write. It starts colors at the first call about them; as in ticurses, the default pair has the terminal's own colors,
   and `attrset` keeps the pair. */
/* as a macro, `box` would read its last cell twice */
#define NCURSES_NOMACROS
#include <curses.h>
#include <stdio.h>
#include <stdlib.h>
#include <string.h>

static WINDOW *windows[64];

static long number(char **rest)
{
    return strtol(*rest, rest, 10);
}

static WINDOW *window(char **rest)
{
    long w = number(rest);

    if (w < 0 || w > 63 || windows[w] == NULL) {
        fprintf(stderr, "curses_peer: no window %ld\n", w);
        exit(2);
    }
    return windows[w];
}

static attr_t letters(const char *text)
{
    static const char names[] = "SURKDBIA";
    static const attr_t attributes[] = {A_STANDOUT, A_UNDERLINE, A_REVERSE, A_BLINK, A_DIM, A_BOLD, A_INVIS, A_ALTCHARSET};
    attr_t all = A_NORMAL;
    const char *name;

    for (; *text != 0 && (name = strchr(names, *text)) != NULL; text++)
        all |= attributes[name - names];
    return all;
}

/* a cell: `-`, or a byte in hexadecimal, perhaps with attributes */
static chtype cell(char **rest)
{
    chtype byte;

    *rest += 1;
    if (**rest == '-') {
        *rest += 1;
        return 0;
    }
    byte = strtoul(*rest, rest, 16);
    return **rest == '/' ? byte | letters(*rest + 1) : byte;
}

static void colours(void)
{
    static int used;

    if (!used && start_color() == OK)
        use_default_colors();
    used = 1;
}

static void play_addch(char *rest)
{
    WINDOW *w = window(&rest);
    waddch(w, cell(&rest));
}

static void play_addstr(char *rest)
{
    WINDOW *w = window(&rest);
    waddstr(w, rest + 1);
}

static void play_attroff(char *rest)
{
    WINDOW *w = window(&rest);

    wattr_off(w, letters(rest + 1), NULL);
}

static void play_attron(char *rest)
{
    WINDOW *w = window(&rest);

    wattr_on(w, letters(rest + 1), NULL);
}

static void play_attrset(char *rest)
{
    WINDOW *w = window(&rest);
    attr_t before;
    short pair;

    wattr_get(w, &before, &pair, NULL);
    wattr_set(w, letters(rest + 1), pair, NULL);
}

static void play_box(char *rest)
{
    WINDOW *w = window(&rest);
    chtype vertical = cell(&rest);
    box(w, vertical, cell(&rest));
}

static void play_clrtoeol(char *rest)
{
    wclrtoeol(window(&rest));
}

static void play_color_set(char *rest)
{
    WINDOW *w = window(&rest);
    colours();
    wcolor_set(w, number(&rest), NULL);
}

static void play_delch(char *rest)
{
    wdelch(window(&rest));
}

static void play_deleteln(char *rest)
{
    wdeleteln(window(&rest));
}

static void play_doupdate(char *rest)
{
    (void)rest;
    doupdate();
}

static void play_erase(char *rest)
{
    werase(window(&rest));
}

static void play_idlok(char *rest)
{
    WINDOW *w = window(&rest);
    idlok(w, number(&rest) != 0);
}

static void play_init_pair(char *rest)
{
    long pair = number(&rest), foreground = number(&rest);
    colours();
    init_pair(pair, foreground, number(&rest));
}

static void play_insertln(char *rest)
{
    winsertln(window(&rest));
}

static void play_move(char *rest)
{
    WINDOW *w = window(&rest);
    long row = number(&rest);
    wmove(w, row, number(&rest));
}

static void play_mvwin(char *rest)
{
    WINDOW *w = window(&rest);
    long row = number(&rest);
    mvwin(w, row, number(&rest));
}

static void play_newwin(char *rest)
{
    long w = number(&rest), rows = number(&rest), cols = number(&rest), row = number(&rest);

    if (w > 0 && w < 64)
        windows[w] = newwin(rows, cols, row, number(&rest));
}

static void play_newpad(char *rest)
{
    long w = number(&rest), rows = number(&rest);

    if (w > 0 && w < 64)
        windows[w] = newpad(rows, number(&rest));
}

static void play_noutrefresh(char *rest)
{
    wnoutrefresh(window(&rest));
}

static void play_prefresh(char *rest)
{
    WINDOW *w = window(&rest);
    long row = number(&rest), col = number(&rest), top = number(&rest), left = number(&rest), bottom = number(&rest);

    prefresh(w, row, col, top, left, bottom, number(&rest));
}

static void play_refresh(char *rest)
{
    wrefresh(window(&rest));
}

static void play_scroll(char *rest)
{
    WINDOW *w = window(&rest);
    wscrl(w, number(&rest));
}

static void play_scrollok(char *rest)
{
    WINDOW *w = window(&rest);
    scrollok(w, number(&rest) != 0);
}

static void play_setscrreg(char *rest)
{
    WINDOW *w = window(&rest);
    long top = number(&rest);
    wsetscrreg(w, top, number(&rest));
}

static void play_touchwin(char *rest)
{
    touchwin(window(&rest));
}

struct call {
    const char *name;
    void (*play)(char *rest);
};

/* in the order of their names */
static const struct call calls[] = {
    {"addch", play_addch}, {"addstr", play_addstr}, {"attroff", play_attroff}, {"attron", play_attron}, {"attrset", play_attrset}, {"box", play_box}, {"clrtoeol", play_clrtoeol},
    {"color_set", play_color_set}, {"delch", play_delch}, {"deleteln", play_deleteln}, {"doupdate", play_doupdate},
    {"erase", play_erase}, {"idlok", play_idlok}, {"init_pair", play_init_pair}, {"insertln", play_insertln}, {"move", play_move}, {"mvwin", play_mvwin}, {"newpad", play_newpad}, {"newwin", play_newwin},
    {"noutrefresh", play_noutrefresh}, {"prefresh", play_prefresh}, {"refresh", play_refresh}, {"scroll", play_scroll},
    {"scrollok", play_scrollok}, {"setscrreg", play_setscrreg}, {"touchwin", play_touchwin},
};

static int compare(const void *name, const void *call)
{
    return strcmp(name, ((const struct call *)call)->name);
}

static void play(char *line)
{
    size_t length = strcspn(line, " ");
    char *rest = line + length;
    const struct call *call;

    if (*line == 0 || *line == '#')
        return;
    if (*rest == ' ')
        *rest++ = 0;
    call = bsearch(line, calls, sizeof calls / sizeof *calls, sizeof *calls, compare);
    if (call == NULL) {
        fprintf(stderr, "curses_peer: unknown call %s\n", line);
        exit(2);
    }
    call->play(rest);
}

int main(int argc, char **argv)
{
    char line[1024];
    FILE *script, *input = fopen("/dev/null", "r");

    if (argc != 5 || input == NULL || (script = fopen(argv[4], "r")) == NULL)
        return 2;
    setenv("LINES", argv[2], 1);
    setenv("COLUMNS", argv[3], 1);
    setenv("NCURSES_NO_PADDING", "1", 1);
    if (newterm(argv[1], stdout, input) == NULL)
        return 3;
    /* translates no newline, and lets no input stop a refresh */
    nonl();
    typeahead(-1);
    windows[0] = stdscr;
    while (fgets(line, sizeof line, script) != NULL) {
        line[strcspn(line, "\n")] = 0;
        play(line);
    }
    return 0;
}
