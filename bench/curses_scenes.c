/* curses_scenes ENTRY ROWS COLS SCENE OUTPUT [MOST]: draws a scene some hundred times, but no more than
 * MOST times, on a terminal of this size, into a file, and prints the processor time and the bytes of a
 * refresh and the calls before it, and the number of refreshes: `NANOSECONDS BYTES REFRESHES`. Built with
 * PEER, a file with the functions that the scenes call, it draws with that file's library. Built with
 * -DCURSES it draws by the calls of curses.h, with ncurses or with the library of ticurses for such
 * programs. In both cases ENTRY is a terminal's name. Otherwise it draws with the sessions of ticurses, and
 * ENTRY is a compiled file. The scene `open` opens a session instead, which for ticurses includes the check
 * of the entry. */
#define _XOPEN_SOURCE 700
#include <fcntl.h>
#include <stdarg.h>
#include <stdint.h>
#include <stdio.h>
#include <stdlib.h>
#include <string.h>
#include <time.h>
#include <unistd.h>

static int rows, cols;

#ifdef PEER

#include PEER

#elif defined CURSES

#define NCURSES_NOMACROS
#include <curses.h>

static WINDOW *windows[8];
static FILE *stream, *input;
static const char *terminal;

static void begin(void) {
    if (!newterm(terminal, stream, input)) exit(3);
#ifdef TICURSES_CURSES
    /* a session has the size of its terminal, which a file doesn't have */
    if ((LINES != rows || COLS != cols) && resize_term(rows, cols) != OK) exit(3);
#endif
    nonl();
    typeahead(-1);
    start_color();
    use_default_colors();
    windows[0] = stdscr;
}
static void finish(void) {
    endwin();
#ifdef TICURSES_CURSES
    /* the library has one terminal at a time */
    delscreen(set_term(NULL));
#endif
}
static void make_window(int w, int l, int c, int y, int x) {
    windows[w] = newwin(l, c, y, x);
}
static void make_pad(int w, int l, int c) {
    windows[w] = newpad(l, c);
}
static void move_window(int w, int y, int x) {
    mvwin(windows[w], y, x);
}
static void draw_box(int w) {
    box(windows[w], 0, 0);
}
static void go(int w, int y, int x) {
    wmove(windows[w], y, x);
}
static void put(int w, int byte) {
    waddch(windows[w], (chtype)byte);
}
/* equal to put here; a session has a function for one and a line of text for the other */
static void put_by_line(int w, int byte) {
    put(w, byte);
}
static void text(int w, const char *bytes, int len) {
    waddnstr(windows[w], bytes, len);
}
static void bold(int w, int is_on) {
    is_on ? wattron(windows[w], A_BOLD) : wattroff(windows[w], A_BOLD);
}
static void set_colors(int w, int pair) {
    wcolor_set(windows[w], (short)pair, NULL);
}
static void make_pair(int pair, int fore, int back) {
    init_pair((short)pair, (short)fore, (short)back);
}
static void set_scroll(int w) {
    scrollok(windows[w], TRUE);
    idlok(windows[w], TRUE);
}
static void scroll_up(int w) {
    wscrl(windows[w], 1);
}
static void insert_line(int w) {
    winsertln(windows[w]);
}
static void delete_line(int w) {
    wdeleteln(windows[w]);
}
static void copy(int w) {
    touchwin(windows[w]);
    wnoutrefresh(windows[w]);
}
static void show(int w) {
    wnoutrefresh(windows[w]);
    doupdate();
}
static void show_all(void) {
    doupdate();
}
static void show_pad(int w, int y, int x) {
    prefresh(windows[w], y, x, 0, 0, rows - 1, cols - 1);
}
static long position(void) {
    return lseek(fileno(stream), 0, SEEK_CUR);
}
static void prepare(const char *entry, const char *output) {
    char size[16];
    snprintf(size, sizeof size, "%d", rows);
    setenv("LINES", size, 1);
    snprintf(size, sizeof size, "%d", cols);
    setenv("COLUMNS", size, 1);
    setenv("NCURSES_NO_PADDING", "1", 1);
    terminal = entry;
    stream = fopen(output, "w");
    input = fopen("/dev/null", "r");
    if (!stream || !input) exit(3);
}

#else

#include <ticurses.h>

static ticurses session;
static char entry_bytes[32768];
static size_t entry_len;
static int out;

/* Writes the bytes of a refresh. */
static void drain(void) {
    static char piece[65536];
    size_t count;
    while ((count = ticurses_output(&session, piece, sizeof piece)) > 0)
        if (write(out, piece, count) != (ssize_t)count) exit(3);
}

static void done(int code) {
    if (code == TICURSES_OK) return;
    fprintf(stderr, "curses_scenes: %s\n", ticurses_text(code));
    exit(3);
}

static void begin(void) {
    done(ticurses_open(&session, entry_bytes, entry_len, NULL, 0, (uint16_t)rows, (uint16_t)cols, NULL, 0));
}
static void finish(void) {
    ticurses_close(&session);
}
static void make_window(int w, int l, int c, int y, int x) {
    done(ticurses_newwin(&session, (size_t)w, l, c, y, x));
}
static void make_pad(int w, int l, int c) {
    done(ticurses_newpad(&session, (size_t)w, l, c));
}
static void move_window(int w, int y, int x) {
    done(ticurses_mvwin(&session, (size_t)w, y, x));
}
static void draw_box(int w) {
    done(ticurses_box(&session, (size_t)w, ticurses_cell_of(0, 0, 0), ticurses_cell_of(0, 0, 0)));
}
static void go(int w, int y, int x) {
    done(ticurses_move(&session, (size_t)w, y, x));
}
static void put(int w, int byte) {
    done(ticurses_addch(&session, (size_t)w, ticurses_cell_of((uint8_t)byte, 0, 0)));
}
static void put_by_line(int w, int byte) {
    done(ticurses_callf(&session, "addch %d %02x", w, (unsigned)byte));
}
static void text(int w, const char *bytes, int len) {
    done(ticurses_addstr(&session, (size_t)w, bytes, (size_t)len));
}
static void bold(int w, int is_on) {
    if (is_on)
        done(ticurses_attron(&session, (size_t)w, TICURSES_BOLD));
    else
        done(ticurses_attroff(&session, (size_t)w, TICURSES_BOLD));
}
static void set_colors(int w, int pair) {
    done(ticurses_color_set(&session, (size_t)w, pair));
}
static void make_pair(int pair, int fore, int back) {
    done(ticurses_init_pair(&session, pair, fore, back));
}
static void set_scroll(int w) {
    done(ticurses_scrollok(&session, (size_t)w, 1));
    done(ticurses_idlok(&session, (size_t)w, 1));
}
static void scroll_up(int w) {
    done(ticurses_scroll(&session, (size_t)w, 1));
}
static void insert_line(int w) {
    done(ticurses_insertln(&session, (size_t)w));
}
static void delete_line(int w) {
    done(ticurses_deleteln(&session, (size_t)w));
}
static void copy(int w) {
    done(ticurses_noutrefresh(&session, (size_t)w));
}
static void show(int w) {
    done(ticurses_refresh(&session, (size_t)w));
    drain();
}
static void show_all(void) {
    done(ticurses_doupdate(&session));
    drain();
}
static void show_pad(int w, int y, int x) {
    done(ticurses_prefresh(&session, (size_t)w, y, x, 0, 0, rows - 1, cols - 1));
    drain();
}
static long position(void) {
    return lseek(out, 0, SEEK_CUR);
}
static void prepare(const char *entry, const char *output) {
    FILE *file = fopen(entry, "rb");
    entry_len = file ? fread(entry_bytes, 1, sizeof entry_bytes, file) : 0;
    if (file) fclose(file);
    out = open(output, O_WRONLY | O_CREAT | O_TRUNC, 0666);
    if (out < 0) exit(3);
}

#endif

#ifndef PEER
/* Does nothing: a library with windows keeps their content itself. */
static void keep_page(void) {}
#endif

/* -- the scenes -- */

static uint32_t state = 4711;

static int number(int below) {
    state = (uint32_t)((uint64_t)state * 16807 % 2147483647);
    return (int)(state % (uint32_t)below);
}

/* Words to draw, each time from another place of the pool. */
static char pool[8192 + 512];

static void fill_pool(void) {
    static const char *const list[] = {"ls",        "total",    "make", "cc1",  "warning",    "error",
                                       "src/lib.c", "Makefile", "4096", "root", "drwxr-xr-x", "README"};
    size_t at = 0;
    while (at + 16 < sizeof pool) at += (size_t)snprintf(pool + at, sizeof pool - at, "%s ", list[number(12)]);
    memset(pool + at, '.', sizeof pool - at);
}

static const char *words(int len) {
    return pool + number((int)sizeof pool - len);
}

/* The number of cells to draw in a row: not the last one of the last row, which some terminals can't show without
 * scrolling. */
static int width(int row) {
    return cols - (row == rows - 1);
}

static void fill(int w) {
    for (int row = 0; row < rows; row++) {
        go(w, row, 0);
        text(w, words(width(row)), width(row));
    }
}

static void set_page(void) {
    fill(0);
    show(0);
}

static void full(int step) {
    (void)step;
    fill(0);
    show(0);
}

static void by_characters(void (*each)(int, int)) {
    for (int row = 0; row < rows; row++) {
        const char *bytes = words(width(row));
        go(0, row, 0);
        for (int col = 0; col < width(row); col++) each(0, bytes[col]);
    }
    show(0);
}

static void chars(int step) {
    (void)step;
    by_characters(put);
}

static void lines(int step) {
    (void)step;
    by_characters(put_by_line);
}

static void one_cell(int step) {
    /* the column's random number comes first */
    int col = number(cols - 1);
    int row = number(rows);
    go(0, row, col);
    put(0, 'A' + step % 26);
    show(0);
}

static void typed(int step) {
    int at = step % (rows * (cols - 1));
    go(0, at / (cols - 1), at % (cols - 1));
    put(0, 'a' + step % 26);
    show(0);
}

static void set_log(void) {
    keep_page();
    set_scroll(0);
    set_page();
}

static void logged(int step) {
    (void)step;
    scroll_up(0);
    go(0, rows - 1, 0);
    /* the length's random number comes before that of the words */
    int len = cols - 1 - number(cols / 2);
    const char *bytes = words(cols - 1);
    text(0, bytes, len);
    show(0);
}

static void set_windows(void) {
    keep_page();
    set_page();
    for (int w = 1; w <= 2; w++) {
        make_window(w, rows / 3, cols / 3, w, w);
        draw_box(w);
        for (int row = 1; row < rows / 3 - 1; row++) {
            go(w, row, 1);
            text(w, words(cols / 3 - 2), cols / 3 - 2);
        }
    }
}

static void moved(int step) {
    int down = rows - rows / 3, right = cols - cols / 3;
    move_window(1, step % down, step * 2 % right);
    move_window(2, (step * 3 + 5) % down, (step + 9) % right);
    copy(0);
    copy(1);
    copy(2);
    show_all();
}

static void set_pad(void) {
    int height = rows * 3, length = cols + cols / 2 < 1000 ? cols + cols / 2 : 1000;
    make_pad(3, height, length);
    for (int row = 0; row < height; row++) {
        go(3, row, 0);
        text(3, words(length - 1), length - 1);
    }
}

static void padded(int step) {
    show_pad(3, step % (rows * 2), step % (cols / 2));
}

static void set_colours(void) {
    for (int pair = 1; pair < 64; pair++) make_pair(pair, pair % 8, pair / 8);
    set_page();
}

static void colored_cells(int step) {
    for (int row = 0; row < rows; row++) {
        for (int col = 0; col + 8 <= width(row); col += 8) {
            set_colors(0, 1 + (row + col / 8 + step) % 63);
            bold(0, (row + step) % 2);
            go(0, row, col);
            text(0, words(8), 8);
        }
    }
    show(0);
}

/* The number of characters of a line of a long text. */
static int length_of_text(int number) {
    return number % 7 == 3 ? 0 : 8 + number * 37 % (cols - 16);
}

/* Draws a line: these bytes, in bold if so, and spaces to the end of the row. */
static void draw_line(int w, int row, const char *bytes, int len, int is_bold) {
    static char spaces[1024];
    memset(spaces, ' ', (size_t)cols);
    go(w, row, 0);
    if (is_bold) bold(w, 1);
    text(w, bytes, len);
    if (is_bold) bold(w, 0);
    text(w, spaces, cols - 1 - len);
}

static void draw_text_line(int w, int row, int number, int is_bold) {
    draw_line(w, row, pool + number * 131 % 8192, length_of_text(number), is_bold);
}

/* Draws the rows from top up to, but not including, end of a page that shows the text from the line first on. */
static void draw_text(int w, int top, int end, int first) {
    for (int row = top; row < end; row++) draw_text_line(w, row, first + row - top, 0);
}

/* Draws a row that says in bold where the page is. */
static void draw_place(int row, int first) {
    char line[64];
    draw_line(0, row, line, snprintf(line, sizeof line, "-- line %d of 9999: %d %% --", first, first / 100), 1);
}

/* Draws a page of a text, with as many rows at the top and at the bottom that say where it is. */
static void draw_page(int above, int below, int first) {
    if (above) draw_place(0, first);
    draw_text(0, above, rows - below, first);
    if (below) draw_place(rows - 1, first);
    show(0);
}

static void set_pages(void) {
    draw_page(0, 1, 0);
}

static void paged_on(int step) {
    draw_page(0, 1, step + 1);
}

static void paged_back(int step) {
    draw_page(0, 1, 9999 - step);
}

static void titled_on(int step) {
    draw_page(1, 0, step + 1);
}

static void titled_back(int step) {
    draw_page(1, 0, 9999 - step);
}

static void between(int step) {
    draw_page(1, 1, step + 1);
}

static void half_on(int step) {
    draw_page(0, 1, (step + 1) * ((rows - 1) / 2));
}

/* Two panes, one above the other, and a row between them. */
static void set_panes(void) {
    int half = rows / 2;
    keep_page();
    draw_place(half, 0);
    show(0);
    make_window(1, half, cols, 0, 0);
    make_window(2, rows - half - 1, cols, half + 1, 0);
    set_scroll(1);
    set_scroll(2);
}

static void add_row(int w, int height, int number) {
    scroll_up(w);
    draw_text_line(w, height - 1, number, 0);
    copy(w);
}

static void scrolled_panes(int step) {
    add_row(1, rows / 2, step);
    add_row(2, rows - rows / 2 - 1, step + 5000);
    show_all();
}

/* Two panes that are drawn anew: the upper one goes on, the lower one goes back. */
static void split(int step) {
    int half = rows / 2;
    draw_text(0, 0, half, step);
    draw_place(half, step);
    draw_text(0, half + 1, rows, 9999 - step);
    show(0);
}

/* A list of 200 entries, one of which is chosen and in view. */
static void listed(int step) {
    static int first;
    int chosen = step % 200;
    if (chosen < first) first = chosen;
    if (chosen >= first + rows) first = chosen - rows + 1;
    for (int row = 0; row < rows; row++) draw_text_line(0, row, (first + row) % 200, first + row == chosen);
    show(0);
}

/* A line comes into the middle or goes from there, and another one below it changes. */
static void edited(int step) {
    int row = rows / 3;
    go(0, row, 0);
    if (step % 2) {
        delete_line(0);
    } else {
        insert_line(0);
        draw_text_line(0, row, step, 0);
    }
    draw_text_line(0, 2 * row, step + 1, 0);
    show(0);
}

/* A text in place of blank rows, and then blank rows in place of the text. */
static void wrapped(int step) {
    char blanks[1024];
    memset(blanks, ' ', sizeof blanks);
    for (int row = 0; row < rows * 3 / 4; row++) {
        go(0, row, 0);
        text(0, step % 2 ? blanks : words(cols), cols);
    }
    show(0);
}

static void set_blank(void) {
    show(0);
}

static void none(void) {}

static void opened(int step) {
    (void)step;
    finish();
    begin();
}

static const struct scene {
    const char *name;
    void (*set)(void);
    void (*step)(int);
    /* how often a scene is drawn, on a screen of 24 by 80 */
    int count;
    int by_size;
} scenes[] = {
    {"full", none, full, 1000, 1},
    {"chars", none, chars, 500, 1},
    {"lines", none, lines, 500, 1},
    {"cell", set_page, one_cell, 20000, 0},
    {"typing", set_page, typed, 20000, 0},
    {"log", set_log, logged, 2000, 1},
    {"windows", set_windows, moved, 2000, 1},
    {"pad", set_pad, padded, 1000, 1},
    {"colours", set_colours, colored_cells, 500, 1},
    {"on", set_pages, paged_on, 1000, 1},
    {"back", set_pages, paged_back, 1000, 1},
    {"title", set_pages, titled_on, 1000, 1},
    {"titleback", set_pages, titled_back, 1000, 1},
    {"both", set_pages, between, 1000, 1},
    {"half", set_pages, half_on, 1000, 1},
    {"panes", set_panes, scrolled_panes, 1000, 1},
    {"split", set_pages, split, 1000, 1},
    {"list", set_pages, listed, 1000, 1},
    {"edit", set_log, edited, 1000, 1},
    {"wrap", set_blank, wrapped, 1000, 1},
    {"open", none, opened, 20, 0},
};

/* Callgrind counts this function. */
#ifdef __GNUC__
__attribute__((__noinline__))
#endif
void repeat(void (*step)(int), int count);
void repeat(void (*step)(int), int count) {
    for (int each = 0; each < count; each++) step(each);
}

static long now(void) {
    struct timespec time;
    clock_gettime(CLOCK_PROCESS_CPUTIME_ID, &time);
    return time.tv_sec * 1000000000L + time.tv_nsec;
}

int main(int argc, char **argv) {
    const struct scene *scene = NULL;
    if (argc != 6 && argc != 7) return 2;
    rows = atoi(argv[2]);
    cols = atoi(argv[3]);
    for (size_t at = 0; at < sizeof scenes / sizeof *scenes; at++)
        if (!strcmp(argv[4], scenes[at].name)) scene = &scenes[at];
    if (!scene) return 2;
    prepare(argv[1], argv[5]);
    fill_pool();
    begin();
    scene->set();
    int count = scene->by_size ? scene->count * 1920 / (rows * cols) + 8 : scene->count;
    if (argc == 7 && atoi(argv[6]) < count) count = atoi(argv[6]);
    long from = position(), began = now();
    repeat(scene->step, count);
    long took = now() - began;
    printf("%ld %ld %d\n", took / count, (position() - from) / count, count);
    return 0;
}
