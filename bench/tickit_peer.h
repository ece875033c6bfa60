/* libtickit (Debian: libtickit-dev) for curses_scenes.c, which defines rows and cols before. The library has windows,
 * and asks the program for their content, so the program keeps the characters and pens of each window, and reports the
 * rectangles that have changed. The library doesn't know what the terminal shows, and sends all of these. */
#include <tickit.h>

#include "peer_output.h"

enum { BORDER = 0x80, IN_BOLD = 64 };

static struct desk {
    int height, width, row, col;
    unsigned char *cells, *styles;
    TickitWindow *window;
} desks[8];
static TickitTerm *term;
/* a pen for each pair, and at IN_BOLD more the bold one */
static TickitPen *pens[2 * IN_BOLD];
static int pair_now, bold_now, shown_last;
/* the pad that window 0 shows, none if 0, and the place in it */
static int pad, pad_row, pad_col;

/* Draws one border cell, or a run of other cells with one pen. Returns how many cells it has drawn. */
static int draw_run(TickitRenderBuffer *buffer, int row, int col, const unsigned char *cells, const unsigned char *styles,
                    int most) {
    static const long lines[128] = {
        ['j'] = 0x2518, ['k'] = 0x2510, ['l'] = 0x250c, ['m'] = 0x2514, ['q'] = 0x2500, ['x'] = 0x2502};
    int count = 0;
    tickit_renderbuffer_setpen(buffer, pens[styles[0]]);
    if (cells[0] & BORDER) {
        tickit_renderbuffer_char_at(buffer, row, col, lines[cells[0] & ~BORDER]);
        return 1;
    }
    while (count < most && !(cells[count] & BORDER) && styles[count] == styles[0]) count++;
    tickit_renderbuffer_textn_at(buffer, row, col, (const char *)cells, (size_t)count);
    return count;
}

static int expose(TickitWindow *window, TickitEventFlags flags, void *info, void *user) {
    TickitExposeEventInfo *event = info;
    struct desk *desk = user;
    int is_pad = pad && desk == &desks[0];
    int down = is_pad ? pad_row : 0, right = is_pad ? pad_col : 0;
    (void)window, (void)flags;
    if (is_pad) desk = &desks[pad];
    for (int row = event->rect.top; row < event->rect.top + event->rect.lines; row++) {
        size_t first = (size_t)(row + down) * (size_t)desk->width + (size_t)right;
        int col = event->rect.left, end = col + event->rect.cols;
        while (col < end) {
            size_t at = first + (size_t)col;
            col += draw_run(event->rb, row, col, desk->cells + at, desk->styles + at, end - col);
        }
    }
    return 1;
}

static void take(int w, int l, int c, TickitWindow *window) {
    size_t count = (size_t)l * (size_t)c;
    desks[w] = (struct desk){.height = l, .width = c, .cells = malloc(count), .styles = calloc(1, count), .window = window};
    if (!desks[w].cells || !desks[w].styles) exit(3);
    memset(desks[w].cells, ' ', count);
    if (window) tickit_window_bind_event(window, TICKIT_WINDOW_ON_EXPOSE, 0, expose, &desks[w]);
}

static void begin(void) {
    struct TickitTermBuilder builder = {.termtype = getenv("TERM"), .open = TICKIT_OPEN_FDS, .input_fd = -1};
    builder.output_fd = out;
    builder.output_buffersize = 65536;
    term = tickit_term_build(&builder);
    if (!term) exit(3);
    tickit_term_set_size(term, rows, cols);
    tickit_term_set_utf8(term, true);
    tickit_term_await_started_msec(term, 1);
    tickit_term_setctl_int(term, TICKIT_TERMCTL_ALTSCREEN, 1);
    tickit_term_clear(term);
    pens[0] = tickit_pen_new();
    take(0, rows, cols, tickit_window_new_root(term));
    tickit_window_take_focus(desks[0].window);
    tickit_window_flush(desks[0].window);
}

static void finish(void) {
    tickit_window_unref(desks[0].window);
    tickit_term_unref(term);
}

static void make_window(int w, int l, int c, int y, int x) {
    TickitRect place = {.top = y, .left = x, .lines = l, .cols = c};
    take(w, l, c, tickit_window_new(desks[0].window, place, 0));
    tickit_window_raise_to_front(desks[w].window);
}

static void make_pad(int w, int l, int c) {
    take(w, l, c, NULL);
}

/* does nothing: the program keeps the content of every window */
static void keep_page(void) {}

/* Moves a window, and reports both its old and its new rectangle, as libtickit demands. */
static void move_window(int w, int y, int x) {
    TickitRect before = tickit_window_get_geometry(desks[w].window);
    TickitRect after = {.top = y, .left = x, .lines = desks[w].height, .cols = desks[w].width};
    tickit_window_set_geometry(desks[w].window, after);
    tickit_window_expose(desks[0].window, &before);
    tickit_window_expose(desks[0].window, &after);
}

static void draw_edge(unsigned char *cells, int width, int left, int right) {
    memset(cells, 'q' | BORDER, (size_t)width);
    cells[0] = (unsigned char)(left | BORDER);
    cells[width - 1] = (unsigned char)(right | BORDER);
}

static void draw_box(int w) {
    struct desk *desk = &desks[w];
    unsigned char *last = desk->cells + (desk->height - 1) * desk->width;
    draw_edge(desk->cells, desk->width, 'l', 'k');
    for (unsigned char *cells = desk->cells + desk->width; cells < last; cells += desk->width) {
        cells[0] = cells[desk->width - 1] = 'x' | BORDER;
    }
    draw_edge(last, desk->width, 'm', 'j');
}

static void go(int w, int y, int x) {
    desks[w].row = y;
    desks[w].col = x;
}

static void text(int w, const char *bytes, int len) {
    struct desk *desk = &desks[w];
    TickitRect changed = {.top = desk->row, .left = desk->col, .lines = 1, .cols = len};
    int at = desk->row * desk->width + desk->col;
    memcpy(desk->cells + at, bytes, (size_t)len);
    memset(desk->styles + at, pair_now + bold_now, (size_t)len);
    if (desk->window) tickit_window_expose(desk->window, &changed);
    desk->col += len;
}

static void put(int w, int byte) {
    char one = (char)byte;
    text(w, &one, 1);
}

static void put_by_line(int w, int byte) {
    put(w, byte);
}

static void bold(int w, int is_on) {
    (void)w;
    bold_now = is_on ? IN_BOLD : 0;
}

static void set_colors(int w, int pair) {
    (void)w;
    pair_now = pair;
}

static void make_pair(int pair, int fore, int back) {
    pens[pair] = tickit_pen_new_attrs(TICKIT_PEN_FG, fore, TICKIT_PEN_BG, back, 0);
    pens[pair + IN_BOLD] = tickit_pen_new_attrs(TICKIT_PEN_FG, fore, TICKIT_PEN_BG, back, TICKIT_PEN_BOLD, 1, 0);
}

static void set_scroll(int w) {
    (void)w;
}

static void scroll_up(int w) {
    struct desk *desk = &desks[w];
    size_t rest = (size_t)((desk->height - 1) * desk->width);
    memmove(desk->cells, desk->cells + desk->width, rest);
    memset(desk->cells + rest, ' ', (size_t)desk->width);
    tickit_window_scroll(desk->window, 1, 0);
}

static void insert_line(int w) {
    struct desk *desk = &desks[w];
    TickitRect below = {.top = desk->row, .lines = desk->height - desk->row, .cols = desk->width};
    unsigned char *row = desk->cells + desk->row * desk->width;
    memmove(row + desk->width, row, (size_t)((below.lines - 1) * desk->width));
    memset(row, ' ', (size_t)desk->width);
    tickit_window_scrollrect(desk->window, &below, -1, 0, NULL);
}

static void delete_line(int w) {
    struct desk *desk = &desks[w];
    TickitRect below = {.top = desk->row, .lines = desk->height - desk->row, .cols = desk->width};
    unsigned char *row = desk->cells + desk->row * desk->width;
    memmove(row, row + desk->width, (size_t)((below.lines - 1) * desk->width));
    memset(desk->cells + (desk->height - 1) * desk->width, ' ', (size_t)desk->width);
    tickit_window_scrollrect(desk->window, &below, 1, 0, NULL);
}

/* does nothing else: the library knows which windows cover which */
static void copy(int w) {
    shown_last = w;
}

static void show_all(void) {
    struct desk *desk = &desks[shown_last];
    tickit_window_set_cursor_position(desk->window, desk->row, desk->col);
    tickit_window_flush(desks[0].window);
    tickit_term_flush(term);
}

static void show(int w) {
    shown_last = w;
    show_all();
}

static void show_pad(int w, int y, int x) {
    pad = w;
    pad_row = y;
    pad_col = x;
    tickit_window_expose(desks[0].window, NULL);
    tickit_window_flush(desks[0].window);
    tickit_term_flush(term);
}
