/* termbox (Debian: libtermbox-dev) for curses_scenes.c, which defines rows and cols before. The program writes to
 * termbox's cells directly, which takes less time than a call for each. */
#include <sys/ioctl.h>
#include <termbox.h>

#include "desk.h"
#include "peer_output.h"

static struct {
    uint16_t fore, back;
} pairs[64];
static uint16_t fore_now, back_now, bold_now;

/* termbox asks its terminal, here a file, only for the size. */
int ioctl(int fd, unsigned long request, ...) {
    va_list rest;
    struct winsize *size;
    (void)fd;
    if (request != TIOCGWINSZ) return -1;
    va_start(rest, request);
    size = va_arg(rest, struct winsize *);
    va_end(rest);
    *size = (struct winsize){.ws_row = (unsigned short)rows, .ws_col = (unsigned short)cols};
    return 0;
}

static void begin(void) {
    /* it closes the descriptor at the end */
    if (tb_init_fd(dup(out)) < 0 || tb_width() != cols || tb_height() != rows) exit(3);
}

static void finish(void) {
    tb_shutdown();
}

static void paint_text(int row, int col, const char *bytes, int len) {
    struct tb_cell *cells = tb_cell_buffer() + row * cols + col;
    for (int at = 0; at < len; at++) {
        cells[at] = (struct tb_cell){.ch = (unsigned char)bytes[at], .fg = fore_now | bold_now, .bg = back_now};
    }
}

static void paint_border(int row, int col, int letter) {
    static const uint32_t lines[128] = {
        ['j'] = 0x2518, ['k'] = 0x2510, ['l'] = 0x250c, ['m'] = 0x2514, ['q'] = 0x2500, ['x'] = 0x2502};
    tb_change_cell(col, row, lines[letter], fore_now | bold_now, back_now);
}

static void paint_cursor(int row, int col) {
    tb_set_cursor(col, row);
}

static void paint_done(void) {
    tb_present();
}

static void bold(int w, int is_on) {
    (void)w;
    bold_now = is_on ? TB_BOLD : 0;
}

static void set_colors(int w, int pair) {
    (void)w;
    fore_now = pairs[pair].fore;
    back_now = pairs[pair].back;
}

static void make_pair(int pair, int fore, int back) {
    pairs[pair].fore = (uint16_t)(TB_BLACK + fore);
    pairs[pair].back = (uint16_t)(TB_BLACK + back);
}
