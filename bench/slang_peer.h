/* S-Lang's screens (Debian: libslang2-dev) for curses_scenes.c, which defines rows and cols before. S-Lang finds by
 * itself that a log has scrolled. Its colors are objects with numbers: a pair's number, and 64 more if it is bold. */
#include <slang.h>

#include "desk.h"
#include "peer_output.h"

enum { IN_BOLD = 64 };

static int pair_now, bold_now;

static void begin(void) {
    SLang_TT_Write_FD = out;
    SLutf8_enable(0);
    SLtt_get_terminfo();
    SLtt_Blink_Mode = 0;
    if (SLsmg_init_smg() < 0 || SLtt_Screen_Rows != rows || SLtt_Screen_Cols != cols) exit(3);
    SLtt_set_color(0, NULL, "default", "default");
}

static void finish(void) {
    SLsmg_reset_smg();
}

static void paint_text(int row, int col, const char *bytes, int len) {
    SLsmg_gotorc(row, col);
    SLsmg_write_nchars((char *)bytes, (unsigned)len);
}

static void paint_border(int row, int col, int letter) {
    SLsmg_gotorc(row, col);
    SLsmg_set_char_set(1);
    SLsmg_write_char((SLwchar_Type)letter);
    SLsmg_set_char_set(0);
}

static void paint_cursor(int row, int col) {
    SLsmg_gotorc(row, col);
}

static void paint_done(void) {
    SLsmg_refresh();
}

static void bold(int w, int is_on) {
    (void)w;
    bold_now = is_on ? IN_BOLD : 0;
    SLsmg_set_color(pair_now + bold_now);
}

static void set_colors(int w, int pair) {
    (void)w;
    pair_now = pair;
    SLsmg_set_color(pair_now + bold_now);
}

static void make_pair(int pair, int fore, int back) {
    SLtt_set_color_fgbg(pair, (SLtt_Char_Type)fore, (SLtt_Char_Type)back);
    SLtt_set_color_fgbg(pair + IN_BOLD, (SLtt_Char_Type)fore, (SLtt_Char_Type)back);
    SLtt_add_color_attribute(pair + IN_BOLD, SLTT_BOLD_MASK);
}
