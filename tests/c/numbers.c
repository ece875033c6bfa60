/* numbers SOURCE COUNT: calls by their functions of numbers on one session, and as lines of text on another one: COUNT
 * random ones of each. Answers and output have to be equal after each call, and cells and cursors again and again. The
 * status is 0 if nothing differs; else the call is a line. */
#include <ticurses.h>

#include <string.h>

enum { ROWS = 8, COLS = 24, WINDOWS = 8, LETTERS = 8 };

/* the arguments of a call, of which each form takes its own */
typedef struct arguments {
    size_t window, other;
    int numbers[6], flag, attrs;
    ticurses_cell cells[8];
} arguments;

/* makes the call by its function, and writes it as a line */
typedef int (*numbered)(ticurses *session, const arguments *with);

typedef struct named {
    const char *name;
    /* the words of its line: w a window, o another one, a digit as many numbers, f an option, A attributes, c a cell, - one
     * that may be the default */
    const char *words;
    numbered call;
} named;

#define W with->window
#define N(place) with->numbers[place]
#define CALL(name, ...) \
    static int do_##name(ticurses *session, const arguments *with) { \
        (void)with; \
        return ticurses_##name(__VA_ARGS__); \
    }
#define PLAIN(name) CALL(name, session, W)
#define ONE(name) CALL(name, session, W, N(0))
#define TWO(name) CALL(name, session, W, N(0), N(1))
#define PART(name) CALL(name, session, W, with->other, N(0), N(1), N(2), N(3))
#define PAIR(name) CALL(name, session, W, with->other)
#define FLAG(name) CALL(name, session, W, with->flag)
#define ATTRS(name) CALL(name, session, W, with->attrs)
#define CELL(name) CALL(name, session, W, with->cells[0])
#define LINE(name) CALL(name, session, W, with->cells[0], N(0))
#define PAD(name) CALL(name, session, W, N(0), N(1), N(2), N(3), N(4), N(5))

CALL(newwin, session, W, N(0), N(1), N(2), N(3))
TWO(newpad)
PART(subwin)
PART(derwin)
PART(subpad)
PAIR(dupwin)
PLAIN(delwin)
TWO(mvwin)
TWO(move)
CELL(addch)
CELL(insch)
PLAIN(delch)
PLAIN(insertln)
PLAIN(deleteln)
PLAIN(clrtoeol)
PLAIN(clrtobot)
PLAIN(erase)
PLAIN(clear)
LINE(hline)
LINE(vline)
CALL(box, session, W, with->cells[0], with->cells[1])
ONE(scroll)
TWO(setscrreg)
ATTRS(attron)
ATTRS(attroff)
ATTRS(attrset)
ONE(color_set)
CELL(bkgdset)
CELL(bkgd)
PAIR(overlay)
PAIR(overwrite)
CALL(copywin, session, W, with->other, N(0), N(1), N(2), N(3), N(4), N(5), with->flag)
FLAG(scrollok)
FLAG(leaveok)
FLAG(clearok)
FLAG(idlok)
PLAIN(touchwin)
TWO(touchline)
PLAIN(noutrefresh)
PLAIN(refresh)
CALL(doupdate, session)
PAD(pnoutrefresh)
PAD(prefresh)
CALL(curs_set, session, N(0))
CALL(init_pair, session, N(0), N(1), N(2))
CALL(beep, session)
CALL(endwin, session)

static int do_border(ticurses *session, const arguments *with) {
    ticurses_frame frame;
    memcpy(&frame, with->cells, sizeof frame);
    return ticurses_border(session, W, &frame);
}

static const named calls[] = {
    {"newwin", "w4", do_newwin},       {"newpad", "w2", do_newpad},         {"subwin", "wo4", do_subwin},
    {"derwin", "wo4", do_derwin},      {"subpad", "wo4", do_subpad},        {"dupwin", "wo", do_dupwin},
    {"delwin", "w", do_delwin},        {"mvwin", "w2", do_mvwin},           {"move", "w2", do_move},
    {"addch", "wc", do_addch},         {"insch", "wc", do_insch},           {"delch", "w", do_delch},
    {"insertln", "w", do_insertln},    {"deleteln", "w", do_deleteln},      {"clrtoeol", "w", do_clrtoeol},
    {"clrtobot", "w", do_clrtobot},    {"erase", "w", do_erase},            {"clear", "w", do_clear},
    {"hline", "w-1", do_hline},        {"vline", "w-1", do_vline},          {"border", "w--------", do_border},
    {"box", "w--", do_box},            {"scroll", "w1", do_scroll},         {"setscrreg", "w2", do_setscrreg},
    {"attron", "wA", do_attron},       {"attroff", "wA", do_attroff},       {"attrset", "wA", do_attrset},
    {"color_set", "w1", do_color_set}, {"bkgdset", "wc", do_bkgdset},       {"bkgd", "wc", do_bkgd},
    {"overlay", "wo", do_overlay},     {"overwrite", "wo", do_overwrite},   {"copywin", "wo6f", do_copywin},
    {"scrollok", "wf", do_scrollok},   {"leaveok", "wf", do_leaveok},       {"clearok", "wf", do_clearok},
    {"idlok", "wf", do_idlok},         {"touchwin", "w", do_touchwin},      {"touchline", "w2", do_touchline},
    {"noutrefresh", "w", do_noutrefresh}, {"refresh", "w", do_refresh},     {"doupdate", "", do_doupdate},
    {"pnoutrefresh", "w6", do_pnoutrefresh}, {"prefresh", "w6", do_prefresh}, {"curs_set", "1", do_curs_set},
    {"init_pair", "3", do_init_pair},  {"beep", "0", do_beep},              {"endwin", "", do_endwin},
};
enum { CALLS = sizeof calls / sizeof *calls };

static char source[1 << 16];
static size_t source_len;
static unsigned long state = 59;

static unsigned any(unsigned below) {
    state = state * 6364136223846793005ul + 1442695040888963407ul;
    return (unsigned)(state >> 33) % below;
}

/* Mostly a small number, so that many calls are done. */
static int any_number(void) {
    switch (any(16)) {
        case 0: return (int)(any(1u << 16) << 15 | any(1u << 15));
        case 1: return -(int)any(30);
        case 2: return any(2) ? INT32_MAX : INT32_MIN;
        default: return (int)any(26);
    }
}

static size_t any_window(void) {
    return any(30) ? any(WINDOWS) : 60 + any(8);
}

static ticurses_cell any_cell(void) {
    return ticurses_cell_of((uint8_t)(any(9) ? 32 + any(95) : any(256)), (uint8_t)(any(3) ? 0 : any(256)),
                            (uint8_t)(any(3) ? 0 : any(64)));
}

static arguments any_arguments(void) {
    arguments with;
    with.window = any_window(), with.other = any_window();
    for (size_t at = 0; at < 6; at++) with.numbers[at] = any_number();
    with.flag = (int)any(2), with.attrs = (int)any(256);
    for (size_t at = 0; at < 8; at++) with.cells[at] = any(3) ? any_cell() : ticurses_cell_of(0, 0, 0);
    return with;
}

static size_t add_letters(char *at, int attrs) {
    size_t len = 0;
    for (int bit = 0; bit < LETTERS; bit++)
        if (attrs >> bit & 1) at[len++] = "SURKDBIA"[bit];
    return len;
}

static size_t add_cell(char *at, ticurses_cell cell, int may_be_default) {
    if (may_be_default && !cell.byte && !cell.attrs && !cell.pair) return (size_t)sprintf(at, " -");
    size_t len = (size_t)sprintf(at, " %02x", cell.byte);
    if (cell.attrs) at[len++] = '/', len += add_letters(at + len, cell.attrs);
    if (cell.pair) len += (size_t)sprintf(at + len, ":%d", cell.pair);
    return len;
}

static size_t add_word(char *at, char word, const arguments *with, size_t *cells) {
    size_t len = 0;
    switch (word) {
        case 'w': return (size_t)sprintf(at, " %zu", with->window);
        case 'o': return (size_t)sprintf(at, " %zu", with->other);
        case 'f': return (size_t)sprintf(at, " %d", with->flag);
        case 'A':
            if (!with->attrs) return (size_t)sprintf(at, " -");
            at[0] = ' ';
            return 1 + add_letters(at + 1, with->attrs);
        case 'c':
        case '-': return add_cell(at, with->cells[(*cells)++], word == '-');
        case '0': return (size_t)sprintf(at, " 0");
        default:
            for (int place = 0; place < word - '0'; place++)
                len += (size_t)sprintf(at + len, " %d", with->numbers[place]);
            return len;
    }
}

static size_t write_line(char *line, const named *call, const arguments *with) {
    size_t len = (size_t)sprintf(line, "%s", call->name), cells = 0;
    for (const char *word = call->words; *word; word++) len += add_word(line + len, *word, with, &cells);
    line[len] = 0;
    return len;
}

static int are_outputs_equal(ticurses *one, ticurses *other) {
    static char sent[1 << 16], wanted[1 << 16];
    size_t waiting = ticurses_waiting(one), count = ticurses_output(one, sent, sizeof sent);
    return waiting == ticurses_waiting(other) && count == ticurses_output(other, wanted, sizeof wanted) &&
           !memcmp(sent, wanted, count);
}

static int are_windows_equal(ticurses *one, ticurses *other, size_t window) {
    uint16_t rows = 0, cols = 0, at[4] = {0, 0, 0, 0};
    int code = ticurses_window_size(one, window, &rows, &cols);
    if (code != ticurses_window_size(other, window, &at[0], &at[1])) return 0;
    if (code) return 1;
    if (rows != at[0] || cols != at[1]) return 0;
    ticurses_cursor(one, window, &at[0], &at[1]);
    ticurses_cursor(other, window, &at[2], &at[3]);
    if (at[0] != at[2] || at[1] != at[3]) return 0;
    for (uint16_t row = 0; row < rows && row < 40; row++)
        for (uint16_t col = 0; col < cols && col < 40; col++) {
            ticurses_cell found = {0, 0, 0}, wanted = {0, 0, 0};
            ticurses_cell_at(one, window, row, col, &found);
            ticurses_cell_at(other, window, row, col, &wanted);
            if (memcmp(&found, &wanted, sizeof found)) return 0;
        }
    return 1;
}

/* Makes one call on both; 0, with the call as a line, if something differs. */
static int is_same(ticurses *one, ticurses *other, const named *call, int count) {
    char line[512];
    const arguments with = any_arguments();
    size_t len = write_line(line, call, &with);
    int code = call->call(one, &with), wanted = ticurses_call(other, line, len), is_equal = code == wanted;
    is_equal = is_equal && are_outputs_equal(one, other);
    for (size_t window = 0; is_equal && count % 16 == 0 && window < WINDOWS; window++)
        is_equal = are_windows_equal(one, other, window);
    if (!is_equal) printf("call %d: %s: %d by its function, %d as a line\n", count, line, code, wanted);
    return is_equal;
}

int main(int argc, char **argv) {
    ticurses one = {0, 0}, other = {0, 0};
    FILE *file = argc == 3 ? fopen(argv[1], "rb") : NULL;
    long done = 0, count = argc == 3 ? atol(argv[2]) : 0;
    if (!file) return 2;
    source_len = fread(source, 1, sizeof source, file);
    fclose(file);
    if (ticurses_open(&one, source, source_len, "xc", 2, ROWS, COLS, NULL, 0) ||
        ticurses_open(&other, source, source_len, "xc", 2, ROWS, COLS, NULL, 0))
        return 2;
    while (done < count * CALLS && is_same(&one, &other, &calls[any(CALLS)], (int)done)) done++;
    ticurses_close(&one);
    ticurses_close(&other);
    return done < count * CALLS;
}
