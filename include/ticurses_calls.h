/* The calls of curses, a function for each, which ticurses.h includes. Windows are numbers from 0, the screen, to 63;
 * rows come before columns, and both begin at 0. Each may answer TICURSES_NULL for a session that is null,
 * TICURSES_CLOSED for one that isn't open, TICURSES_NO_WINDOW for a number without a window, and TICURSES_FULL for a
 * number above 63; the comment of each names its other codes. Only calls that make windows (TICURSES_NO_MEMORY) and
 * calls that send (TICURSES_OUTPUT_FAILED) take memory. No call changes the answer of ticurses_failed. addstr is in
 * ticurses.h. */
#ifndef TICURSES_CALLS_H
#define TICURSES_CALLS_H

#include "ticurses.h"

#ifdef __cplusplus
extern "C" {
#endif

/* Makes the call of a request. TICURSES_BAD_CALL if it is no call; then nothing else happens. */
static inline int ticurses_make(ticurses *session, const ticurses_request *request) {
    return !session || !request ? TICURSES_NULL : ticurses_raw_make(session, request);
}

/* The cell with these parts, such as ticurses_cell_of('x', TICURSES_BOLD, 0). */
static inline ticurses_cell ticurses_cell_of(uint8_t byte, uint8_t attrs, uint8_t pair) {
    ticurses_cell cell;
    cell.byte = byte, cell.attrs = attrs, cell.pair = pair;
    return cell;
}

/* A request of this kind; all its other fields are 0. */
static inline ticurses_request ticurses_request_of(uint32_t kind, size_t window, size_t other) {
    ticurses_request request = {
        kind, 0, window, other, 0, 0, 0, 0, 0, 0, 0, {0, 0, 0},
        {{0, 0, 0}, {0, 0, 0}, {0, 0, 0}, {0, 0, 0}, {0, 0, 0}, {0, 0, 0}, {0, 0, 0}, {0, 0, 0}},
    };
    return request;
}

/* Makes a call whose only argument is a window. */
static inline int ticurses_make_plain(ticurses *session, uint32_t kind, size_t window) {
    ticurses_request request = ticurses_request_of(kind, window, 0);
    return ticurses_make(session, &request);
}

/* Makes a call with a window and two numbers, or one number and 0. */
static inline int ticurses_make_numbers(ticurses *session, uint32_t kind, size_t window, int first, int second) {
    ticurses_request request = ticurses_request_of(kind, window, 0);
    request.first = first, request.second = second;
    return ticurses_make(session, &request);
}

/* Makes a window at a place. */
static inline int ticurses_make_window(ticurses *session, ticurses_request request, int lines, int cols, int row,
                                       int col) {
    request.first = lines, request.second = cols, request.third = row, request.fourth = col;
    return ticurses_make(session, &request);
}

/* Makes a call with two windows. */
static inline int ticurses_make_pair(ticurses *session, uint32_t kind, size_t window, size_t other) {
    ticurses_request request = ticurses_request_of(kind, window, other);
    return ticurses_make(session, &request);
}

/* Makes a call with an option, which must be 0 or 1. */
static inline int ticurses_make_flag(ticurses *session, uint32_t kind, size_t window, int is_on) {
    ticurses_request request = ticurses_request_of(kind, window, 0);
    request.flag = is_on;
    return ticurses_make(session, &request);
}

/* Makes a call with a cell, and perhaps a number. */
static inline int ticurses_make_cell(ticurses *session, uint32_t kind, size_t window, ticurses_cell cell, int count) {
    ticurses_request request = ticurses_request_of(kind, window, 0);
    request.cell = cell, request.first = count;
    return ticurses_make(session, &request);
}

/* Makes a window with its corner at a place of the screen; with 0 lines or columns it reaches to the screen's edge.
 * TICURSES_OUT_OF_SCREEN if it isn't within the screen or is empty. All calls that make windows: TICURSES_NUMBER_USED,
 * TICURSES_BAD_REGION for a negative size, TICURSES_NO_MEMORY. */
static inline int ticurses_newwin(ticurses *session, size_t window, int lines, int cols, int row, int col) {
    return ticurses_make_window(session, ticurses_request_of(TICURSES_NEWWIN, window, 0), lines, cols, row, col);
}

/* Makes a window that is a part of `parent`, whose cells it shares; the place is on the screen. This and the next two:
 * TICURSES_OUT_OF_WINDOW, TICURSES_PAD_KIND. */
static inline int ticurses_subwin(ticurses *session, size_t window, size_t parent, int lines, int cols, int row,
                                  int col) {
    return ticurses_make_window(session, ticurses_request_of(TICURSES_SUBWIN, window, parent), lines, cols, row, col);
}

/* Makes a window that is a part of `parent`; the place is in that window. */
static inline int ticurses_derwin(ticurses *session, size_t window, size_t parent, int lines, int cols, int row,
                                  int col) {
    return ticurses_make_window(session, ticurses_request_of(TICURSES_DERWIN, window, parent), lines, cols, row, col);
}

/* Makes a pad that is a part of the pad `parent`; the place is in that pad. */
static inline int ticurses_subpad(ticurses *session, size_t window, size_t parent, int lines, int cols, int row,
                                  int col) {
    return ticurses_make_window(session, ticurses_request_of(TICURSES_SUBPAD, window, parent), lines, cols, row, col);
}

/* Makes a pad, a window that is not on the screen, of 1 to 1000 lines and columns. */
static inline int ticurses_newpad(ticurses *session, size_t window, int lines, int cols) {
    return ticurses_make_numbers(session, TICURSES_NEWPAD, window, lines, cols);
}

/* Makes a window that is a copy of another one, with cells of its own. */
static inline int ticurses_dupwin(ticurses *session, size_t window, size_t source) {
    return ticurses_make_pair(session, TICURSES_DUPWIN, window, source);
}

/* Deletes a window: TICURSES_IS_SCREEN, TICURSES_HAS_CHILDREN. */
static inline int ticurses_delwin(ticurses *session, size_t window) {
    return ticurses_make_plain(session, TICURSES_DELWIN, window);
}

/* Moves a window on the screen: TICURSES_PAD_KIND, TICURSES_IS_SUB, TICURSES_OUT_OF_SCREEN. */
static inline int ticurses_mvwin(ticurses *session, size_t window, int row, int col) {
    return ticurses_make_numbers(session, TICURSES_MVWIN, window, row, col);
}

/* Moves a window's cursor: TICURSES_OUT_OF_WINDOW. */
static inline int ticurses_move(ticurses *session, size_t window, int row, int col) {
    return !session ? TICURSES_NULL : ticurses_raw_move(session, window, row, col);
}

/* Writes a character at the cursor and advances the cursor; controls act as in ticurses_addstr. TICURSES_BAD_CELL for a
 * byte above 127, TICURSES_BAD_PAIR, TICURSES_NO_SCROLL. */
static inline int ticurses_addch(ticurses *session, size_t window, ticurses_cell cell) {
    return !session ? TICURSES_NULL : ticurses_raw_addch(session, window, cell.byte, cell.attrs, cell.pair);
}

/* Inserts a character at the cursor, which stays. This, and the calls that draw lines or set a background:
 * TICURSES_BAD_CELL for a byte outside 32 to 126, TICURSES_BAD_PAIR. */
static inline int ticurses_insch(ticurses *session, size_t window, ticurses_cell cell) {
    return ticurses_make_cell(session, TICURSES_INSCH, window, cell, 0);
}

/* Deletes the character at the cursor. */
static inline int ticurses_delch(ticurses *session, size_t window) {
    return ticurses_make_plain(session, TICURSES_DELCH, window);
}

/* Inserts a blank line at the cursor's line. */
static inline int ticurses_insertln(ticurses *session, size_t window) {
    return ticurses_make_plain(session, TICURSES_INSERTLN, window);
}

/* Deletes the cursor's line. */
static inline int ticurses_deleteln(ticurses *session, size_t window) {
    return ticurses_make_plain(session, TICURSES_DELETELN, window);
}

/* Clears from the cursor to the line's end. */
static inline int ticurses_clrtoeol(ticurses *session, size_t window) {
    return ticurses_make_plain(session, TICURSES_CLRTOEOL, window);
}

/* Clears from the cursor to the window's end. */
static inline int ticurses_clrtobot(ticurses *session, size_t window) {
    return ticurses_make_plain(session, TICURSES_CLRTOBOT, window);
}

/* Clears the window, and moves its cursor to 0 0. */
static inline int ticurses_erase(ticurses *session, size_t window) {
    return ticurses_make_plain(session, TICURSES_ERASE, window);
}

/* Does what ticurses_erase does, and has the next refresh of the window paint the whole screen. */
static inline int ticurses_clear(ticurses *session, size_t window) {
    return ticurses_make_plain(session, TICURSES_CLEAR, window);
}

/* Draws a horizontal line of `count` cells from the cursor on, at most to the edge. A cell of zeros means the default
 * one, here and in vline, border and box. */
static inline int ticurses_hline(ticurses *session, size_t window, ticurses_cell cell, int count) {
    return ticurses_make_cell(session, TICURSES_HLINE, window, cell, count);
}

/* Draws a vertical line of `count` cells from the cursor on, at most to the edge. */
static inline int ticurses_vline(ticurses *session, size_t window, ticurses_cell cell, int count) {
    return ticurses_make_cell(session, TICURSES_VLINE, window, cell, count);
}

/* Draws a border along the window's edges; TICURSES_NULL if `frame` is null. */
static inline int ticurses_border(ticurses *session, size_t window, const ticurses_frame *frame) {
    ticurses_request request = ticurses_request_of(TICURSES_BORDER, window, 0);
    if (!frame) return TICURSES_NULL;
    request.frame = *frame;
    return ticurses_make(session, &request);
}

/* Draws a border of two cells with the default corners. */
static inline int ticurses_box(ticurses *session, size_t window, ticurses_cell vertical, ticurses_cell horizontal) {
    ticurses_request request = ticurses_request_of(TICURSES_BOX, window, 0);
    request.frame.left = vertical, request.frame.top = horizontal;
    return ticurses_make(session, &request);
}

/* Scrolls the scrolling region up by `count` lines, or down by -count: TICURSES_NO_SCROLL. */
static inline int ticurses_scroll(ticurses *session, size_t window, int count) {
    return ticurses_make_numbers(session, TICURSES_SCROLL, window, count, 0);
}

/* Sets the scrolling region: TICURSES_BAD_REGION. */
static inline int ticurses_setscrreg(ticurses *session, size_t window, int top, int bottom) {
    return ticurses_make_numbers(session, TICURSES_SETSCRREG, window, top, bottom);
}

/* Adds attributes to those that a window writes with. This and the next two: TICURSES_BAD_CALL. */
static inline int ticurses_attron(ticurses *session, size_t window, int attrs) {
    return !session ? TICURSES_NULL : ticurses_raw_attron(session, window, attrs);
}

/* Removes attributes from those that a window writes with. */
static inline int ticurses_attroff(ticurses *session, size_t window, int attrs) {
    return !session ? TICURSES_NULL : ticurses_raw_attroff(session, window, attrs);
}

/* Sets the attributes that a window writes with. */
static inline int ticurses_attrset(ticurses *session, size_t window, int attrs) {
    return !session ? TICURSES_NULL : ticurses_raw_attrset(session, window, attrs);
}

/* Sets the color pair that a window writes with: TICURSES_BAD_PAIR. */
static inline int ticurses_color_set(ticurses *session, size_t window, int pair) {
    return !session ? TICURSES_NULL : ticurses_raw_color_set(session, window, pair);
}

/* Sets the background, with which a window is erased. */
static inline int ticurses_bkgdset(ticurses *session, size_t window, ticurses_cell cell) {
    return ticurses_make_cell(session, TICURSES_BKGDSET, window, cell, 0);
}

/* Sets the background, and changes the cells that have the old one. */
static inline int ticurses_bkgd(ticurses *session, size_t window, ticurses_cell cell) {
    return ticurses_make_cell(session, TICURSES_BKGD, window, cell, 0);
}

/* Copies a window over another one where they overlap on the screen, without its spaces: TICURSES_PAD_KIND. */
static inline int ticurses_overlay(ticurses *session, size_t source, size_t target) {
    return ticurses_make_pair(session, TICURSES_OVERLAY, source, target);
}

/* Copies a window over another one where they overlap on the screen, with its spaces: TICURSES_PAD_KIND. */
static inline int ticurses_overwrite(ticurses *session, size_t source, size_t target) {
    return ticurses_make_pair(session, TICURSES_OVERWRITE, source, target);
}

/* Copies from a place of the source on to the target's rows `top` to `bottom` and columns `left` to `right`, without
 * spaces if `is_overlay` is 1, and with them if it is 0: TICURSES_BAD_REGION, TICURSES_OUT_OF_WINDOW,
 * TICURSES_BAD_CALL. */
static inline int ticurses_copywin(ticurses *session, size_t source, size_t target, int row, int col, int top, int left,
                                   int bottom, int right, int is_overlay) {
    ticurses_request request = ticurses_request_of(TICURSES_COPYWIN, source, target);
    request.first = row, request.second = col, request.third = top, request.fourth = left;
    request.fifth = bottom, request.sixth = right, request.flag = is_overlay;
    return ticurses_make(session, &request);
}

/* Sets whether a window scrolls when a text goes past its last line. All options: TICURSES_BAD_CALL. */
static inline int ticurses_scrollok(ticurses *session, size_t window, int is_on) {
    return ticurses_make_flag(session, TICURSES_SCROLLOK, window, is_on);
}

/* Sets whether a refresh of the window may leave the cursor anywhere. */
static inline int ticurses_leaveok(ticurses *session, size_t window, int is_on) {
    return ticurses_make_flag(session, TICURSES_LEAVEOK, window, is_on);
}

/* Sets whether the next refresh of the window paints the whole screen. */
static inline int ticurses_clearok(ticurses *session, size_t window, int is_on) {
    return ticurses_make_flag(session, TICURSES_CLEAROK, window, is_on);
}

/* Changes nothing. */
static inline int ticurses_idlok(ticurses *session, size_t window, int is_on) {
    return ticurses_make_flag(session, TICURSES_IDLOK, window, is_on);
}

/* Changes nothing. */
static inline int ticurses_touchwin(ticurses *session, size_t window) {
    return ticurses_make_plain(session, TICURSES_TOUCHWIN, window);
}

/* Changes nothing. */
static inline int ticurses_touchline(ticurses *session, size_t window, int row, int count) {
    return ticurses_make_numbers(session, TICURSES_TOUCHLINE, window, row, count);
}

/* Copies a window to the virtual screen: TICURSES_PAD_KIND. */
static inline int ticurses_noutrefresh(ticurses *session, size_t window) {
    return ticurses_make_plain(session, TICURSES_NOUTREFRESH, window);
}

/* Does what ticurses_noutrefresh does, but copies only the lines `top` to `bottom` of the window: TICURSES_PAD_KIND,
 * TICURSES_BAD_REGION. Scripts don't have this call. */
static inline int ticurses_noutrefresh_lines(ticurses *session, size_t window, int top, int bottom) {
    return !session ? TICURSES_NULL : ticurses_raw_noutrefresh_lines(session, window, top, bottom);
}

/* Copies a window to the virtual screen, and makes the terminal show that: TICURSES_PAD_KIND. */
static inline int ticurses_refresh(ticurses *session, size_t window) {
    return ticurses_make_plain(session, TICURSES_REFRESH, window);
}

/* Makes the terminal show the virtual screen. */
static inline int ticurses_doupdate(ticurses *session) {
    return ticurses_make_plain(session, TICURSES_DOUPDATE, 0);
}

/* Makes a call that shows a part of a pad on the screen's rows `top` to `bottom` and columns `left` to `right`. */
static inline int ticurses_make_shown(ticurses *session, ticurses_request request, int top, int left, int bottom,
                                      int right) {
    request.third = top, request.fourth = left, request.fifth = bottom, request.sixth = right;
    return ticurses_make(session, &request);
}

/* Copies a part of a pad to the virtual screen: TICURSES_PAD_KIND, TICURSES_BAD_REGION, TICURSES_OUT_OF_SCREEN,
 * TICURSES_OUT_OF_WINDOW. */
static inline int ticurses_pnoutrefresh(ticurses *session, size_t pad, int row, int col, int top, int left, int bottom,
                                        int right) {
    ticurses_request request = ticurses_request_of(TICURSES_PNOUTREFRESH, pad, 0);
    request.first = row, request.second = col;
    return ticurses_make_shown(session, request, top, left, bottom, right);
}

/* Does what ticurses_pnoutrefresh does, and makes the terminal show the virtual screen. */
static inline int ticurses_prefresh(ticurses *session, size_t pad, int row, int col, int top, int left, int bottom,
                                    int right) {
    ticurses_request request = ticurses_request_of(TICURSES_PREFRESH, pad, 0);
    request.first = row, request.second = col;
    return ticurses_make_shown(session, request, top, left, bottom, right);
}

/* Hides the cursor (0), shows it (1), or shows it very visibly (2): TICURSES_BAD_REGION, TICURSES_NO_CAP. */
static inline int ticurses_curs_set(ticurses *session, int mode) {
    return ticurses_make_numbers(session, TICURSES_CURS_SET, 0, mode, 0);
}

/* Sets the colors of a pair from 1 to 63, each from 0 to 7: TICURSES_BAD_PAIR. */
static inline int ticurses_init_pair(ticurses *session, int pair, int foreground, int background) {
    ticurses_request request = ticurses_request_of(TICURSES_INIT_PAIR, 0, 0);
    request.first = pair, request.second = foreground, request.third = background;
    return ticurses_make(session, &request);
}

/* Does what ticurses_init_pair does, and takes -1 for the terminal's default color. Scripts don't have this call. */
static inline int ticurses_init_pair_or_default(ticurses *session, int pair, int foreground, int background) {
    return !session ? TICURSES_NULL : ticurses_raw_init_pair_or_default(session, pair, foreground, background);
}

/* Rings the bell: TICURSES_NO_CAP, TICURSES_IS_LOST. */
static inline int ticurses_beep(ticurses *session) {
    return ticurses_make_plain(session, TICURSES_BEEP, 0);
}

/* Leaves the terminal as other programs need it; the next refresh begins anew. */
static inline int ticurses_endwin(ticurses *session) {
    return ticurses_make_plain(session, TICURSES_ENDWIN, 0);
}

#ifdef __cplusplus
}
#endif
#endif
