/* The proved session: opening and closing it, sending what waits in it, and asking it. */
#define _POSIX_C_SOURCE 200809L
#include "session.h"

#include <errno.h>
#include <poll.h>
#include <stdlib.h>
#include <string.h>
#include <unistd.h>

#include "../include/ticurses_terminal.h"

ticurses tcu_session;
volatile sig_atomic_t tcu_is_busy;

static ticurses former, next;

/* Whether the terminal has got output since the last endwin, and whether the session was lost since: the next refresh
 * then sends once more what a session begins with. */
static bool is_up, is_cut;

/* Whether the session must have all strings of the entry. */
static bool is_strict;

bool session_is_busy(void) {
    return tcu_is_busy != 0;
}

bool session_begins(void) {
    if (tcu_is_busy) return false;
    tcu_is_busy = 1;
    signals_enter();
    run_end();
    return true;
}

int session_done(int code) {
    tcu_is_busy = 0;
    signals_leave();
    return code == TICURSES_OK ? OK : ERR;
}

/* -- opening and closing -- */

static int opened(ticurses *at, int lines, int columns) {
    size_t len;
    const void *entry = entry_bytes(&len);
    if (lines < 2 || lines > 200 || columns < 2 || columns > 500) return TICURSES_BAD_SIZE;
    if (is_strict) return ticurses_open(at, entry, len, NULL, 0, (uint16_t)lines, (uint16_t)columns, NULL, 0);
    return ticurses_open_without(at, entry, len, NULL, 0, (uint16_t)lines, (uint16_t)columns);
}

/* Has the library do without the strings that the session goes without. */
static void leave_out(void) {
    /* more than all strings of a session need */
    char lines[4096];
    size_t len = 0;
    ticurses_left_out(&tcu_session, lines, sizeof lines, &len);
    entry_leave_out(lines, len <= sizeof lines ? len : 0);
}

int session_open(int lines, int columns, char *reason, size_t room_len) {
    int code;
    size_t len, told = 0;
    const void *entry = entry_bytes(&len);
    const char *strict = getenv("TICURSES_STRICT");
    char why[256];
    if (!session_begins()) return ERR;
    is_strict = strict && strcmp(strict, "1") == 0;
    code = opened(&tcu_session, lines, columns);
    if (code == TICURSES_NO_CERTIFICATE)
        ticurses_reason(entry, len, NULL, 0, (uint16_t)lines, (uint16_t)columns, why, sizeof why, &told);
    if (told > sizeof why) told = 0;
    if (code != TICURSES_OK) {
        snprintf(reason, room_len, "%s%s%.*s", ticurses_text(code), told ? ": " : "", (int)told, why);
    } else {
        /* an earlier program may have left anything on the terminal */
        ticurses_lost(&tcu_session);
        is_up = is_cut = false;
        leave_out();
        run_begin();
    }
    return session_done(code);
}

int session_open_next(int lines, int columns) {
    return session_begins() ? session_done(opened(&next, lines, columns)) : ERR;
}

int session_begin_next(void) {
    if (!session_begins()) return ERR;
    ticurses_close(&former);
    former = tcu_session;
    tcu_session = next;
    memset(&next, 0, sizeof next);
    ticurses_lost(&tcu_session);
    leave_out();
    signals_learn();
    run_begin();
    return session_done(TICURSES_OK);
}

void session_forget_former(void) {
    if (!session_begins()) return;
    ticurses_close(&former);
    session_done(TICURSES_OK);
}

void session_close(void) {
    if (!session_begins()) return;
    ticurses_close(&tcu_session);
    session_done(TICURSES_OK);
}

/* -- sending -- */

/* Writes `count` bytes and returns 0; -1 if that fails, or if a signal that ends the program comes before the last. */
static int put(int fd, const char *bytes, size_t count) {
    while (count > 0) {
        ssize_t now = write(fd, bytes, count);
        if (now > 0) {
            bytes += now;
            count -= (size_t)now;
        } else if (now < 0 && ticurses_is_full(errno)) {
            struct pollfd room = {fd, POLLOUT, 0};
            poll(&room, 1, -1);
        } else if (now == 0 || errno != EINTR) {
            return -1;
        }
        if (signals_is_ending()) return count > 0 ? -1 : 0;
    }
    return 0;
}

/* Takes the session as lost. */
static int lose(void) {
    ticurses_lost(&tcu_session);
    is_cut = is_up;
    return TICURSES_OUTPUT_FAILED;
}

/* Has the terminal leave its second screen before a lost session begins anew with smcup: some keep the cursor of the
 * last smcup alone, which is then the program's own. An ESC ends whatever was cut off. */
static int leave(int fd) {
    char text[256];
    const char *rmcup = entry_string("rmcup");
    size_t count = is_cut && rmcup ? beside_plain(rmcup, text, sizeof text) : 0;
    if (count > 0 && *text == '\033' && put(fd, text, count) != 0) return -1;
    is_cut = false;
    return 0;
}

int session_send(int fd) {
    char piece[4096];
    size_t count;
    int code = TICURSES_OK;
    if (!session_begins()) return ERR;
    if (ticurses_waiting(&tcu_session) > 0) {
        if (leave(fd) != 0) code = lose();
        is_up = true;
    }
    while (code == TICURSES_OK && (count = ticurses_output(&tcu_session, piece, sizeof piece)) > 0)
        if (put(fd, piece, count) != 0) code = lose();
    return session_done(code);
}

int session_send_beside(int fd, const char *bytes, size_t count) {
    int code = TICURSES_OK;
    if (session_send(fd) != OK || !session_begins()) return ERR;
    if (put(fd, bytes, count) != 0) code = lose();
    return session_done(code);
}

int session_end(int fd) {
    if (session_begins() && session_done(ticurses_endwin(&tcu_session)) == OK && session_send(fd) == OK) {
        is_up = false;
        return OK;
    }
    return ERR;
}

bool session_is_up(void) {
    return is_up;
}

void session_lost(void) {
    if (!session_begins()) return;
    lose();
    session_done(TICURSES_OK);
}

/* -- questions -- */

static int cell_of(ticurses *at, int window, int y, int x, chtype *cell) {
    ticurses_cell found;
    if (y < 0 || x < 0 || y >= TCU_PAD_MAX || x >= TCU_PAD_MAX) return ERR;
    if (ticurses_cell_at(at, (size_t)window, (uint16_t)y, (uint16_t)x, &found) != TICURSES_OK) return ERR;
    *cell = (chtype)found.byte | (chtype)found.attrs << 16 | COLOR_PAIR(tcu_pair_of(found.pair));
    return OK;
}

int session_cell(int window, int y, int x, chtype *cell) {
    int code;
    if (tcu_is_busy) return ERR;
    tcu_is_busy = 1;
    run_flush();
    code = cell_of(&tcu_session, window, y, x, cell);
    tcu_is_busy = 0;
    return code;
}

int session_former_cell(int window, int y, int x, chtype *cell) {
    return tcu_is_busy ? ERR : cell_of(&former, window, y, x, cell);
}

static int digit_of(char letter) {
    return letter >= '0' && letter <= '9' ? letter - '0' : letter >= 'a' && letter <= 'f' ? letter - 'a' + 10 : -1;
}

/* Reads the hexadecimal bytes of a certificate's line to `room` and returns their number; -1 if they don't fit. */
static long bytes_of(const char *line, const char *end, char *room, size_t room_len) {
    size_t count = 0;
    for (; end - line >= 2 && digit_of(line[0]) >= 0 && digit_of(line[1]) >= 0; line += 2) {
        if (count >= room_len) return -1;
        room[count++] = (char)(digit_of(line[0]) * 16 + digit_of(line[1]));
    }
    return (long)count;
}

size_t session_ignored(const char *text, char *room, size_t room_len) {
    static const char begin[] = "x|x,\n\tclear=\\E[H\\E[2J, cup=\\E[%i%p1%d;%p2%dH, sgr0=\\E[m, bel=";
    char source[2048], certificate[4096];
    size_t needed = 0;
    int len = snprintf(source, sizeof source, "%s", begin);
    long count = 0;
    for (; *text && (size_t)len < sizeof source - 16; text++)
        len += snprintf(source + len, sizeof source - (size_t)len, "\\%03o", (unsigned)(unsigned char)*text);
    if (*text) return 0;
    len += snprintf(source + len, sizeof source - (size_t)len, ",\n");
    if (!session_begins()) return 0;
    if (ticurses_check(source, (size_t)len, "x", 1, 2, 2, certificate, sizeof certificate, &needed) == TICURSES_OK) {
        for (size_t at = 0; at + 5 < needed; at++) {
            if (memcmp(certificate + at, "\nbel ", 5) == 0)
                count = bytes_of(certificate + at + 5, certificate + needed, room, room_len);
        }
    }
    session_done(TICURSES_OK);
    return count > 0 ? (size_t)count : 0;
}
