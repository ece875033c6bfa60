/* A library that only pretends, for tests of what is over it: the headers, the Python package and the examples. A
 * session's waiting bytes are a text: `refresh N` adds N bytes and `doupdate` one, the first of them after the
 * session's opening with its size before, as in <24x80>; `endwin` adds <endwin>; after `lost` the next of them begins
 * with <again>; a line that begins with `bad` is no call, and others do nothing. An entry that has the word `wrong` has
 * no certificate above 31 rows. Each string of an entry is an ESC and <string>. */
#include <stdint.h>
#include <stdio.h>
#include <stdlib.h>
#include <string.h>

typedef struct { void *at; size_t state; } handle;
typedef struct { char *text, size[16]; size_t from, to, failed; int is_lost; } session;

enum { FULL = 11, BAD_LINE = 18, CLOSED = 20, BAD_SIZE, BAD_ENTRY, NO_CERTIFICATE = 24, ROOM = 1 << 22 };

static void add(session *it, const char *text, size_t len) {
    if (it->to + len > ROOM) abort();
    memcpy(it->text + it->to, text, len);
    it->to += len;
}

void ticurses_raw_close(handle *at) {
    session *it = at->at;
    if (it) free(it->text);
    free(it);
    at->at = NULL;
}

static int32_t judged(const uint8_t *entry, size_t len, uint16_t rows, uint16_t cols) {
    if (rows < 2 || rows > 200 || cols < 2 || cols > 500) return BAD_SIZE;
    if (!len) return BAD_ENTRY;
    return rows > 31 && memmem(entry, len, "wrong", 5) ? NO_CERTIFICATE : 0;
}

int32_t ticurses_raw_open(handle *at, const uint8_t *entry, size_t entry_len, const uint8_t *name, size_t name_len,
                          uint16_t rows, uint16_t cols, const uint8_t *certificate, size_t certificate_len) {
    int32_t code = judged(entry, entry_len, rows, cols);
    session *it;
    (void)name, (void)name_len, (void)certificate, (void)certificate_len;
    if (code) return code;
    ticurses_raw_close(at);
    at->at = it = calloc(1, sizeof *it);
    it->text = malloc(ROOM);
    snprintf(it->size, sizeof it->size, "<%dx%d>", rows, cols);
    return 0;
}

int32_t ticurses_raw_open_without(handle *at, const uint8_t *entry, size_t entry_len, const uint8_t *name,
                                  size_t name_len, uint16_t rows, uint16_t cols) {
    return ticurses_raw_open(at, entry, entry_len, name, name_len, rows, cols, NULL, 0);
}

int32_t ticurses_raw_left_out(handle *at, uint8_t *room, size_t room_len, size_t *needed) {
    (void)room, (void)room_len;
    *needed = 0;
    return at->at ? 0 : CLOSED;
}

int32_t ticurses_raw_check(const uint8_t *entry, size_t entry_len, const uint8_t *name, size_t name_len, uint16_t rows,
                           uint16_t cols, uint8_t *room, size_t room_len, size_t *needed) {
    (void)name, (void)name_len, (void)room, (void)room_len;
    *needed = 0;
    return judged(entry, entry_len, rows, cols);
}

int32_t ticurses_raw_reason(const uint8_t *entry, size_t entry_len, const uint8_t *name, size_t name_len, uint16_t rows,
                            uint16_t cols, uint8_t *room, size_t room_len, size_t *needed) {
    static const char text[] = "no op: WrongEffect";
    int32_t code = ticurses_raw_check(entry, entry_len, name, name_len, rows, cols, room, room_len, needed);
    if (code != NO_CERTIFICATE) return code;
    memcpy(room, text, *needed = sizeof text - 1);
    return 0;
}

int32_t ticurses_raw_verify(const uint8_t *entry, size_t entry_len, const uint8_t *name, size_t name_len, uint16_t rows,
                            uint16_t cols, const uint8_t *certificate, size_t certificate_len) {
    (void)name, (void)name_len, (void)certificate, (void)certificate_len;
    return judged(entry, entry_len, rows, cols);
}

int32_t ticurses_raw_string(const uint8_t *entry, size_t entry_len, const uint8_t *name, size_t name_len,
                            const uint8_t *cap, size_t cap_len, uint8_t *room, size_t room_len, size_t *needed) {
    static const char text[] = "\033<string>";
    (void)entry, (void)name, (void)name_len, (void)cap, (void)cap_len, (void)room_len;
    if (!entry_len) return BAD_ENTRY;
    memcpy(room, text, *needed = sizeof text - 1);
    return 0;
}

static int32_t line(session *it, const char *text, size_t len) {
    static const char filler[] = "xxxxxxxxxxxxxxxx";
    int is_end = len == 6 && !memcmp(text, "endwin", 6), is_update = len == 8 && !memcmp(text, "doupdate", 8);
    char number[12] = "";
    size_t left = (size_t)is_update;
    if (len > 8 && len < 20 && !memcmp(text, "refresh ", 8)) left = strtoul(memcpy(number, text + 8, len - 8), NULL, 10);
    if (len >= 3 && !memcmp(text, "bad", 3)) return BAD_LINE;
    if (!is_end && !left) return 0;
    if (it->is_lost) add(it, "<again>", 7);
    if (!is_end) add(it, it->size, strlen(it->size)), *it->size = 0;
    it->is_lost = 0;
    if (is_end) add(it, "<endwin>", 8);
    for (size_t now; left > 0; left -= now) add(it, filler, now = left < 16 ? left : 16);
    return 0;
}

int32_t ticurses_raw_call(handle *at, const uint8_t *text, size_t len) {
    const char *from = (const char *)text, *end = from + len;
    session *it = at->at;
    int32_t code = it ? 0 : CLOSED;
    size_t number = 0;
    while (!code && from < end) {
        const char *stop = memchr(from, '\n', (size_t)(end - from));
        if (!stop) stop = end;
        code = line(it, from, (size_t)(stop - from));
        from = stop + 1;
        number++;
    }
    if (it) it->failed = code ? number : 0;
    return code;
}

int32_t ticurses_raw_failed(handle *at, size_t *number) {
    session *it = at->at;
    if (!it) return CLOSED;
    *number = it->failed;
    return 0;
}

int32_t ticurses_raw_addstr(handle *at, size_t window, const uint8_t *text, size_t len) {
    (void)text, (void)len;
    return !at->at ? CLOSED : window > 63 ? FULL : 0;
}

int32_t ticurses_raw_cursor(handle *at, size_t window, uint16_t *row, uint16_t *col) {
    *row = *col = 0;
    return ticurses_raw_addstr(at, window, NULL, 0);
}

int32_t ticurses_raw_size(handle *at, size_t window, uint16_t *rows, uint16_t *cols) {
    return ticurses_raw_cursor(at, window, rows, cols);
}

int32_t ticurses_raw_cell(handle *at, size_t window, uint16_t row, uint16_t col, uint8_t *cell) {
    (void)row, (void)col;
    memcpy(cell, " \0\0", 3);
    return ticurses_raw_addstr(at, window, NULL, 0);
}

size_t ticurses_raw_cell_limit(handle *at) { return at->at ? 1 : 0; }

size_t ticurses_raw_most(handle *at) { return at->at ? 1 : 0; }

size_t ticurses_raw_waiting(handle *at) {
    session *it = at->at;
    return it ? it->to - it->from : 0;
}

size_t ticurses_raw_output(handle *at, uint8_t *room, size_t room_len) {
    session *it = at->at;
    size_t count = ticurses_raw_waiting(at) < room_len ? ticurses_raw_waiting(at) : room_len;
    if (count) memcpy(room, it->text + it->from, count);
    if (it) it->from += count;
    if (it && it->from == it->to) it->from = it->to = 0;
    return count;
}

int32_t ticurses_raw_lost(handle *at) {
    session *it = at->at;
    if (!it) return CLOSED;
    it->from = it->to = 0;
    it->is_lost = 1;
    return 0;
}
