/* ticurses for C: certificates of terminfo entries, and curses sessions with a proved refresh.
 *
 * A session draws on one terminal. It is opened for the terminal's entry and size, takes calls of
 * curses as functions of numbers or as lines of text, and keeps the bytes of a refresh until the
 * program takes them and writes them to the terminal:
 *
 *     ticurses session = {0};
 *     code = ticurses_open(&session, entry, entry_len, NULL, 0, 24, 80, NULL, 0);
 *     code = ticurses_move(&session, 0, row, col);
 *     code = ticurses_addstr(&session, 0, "Hello", 5);
 *     code = ticurses_refresh(&session, 0);        or ticurses_callf(&session, "move 0 %d %d\naddstr ..", row, col)
 *     while ((count = ticurses_output(&session, piece, sizeof piece)) > 0) .. write(fd, piece, count) ..
 *     code = ticurses_endwin(&session);                                   and write what waits
 *     ticurses_close(&session);
 *
 * ticurses_terminal.h finds the entry and the size, and does the writing. Link with -lticurses. The headers are C99 and
 * C++11.
 *
 * Bytes are passed as a pointer and a length. If the length is 0, the pointer may be null. A session is a `ticurses`
 * that must begin as {0} (in C++ {}). A program passes its address, and must not read, copy or write its fields.
 * Sessions are independent of each other, and any number may be open. Only one call at a time may be made on a session.
 * The library takes memory by malloc, realloc and free; it opens no file, writes none, and keeps nothing outside of
 * sessions.
 *
 * A call returns one of the codes below: 0 (TICURSES_OK) if it was done. Null pointers, sessions that aren't open,
 * short buffers and lines that are no call have codes of their own. These have undefined behavior: a pointer that isn't
 * null and doesn't lead to as many bytes as its length says; two pointers of one call to the same bytes; a session that
 * didn't begin as {0} or whose fields the program wrote; two calls on one session at the same time. */
#ifndef TICURSES_H
#define TICURSES_H

#include <errno.h>
#include <stdarg.h>
#ifndef __cplusplus
#include <stdbool.h>
#endif
#include <stddef.h>
#include <stdint.h>
#include <stdio.h>
#include <stdlib.h>
#include <string.h>

#if defined(__GNUC__)
#define TICURSES_PRINTF(at, rest) __attribute__((__format__(__printf__, at, rest)))
#else
#define TICURSES_PRINTF(at, rest)
#endif

#ifdef __cplusplus
extern "C" {
#ifdef __GNUC__
/* code that is C and C++ has the casts of C */
#pragma GCC diagnostic push
#pragma GCC diagnostic ignored "-Wold-style-cast"
#endif
#endif

enum ticurses_code {
    TICURSES_OK = 0,
    /* A call of curses is refused, and has changed nothing but what it says of itself (a string stops
     * at the character that is refused). In the language of scripts the names are NoWindow,
     * OutOfWindow, and so on. */
    TICURSES_NO_WINDOW = 1,         /* the number is not that of a window */
    TICURSES_OUT_OF_WINDOW = 2,     /* the place or the part is not in the window */
    TICURSES_OUT_OF_SCREEN = 3,     /* the place or the part is not on the screen */
    TICURSES_HAS_CHILDREN = 4,      /* the window has subwindows */
    TICURSES_IS_SUB = 5,            /* the window is a subwindow */
    TICURSES_PAD_KIND = 6,          /* the call takes no pad, or it takes only pads */
    TICURSES_NO_SCROLL = 7,         /* the text goes past the last line, and the window may not scroll */
    TICURSES_BAD_REGION = 8,        /* a size, a range or a mode that does not exist */
    TICURSES_NUMBER_USED = 9,       /* the number is that of a window already */
    TICURSES_BAD_CELL = 10,         /* the byte cannot stand in a cell */
    TICURSES_FULL = 11,             /* window numbers are 0 to 63 */
    TICURSES_NO_MEMORY = 12,        /* out of memory */
    TICURSES_IS_SCREEN = 13,        /* window 0 stays */
    TICURSES_NO_CAP = 14,           /* the entry lacks the strings for it, or what it is asked for */
    TICURSES_IS_LOST = 15,          /* what the terminal shows is not known */
    TICURSES_BAD_PAIR = 16,         /* pairs are 0 to 63, pair 0 cannot be changed, and colors are 0 to 7 */
    /* and of the calls of this header */
    TICURSES_OUTPUT_FAILED = 17,    /* no memory for the bytes of a refresh; the next refresh begins anew */
    TICURSES_BAD_LINE = 18,         /* a line is no call, or printf can't write it; none of the lines was done */
    TICURSES_TOO_LONG = 19,         /* more than 1048576 bytes of lines */
    TICURSES_CLOSED = 20,           /* the session is not open */
    TICURSES_BAD_SIZE = 21,         /* not 2 to 200 rows and 2 to 500 columns */
    TICURSES_BAD_ENTRY = 22,        /* the entry cannot be read, or the source has none of this name */
    TICURSES_BAD_CERTIFICATE = 23,  /* the certificate is not one of this entry and size */
    TICURSES_NO_CERTIFICATE = 24,   /* a string of the entry is wrong; ticurses_reason says which */
    TICURSES_NO_ROOM = 25,          /* the buffer is too short; nothing was written to it */
    TICURSES_NULL = 26,             /* a pointer is null, or a length is above PTRDIFF_MAX */
    TICURSES_BAD_CALL = 27,         /* the numbers are no call: no such kind, an option other than 0 and 1, or
                                     * attributes outside 0 to 255 */
    TICURSES_BAD_NAME = 28          /* no capability of the kind has the name */
};

/* The most bytes that the lines of one call can have. */
enum { TICURSES_TEXT_MAX = 1048576 };

typedef struct ticurses { void *at; size_t state; } ticurses;

/* The content of one place of a window: a byte from 32 to 126, attributes, and a color pair from 0 to 63. */
typedef struct ticurses_cell { uint8_t byte, attrs, pair; } ticurses_cell;

/* The attributes of a cell, with their letters in the language of scripts. */
enum ticurses_attrs {
    TICURSES_STANDOUT = 1,     /* S */
    TICURSES_UNDERLINE = 2,    /* U */
    TICURSES_REVERSE = 4,      /* R */
    TICURSES_BLINK = 8,        /* K */
    TICURSES_DIM = 16,         /* D */
    TICURSES_BOLD = 32,        /* B */
    TICURSES_INVISIBLE = 64,   /* I */
    TICURSES_ALTCHARSET = 128  /* A, line drawing */
};

/* The kinds of calls that have numbers; `addstr` has a function of its own. */
enum ticurses_kind {
    TICURSES_NEWWIN = 1, TICURSES_NEWPAD = 2, TICURSES_SUBWIN = 3, TICURSES_DERWIN = 4, TICURSES_SUBPAD = 5,
    TICURSES_DUPWIN = 6, TICURSES_DELWIN = 7, TICURSES_MVWIN = 8, TICURSES_MOVE = 9, TICURSES_ADDCH = 10,
    TICURSES_INSCH = 11, TICURSES_DELCH = 12, TICURSES_INSERTLN = 13, TICURSES_DELETELN = 14,
    TICURSES_CLRTOEOL = 15, TICURSES_CLRTOBOT = 16, TICURSES_ERASE = 17, TICURSES_CLEAR = 18, TICURSES_HLINE = 19,
    TICURSES_VLINE = 20, TICURSES_BORDER = 21, TICURSES_BOX = 22, TICURSES_SCROLL = 23, TICURSES_SETSCRREG = 24,
    TICURSES_ATTRON = 25, TICURSES_ATTROFF = 26, TICURSES_ATTRSET = 27, TICURSES_COLOR_SET = 28,
    TICURSES_BKGDSET = 29, TICURSES_BKGD = 30, TICURSES_OVERLAY = 31, TICURSES_OVERWRITE = 32,
    TICURSES_COPYWIN = 33, TICURSES_SCROLLOK = 34, TICURSES_LEAVEOK = 35, TICURSES_CLEAROK = 36,
    TICURSES_IDLOK = 37, TICURSES_TOUCHWIN = 38, TICURSES_TOUCHLINE = 39, TICURSES_NOUTREFRESH = 40,
    TICURSES_REFRESH = 41, TICURSES_DOUPDATE = 42, TICURSES_PNOUTREFRESH = 43, TICURSES_PREFRESH = 44,
    TICURSES_CURS_SET = 45, TICURSES_INIT_PAIR = 46, TICURSES_BEEP = 47, TICURSES_ENDWIN = 48
};

/* The cells of a border. A cell of zeros means the default one of its side or corner. */
typedef struct ticurses_frame {
    ticurses_cell left, right, top, bottom, top_left, top_right, bottom_left, bottom_right;
} ticurses_frame;

/* A call as numbers, which the functions of ticurses_calls.h fill. Fields that a call doesn't use are ignored. */
typedef struct ticurses_request {
    uint32_t kind;        /* one of enum ticurses_kind */
    int32_t flag;         /* 0 or 1 */
    size_t window, other; /* the other is the one that a window is a part or a copy of, or is copied to */
    int32_t attrs;        /* of enum ticurses_attrs, put together by | */
    int32_t first, second, third, fourth, fifth, sixth; /* in the order of the call's arguments */
    ticurses_cell cell;
    ticurses_frame frame; /* box has its left and its top */
} ticurses_request;

/* The functions that the library exports. Their pointers must not be null: programs call the functions below, which
 * test them. */
int32_t ticurses_raw_check(const uint8_t *entry, size_t entry_len, const uint8_t *name, size_t name_len, uint16_t rows,
                           uint16_t cols, uint8_t *room, size_t room_len, size_t *needed);
int32_t ticurses_raw_reason(const uint8_t *entry, size_t entry_len, const uint8_t *name, size_t name_len, uint16_t rows,
                            uint16_t cols, uint8_t *room, size_t room_len, size_t *needed);
int32_t ticurses_raw_verify(const uint8_t *entry, size_t entry_len, const uint8_t *name, size_t name_len, uint16_t rows,
                            uint16_t cols, const uint8_t *certificate, size_t certificate_len);
int32_t ticurses_raw_string(const uint8_t *entry, size_t entry_len, const uint8_t *name, size_t name_len,
                            const uint8_t *cap, size_t cap_len, uint8_t *room, size_t room_len, size_t *needed);
int32_t ticurses_raw_number(const uint8_t *entry, size_t entry_len, const uint8_t *name, size_t name_len,
                            const uint8_t *cap, size_t cap_len, uint32_t *number);
int32_t ticurses_raw_flag(const uint8_t *entry, size_t entry_len, const uint8_t *name, size_t name_len,
                          const uint8_t *cap, size_t cap_len, bool *is_on);
int32_t ticurses_raw_open(ticurses *session, const uint8_t *entry, size_t entry_len, const uint8_t *name,
                          size_t name_len, uint16_t rows, uint16_t cols, const uint8_t *certificate,
                          size_t certificate_len);
int32_t ticurses_raw_open_without(ticurses *session, const uint8_t *entry, size_t entry_len, const uint8_t *name,
                                  size_t name_len, uint16_t rows, uint16_t cols);
int32_t ticurses_raw_left_out(ticurses *session, uint8_t *room, size_t room_len, size_t *needed);
int32_t ticurses_raw_call(ticurses *session, const uint8_t *text, size_t len);
int32_t ticurses_raw_failed(ticurses *session, size_t *line);
int32_t ticurses_raw_addstr(ticurses *session, size_t window, const uint8_t *text, size_t len);
int32_t ticurses_raw_addch(ticurses *session, size_t window, uint8_t byte, uint8_t attrs, uint8_t pair);
int32_t ticurses_raw_move(ticurses *session, size_t window, int32_t row, int32_t col);
int32_t ticurses_raw_color_set(ticurses *session, size_t window, int32_t pair);
int32_t ticurses_raw_attron(ticurses *session, size_t window, int32_t attrs);
int32_t ticurses_raw_attroff(ticurses *session, size_t window, int32_t attrs);
int32_t ticurses_raw_attrset(ticurses *session, size_t window, int32_t attrs);
int32_t ticurses_raw_make(ticurses *session, const ticurses_request *request);
int32_t ticurses_raw_init_pair_or_default(ticurses *session, int32_t pair, int32_t foreground, int32_t background);
int32_t ticurses_raw_noutrefresh_lines(ticurses *session, size_t window, int32_t top, int32_t bottom);
int32_t ticurses_raw_cursor(ticurses *session, size_t window, uint16_t *row, uint16_t *col);
int32_t ticurses_raw_size(ticurses *session, size_t window, uint16_t *rows, uint16_t *cols);
int32_t ticurses_raw_cell(ticurses *session, size_t window, uint16_t row, uint16_t col, ticurses_cell *cell);
size_t ticurses_raw_cell_limit(ticurses *session);
size_t ticurses_raw_most(ticurses *session);
size_t ticurses_raw_waiting(ticurses *session);
size_t ticurses_raw_output(ticurses *session, uint8_t *room, size_t room_len);
int32_t ticurses_raw_lost(ticurses *session);
void ticurses_raw_close(ticurses *session);

static inline const uint8_t *ticurses_bytes(const void *at) { return at ? (const uint8_t *)at : (const uint8_t *)""; }
static inline int ticurses_is_bad(const void *at, size_t len) { return (!at && len) || len > PTRDIFF_MAX; }

/* Writes the certificate of an entry for a size to `room`. Without a `name`, `entry` is a compiled entry; with
 * one it is a terminfo source text, and the certificate is of its entry with this name. *needed becomes the
 * certificate's length, even if `room` is shorter (TICURSES_NO_ROOM), and 0 if there is no certificate:
 * TICURSES_BAD_SIZE, TICURSES_BAD_ENTRY, TICURSES_NO_CERTIFICATE, TICURSES_NO_MEMORY. */
static inline int ticurses_check(const void *entry, size_t entry_len, const void *name, size_t name_len, uint16_t rows,
                                 uint16_t cols, void *room, size_t room_len, size_t *needed) {
    uint8_t none;
    if (ticurses_is_bad(entry, entry_len) || ticurses_is_bad(name, name_len) ||
        ticurses_is_bad(room, room_len) || !needed)
        return TICURSES_NULL;
    return ticurses_raw_check(ticurses_bytes(entry), entry_len, ticurses_bytes(name), name_len, rows, cols,
                              room ? (uint8_t *)room : &none, room_len, needed);
}

/* Writes to `room` why an entry has no certificate: the first string that is wrong, in the words of
 * `ticurses check`, such as "no op: WrongEffect". *needed becomes their length, without a newline or a zero
 * byte at the end; it is 0 exactly if the entry has a certificate. A room of 256 bytes has been enough for all
 * entries that were tried. */
static inline int ticurses_reason(const void *entry, size_t entry_len, const void *name, size_t name_len, uint16_t rows,
                                  uint16_t cols, void *room, size_t room_len, size_t *needed) {
    uint8_t none;
    if (ticurses_is_bad(entry, entry_len) || ticurses_is_bad(name, name_len) ||
        ticurses_is_bad(room, room_len) || !needed)
        return TICURSES_NULL;
    return ticurses_raw_reason(ticurses_bytes(entry), entry_len, ticurses_bytes(name), name_len, rows, cols,
                               room ? (uint8_t *)room : &none, room_len, needed);
}

/* Returns TICURSES_OK if the certificate is one of this entry and size: its strings are exactly those that
 * the entry sends, and each of them does what programs rely on. */
static inline int ticurses_verify(const void *entry, size_t entry_len, const void *name, size_t name_len, uint16_t rows,
                                  uint16_t cols, const void *certificate, size_t certificate_len) {
    if (ticurses_is_bad(entry, entry_len) || ticurses_is_bad(name, name_len) ||
        ticurses_is_bad(certificate, certificate_len))
        return TICURSES_NULL;
    return ticurses_raw_verify(ticurses_bytes(entry), entry_len, ticurses_bytes(name), name_len, rows, cols,
                               ticurses_bytes(certificate), certificate_len);
}

/* Writes an entry's string of the capability that terminfo names `cap` ("kcuu1") to `room`: its bytes unchanged, with
 * parameters and delays. *needed becomes its length, even if `room` is shorter (TICURSES_NO_ROOM), and 0 if there is no
 * string: TICURSES_NO_CAP if the entry has none, TICURSES_BAD_NAME if no string capability has the name,
 * TICURSES_BAD_ENTRY, TICURSES_NO_MEMORY (only for a source text). */
static inline int ticurses_string(const void *entry, size_t entry_len, const void *name, size_t name_len,
                                  const char *cap, void *room, size_t room_len, size_t *needed) {
    uint8_t none;
    if (ticurses_is_bad(entry, entry_len) || ticurses_is_bad(name, name_len) || ticurses_is_bad(room, room_len) ||
        !cap || !needed)
        return TICURSES_NULL;
    return ticurses_raw_string(ticurses_bytes(entry), entry_len, ticurses_bytes(name), name_len, ticurses_bytes(cap),
                               strlen(cap), room ? (uint8_t *)room : &none, room_len, needed);
}

/* Gets an entry's number of a capability ("colors"). The codes are those of ticurses_string except TICURSES_NO_ROOM; if
 * the code isn't TICURSES_OK, *number stays unchanged. */
static inline int ticurses_number(const void *entry, size_t entry_len, const void *name, size_t name_len,
                                  const char *cap, uint32_t *number) {
    if (ticurses_is_bad(entry, entry_len) || ticurses_is_bad(name, name_len) || !cap || !number) return TICURSES_NULL;
    return ticurses_raw_number(ticurses_bytes(entry), entry_len, ticurses_bytes(name), name_len, ticurses_bytes(cap),
                               strlen(cap), number);
}

/* Sets *is_on to whether an entry has a flag ("am"): 0 or 1. The codes are those of ticurses_number except
 * TICURSES_NO_CAP. */
static inline int ticurses_flag(const void *entry, size_t entry_len, const void *name, size_t name_len,
                                const char *cap, int *is_on) {
    bool found = false;
    int code;
    if (ticurses_is_bad(entry, entry_len) || ticurses_is_bad(name, name_len) || !cap || !is_on) return TICURSES_NULL;
    code = ticurses_raw_flag(ticurses_bytes(entry), entry_len, ticurses_bytes(name), name_len, ticurses_bytes(cap),
                             strlen(cap), &found);
    if (code == TICURSES_OK) *is_on = found;
    return code;
}

/* Opens a session. An open session is closed if the new one opens, and stays open otherwise, so that its
 * `endwin` can still be sent. Without a certificate (a length of 0) it checks the entry itself, which takes
 * some milliseconds more. The terminal must be in its reset state, and the first refresh clears it; if an
 * earlier session may have left another state, call ticurses_lost before the first refresh. A session keeps
 * its size: after a change of the terminal's size, make the call `endwin` and write its bytes, open the session
 * anew, call ticurses_lost, and draw again. */
static inline int ticurses_open(ticurses *session, const void *entry, size_t entry_len, const void *name,
                                size_t name_len, uint16_t rows, uint16_t cols, const void *certificate,
                                size_t certificate_len) {
    if (!session || ticurses_is_bad(entry, entry_len) || ticurses_is_bad(name, name_len) ||
        ticurses_is_bad(certificate, certificate_len))
        return TICURSES_NULL;
    return ticurses_raw_open(session, ticurses_bytes(entry), entry_len, ticurses_bytes(name), name_len, rows, cols,
                             ticurses_bytes(certificate), certificate_len);
}

/* Opens a session as ticurses_open does without a certificate, also for an entry with strings that are wrong, if a
 * terminal can do without them: the session is that of the entry without these strings, and ticurses_left_out says which
 * they are. `smcup` and `rmcup` go together. A string stays if it is right beside the others, and an entry with a
 * certificate loses nothing. TICURSES_NO_CERTIFICATE if a fault can't be left out: that of `clear`, `cup` or `sgr0`, or
 * of a flag such as `hc`. */
static inline int ticurses_open_without(ticurses *session, const void *entry, size_t entry_len, const void *name,
                                        size_t name_len, uint16_t rows, uint16_t cols) {
    if (!session || ticurses_is_bad(entry, entry_len) || ticurses_is_bad(name, name_len)) return TICURSES_NULL;
    return ticurses_raw_open_without(session, ticurses_bytes(entry), entry_len, ticurses_bytes(name), name_len, rows,
                                     cols);
}

/* Writes to `room` what a session goes without: for each string that was left out a line "NAME FAULTY CAUSE\n" with its
 * name, the name of the string at fault, which is the same but for the other one of `smcup` and `rmcup`, and the cause
 * in the word of `ticurses check`. *needed becomes the length of all lines, even if `room` is shorter
 * (TICURSES_NO_ROOM): 0 if nothing was left out, or if the session isn't open (TICURSES_CLOSED). */
static inline int ticurses_left_out(ticurses *session, void *room, size_t room_len, size_t *needed) {
    uint8_t none;
    if (!session || ticurses_is_bad(room, room_len) || !needed) return TICURSES_NULL;
    return ticurses_raw_left_out(session, room ? (uint8_t *)room : &none, room_len, needed);
}

/* Makes calls, one a line, in the language of scripts (man 5 ticurses-script), up to the first that
 * isn't done, and returns the code of that one. If any line is no call (TICURSES_BAD_LINE), none is made.
 * ticurses_failed says which line it was. A text of one call takes no memory for reading it. */
static inline int ticurses_call(ticurses *session, const char *text, size_t len) {
    return !session || ticurses_is_bad(text, len) ? TICURSES_NULL
                                                  : ticurses_raw_call(session, ticurses_bytes(text), len);
}

/* Sets *line to the line, from 1, at which the last ticurses_call or ticurses_callf stopped: the call that
 * was refused, or the first line that is no call. It is 0 if all lines were done, if the lines were too
 * long, or if there was no memory for reading them. Other calls don't change it. */
static inline int ticurses_failed(ticurses *session, size_t *line) {
    return !session || !line ? TICURSES_NULL : ticurses_raw_failed(session, line);
}

/* Returns `code` for lines that could not be made; no line has failed. */
static inline int ticurses_unmade(ticurses *session, int code) {
    int none = ticurses_call(session, NULL, 0);
    return none == TICURSES_OK ? code : none;
}

/* Writes a number in as many digits as it needs, but at least `least`, and returns how many there are. */
static inline size_t ticurses_digits(char *at, unsigned number, unsigned base, size_t least) {
    size_t count = 1, place;
    unsigned above;
    for (above = number / base; above > 0; above /= base) count++;
    if (count < least) count = least;
    for (place = count; place > 0; number /= base) at[--place] = "0123456789abcdef"[number % base];
    return count;
}

/* Writes `format` with the arguments `rest` to `line`, as printf would but without a zero byte after it, and returns
 * the length. It is several times as fast as printf, for the usual formats only: it returns -1 for any directive but
 * %d, %u, %x, %02x, %c and %s, and if the text may not fit into `room` bytes. */
static inline int ticurses_format(char *line, size_t room, const char *format, va_list rest) {
    const char *text;
    size_t len = 0;
    int number;
    for (; *format; format++) {
        /* a number has fewer characters */
        if (room - len < 3 * sizeof number) return -1;
        if (*format != '%') {
            line[len++] = *format;
            continue;
        }
        switch (*++format) {
        case 'd':
            number = va_arg(rest, int);
            if (number < 0) line[len++] = '-';
            len += ticurses_digits(line + len, number < 0 ? 0u - (unsigned)number : (unsigned)number, 10, 1);
            break;
        case 'u':
            len += ticurses_digits(line + len, va_arg(rest, unsigned), 10, 1);
            break;
        case 'x':
            len += ticurses_digits(line + len, va_arg(rest, unsigned), 16, 1);
            break;
        case '0':
            if (format[1] != '2' || format[2] != 'x') return -1;
            format += 2;
            len += ticurses_digits(line + len, va_arg(rest, unsigned), 16, 2);
            break;
        case 'c':
            line[len++] = (char)va_arg(rest, int);
            break;
        case 's':
            text = va_arg(rest, const char *);
            if (!text) return -1;
            for (; *text && len < room; text++) line[len++] = *text;
            if (*text) return -1;
            break;
        default:
            return -1;
        }
    }
    return (int)len;
}

/* Makes the calls of the lines that printf would write for `format`. A %s whose text has a newline makes two lines of
 * it, so pass text from elsewhere to ticurses_addstr. TICURSES_BAD_LINE if printf can't write the lines, such as for a
 * wide character that has no bytes. */
static inline int ticurses_callf(ticurses *session, const char *format, ...) TICURSES_PRINTF(2, 3);
static inline int ticurses_callf(ticurses *session, const char *format, ...) {
    char line[512], *text;
    va_list rest;
    int len, code;
    if (!session || !format) return TICURSES_NULL;
    va_start(rest, format);
    len = ticurses_format(line, sizeof line, format, rest);
    va_end(rest);
    if (len >= 0) return ticurses_call(session, line, (size_t)len);
    errno = 0;
    va_start(rest, format);
    len = vsnprintf(line, sizeof line, format, rest);
    va_end(rest);
    if (len < 0)
        return ticurses_unmade(session, errno == ENOMEM      ? TICURSES_NO_MEMORY
                                        : errno == EOVERFLOW ? TICURSES_TOO_LONG
                                                             : TICURSES_BAD_LINE);
    if (len > TICURSES_TEXT_MAX) return ticurses_unmade(session, TICURSES_TOO_LONG);
    if (len < (int)sizeof line) return ticurses_call(session, line, (size_t)len);
    text = (char *)malloc((size_t)len + 1);
    if (!text) return ticurses_unmade(session, TICURSES_NO_MEMORY);
    va_start(rest, format);
    vsnprintf(text, (size_t)len + 1, format, rest);
    va_end(rest);
    code = ticurses_call(session, text, (size_t)len);
    free(text);
    return code;
}

/* addstr: writes `len` bytes of `text` to `window`. A newline clears to the end of the line and continues in the next
 * one, a tab writes spaces to the next multiple of 8, other controls are written as ^X, and a byte above 127 is refused
 * (TICURSES_BAD_CELL). The bytes before a refused one are written. */
static inline int ticurses_addstr(ticurses *session, size_t window, const void *text, size_t len) {
    return !session || ticurses_is_bad(text, len)
               ? TICURSES_NULL
               : ticurses_raw_addstr(session, window, ticurses_bytes(text), len);
}

/* Gets the place of a window's cursor, in the window (getyx). If this call, one of the next two or ticurses_failed
 * doesn't answer TICURSES_OK, it writes nothing through its pointers. */
static inline int ticurses_cursor(ticurses *session, size_t window, uint16_t *row, uint16_t *col) {
    return !session || !row || !col ? TICURSES_NULL : ticurses_raw_cursor(session, window, row, col);
}

/* Gets the number of rows and columns of a window or a pad (getmaxyx). */
static inline int ticurses_window_size(ticurses *session, size_t window, uint16_t *rows, uint16_t *cols) {
    return !session || !rows || !cols ? TICURSES_NULL : ticurses_raw_size(session, window, rows, cols);
}

/* Gets the cell at a place of a window or a pad (mvwinch). */
static inline int ticurses_cell_at(ticurses *session, size_t window, uint16_t row, uint16_t col, ticurses_cell *cell) {
    return !session || !cell ? TICURSES_NULL : ticurses_raw_cell(session, window, row, col, cell);
}

/* The most bytes that one cell takes on the session's terminal, with its move and all changes of its look: the lengths
 * of the entry's longest strings of each kind, added up. It stays the same for as long as the session is open, and is 0
 * for a session that isn't. */
static inline size_t ticurses_cell_limit(ticurses *session) { return session ? ticurses_raw_cell_limit(session) : 0; }

/* The most bytes that the call `doupdate` adds to those that wait, if it is the next call: the limit of a cell for each
 * cell that differs from the screen shown last, and once more; or for all cells of the screen, with the way out of an
 * unknown state, if the refresh begins anew. No refresh adds more, and nearly all add far less. 0 for a session that
 * isn't open. A window counts once `noutrefresh` has copied it. */
static inline size_t ticurses_most(ticurses *session) { return session ? ticurses_raw_most(session) : 0; }

/* The number of bytes that wait to be written to the terminal. */
static inline size_t ticurses_waiting(ticurses *session) { return session ? ticurses_raw_waiting(session) : 0; }

/* Takes the first of the waiting bytes, at most `room_len`, into `room`, and returns their number: 0 if none wait. The
 * rest of the room stays unchanged. Once a program has written all bytes in this order, the terminal shows the screen
 * of the last refresh. */
static inline size_t ticurses_output(ticurses *session, void *room, size_t room_len) {
    return !session || !room || room_len > PTRDIFF_MAX ? 0 : ticurses_raw_output(session, (uint8_t *)room, room_len);
}

/* For output that was cut off: from some byte on, the bytes that the program took did not get to the terminal. Discards
 * the waiting bytes; the next refresh begins anew and repairs the screen, wherever the output was cut, even within a
 * sequence. Windows and the virtual screen stay. Call it also after another session on the same terminal and entry
 * whose output may have been cut. The next refresh begins with the entry's `smcup`: if the session is on the screen,
 * write its `rmcup` before, provided that it begins with an ESC, since some terminals keep the cursor of one `smcup`
 * alone. If another program wrote to the terminal, or bytes are missing from the middle, the next refresh repairs the
 * screen only if the terminal still wraps at the end of a line, inserts nothing, and has no other character sets than
 * the entry's. */
static inline int ticurses_lost(ticurses *session) { return session ? ticurses_raw_lost(session) : TICURSES_NULL; }

/* Frees the session and its waiting bytes. It sends nothing: to leave the terminal as other programs want it, make the
 * call `endwin` before, and write its bytes. A session that isn't open stays closed. */
static inline void ticurses_close(ticurses *session) {
    if (session) ticurses_raw_close(session);
}

/* The meaning of a code, in words. */
static inline const char *ticurses_text(int code) {
    static const char *const texts[] = {
        "done",
        "the number is not that of a window",
        "the place or the part is not in the window",
        "the place or the part is not on the screen",
        "the window has subwindows",
        "the window is a subwindow",
        "the call takes no pad, or it takes only pads",
        "the text goes past the last line, and the window may not scroll",
        "a size, a range or a mode that does not exist",
        "the number is that of a window already",
        "the byte cannot stand in a cell",
        "window numbers are 0 to 63",
        "out of memory",
        "window 0 stays",
        "the entry lacks the strings for it",
        "what the terminal shows is not known",
        "pairs are 0 to 63, pair 0 cannot be changed, and colors are 0 to 7",
        "out of memory for what a refresh sends",
        "a line is no call",
        "the lines are too long",
        "the session is not open",
        "a terminal has 2 to 200 rows and 2 to 500 columns",
        "the entry cannot be read",
        "the certificate is not one of this entry and size",
        "a string of the entry is wrong",
        "the buffer is too short",
        "a pointer is null",
        "the numbers are no call",
        "no capability of the kind has the name",
    };
    return code >= 0 && code < (int)(sizeof texts / sizeof *texts) ? texts[code] : "no code of ticurses";
}

#ifdef __cplusplus
#ifdef __GNUC__
#pragma GCC diagnostic pop
#endif
}
#endif

#include "ticurses_calls.h"

#endif
