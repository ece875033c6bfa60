/* ticurses for programs that draw for themselves: the capabilities of a compiled terminfo entry, and the expansion of
 * parameter strings, both proved. No certificate is asked for: the program sends what it wants.
 *
 *     const int32_t place[2] = {row, col};
 *     ticurses_terminfo entry = {0};
 *     code = ticurses_terminfo_open(&entry, file, file_len);
 *     code = ticurses_terminfo_string(&entry, "cup", cup, sizeof cup, &cup_len);
 *     code = ticurses_terminfo_expand_numbers(&entry, cup, cup_len, place, 2, out, sizeof out, &out_len);
 *     ticurses_terminfo_close(&entry);
 *
 * Link with -lticurses_terminfo. The header is C99 and C++11, stands alone, and may be included beside ticurses.h.
 *
 * Bytes are passed as a pointer and a length. If the length is 0, the pointer may be null. An entry is a
 * `ticurses_terminfo` that must begin as {0} (in C++ {}). A program passes its address, and must not read, copy or
 * write its fields. Entries are independent of each other, and any number may be open. Only one call at a time may be
 * made on an entry. The library takes memory by malloc, realloc and free; it opens no file, writes none, and keeps
 * nothing outside of entries.
 *
 * A call returns one of the codes below: 0 (TICURSES_TERMINFO_OK) if it was done. These have undefined behavior: a
 * pointer that isn't null and doesn't lead to as many bytes as its length says; two pointers of one call to the same
 * bytes; an entry that didn't begin as {0} or whose fields the program wrote; two calls on one entry at the same time.
 */
#ifndef TICURSES_TERMINFO_H
#define TICURSES_TERMINFO_H

#ifndef __cplusplus
#include <stdbool.h>
#endif
#include <stddef.h>
#include <stdint.h>
#include <string.h>

#ifdef __cplusplus
extern "C" {
#ifdef __GNUC__
/* code that is C and C++ has the casts of C */
#pragma GCC diagnostic push
#pragma GCC diagnostic ignored "-Wold-style-cast"
#endif
#endif

/* Codes that ticurses.h has too have the same number there. */
enum ticurses_terminfo_code {
    TICURSES_TERMINFO_OK = 0,
    /* The faults of a compiled file, the first in the order of the file: it isn't in the layout of term(5). */
    TICURSES_TERMINFO_SHORT = 1,       /* the file ends within its header or a section */
    TICURSES_TERMINFO_BAD_MAGIC = 2,   /* the file doesn't begin with a magic number (octal 432 or 1036) */
    TICURSES_TERMINFO_BAD_COUNT = 3,   /* a size is negative, or there are more values than capabilities of a kind */
    TICURSES_TERMINFO_BAD_FLAG = 4,    /* a flag's byte isn't 0, 1 or -2 */
    TICURSES_TERMINFO_BAD_NUMBER = 5,  /* a number is negative, but neither -1 nor -2 */
    TICURSES_TERMINFO_BAD_OFFSET = 6,  /* a string's offset is negative, but neither -1 nor -2, or outside the table */
    TICURSES_TERMINFO_NO_NUL = 7,      /* the names or a string have no NUL after them */
    /* The faults of contents that an entry can't hold. */
    TICURSES_TERMINFO_TOO_LARGE = 8,   /* a string has more than 4095 bytes */
    TICURSES_TERMINFO_BAD_NAMES = 9,   /* the names aren't those of a source text: control characters, no name */
    /* The faults of a parameter string. BAD_CODE and BAD_NEST are faults of its syntax, which come first whatever the
     * parameters are. */
    TICURSES_TERMINFO_UNDERFLOW = 10,  /* a code took a value from the empty stack */
    TICURSES_TERMINFO_BAD_NEST = 11,   /* a conditional isn't %? %t %e %;, or a mark is outside of conditionals */
    TICURSES_TERMINFO_BAD_CODE = 13,   /* no code begins with this % */
    TICURSES_TERMINFO_OVERFLOW = 15,   /* a result doesn't fit in 32 bits with sign */
    TICURSES_TERMINFO_BAD_CHAR = 16,   /* a number to be written as one byte isn't from 0 to 255 */
    TICURSES_TERMINFO_WRONG_KIND = 17, /* a text was given where a number is needed, or the other way round */
    /* and of the calls of this header */
    TICURSES_TERMINFO_NO_MEMORY = 12,  /* out of memory; nothing has changed */
    TICURSES_TERMINFO_NO_CAP = 14,     /* the entry lacks the string or the number, or it is cancelled */
    TICURSES_TERMINFO_CLOSED = 20,     /* the entry is not open */
    TICURSES_TERMINFO_NO_ROOM = 25,    /* the buffer is too short; nothing was written to it */
    TICURSES_TERMINFO_NULL = 26,       /* a pointer is null, or a length is above PTRDIFF_MAX */
    TICURSES_TERMINFO_BAD_PARAM = 27,  /* more than nine parameters, or a text of more than 4095 bytes */
    TICURSES_TERMINFO_BAD_NAME = 28    /* no capability of the kind has the name, or the position */
};

enum {
    TICURSES_TERMINFO_PARAMS = 9,      /* the most parameters of a string */
    TICURSES_TERMINFO_TEXT_MAX = 4095, /* the most bytes of a parameter that is a text */
    TICURSES_TERMINFO_FLAGS = 44,      /* the capabilities of each kind; positions go from 0 to one less */
    TICURSES_TERMINFO_NUMBERS = 39,
    TICURSES_TERMINFO_STRINGS = 414
};

typedef struct ticurses_terminfo { void *at; size_t state; } ticurses_terminfo;

/* A parameter: the `len` bytes at `text`, or, if `text` is null, the number. */
typedef struct ticurses_terminfo_param { const void *text; size_t len; int32_t number; } ticurses_terminfo_param;

/* A parameter as the library takes it, whose pointer is never null. */
typedef struct ticurses_raw_terminfo_param {
    const uint8_t *text;
    size_t len;
    int32_t number;
    bool is_text;
} ticurses_raw_terminfo_param;

/* A string or the names in a compiled file: the bytes, before a zero byte of the file; none if it is absent. */
typedef struct ticurses_terminfo_part { const uint8_t *bytes; size_t len; bool is_there; } ticurses_terminfo_part;

/* A number of a compiled file, 0 if it is absent. */
typedef struct ticurses_terminfo_value { uint32_t number; bool is_there; } ticurses_terminfo_value;

/* All values of a compiled file, at their positions. */
typedef struct ticurses_terminfo_values {
    ticurses_terminfo_part names;
    bool flags[TICURSES_TERMINFO_FLAGS];
    ticurses_terminfo_value numbers[TICURSES_TERMINFO_NUMBERS];
    ticurses_terminfo_part strings[TICURSES_TERMINFO_STRINGS];
} ticurses_terminfo_values;

/* The functions that the library exports. Their pointers must not be null: programs call the functions below, which
 * test them. */
int32_t ticurses_raw_terminfo_open(ticurses_terminfo *entry, const uint8_t *file, size_t file_len);
int32_t ticurses_raw_terminfo_read(const uint8_t *file, size_t file_len, ticurses_terminfo_part *names, bool *flags,
                                   size_t flag_count, ticurses_terminfo_value *numbers, size_t number_count,
                                   ticurses_terminfo_part *strings, size_t string_count);
int32_t ticurses_raw_terminfo_bare(ticurses_terminfo *entry);
void ticurses_raw_terminfo_close(ticurses_terminfo *entry);
int32_t ticurses_raw_terminfo_names(ticurses_terminfo *entry, uint8_t *room, size_t room_len, size_t *needed);
int32_t ticurses_raw_terminfo_string(ticurses_terminfo *entry, const uint8_t *cap, size_t cap_len, uint8_t *room,
                                     size_t room_len, size_t *needed);
int32_t ticurses_raw_terminfo_string_at(ticurses_terminfo *entry, size_t position, uint8_t *room, size_t room_len,
                                        size_t *needed);
int32_t ticurses_raw_terminfo_number(ticurses_terminfo *entry, const uint8_t *cap, size_t cap_len, uint32_t *number);
int32_t ticurses_raw_terminfo_number_at(ticurses_terminfo *entry, size_t position, uint32_t *number);
int32_t ticurses_raw_terminfo_flag(ticurses_terminfo *entry, const uint8_t *cap, size_t cap_len, bool *is_on);
int32_t ticurses_raw_terminfo_flag_at(ticurses_terminfo *entry, size_t position, bool *is_on);
int32_t ticurses_raw_terminfo_expand(ticurses_terminfo *entry, const uint8_t *string, size_t string_len,
                                     const int32_t *numbers, size_t count, uint8_t *room, size_t room_len,
                                     size_t *needed);
int32_t ticurses_raw_terminfo_expand_texts(ticurses_terminfo *entry, const uint8_t *string, size_t string_len,
                                           const ticurses_raw_terminfo_param *params, size_t count, uint8_t *room,
                                           size_t room_len, size_t *needed);
int32_t ticurses_raw_terminfo_expanded(ticurses_terminfo *entry, uint8_t *room, size_t room_len, size_t *needed);

static inline const uint8_t *ticurses_terminfo_bytes(const void *at) {
    return at ? (const uint8_t *)at : (const uint8_t *)"";
}
static inline int ticurses_terminfo_is_bad(const void *at, size_t len) { return (!at && len) || len > PTRDIFF_MAX; }

/* Opens an entry from the bytes of a compiled file, in either form of term(5), and copies what it needs of them. Its
 * static variables are all 0. An extended section (names that the user defined) is skipped. An open entry is closed if
 * the new one opens, and stays as it is otherwise: TICURSES_TERMINFO_SHORT to TICURSES_TERMINFO_BAD_NAMES, or
 * TICURSES_TERMINFO_NO_MEMORY. */
static inline int ticurses_terminfo_open(ticurses_terminfo *entry, const void *file, size_t file_len) {
    if (!entry || ticurses_terminfo_is_bad(file, file_len)) return TICURSES_TERMINFO_NULL;
    return ticurses_raw_terminfo_open(entry, ticurses_terminfo_bytes(file), file_len);
}

/* Reads all values of a compiled file, in either form of term(5), for a program that keeps the file: names and strings
 * are parts of its bytes, and nothing is copied. A flag that the file lacks is off, and a number or a string that it
 * lacks, or that is cancelled, isn't there. An extended section is skipped. TICURSES_TERMINFO_SHORT to
 * TICURSES_TERMINFO_NO_NUL if the file has that fault; *values has no meaning then. Names that no source text can have
 * and strings of any length are no faults, as they are in ticurses_terminfo_open. */
static inline int ticurses_terminfo_read(ticurses_terminfo_values *values, const void *file, size_t file_len) {
    ticurses_terminfo_part none = {ticurses_terminfo_bytes(file), 0, false};
    ticurses_terminfo_value no_number = {0, false};
    size_t i;
    if (!values || ticurses_terminfo_is_bad(file, file_len)) return TICURSES_TERMINFO_NULL;
    /* the library wants values that it can read */
    values->names = none;
    memset(values->flags, 0, sizeof values->flags);
    for (i = 0; i < TICURSES_TERMINFO_NUMBERS; i++) values->numbers[i] = no_number;
    for (i = 0; i < TICURSES_TERMINFO_STRINGS; i++) values->strings[i] = none;
    return ticurses_raw_terminfo_read(none.bytes, file_len, &values->names, values->flags, TICURSES_TERMINFO_FLAGS,
                                      values->numbers, TICURSES_TERMINFO_NUMBERS, values->strings,
                                      TICURSES_TERMINFO_STRINGS);
}

/* Opens an entry that is named "unknown" and has no capabilities, for expansions alone. An open entry is closed if
 * there is memory for the new one, and stays as it is otherwise: TICURSES_TERMINFO_NO_MEMORY. */
static inline int ticurses_terminfo_open_bare(ticurses_terminfo *entry) {
    return entry ? ticurses_raw_terminfo_bare(entry) : TICURSES_TERMINFO_NULL;
}

/* Closes an entry and frees its memory. An entry that isn't open stays closed. */
static inline void ticurses_terminfo_close(ticurses_terminfo *entry) {
    if (entry) ticurses_raw_terminfo_close(entry);
}

/* Writes the entry's names to `room`, separated by `|`; the last one is the long name. *needed becomes their length,
 * even if `room` is shorter (TICURSES_TERMINFO_NO_ROOM), and 0 if the entry is closed (TICURSES_TERMINFO_CLOSED). */
static inline int ticurses_terminfo_names(ticurses_terminfo *entry, void *room, size_t room_len, size_t *needed) {
    uint8_t none;
    if (!entry || ticurses_terminfo_is_bad(room, room_len) || !needed) return TICURSES_TERMINFO_NULL;
    return ticurses_raw_terminfo_names(entry, room ? (uint8_t *)room : &none, room_len, needed);
}

/* Writes the string of the capability that terminfo names `cap` ("kcuu1") to `room`: its bytes unchanged, with
 * parameters and delays, and without a zero byte at the end. *needed becomes its length, even if `room` is shorter
 * (TICURSES_TERMINFO_NO_ROOM). A string may be empty: TICURSES_TERMINFO_OK with *needed 0. An absent or cancelled
 * string is none: TICURSES_TERMINFO_NO_CAP. TICURSES_TERMINFO_BAD_NAME if no string capability has the name,
 * TICURSES_TERMINFO_CLOSED. On these three *needed is 0. */
static inline int ticurses_terminfo_string(ticurses_terminfo *entry, const char *cap, void *room, size_t room_len,
                                           size_t *needed) {
    uint8_t none;
    if (!entry || !cap || ticurses_terminfo_is_bad(room, room_len) || !needed) return TICURSES_TERMINFO_NULL;
    return ticurses_raw_terminfo_string(entry, ticurses_terminfo_bytes(cap), strlen(cap),
                                        room ? (uint8_t *)room : &none, room_len, needed);
}

/* Like ticurses_terminfo_string, for the string at a position of the compiled file, from 0 to 413: the order of
 * term(5), and of ncurses' strnames. */
static inline int ticurses_terminfo_string_at(ticurses_terminfo *entry, size_t position, void *room, size_t room_len,
                                              size_t *needed) {
    uint8_t none;
    if (!entry || ticurses_terminfo_is_bad(room, room_len) || !needed) return TICURSES_TERMINFO_NULL;
    return ticurses_raw_terminfo_string_at(entry, position, room ? (uint8_t *)room : &none, room_len, needed);
}

/* Gets the number of a capability ("colors"), from 0 to 2147483647. TICURSES_TERMINFO_NO_CAP if it is absent or
 * cancelled, TICURSES_TERMINFO_BAD_NAME, TICURSES_TERMINFO_CLOSED; *number stays unchanged then. */
static inline int ticurses_terminfo_number(ticurses_terminfo *entry, const char *cap, uint32_t *number) {
    if (!entry || !cap || !number) return TICURSES_TERMINFO_NULL;
    return ticurses_raw_terminfo_number(entry, ticurses_terminfo_bytes(cap), strlen(cap), number);
}

/* Like ticurses_terminfo_number, for the number at a position, from 0 to 38, as of ncurses' numnames. */
static inline int ticurses_terminfo_number_at(ticurses_terminfo *entry, size_t position, uint32_t *number) {
    return entry && number ? ticurses_raw_terminfo_number_at(entry, position, number) : TICURSES_TERMINFO_NULL;
}

/* Sets *is_on to whether the entry has a flag ("am"): 0 or 1. TICURSES_TERMINFO_BAD_NAME, TICURSES_TERMINFO_CLOSED;
 * *is_on stays unchanged then. */
static inline int ticurses_terminfo_flag(ticurses_terminfo *entry, const char *cap, int *is_on) {
    bool found = false;
    int code;
    if (!entry || !cap || !is_on) return TICURSES_TERMINFO_NULL;
    code = ticurses_raw_terminfo_flag(entry, ticurses_terminfo_bytes(cap), strlen(cap), &found);
    if (code == TICURSES_TERMINFO_OK) *is_on = found;
    return code;
}

/* Like ticurses_terminfo_flag, for the flag at a position, from 0 to 43, as of ncurses' boolnames. */
static inline int ticurses_terminfo_flag_at(ticurses_terminfo *entry, size_t position, int *is_on) {
    bool found = false;
    int code;
    if (!entry || !is_on) return TICURSES_TERMINFO_NULL;
    code = ticurses_raw_terminfo_flag_at(entry, position, &found);
    if (code == TICURSES_TERMINFO_OK) *is_on = found;
    return code;
}

/* Expands a parameter string for numbers, and writes the bytes to `room`: with its delays, and without a zero byte at
 * the end. Missing parameters are 0. The static variables A to Z are those of `entry`: they keep what the string sets
 * until the entry is opened anew or closed. The string may be any string, of this entry or not.
 *
 * *needed becomes the length of the bytes. If `room` is shorter, TICURSES_TERMINFO_NO_ROOM: nothing is written to it,
 * but the string has been expanded and the variables are set, so fetch the bytes by ticurses_terminfo_expanded, and
 * don't expand it again.
 *
 * TICURSES_TERMINFO_UNDERFLOW to TICURSES_TERMINFO_WRONG_KIND if the string has that fault, its first;
 * TICURSES_TERMINFO_BAD_PARAM, TICURSES_TERMINFO_NO_MEMORY, TICURSES_TERMINFO_CLOSED. Nothing has changed then, neither
 * `room` nor a variable, and *needed is 0. */
static inline int ticurses_terminfo_expand_numbers(ticurses_terminfo *entry, const void *string, size_t string_len,
                                                   const int32_t *numbers, size_t count, void *room, size_t room_len,
                                                   size_t *needed) {
    int32_t zero = 0;
    uint8_t none;
    if (!entry || ticurses_terminfo_is_bad(string, string_len) || (!numbers && count) ||
        ticurses_terminfo_is_bad(room, room_len) || !needed)
        return TICURSES_TERMINFO_NULL;
    if (count > TICURSES_TERMINFO_PARAMS) {
        *needed = 0;
        return TICURSES_TERMINFO_BAD_PARAM;
    }
    return ticurses_raw_terminfo_expand(entry, ticurses_terminfo_bytes(string), string_len, numbers ? numbers : &zero,
                                        count, room ? (uint8_t *)room : &none, room_len, needed);
}

/* Like ticurses_terminfo_expand_numbers, for numbers and texts. A text may have 0 to 4095 bytes (else
 * TICURSES_TERMINFO_BAD_PARAM), and may have zero bytes. */
static inline int ticurses_terminfo_expand(ticurses_terminfo *entry, const void *string, size_t string_len,
                                           const ticurses_terminfo_param *params, size_t count, void *room,
                                           size_t room_len, size_t *needed) {
    ticurses_raw_terminfo_param given[TICURSES_TERMINFO_PARAMS];
    uint8_t none = 0;
    size_t i;
    if (!entry || ticurses_terminfo_is_bad(string, string_len) || (!params && count) ||
        ticurses_terminfo_is_bad(room, room_len) || !needed)
        return TICURSES_TERMINFO_NULL;
    /* so that the first is there even if none is passed */
    memset(given, 0, sizeof *given);
    for (i = 0; i < count && i < TICURSES_TERMINFO_PARAMS; i++) {
        given[i].text = ticurses_terminfo_bytes(params[i].text);
        given[i].len = params[i].text ? params[i].len : 0;
        given[i].number = params[i].number;
        given[i].is_text = params[i].text != NULL;
        if (given[i].len > TICURSES_TERMINFO_TEXT_MAX) break;
    }
    if (i < count) {
        *needed = 0;
        return TICURSES_TERMINFO_BAD_PARAM;
    }
    return ticurses_raw_terminfo_expand_texts(entry, ticurses_terminfo_bytes(string), string_len, given, count,
                                              room ? (uint8_t *)room : &none, room_len, needed);
}

/* Writes the bytes of the last expansion that was done to `room`, for a program whose room was too short for them.
 * *needed becomes their length, even if `room` is shorter (TICURSES_TERMINFO_NO_ROOM); it is 0 before the first
 * expansion, and if the entry is closed (TICURSES_TERMINFO_CLOSED). */
static inline int ticurses_terminfo_expanded(ticurses_terminfo *entry, void *room, size_t room_len, size_t *needed) {
    uint8_t none;
    if (!entry || ticurses_terminfo_is_bad(room, room_len) || !needed) return TICURSES_TERMINFO_NULL;
    return ticurses_raw_terminfo_expanded(entry, room ? (uint8_t *)room : &none, room_len, needed);
}

/* The meaning of a code, in words. */
static inline const char *ticurses_terminfo_text(int code) {
    static const char *const texts[] = {
        "done",
        "the file ends within its header or a section",
        "the file doesn't begin with a magic number",
        "a size is negative, or there are too many values",
        "a flag is neither 0, 1 nor -2",
        "a number is negative",
        "the place of a string is outside the table",
        "the names or a string have no NUL after them",
        "a string has more than 4095 bytes",
        "the names can't be those of a source text",
        "a code took a value from the empty stack",
        "a conditional isn't %? %t %e %;",
        "out of memory",
        "no code begins with this %",
        "the entry lacks the capability",
        "a result doesn't fit in 32 bits",
        "a number to be written as one byte isn't from 0 to 255",
        "a text stands where a number is needed, or the other way round",
        NULL,
        NULL,
        "the entry is not open",
        NULL,
        NULL,
        NULL,
        NULL,
        "the buffer is too short",
        "a pointer is null",
        "there are more than nine parameters, or a text has more than 4095 bytes",
        "no capability of the kind has the name or the position",
    };
    const char *text = code >= 0 && code < (int)(sizeof texts / sizeof *texts) ? texts[code] : NULL;
    return text ? text : "no code of ticurses_terminfo";
}

#ifdef __cplusplus
#ifdef __GNUC__
#pragma GCC diagnostic pop
#endif
}
#endif
#endif
