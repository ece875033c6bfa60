/* Every answer of ticurses_terminfo.h, over a compiled file that is put together by hand, as term(5) says. */
#include <ticurses_terminfo.h>

#include <limits.h>
#include <stdio.h>
#include <stdlib.h>

static ticurses_terminfo entry, other;
static char room[64];
static size_t needed;

/* bw isn't there and am is; cols is 80 and it is absent; cbt is absent, bel empty, cr cancelled, and csr has text */
static const unsigned char file[] = {
    0x1a, 1, 6, 0, 2, 0, 2, 0, 4, 0, 18, 0, 't', '|', 't', 't', 'y', 0, 0, 1, 80, 0, 0xff, 0xff, 0xff, 0xff, 0, 0, 0xfe,
    0xff, 1, 0, 0, '\033', '[', '%', 'i', '%', 'p', '1', '%', 'd', ';', '%', 'p', '2', '%', 'd', 'r', 0,
};
enum { FLAGS_AT = 18, NUMBERS_AT = 20, STRINGS_AT = 24, TABLE_AT = 32 };

#define HOLD(holds) hold(holds, #holds, __LINE__)

static void hold(int holds, const char *what, int line) {
    if (holds) return;
    fprintf(stderr, "terminfo.c:%d: not so: %s\n", line, what);
    exit(1);
}

/* The code for this file with one byte altered. */
static int altered(size_t at, unsigned char byte) {
    unsigned char copy[sizeof file];
    memcpy(copy, file, sizeof file);
    copy[at] = byte;
    return ticurses_terminfo_open(&other, copy, sizeof copy);
}

static void faults_of_files(void) {
    static unsigned char large[12 + 6 + 2 + 2 + 4200];
    HOLD(ticurses_terminfo_open(&other, NULL, 0) == TICURSES_TERMINFO_SHORT);
    HOLD(ticurses_terminfo_open(&other, NULL, 1) == TICURSES_TERMINFO_NULL);
    HOLD(ticurses_terminfo_open(&other, file, sizeof file - 1) == TICURSES_TERMINFO_SHORT);
    HOLD(altered(0, 0) == TICURSES_TERMINFO_BAD_MAGIC);
    HOLD(altered(9, 0x80) == TICURSES_TERMINFO_BAD_COUNT);
    HOLD(altered(FLAGS_AT, 2) == TICURSES_TERMINFO_BAD_FLAG);
    HOLD(altered(NUMBERS_AT + 1, 0x80) == TICURSES_TERMINFO_BAD_NUMBER);
    HOLD(altered(STRINGS_AT + 1, 0x80) == TICURSES_TERMINFO_BAD_OFFSET);
    HOLD(altered(STRINGS_AT + 2, 18) == TICURSES_TERMINFO_BAD_OFFSET);
    HOLD(altered(sizeof file - 1, 'x') == TICURSES_TERMINFO_NO_NUL);
    HOLD(altered(13, '\n') == TICURSES_TERMINFO_BAD_NAMES);
    memcpy(large, "\x1a\1\6\0\0\0\0\0\1\0\0\x10t|tty\0\0\0", 20);
    large[10] = 104;
    memset(large + 20, 'x', 4199);
    HOLD(ticurses_terminfo_open(&other, large, 20 + 4200) == TICURSES_TERMINFO_TOO_LARGE);
    HOLD(ticurses_terminfo_flag_at(&other, 0, &(int){0}) == TICURSES_TERMINFO_CLOSED);
}

static int string(const char *cap) { return ticurses_terminfo_string(&entry, cap, room, sizeof room, &needed); }

static void capabilities(void) {
    uint32_t number = 7;
    int flag = 7;
    HOLD(string("bel") == TICURSES_TERMINFO_OK && needed == 0);
    HOLD(string("cbt") == TICURSES_TERMINFO_NO_CAP && string("cr") == TICURSES_TERMINFO_NO_CAP);
    HOLD(string("ed") == TICURSES_TERMINFO_NO_CAP && string("am") == TICURSES_TERMINFO_BAD_NAME);
    HOLD(string("csr") == TICURSES_TERMINFO_OK && needed == 16 && !memcmp(room, file + TABLE_AT + 1, 16));
    HOLD(ticurses_terminfo_string(&entry, "csr", room, 15, &needed) == TICURSES_TERMINFO_NO_ROOM && needed == 16);
    HOLD(ticurses_terminfo_string(&entry, "csr", NULL, 0, &needed) == TICURSES_TERMINFO_NO_ROOM && needed == 16);
    HOLD(ticurses_terminfo_string_at(&entry, 3, room, sizeof room, &needed) == TICURSES_TERMINFO_OK && needed == 16);
    HOLD(ticurses_terminfo_string_at(&entry, 413, room, 0, &needed) == TICURSES_TERMINFO_NO_CAP && needed == 0);
    HOLD(ticurses_terminfo_string_at(&entry, 414, room, 0, &needed) == TICURSES_TERMINFO_BAD_NAME);
    HOLD(ticurses_terminfo_number(&entry, "it", &number) == TICURSES_TERMINFO_NO_CAP && number == 7);
    HOLD(ticurses_terminfo_number(&entry, "cols", &number) == TICURSES_TERMINFO_OK && number == 80);
    HOLD(ticurses_terminfo_number_at(&entry, 39, &number) == TICURSES_TERMINFO_BAD_NAME && number == 80);
    HOLD(ticurses_terminfo_number_at(&entry, 1, &number) == TICURSES_TERMINFO_NO_CAP);
    HOLD(ticurses_terminfo_flag(&entry, "cols", &flag) == TICURSES_TERMINFO_BAD_NAME && flag == 7);
    HOLD(ticurses_terminfo_flag(&entry, "am", &flag) == TICURSES_TERMINFO_OK && flag == 1);
    HOLD(ticurses_terminfo_flag_at(&entry, 0, &flag) == TICURSES_TERMINFO_OK && flag == 0);
    HOLD(ticurses_terminfo_flag_at(&entry, 44, &flag) == TICURSES_TERMINFO_BAD_NAME);
    HOLD(ticurses_terminfo_names(&entry, room, sizeof room, &needed) == TICURSES_TERMINFO_OK);
    HOLD(needed == 5 && !memcmp(room, "t|tty", 5));
}

/* All values of the file at once, with names and strings where they are in it. */
static void values(void) {
    static ticurses_terminfo_values all;
    unsigned char copy[sizeof file];
    memcpy(copy, file, sizeof file);
    copy[13] = '\n';
    HOLD(ticurses_terminfo_read(&all, copy, sizeof copy) == TICURSES_TERMINFO_OK && all.names.bytes == copy + 12);
    HOLD(ticurses_terminfo_read(&all, file, sizeof file) == TICURSES_TERMINFO_OK);
    HOLD(all.names.is_there && all.names.bytes == file + 12 && all.names.len == 5);
    HOLD(!all.flags[0] && all.flags[1] && !all.flags[2] && !all.flags[43]);
    HOLD(all.numbers[0].is_there && all.numbers[0].number == 80);
    HOLD(!all.numbers[1].is_there && !all.numbers[2].is_there && !all.numbers[38].is_there);
    HOLD(!all.strings[0].is_there && !all.strings[2].is_there);
    HOLD(!all.strings[4].is_there && !all.strings[413].is_there);
    HOLD(all.strings[1].is_there && all.strings[1].len == 0 && all.strings[1].bytes == file + TABLE_AT);
    HOLD(all.strings[3].is_there && all.strings[3].len == 16 && all.strings[3].bytes == file + TABLE_AT + 1);
    HOLD(ticurses_terminfo_read(&all, file, sizeof file - 1) == TICURSES_TERMINFO_SHORT);
    HOLD(ticurses_terminfo_read(&all, NULL, 0) == TICURSES_TERMINFO_SHORT);
    HOLD(ticurses_terminfo_read(&all, NULL, 1) == TICURSES_TERMINFO_NULL);
    HOLD(ticurses_terminfo_read(NULL, file, sizeof file) == TICURSES_TERMINFO_NULL);
}

/* The code for a string and one number. */
static int expand(ticurses_terminfo *in, const char *text, int32_t number) {
    memset(room, 'r', sizeof room);
    return ticurses_terminfo_expand_numbers(in, text, strlen(text), &number, 1, room, sizeof room, &needed);
}

static int writes(ticurses_terminfo *in, const char *text, const char *wanted) {
    return expand(in, text, 1) == TICURSES_TERMINFO_OK && needed == strlen(wanted) && !memcmp(room, wanted, needed) &&
           room[needed] == 'r';
}

static int faults(const char *text, int32_t number, int code) {
    return expand(&entry, text, number) == code && needed == 0 && room[0] == 'r';
}

static void expansions(void) {
    HOLD(writes(&entry, "%{5}%PA%{7}%PB%p1%d", "1") && writes(&entry, "%gA%d %gB%d", "5 7"));
    HOLD(writes(&other, "%gA%d %gB%d", "0 0"));
    HOLD(faults("%{9}%PB%d", 1, TICURSES_TERMINFO_UNDERFLOW) && writes(&entry, "%gA%d %gB%d", "5 7"));
    HOLD(faults("%{9}%PB%;", 1, TICURSES_TERMINFO_BAD_NEST) && faults("%", 1, TICURSES_TERMINFO_BAD_CODE));
    HOLD(faults("%p1%{1}%+%d", INT_MAX, TICURSES_TERMINFO_OVERFLOW));
    HOLD(faults("%p1%c", 256, TICURSES_TERMINFO_BAD_CHAR) && faults("%p1%s", 1, TICURSES_TERMINFO_WRONG_KIND));
    HOLD(ticurses_terminfo_expanded(&entry, room, sizeof room, &needed) == TICURSES_TERMINFO_OK);
    HOLD(needed == 3 && !memcmp(room, "5 7", 3));
}

static void rooms(void) {
    static const int32_t numbers[10] = {1, 2, 3, 4, 5, 6, 7, 8, 9, 10};
    static const char all[] = "%p1%d%p2%d%p3%d%p4%d%p5%d%p6%d%p7%d%p8%d%p9%d";
    HOLD(ticurses_terminfo_expand_numbers(&entry, all, strlen(all), numbers, 9, room, 9, &needed) == 0);
    HOLD(needed == 9 && !memcmp(room, "123456789", 9));
    HOLD(ticurses_terminfo_expand_numbers(&entry, all, strlen(all), numbers, 2, room, 9, &needed) == 0);
    HOLD(needed == 9 && !memcmp(room, "120000000", 9));
    HOLD(ticurses_terminfo_expand_numbers(&entry, all, 3, numbers, 10, room, 9, &needed) ==
         TICURSES_TERMINFO_BAD_PARAM);
    HOLD(ticurses_terminfo_expand_numbers(&entry, "%gA%{1}%+%PA%gA%d", 17, NULL, 0, room, 0, &needed) ==
         TICURSES_TERMINFO_NO_ROOM);
    HOLD(needed == 1 && ticurses_terminfo_expanded(&entry, room, 1, &needed) == 0 && room[0] == '6');
    HOLD(writes(&entry, "%gA%d", "6"));
}

static void texts(void) {
    static char text[TICURSES_TERMINFO_TEXT_MAX + 1], out[TICURSES_TERMINFO_TEXT_MAX];
    ticurses_terminfo_param given[10] = {{text, TICURSES_TERMINFO_TEXT_MAX, 0}, {NULL, 0, 42}};
    memset(text, 't', sizeof text);
    HOLD(ticurses_terminfo_expand(&entry, "%p1%s", 5, given, 2, out, sizeof out, &needed) == TICURSES_TERMINFO_OK);
    HOLD(needed == sizeof out && !memcmp(out, text, sizeof out));
    HOLD(ticurses_terminfo_expand(&entry, "%p2%d%p3%d", 10, given, 2, out, 3, &needed) == TICURSES_TERMINFO_OK);
    HOLD(needed == 3 && !memcmp(out, "420", 3));
    HOLD(ticurses_terminfo_expand(&entry, "%p1%l%d", 7, given, 1, out, 4, &needed) == 0 && !memcmp(out, "4095", 4));
    HOLD(ticurses_terminfo_expand(&entry, "", 0, given, 10, out, 9, &needed) == TICURSES_TERMINFO_BAD_PARAM);
    HOLD(ticurses_terminfo_expand(&entry, "", 0, NULL, 0, out, 9, &needed) == TICURSES_TERMINFO_OK && needed == 0);
    given[0].len++;
    HOLD(ticurses_terminfo_expand(&entry, "", 0, given, 1, out, 9, &needed) == TICURSES_TERMINFO_BAD_PARAM);
    HOLD(ticurses_terminfo_expand(&entry, "", 0, given, 0, NULL, 9, &needed) == TICURSES_TERMINFO_NULL);
    HOLD(ticurses_terminfo_expand(NULL, "", 0, given, 0, out, 9, &needed) == TICURSES_TERMINFO_NULL);
}

int main(void) {
    HOLD(string("bel") == TICURSES_TERMINFO_CLOSED && needed == 0);
    faults_of_files();
    HOLD(ticurses_terminfo_open(&entry, file, sizeof file) == TICURSES_TERMINFO_OK);
    HOLD(ticurses_terminfo_open_bare(&other) == TICURSES_TERMINFO_OK);
    HOLD(ticurses_terminfo_names(&other, room, 7, &needed) == 0 && !memcmp(room, "unknown", 7));
    capabilities();
    values();
    expansions();
    rooms();
    texts();
    HOLD(ticurses_terminfo_open(&entry, file, 3) == TICURSES_TERMINFO_SHORT && writes(&entry, "%gA%d", "6"));
    HOLD(ticurses_terminfo_open(&entry, file, sizeof file) == TICURSES_TERMINFO_OK && writes(&entry, "%gA%d", "0"));
    ticurses_terminfo_close(&entry);
    ticurses_terminfo_close(&entry);
    ticurses_terminfo_close(&other);
    ticurses_terminfo_close(NULL);
    HOLD(expand(&entry, "x", 0) == TICURSES_TERMINFO_CLOSED && needed == 0);
    HOLD(ticurses_terminfo_expanded(&entry, room, sizeof room, &needed) == TICURSES_TERMINFO_CLOSED && needed == 0);
    return 0;
}
