/* Prints what the calls of <term.h> and <termcap.h> answer, one a line. The script compiles it for ncurses and for this
 * library and compares the lines.
 *
 *     answers entries NAME..    all that terminfo's calls tell of these entries
 *     answers termcap NAME..    all that termcap's calls tell
 *     answers calls             calls without a terminal, and failures
 *     answers drawing NAME..    what vidattr and mvcur send
 *     answers expansions        of each line of standard input: a string in hexadecimal digits, which of its parameters
 *                               are texts (a sum of 1, 2, 4..), and nine parameters, texts in hexadecimal digits
 *     answers padding           of each line: what tputs sends of the string
 *     answers exits NAME        what setupterm does where it can't say why */
#ifdef FOR_NCURSES
#define __INTERNAL_CAPS_VISIBLE
#include <curses.h>
#endif
#include <term.h>
#include <termcap.h>
#ifndef FOR_NCURSES
#include <ticurses_terminfo.h>
#endif

#include <stdio.h>
#include <stdlib.h>
#include <string.h>

/* the places of all capabilities, without their macros */
enum { FLAGS = 44, NUMBERS = 39, STRINGS = 414, LINE = 1 << 20, BITS = 8 };

static void print_text(const char *text) {
    if (text == NULL) {
        printf(" none");
    } else if (text == (char *)-1) {
        printf(" wrong");
    } else {
        printf(" =");
        for (; *text; text++) printf("%02x", (unsigned)(unsigned char)*text);
    }
}

static void print_named(const char *what, const char *name, const char *text) {
    printf("%s %s", what, name);
    print_text(text);
    puts("");
}

/* what the macros read, of which only some are tried by name */
static void print_macros(void) {
    print_named("macro", "cup", cursor_address);
    print_named("macro", "sgr", set_attributes);
    print_named("macro", "box1", box_chars_1);
    printf("macro am %d, OTxr %d, cols %d, colors %d, OTkn %d\n", auto_right_margin, return_does_clr_eol, columns,
           max_colors, number_of_function_keys);
}

static void tell_entry(const char *name) {
    TERMINAL *before;
    int status = 9, answer = setupterm(name, 1, &status);
    printf("entry %s %d %d %s\n", name, answer, status, cur_term ? termname() : "");
    if (status != 1) return;
    print_named("long", "name", longname());
    for (int at = 0; boolnames[at]; at++) printf("flag %s %d\n", boolnames[at], tigetflag(boolnames[at]));
    for (int at = 0; numnames[at]; at++) printf("number %s %d\n", numnames[at], tigetnum(numnames[at]));
    for (int at = 0; strnames[at]; at++) print_named("string", strnames[at], tigetstr(strnames[at]));
    printf("wrong %d %d\n", tigetflag("cols"), tigetnum("am"));
    print_named("wrong", "string", tigetstr("am"));
    print_macros();
    printf("speed %d, pad %d\n", ospeed, PC);
    before = cur_term;
    printf("set %d", set_curterm(NULL) == before);
    printf(" then %d, deleted %d\n", cur_term == NULL, del_curterm(before));
}

static void tell_termcap(const char *name) {
    char buffer[4096], room[65536], *area = room;
    int answer = tgetent(buffer, name);
    printf("tgetent %s %d\n", name, answer);
    if (answer != 1) return;
    print_named("variable", "UP", UP);
    print_named("variable", "BC", BC);
    printf("variable PC %d ospeed %d\n", PC, ospeed);
    for (int at = 0; boolcodes[at]; at++) printf("flag %s %d\n", boolcodes[at], tgetflag(boolcodes[at]));
    for (int at = 0; numcodes[at]; at++) printf("number %s %d\n", numcodes[at], tgetnum(numcodes[at]));
    for (int at = 0; strcodes[at]; at++) {
        char *text = tgetstr(strcodes[at], &area);
        print_named("string", strcodes[at], text);
    }
    printf("area %d\n", (int)(area - room));
    print_named("long", "code", tgetstr("cmx", NULL));
    print_named("no", "code", tgetstr("c", NULL));
    print_named("no", "code", tgetstr("", NULL));
    print_named("no", "code", tgetstr("@#", NULL));
    printf("no %d %d\n", tgetflag("@#"), tgetnum("@#"));
    print_named("tgoto", "cm", tgoto(tgetstr("cm", NULL), 7, 3));
}

static void set_up(const char *name, int fd) {
    int status = 9, answer = setupterm(name, fd, &status);
    printf("setupterm %.20s %d %d, current %d\n", name ? name : "null", answer, status, cur_term != NULL);
}

static void tell_calls(void) {
    static char longest[514];
    int status = 9, answer;
    memset(longest, 'x', 513);
    printf("none %d %d", tigetflag("am"), tigetnum("cols"));
    print_text(tigetstr("cup"));
    print_text(tgetstr("cm", NULL));
    printf(" %d %d %d", tgetflag("am"), tgetnum("co"), del_curterm(NULL));
    print_text(termname());
    print_text(tparm("%p1%d-%p2%d", 3L, 4L));
    puts("");
    set_up("no-such-entry", 1);
    set_up("", 1);
    set_up("a/b", 1);
    set_up("..", 1);
    set_up(longest, 1);
    set_up("tty33", 1);
    set_up("dialup", 1);
    set_up("unknown", 1);
    set_up("xterm", 1);
    unsetenv("TERM");
    set_up(NULL, 1);
    setenv("TERM", "vt100", 1);
    set_up(NULL, 1);
    setenv("LINES", "33", 1);
    setenv("COLUMNS", "77", 1);
    set_up("vt100", 1);
    printf("size %d %d\n", tigetnum("lines"), tigetnum("cols"));
    answer = restartterm("xterm", 1, &status);
    printf("restartterm %d %d %s\n", answer, status, termname());
    print_named("tparm", "null", tparm(NULL));
    print_named("tgoto", "null", tgoto(NULL, 1, 2));
    print_named("tiparm", "cup", tiparm(tigetstr("cup"), -1, 2147483647 - 1));
    printf("tgetent %d %d\n", tgetent(NULL, "no-such-entry"), tgetent(NULL, "xterm"));
    fflush(stdout);
}

/* Static variables: they are a terminal's own, and those of no terminal. Dynamic ones begin as 0 each time. */
static void tell_variables(void) {
    TERMINAL *first;
    int status;
    set_curterm(NULL);
    print_named("set", "none", tparm("%p1%PZ%p2%PA%p3%Pa", 11L, 22L, 33L));
    setupterm("vt100", 1, &status);
    first = cur_term;
    print_named("set", "first", tparm("%p1%PZ%p2%PA", 5L, 6L));
    setupterm("xterm", 1, &status);
    print_named("second", "", tparm("%gZ%d %gA%d %ga%d"));
    print_named("set", "second", tparm("%p1%PB%gB%gB%+%d", 7L));
    set_curterm(first);
    print_named("first", "", tparm("%gZ%d %gA%d %gB%d"));
    print_named("set", "again", tparm("%gZ%p1%+%PZ", 100L));
    print_named("first", "", tparm("%gZ%d"));
    set_curterm(NULL);
    print_named("none", "", tparm("%gZ%d %gA%d %ga%d"));
}

static int put(int byte) {
    printf("%02x", (unsigned)(unsigned char)byte);
    return byte;
}

static void tell_drawing(const char *name) {
    static const attr_t marks[BITS] = {A_STANDOUT, A_UNDERLINE, A_REVERSE, A_BLINK,
                                       A_DIM,      A_BOLD,      A_INVIS,   A_ALTCHARSET};
    int status = 9;
    printf("drawing %s %d", name, setupterm(name, 1, &status));
    printf(" %d\n", status);
    if (status != 1) return;
    for (unsigned set = 1; set < 256; set++) {
        attr_t attrs = A_NORMAL;
        for (int at = 0; at < BITS; at++)
            if (set & 1u << at) attrs |= marks[at];
        printf("attrs %u ", set);
        vidattr(attrs);
        vidattr(attrs);
        if (set % 3 == 0) vidattr(A_NORMAL);
        puts("");
    }
    vidattr(A_NORMAL);
    puts("");
}

/* Reads hexadecimal digits up to a blank, and ends the text. */
static char *digits(char **at, char *text) {
    unsigned byte;
    while (sscanf(*at, "%2x", &byte) == 1 && **at != ' ' && **at != '\n') {
        *text++ = (char)byte;
        *at += 2;
    }
    while (**at == ' ') ++*at;
    *text = 0;
    return text + 1;
}

#ifdef FOR_NCURSES
static void expand(const char *string, int texts, long *p) {
    (void)texts;
    print_named("expanded", "", tparm(string, p[0], p[1], p[2], p[3], p[4], p[5], p[6], p[7], p[8]));
}
#else
/* the fault, by the code of the proved call */
static const char *fault(const char *string, int texts, long *p) {
    static char room[LINE];
    ticurses_terminfo entry = {0};
    ticurses_terminfo_param given[9] = {{NULL, 0, 0}};
    size_t needed;
    int code;
    for (int at = 0; at < 9; at++) {
        if (texts & 1 << at) given[at].text = (const char *)p[at], given[at].len = strlen(given[at].text);
        else given[at].number = (int32_t)p[at];
    }
    ticurses_terminfo_open_bare(&entry);
    code = ticurses_terminfo_expand(&entry, string, strlen(string), given, 9, room, sizeof room, &needed);
    ticurses_terminfo_close(&entry);
    return ticurses_terminfo_text(code);
}

#define PASSED(at) (texts & 1 << (at) ? p[at] : (long)(int)p[at])

static void expand(const char *string, int texts, long *p) {
    char *found;
    if (texts) {
        found = tiparm_s(9, texts, string, PASSED(0), PASSED(1), PASSED(2), PASSED(3), PASSED(4), PASSED(5), PASSED(6),
                         PASSED(7), PASSED(8));
    } else {
        found = tparm(string, p[0], p[1], p[2], p[3], p[4], p[5], p[6], p[7], p[8]);
    }
    if (found) print_named("expanded", "", found);
    else printf("fault %s\n", fault(string, texts, p));
}
#endif

static void expand_line(char *line) {
    static char string[LINE], texts_room[LINE];
    char *text = texts_room;
    long params[9];
    int texts, used, at;
    /* the variables are 0 at the beginning, since one of two libraries doesn't set them where there is a fault */
    for (at = 0; at < 26; at++) {
        snprintf(string, sizeof string, "%%{0}%%P%c", 'A' + at);
        tparm(string);
    }
    digits(&line, string);
    if (sscanf(line, "%d%n", &texts, &used) != 1) exit(2);
    line += used + 1;
    for (at = 0; at < 9; at++) {
        if (texts & 1 << at) {
            params[at] = (long)text;
            text = digits(&line, text);
        } else {
            params[at] = strtol(line, &line, 10);
            while (*line == ' ') line++;
        }
    }
    expand(string, texts, params);
}

static void each_line(void (*tell)(char *)) {
    static char line[LINE];
    while (fgets(line, sizeof line, stdin)) tell(line);
}

static void pad_line(char *line) {
    static char string[LINE];
    int answer;
    digits(&line, string);
    printf("sent ");
    answer = tputs(string, 2, put);
    printf(" %d\n", answer);
}

int main(int count, char **words) {
    const char *what = count > 1 ? words[1] : "";
    /* where a library crashes, all lines before are there */
    setvbuf(stdout, NULL, _IOLBF, 0);
    if (strcmp(what, "calls") == 0) {
        tell_calls();
        tell_variables();
    }
    if (strcmp(what, "expansions") == 0) each_line(expand_line);
    if (strcmp(what, "padding") == 0) each_line(pad_line);
    if (strcmp(what, "exits") == 0) return setupterm(words[2], 1, NULL);
    for (int at = 2; at < count; at++) {
        if (strcmp(what, "entries") == 0) tell_entry(words[at]);
        if (strcmp(what, "termcap") == 0) tell_termcap(words[at]);
        if (strcmp(what, "drawing") == 0) tell_drawing(words[at]);
    }
    return 0;
}
