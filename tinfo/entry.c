/* A terminal's capabilities: what the proved reader finds in a compiled file, as the macros of programs read it. */
#include "private.h"

#include <limits.h>
#include <stdlib.h>

void tinfo_set_number(TERMINAL *terminal, int at, int number) {
    terminal->numbers[at] = number;
    terminal->narrow[at] = (short)(number < SHRT_MAX ? number : SHRT_MAX);
}

/* The string as C has it: in the file, a zero byte comes after each. The terminal owns the file, so that this may be
 * written to. */
static char *string_of(TERMINAL *terminal, const ticurses_terminfo_part *text) {
    return text->is_there ? terminal->file + ((const char *)text->bytes - terminal->file) : NULL;
}

static void take_values(TERMINAL *terminal, const ticurses_terminfo_values *values) {
    for (int at = 0; at < TICURSES_TERMINFO_FLAGS; at++) terminal->flags[at] = values->flags[at];
    for (int at = 0; at < TICURSES_TERMINFO_NUMBERS; at++)
        tinfo_set_number(terminal, at, values->numbers[at].is_there ? (int)values->numbers[at].number : -1);
    for (int at = 0; at < TICURSES_TERMINFO_STRINGS; at++)
        terminal->strings[at] = string_of(terminal, &values->strings[at]);
    terminal->type.term_names = string_of(terminal, &values->names);
}

bool tinfo_read(TERMINAL *terminal, char *file, size_t len) {
    ticurses_terminfo_values values;
    if (ticurses_terminfo_read(&values, file, len) != TICURSES_TERMINFO_OK) return false;
    terminal->file = file;
    take_values(terminal, &values);
    terminal->type.str_table = terminal->file;
    terminal->type.Booleans = terminal->flags;
    terminal->type.Numbers = terminal->narrow;
    terminal->type.Strings = terminal->strings;
    terminal->type.num_Booleans = TICURSES_TERMINFO_FLAGS;
    terminal->type.num_Numbers = TICURSES_TERMINFO_NUMBERS;
    terminal->type.num_Strings = TICURSES_TERMINFO_STRINGS;
    return true;
}

void tinfo_free(TERMINAL *terminal) {
    if (!terminal) return;
    ticurses_terminfo_close(&terminal->variables);
    free(terminal->file);
    free(terminal->plain);
    free(terminal->name);
    free(terminal);
}
