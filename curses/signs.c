/* The characters of ACS_*: signs of the terminal's other character set, or ASCII in their place. */
#include "private.h"

chtype acs_map[128];

/* Letters, and what stands for each in ASCII. */
static const char plain[][2] = {
    {'l', '+'}, {'m', '+'}, {'k', '+'},  {'j', '+'}, {'t', '+'}, {'u', '+'}, {'v', '+'}, {'w', '+'},
    {'n', '+'}, {'q', '-'}, {'x', '|'},  {'o', '~'}, {'p', '-'}, {'r', '-'}, {'s', '_'}, {'`', '+'},
    {'a', ':'}, {'f', '\''}, {'g', '#'}, {'~', 'o'}, {',', '<'}, {'+', '>'}, {'-', '^'}, {'.', 'v'},
    {'h', '#'}, {'i', '#'}, {'0', '#'},  {'y', '<'}, {'z', '>'}, {'{', '*'}, {'|', '!'}, {'}', 'f'},
};

/* Whether the pairs of an entry show a letter as a sign. The other character set of a session has signs from 95 on, so
 * a partner below is ASCII there. */
static bool is_sign(const char *pairs, char letter) {
    for (; pairs[0] && pairs[1]; pairs += 2)
        if (pairs[0] == letter) return pairs[1] >= 95 && pairs[1] <= 126;
    return false;
}

void tcu_map_signs(void) {
    const char *pairs = entry_string("acsc");
    if (!pairs || !entry_string("smacs") || !entry_string("rmacs")) pairs = "";
    for (unsigned letter = 0; letter < 128; letter++) acs_map[letter] = letter | A_ALTCHARSET;
    for (size_t at = 0; at < sizeof plain / sizeof *plain; at++)
        if (!is_sign(pairs, plain[at][0])) acs_map[(unsigned char)plain[at][0]] = (unsigned char)plain[at][1];
}
