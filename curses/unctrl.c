/* The form in which a character is drawn: as it is, or as ^X, ~X or M-X if it isn't printable. */
#include "private.h"

const char *unctrl(chtype ch) {
    static char rooms[256][4];
    unsigned byte = TCU_BYTE(ch), low = byte & 127;
    char *at = rooms[byte];
    if (byte >= 160 && byte < 255) {
        *at++ = 'M';
        *at++ = '-';
        *at++ = (char)low;
    } else if (low < 32 || low == 127) {
        *at++ = byte < 128 ? '^' : '~';
        *at++ = (char)(low ^ 64);
    } else {
        *at++ = (char)byte;
    }
    *at = 0;
    return rooms[byte];
}
