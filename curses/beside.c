/* Bytes that go to the terminal beside those of the session: strings of its entry for keys and for flash. They are sent
 * when nothing waits in the session. A certificate shows that T ignores such a string; without one, the next refresh
 * repairs what the terminal shows. */
#define _POSIX_C_SOURCE 200809L
#include "private.h"

#include <string.h>

#include "calls.h"

/* The length of a delay at the beginning of `text`, such as $<5.5> or $<5*>; 0 if there is none. */
static size_t delay_len(const char *text, int *milliseconds) {
    size_t at = 2;
    *milliseconds = 0;
    if (text[0] != '$' || text[1] != '<') return 0;
    for (; text[at] >= '0' && text[at] <= '9' && *milliseconds < 10000; at++)
        *milliseconds = *milliseconds * 10 + (text[at] - '0');
    if (at == 2) return 0;
    if (text[at] == '.' && text[at + 1] >= '0' && text[at + 1] <= '9') at += 2;
    at += strspn(text + at, "*/");
    return text[at] == '>' ? at + 1 : 0;
}

/* Copies `text` without its delays to `room` and returns the length. If it doesn't fit, it writes nothing and returns
 * 0. */
size_t beside_plain(const char *text, char *room, size_t room_len) {
    size_t count = 0, len;
    int unused;
    if (strlen(text) > room_len) return 0;
    while (*text) {
        len = delay_len(text, &unused);
        if (len > 0) text += len;
        else room[count++] = *text++;
    }
    return count;
}

/* Sends the pieces between the delays, and waits for each delay if `is_waiting`. */
static int send_pieces(const char *text, bool is_waiting) {
    char piece[256];
    size_t count = 0;
    int code = OK, milliseconds;
    while (*text && code == OK) {
        size_t len = delay_len(text, &milliseconds);
        if (len == 0) piece[count++] = *text++;
        if (len > 0 || count == sizeof piece) {
            code = session_send_beside(tcu.output, piece, count);
            count = 0;
        }
        if (len > 0 && is_waiting) napms(milliseconds);
        text += len;
    }
    return code == OK ? session_send_beside(tcu.output, piece, count) : code;
}

int beside_send(const char *text, bool is_waiting) {
    char ignored[512];
    int code;
    if (!text) return ERR;
    code = send_pieces(text, is_waiting);
    if (code != OK || session_ignored(text, ignored, sizeof ignored) == 0) session_lost();
    return code;
}
