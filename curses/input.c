/* Reading keys: one byte or one function key at a time. */
#define _POSIX_C_SOURCE 200809L
#include "private.h"

#include <errno.h>
#include <stdlib.h>
#include <string.h>
#include <termios.h>
#include <unistd.h>

#include "calls.h"

enum { QUEUED = 1024, LONGEST = 64 };

/* A stack of keys that the next reads return: those that were pushed back, and bytes that were read as the beginning of
 * a key and turned out to be none. */
static int given[QUEUED];
static size_t given_count;
/* The first bytes of a function key whose rest the program itself waits for, by ticurses_wgetch. */
static char begun[LONGEST];
static size_t begun_count;
static bool is_keypad_on;

/* How a key is read: by wgetch, which waits; or by ticurses_wgetch, which waits for nothing, and leaves the first bytes
 * of a function key for the next read or takes each as a key. */
static enum { WAITS, LEAVES_REST, TAKES_REST } manner;

/* The strings of keys: those of the entry, and those that define_key has added, which own their texts. One that keyok
 * has turned off is of no key. */
static struct {
    const char *text;
    int key;
    bool is_own, is_off;
} known[512];
static size_t known_count;

/* Removes a string of a key. */
static void forget_string(size_t at) {
    if (known[at].is_own) free((char *)known[at].text);
    known_count--;
    memmove(&known[at], &known[at + 1], (known_count - at) * sizeof *known);
}

void tcu_learn_keys(void) {
    while (known_count > 0) forget_string(known_count - 1);
    for (size_t at = 0; at < tcu_key_count && known_count < sizeof known / sizeof *known; at++) {
        const char *text = entry_learn(tcu_keys[at].name);
        if (!text || !*text) continue;
        known[known_count].text = text;
        known[known_count].is_own = known[known_count].is_off = false;
        known[known_count++].key = tcu_keys[at].key;
    }
}

/* Removes the strings of a key, and this one unless it is null. Returns OK if there was any. */
static int undefine(const char *text, int key) {
    int code = ERR;
    for (size_t at = known_count; at > 0; at--) {
        bool is_it = known[at - 1].key == key || (text && strcmp(known[at - 1].text, text) == 0);
        if (known[at - 1].is_off || !is_it) continue;
        forget_string(at - 1);
        code = OK;
    }
    return code;
}

int key_defined(const char *text) {
    int found = 0;
    if (!tcu.is_open || !text) return ERR;
    for (size_t at = 0; at < known_count && found <= 0; at++) {
        size_t len = strlen(known[at].text);
        if (known[at].is_off || strncmp(known[at].text, text, strlen(text) < len ? strlen(text) : len) != 0) continue;
        found = strlen(text) < len ? ERR : known[at].key;
    }
    return found;
}

int define_key(const char *text, int key) {
    char *copy;
    if (!tcu.is_open) return ERR;
    if (key <= 0) return text ? undefine(text, 0) : ERR;
    if (!text) return undefine(NULL, key);
    /* a string that another key has is bound anew */
    undefine(text, 0);
    if (!*text || key_defined(text) != 0 || known_count == sizeof known / sizeof *known) return ERR;
    copy = strdup(text);
    if (!copy) return ERR;
    known[known_count].text = copy;
    known[known_count].is_own = true;
    known[known_count].is_off = false;
    known[known_count++].key = key;
    return OK;
}

char *keybound(int key, int count) {
    for (size_t at = 0; tcu.is_open && at < known_count; at++)
        if (!known[at].is_off && known[at].key == key && count-- == 0) return strdup(known[at].text);
    return NULL;
}

int keyok(int key, bool is_on) {
    int code = ERR;
    for (size_t at = 0; tcu.is_open && at < known_count; at++) {
        if (known[at].key != key || known[at].is_off != is_on) continue;
        known[at].is_off = !is_on;
        code = OK;
    }
    return code;
}

int has_key(int key) {
    for (size_t at = 0; tcu.is_open && at < known_count; at++)
        if (known[at].key == key && !known[at].is_off) return TRUE;
    return FALSE;
}

/* Sends the string that turns the keypad on or off. */
int tcu_keypad(bool is_on) {
    const char *text = entry_string(is_on ? "smkx" : "rmkx");
    if (is_on == is_keypad_on) return OK;
    is_keypad_on = is_on;
    return text ? beside_send(text, false) : OK;
}

void tcu_forget_keys(void) {
    given_count = begun_count = 0;
}

int keypad(WINDOW *window, bool is_on) {
    if (!tcu_is_own(window)) return ERR;
    window->has_keypad = is_on;
    return tcu.is_ended ? OK : tcu_keypad(is_on);
}

static bool is_meta_off;

int meta(WINDOW *window, bool is_on) {
    (void)window;
    if (!tcu.is_open) return ERR;
    is_meta_off = !is_on;
    return OK;
}

int ungetch(int ch) {
    if (!tcu.is_open || given_count == QUEUED) return ERR;
    given[given_count++] = ch;
    return OK;
}

int flushinp(void) {
    if (!tcu.is_open) return ERR;
    tcu_forget_keys();
    tcflush(tcu.input, TCIFLUSH);
    return OK;
}

/* Reads a byte of the terminal. Returns ERR if none comes in time, KEY_RESIZE if the size has changed. */
static int next_byte(int milliseconds) {
    unsigned char byte;
    ssize_t count;
    do {
        if (signals_wait(tcu.input, milliseconds) <= 0) return signals_has_size_changed() ? KEY_RESIZE : ERR;
        count = read(tcu.input, &byte, 1);
        /* another program got the byte, or a signal came first */
    } while (count < 0 && (errno == EINTR || errno == EAGAIN));
    return count == 1 ? byte : ERR;
}

/* The key that has these bytes, 0 if none has. Sets `is_beginning` if those of a longer key begin so. */
static int key_of(const char *bytes, size_t count, bool *is_beginning) {
    int found = 0;
    *is_beginning = false;
    for (size_t at = 0; at < known_count; at++) {
        size_t len = strlen(known[at].text);
        /* a zero byte is of no key */
        if (known[at].is_off || len < count || memcmp(known[at].text, bytes, count) != 0) continue;
        if (len > count) *is_beginning = true;
        else if (found == 0) found = known[at].key;
    }
    return found;
}

/* How many milliseconds wgetch waits for the rest of a key. */
static int patience(const WINDOW *window) {
    return window->waits_in_keys ? -1 : ESCDELAY;
}

/* Returns the first of the bytes that turned out to be no key, and the others to the next reads. */
static int give_back(void) {
    while (begun_count > 1 && given_count < QUEUED) given[given_count++] = (unsigned char)begun[--begun_count];
    begun_count = 0;
    return (unsigned char)begun[0];
}

/* Reads the rest of a key that may begin with the bytes so far and with `byte`. Bytes that are no key are returned one
 * by one. */
static int read_key(const WINDOW *window, int byte) {
    while (byte >= 0 && byte < 256) {
        bool is_beginning;
        int key;
        begun[begun_count++] = (char)byte;
        key = key_of(begun, begun_count, &is_beginning);
        if (key > 0) {
            begun_count = 0;
            return key;
        }
        if (!is_beginning || begun_count == sizeof begun) return give_back();
        byte = next_byte(manner == WAITS ? patience(window) : 0);
    }
    return byte == ERR && manner == LEAVES_REST ? ERR : give_back();
}

/* How many milliseconds to wait for the next byte. */
static int patience_of(const WINDOW *window) {
    if (manner != WAITS) return 0;
    if (begun_count > 0) return patience(window);
    if (window->delay >= 0) return window->delay;
    return tcu_modes.half_delay > 0 ? tcu_modes.half_delay * 100 : -1;
}

static bool is_eight_bits(void) {
    return !is_meta_off && modes_keep_meta();
}

/* Reads one key, without waiting for a line. */
static int read_one(const WINDOW *window) {
    int key;
    if (given_count > 0) return given[--given_count];
    if (signals_has_size_changed()) return KEY_RESIZE;
    key = next_byte(patience_of(window));
    if (key == KEY_RESIZE || (key == ERR && begun_count == 0)) return key;
    if (window->has_keypad || begun_count > 0) key = read_key(window, key);
    if (key == ERR) return key;
    return key < 256 && !is_eight_bits() ? key & 127 : key;
}

/* Reads in the mode that reads lines: shows a whole line, and returns it key by key. */
static int read_line(WINDOW *window) {
    char line[512];
    int code = wgetnstr(window, line, (int)sizeof line - 1);
    if (code == KEY_RESIZE) return code;
    if (code != OK) return ERR;
    ungetch('\n');
    for (size_t at = strlen(line); at > 0; at--) ungetch((unsigned char)line[at - 1]);
    return read_one(window);
}

static void show_before(WINDOW *window) {
    if (!window->is_pad && (window->is_moved || is_wintouched(window))) wrefresh(window);
}

int wgetch(WINDOW *window) {
    int key;
    if (!tcu_is_own(window)) return ERR;
    show_before(window);
    if (given_count == 0 && !tcu_modes.is_cbreak && modes_are_known()) return read_line(window);
    do {
        key = read_one(window);
        if (key == KEY_RESIZE && !signals_take_size_change()) return key;
        /* a size that no session can have is no news to the program, and the wait goes on */
    } while (key == KEY_RESIZE && tcu_resize() != OK);
    if (key == KEY_RESIZE) return key;
    /* the echo is of the key as it was typed */
    if (tcu_modes.echoes && key >= 0 && key < 256) wechochar(window, (chtype)key);
    return key == '\r' && tcu_modes.reads_newlines ? '\n' : key;
}

int ticurses_wgetch(WINDOW *window, bool takes_rest, int *count, int *milliseconds) {
    int key;
    if (!tcu_is_own(window)) return ERR;
    manner = takes_rest ? TAKES_REST : LEAVES_REST;
    key = wgetch(window);
    manner = WAITS;
    if (count) *count = (int)begun_count;
    if (milliseconds) *milliseconds = patience(window);
    return key;
}
