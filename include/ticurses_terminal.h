/* The terminal of a program that uses ticurses, for POSIX, in C99 or C++11: the entry of the terminal, its size, and a
 * descriptor to which the bytes of a session go. Nothing here is needed for ticurses.h; a program may do all of it in
 * its own way. Nothing here keeps any state, so threads don't disturb each other. A signal handler may call
 * ticurses_set_cooked, and no other function of the library. */
#ifndef TICURSES_TERMINAL_H
#define TICURSES_TERMINAL_H

#include "ticurses.h"
#include <errno.h>
#include <fcntl.h>
#include <poll.h>
#include <stdlib.h>
#include <string.h>
#include <sys/ioctl.h>
#include <sys/stat.h>
#include <termios.h>
#include <unistd.h>
#ifdef __linux__
#include <sys/auxv.h>
#endif

#ifdef __cplusplus
extern "C" {
#ifdef __GNUC__
/* code that is C and C++ has the casts of C */
#pragma GCC diagnostic push
#pragma GCC diagnostic ignored "-Wold-style-cast"
#endif
#endif

/* The most bytes of a compiled entry. */
#define TICURSES_ENTRY_MAX 32768

/* The number in two bytes of a compiled entry, the lower byte first. */
static inline size_t ticurses_short_at(const unsigned char *bytes, size_t at) {
    return bytes[at] + 256u * bytes[at + 1];
}

/* Whether bytes are as long as the header of a compiled entry says, with numbers of two or of four bytes. */
static inline int ticurses_is_entry(const unsigned char *bytes, size_t len) {
    size_t width, needed;
    if (len < 12) return 0;
    width = ticurses_short_at(bytes, 0) == 0x11a ? 2 : ticurses_short_at(bytes, 0) == 0x21e ? 4 : 0;
    needed = 12 + ticurses_short_at(bytes, 2) + ticurses_short_at(bytes, 4);
    needed += needed % 2 + width * ticurses_short_at(bytes, 6);
    needed += 2 * ticurses_short_at(bytes, 8) + ticurses_short_at(bytes, 10);
    return width > 0 && needed <= len;
}

/* Reads a file to `room` and returns its length; 0 if it can't be read or is longer than `room_len`. */
static inline size_t ticurses_read(const char *path, unsigned char *room, size_t room_len) {
    unsigned char more;
    struct stat found;
    size_t got = 0;
    ssize_t now = -1;
    int file = open(path, O_RDONLY | O_NONBLOCK | O_NOCTTY);
    if (file < 0) return 0;
    if (fstat(file, &found) == 0 && S_ISREG(found.st_mode)) {
        do {
            now = got < room_len ? read(file, room + got, room_len - got) : read(file, &more, 1);
            if (now > 0) got += (size_t)now;
        } while ((now > 0 && got <= room_len) || (now < 0 && errno == EINTR));
    }
    close(file);
    return now == 0 ? got : 0;
}

/* Reads FOLDER/x/TERM or FOLDER/78/TERM, x being the first letter of TERM and 78 its code. A file that is no entry
 * counts as absent. */
static inline size_t ticurses_entry_in(const char *folder, size_t folder_len, const char *term, void *room,
                                       size_t room_len) {
    for (int kind = 0; kind < 2; kind++) {
        char path[1024], sub[3] = {term[0], 0, 0};
        if (kind) snprintf(sub, sizeof sub, "%02x", (unsigned)(unsigned char)term[0]);
        int len = snprintf(path, sizeof path, "%.*s/%s/%s", (int)folder_len, folder, sub, term);
        if (len < 0 || (size_t)len >= sizeof path) continue;
        size_t got = ticurses_read(path, (unsigned char *)room, room_len);
        if (ticurses_is_entry((const unsigned char *)room, got)) return got;
    }
    return 0;
}

/* The value of a variable; null if the program has rights that its user lacks, also those of a file's capabilities,
 * since that user could make it read files. */
static inline const char *ticurses_variable(const char *name) {
#ifdef AT_SECURE
    if (getauxval(AT_SECURE)) return NULL;
#endif
    return geteuid() == getuid() && getegid() == getgid() ? getenv(name) : NULL;
}

/* Reads the compiled entry of the terminal `term`, or of the variable TERM if `term` is null, into `room`, and returns
 * its length; 0 if there is none. It searches where ncurses does: $TERMINFO, ~/.terminfo, the folders of
 * $TERMINFO_DIRS, /etc/terminfo, /lib/terminfo, /usr/share/terminfo. A file that can't be read or is no entry doesn't
 * end the search. If the program has rights that its user lacks (set-user-id, capabilities), it skips the three places
 * that the user can choose. */
static inline size_t ticurses_entry(const char *term, void *room, size_t room_len) {
    static const char known[] = "/etc/terminfo:/lib/terminfo:/usr/share/terminfo:/usr/lib/terminfo";
    const char *own = ticurses_variable("TERMINFO"), *home = ticurses_variable("HOME");
    const char *lists[2] = {ticurses_variable("TERMINFO_DIRS"), known};
    char folder[1024];
    size_t got;
    if (!term) term = getenv("TERM");
    if (!term || !*term || strchr(term, '/') || !room) return 0;
    if (own && *own && (got = ticurses_entry_in(own, strlen(own), term, room, room_len)) > 0) return got;
    int len = home ? snprintf(folder, sizeof folder, "%s/.terminfo", home) : 0;
    if (len > 0 && (size_t)len < sizeof folder) {
        got = ticurses_entry_in(folder, (size_t)len, term, room, room_len);
        if (got) return got;
    }
    for (int list = 0; list < 2; list++) {
        for (const char *at = lists[list]; at && *at; at += strcspn(at, ":"), at += *at == ':') {
            size_t span = strcspn(at, ":");
            if (span && (got = ticurses_entry_in(at, span, term, room, room_len)) > 0) return got;
        }
    }
    return 0;
}

/* Gets the size of the terminal at `fd`: 24 by 80 if the terminal doesn't say. Returns TICURSES_BAD_SIZE if no
 * session can have this size (2 to 200 rows and 2 to 500 columns), since a session of another size would draw
 * wrongly on the terminal. */
static inline int ticurses_size(int fd, uint16_t *rows, uint16_t *cols) {
    struct winsize size;
    if (!rows || !cols) return TICURSES_NULL;
    memset(&size, 0, sizeof size);
    if (ioctl(fd, TIOCGWINSZ, &size) != 0 || !size.ws_row || !size.ws_col) {
        size.ws_row = 24;
        size.ws_col = 80;
    }
    *rows = size.ws_row;
    *cols = size.ws_col;
    return *rows >= 2 && *rows <= 200 && *cols >= 2 && *cols <= 500 ? TICURSES_OK : TICURSES_BAD_SIZE;
}

/* Sets the terminal's modes once it has received all output; signals don't end the wait. */
static inline int ticurses_set(int fd, const struct termios *like) {
    int result;
    do {
        result = tcsetattr(fd, TCSADRAIN, like);
    } while (result != 0 && errno == EINTR);
    return result;
}

/* Has the terminal pass on bytes unaltered, which a refresh needs (it may move down by a newline), and keys
 * as they are pressed, without showing them. Keys that send signals still do. `before` gets the modes from
 * before, which ticurses_set_cooked restores. Both wait until the terminal has received all output, and return
 * 0, or -1 with errno: then the terminal is unchanged. */
static inline int ticurses_set_raw(int fd, struct termios *before) {
    struct termios raw;
    memset(&raw, 0, sizeof raw);
    if (tcgetattr(fd, &raw) != 0) return -1;
    *before = raw;
    raw.c_lflag &= ~(tcflag_t)(ICANON | ECHO);
    raw.c_iflag &= ~(tcflag_t)(ICRNL | IXON);
    raw.c_oflag &= ~(tcflag_t)OPOST;
    raw.c_cc[VMIN] = 1;
    raw.c_cc[VTIME] = 0;
    return ticurses_set(fd, &raw);
}

static inline int ticurses_set_cooked(int fd, const struct termios *before) {
    return ticurses_set(fd, before);
}

/* Whether an error means that a descriptor takes no bytes now. */
static inline int ticurses_is_full(int error) {
#if EAGAIN != EWOULDBLOCK
    if (error == EWOULDBLOCK) return 1;
#endif
    return error == EAGAIN;
}

/* Writes the waiting bytes of a session to a descriptor, also one that doesn't block, and returns when all of them are
 * written: 0, or -1 with errno if a write failed. The output may then be cut anywhere, and the next refresh repairs it.
 * Signals don't end it; if SIGPIPE isn't ignored, it ends the program. */
static inline int ticurses_send(ticurses *session, int fd) {
    char piece[4096];
    size_t taken, sent;
    if (!session) {
        errno = EINVAL;
        return -1;
    }
    while ((taken = ticurses_output(session, piece, sizeof piece)) > 0) {
        for (sent = 0; sent < taken;) {
            ssize_t now = write(fd, piece + sent, taken - sent);
            if (now > 0) {
                sent += (size_t)now;
            } else if (now < 0 && ticurses_is_full(errno)) {
                struct pollfd room = {fd, POLLOUT, 0};
                poll(&room, 1, -1);
            } else if (now == 0 || errno != EINTR) {
                int error = now == 0 ? EIO : errno;
                ticurses_lost(session);
                errno = error;
                return -1;
            }
        }
    }
    return 0;
}

#ifdef __cplusplus
#ifdef __GNUC__
#pragma GCC diagnostic pop
#endif
}
#endif
#endif
