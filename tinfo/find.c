/* The file of a terminal's entry, which is sought where ncurses seeks it. */
#define _GNU_SOURCE /* for secure_getenv */
#include "private.h"

#include <errno.h>
#include <fcntl.h>
#include <stdio.h>
#include <stdlib.h>
#include <string.h>
#include <sys/stat.h>
#include <unistd.h>

/* The system's folders, and the one that an empty item of TERMINFO_DIRS stands for. */
static const char known[] = "/etc/terminfo:/lib/terminfo:/usr/share/terminfo";
static const char usual[] = "/etc/terminfo";

/* A search: what is sought, and what was met on the way. */
struct search {
    TERMINAL *terminal;
    const char *name;
    bool has_database;
};

/* Reads up to `len` bytes of a file. Returns their number; 0 if they can't be read. */
static size_t read_up_to(int file, char *room, size_t len) {
    size_t got = 0;
    ssize_t now;
    do {
        now = read(file, room + got, len - got);
        if (now > 0) got += (size_t)now;
    } while ((now > 0 && got < len) || (now < 0 && errno == EINTR));
    return now < 0 ? 0 : got;
}

/* The bytes of a file of at most TINFO_ENTRY_MAX, and a zero byte; null if it is longer, no file, or can't be read. */
static char *bytes_of(const char *path, size_t *len) {
    struct stat found;
    char *bytes = NULL;
    int file = open(path, O_RDONLY | O_NONBLOCK | O_NOCTTY | O_CLOEXEC);
    if (file < 0) return NULL;
    if (fstat(file, &found) == 0 && S_ISREG(found.st_mode) && found.st_size <= TINFO_ENTRY_MAX)
        bytes = malloc((size_t)found.st_size + 1);
    if (bytes) {
        *len = read_up_to(file, bytes, (size_t)found.st_size);
        bytes[*len] = 0;
    }
    close(file);
    return bytes;
}

/* Reads the entry from the file at this path. A faulty file counts as absent. */
static bool read_file(struct search *search, const char *path) {
    size_t len;
    char *bytes = bytes_of(path, &len);
    if (bytes && tinfo_read(search->terminal, bytes, len)) return true;
    free(bytes);
    return false;
}

/* Reads the entry from FOLDER/x/NAME or FOLDER/78/NAME, x being the first letter of the name and 78 its code. */
static bool read_in(struct search *search, const char *folder, size_t folder_len) {
    const char *name = search->name;
    size_t name_len = strlen(name);
    char path[4096], *at = path + folder_len;
    struct stat found;
    if (folder_len + name_len + sizeof "/78/" > sizeof path) return false;
    memcpy(path, folder, folder_len);
    *at = 0;
    if (stat(path, &found) != 0) return false;
    search->has_database = true;
    at[0] = at[2] = '/';
    at[1] = name[0];
    memcpy(at + 3, name, name_len + 1);
    if (read_file(search, path)) return true;
    at[1] = "0123456789abcdef"[(unsigned char)name[0] >> 4];
    at[2] = "0123456789abcdef"[name[0] & 15];
    at[3] = '/';
    memcpy(at + 4, name, name_len + 1);
    return read_file(search, path);
}

/* Reads the entry from the first of these folders that has it; their names have colons between them. */
static bool read_below(struct search *search, const char *folders) {
    while (folders) {
        size_t len = strcspn(folders, ":");
        const char *folder = len > 0 ? folders : usual;
        if (read_in(search, folder, len > 0 ? len : strlen(usual))) return true;
        folders = folders[len] ? folders + len + 1 : NULL;
    }
    return false;
}

int tinfo_find(TERMINAL *terminal, const char *name) {
    struct search search = {terminal, name, false};
    /* a program with rights that its user lacks reads no file that the user names */
    const char *own = secure_getenv("TERMINFO"), *home = secure_getenv("HOME"), *list = secure_getenv("TERMINFO_DIRS");
    char folder[4096];
    if (!*name || strcmp(name, ".") == 0 || strcmp(name, "..") == 0 || strpbrk(name, "/:")) return 0;
    if (own && *own && read_in(&search, own, strlen(own))) return 1;
    if (home) {
        int len = snprintf(folder, sizeof folder, "%s/.terminfo", home);
        if (len > 0 && (size_t)len < sizeof folder && read_in(&search, folder, (size_t)len)) return 1;
    }
    if (list && *list && read_below(&search, list)) return 1;
    if (read_below(&search, known)) return 1;
    return search.has_database ? 0 : -1;
}
