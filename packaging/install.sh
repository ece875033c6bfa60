#!/bin/sh
# Installs what is in this folder, or removes it again:
#   ./install.sh [uninstall] [PREFIX=/usr/local] [DESTDIR=] [PYTHONDIR=..]
# Files go below DESTDIR, but are made for PREFIX. PYTHONDIR is where python3 looks for packages; without python3 it is
# PREFIX/lib/python3/dist-packages. The status is 0, 1 if a file can't be written, 2 for other words than these.
set -eu
umask 022
here=$(CDPATH= cd -- "$(dirname -- "$0")" && pwd -P)
PREFIX=/usr/local DESTDIR= PYTHONDIR= does=install

usage() {
    echo "usage: ./install.sh [uninstall] [PREFIX=FOLDER] [DESTDIR=FOLDER] [PYTHONDIR=FOLDER]" >&2
    exit 2
}

for word; do
    case $word in
    uninstall) does=uninstall ;;
    PREFIX=*) PREFIX=${word#*=} ;;
    DESTDIR=*) DESTDIR=${word#*=} ;;
    PYTHONDIR=*) PYTHONDIR=${word#*=} ;;
    *) usage ;;
    esac
done

# a shell, pkg-config and the linker read it without quotes
case $PREFIX in
/*[!A-Za-z0-9_./+@=~-]*)
    echo "install.sh: PREFIX may have letters, digits and _ . / + @ = ~ - alone" >&2
    exit 2
    ;;
/*) ;;
*) usage ;;
esac

# the folder in which python3 looks for packages, one below the prefix where there is one
if [ -z "$PYTHONDIR" ]; then
    PYTHONDIR=$PREFIX/lib/python3/dist-packages
    if command -v python3 >/dev/null 2>&1; then
        PYTHONDIR=$(python3 -IBc 'import os, site, sys, sysconfig
prefix = sys.argv[1]
below = [it for it in site.getsitepackages() if os.path.relpath(it, prefix).startswith("lib")]
print(below[0] if below else sysconfig.get_path("purelib", "posix_prefix", {"base": prefix, "platbase": prefix}))' "$PREFIX")
    fi
fi

# where a file of this folder goes
place_of() {
    case $1 in
    python/*) printf '%s\n' "$DESTDIR$PYTHONDIR/${1#python/}" ;;
    *) printf '%s\n' "$DESTDIR$PREFIX/$1" ;;
    esac
}

library=$PREFIX/lib/libticurses.so.@MAJOR@
terminfo=$PREFIX/lib/libticurses_terminfo.so.@MAJOR@
files=$(cd -- "$here" && find bin include lib python share \( -type f -o -type l \) | LC_ALL=C sort)

if [ "$does" = uninstall ]; then
    for file in $files lib/pkgconfig/ticurses.pc lib/pkgconfig/ticurses-terminfo.pc lib/pkgconfig/ticurses-tinfo.pc \
        lib/pkgconfig/ticurses-curses.pc; do
        rm -f -- "$(place_of "$file")"
    done
    shared=$DESTDIR$PREFIX/share/ticurses
    rm -rf -- "$DESTDIR$PYTHONDIR/ticurses/__pycache__" "$DESTDIR$PYTHONDIR/ticurses/curses/__pycache__" \
        "$shared/second/__pycache__" "$shared/conform/__pycache__" "$shared/vectors/__pycache__"
    for folder in "$DESTDIR$PYTHONDIR/ticurses/curses" "$DESTDIR$PYTHONDIR/ticurses" \
        "$shared/second" "$shared/conform" "$shared/vectors" "$shared/certificates" "$shared" \
        "$DESTDIR$PREFIX/share/doc/ticurses/examples/c" \
        "$DESTDIR$PREFIX/share/doc/ticurses/examples/curses" "$DESTDIR$PREFIX/share/doc/ticurses/examples/python" \
        "$DESTDIR$PREFIX/share/doc/ticurses/examples" \
        "$DESTDIR$PREFIX/share/doc/ticurses" "$DESTDIR$PREFIX/include/ticurses" \
        "$DESTDIR$PREFIX/lib/ticurses/tinfo6" "$DESTDIR$PREFIX/lib/ticurses"; do
        # one that has files of others stays
        rmdir -- "$folder" 2>/dev/null || :
    done
    echo "install.sh: ticurses is removed from $DESTDIR$PREFIX"
    exit 0
fi

# puts a file in its place at once: its name, and where it is
put() {
    at=$(place_of "$1")
    mkdir -p -- "$(dirname -- "$at")"
    # a new file, whatever is in its place
    new=$(mktemp "$(dirname -- "$at")/.ticurses-XXXXXX")
    if [ -L "$2" ]; then
        rm -f -- "$new"
        ln -s -- "$(readlink -- "$2")" "$new"
    else
        cat -- "$2" >"$new"
        if [ -x "$2" ]; then chmod 755 "$new"; else chmod 644 "$new"; fi
    fi
    mv -fT -- "$new" "$at"
}

for file in $files; do
    put "$file" "$here/$file"
done

made=$(mktemp)
trap 'rm -f -- "$made"' EXIT
found=" -Wl,-rpath,\${libdir}"
case $PREFIX in /usr | /) found= ;; esac
# a .pc file: its name, what it describes, the folder of its headers, its libraries and what it requires
configure() {
    cat >"$made" <<END
prefix=$PREFIX
includedir=\${prefix}/include
libdir=\${prefix}/lib

Name: $1
Description: $2
Version: @VERSION@${5:+
Requires: $5}
Cflags: -I\${includedir}$3
Libs: -L\${libdir}$found $4
END
    put "lib/pkgconfig/$1.pc" "$made"
}
configure ticurses "Curses sessions with a proved refresh" "" -lticurses
configure ticurses-terminfo "Terminfo entries and a proved expansion of their strings" "" -lticurses_terminfo
configure ticurses-tinfo "terminfo and termcap over a proved expansion of parameter strings" /ticurses \
    "-lticurses_tinfo -lticurses_terminfo"
configure ticurses-curses "X/Open Curses over sessions with a proved refresh" /ticurses "-lticurses_curses -lticurses" \
    ticurses-tinfo
printf '"""Where the libraries are installed, as install.sh wrote it."""\n\nLIBRARY: str = "%s"\nTERMINFO: str = "%s"\n' \
    "$library" "$terminfo" >"$made"
put python/ticurses/_installed.py "$made"
echo "install.sh: ticurses @VERSION@ is installed in $DESTDIR$PREFIX, its Python package in $DESTDIR$PYTHONDIR"
