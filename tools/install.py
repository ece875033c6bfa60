#!/usr/bin/env python3
"""Builds the libraries for C and Python, and installs them; with the word `uninstall` it removes what an install with
the same words has placed.

    ./install [uninstall] [PREFIX=/usr/local] [DESTDIR=] [LIBDIR=PREFIX/lib] [PYTHONDIR=..]

Without PREFIX it is /usr/local. Files go below DESTDIR, but are made for PREFIX: the headers, libticurses.a,
libticurses.so, ticurses.pc for pkg-config, the same of ticurses-terminfo, ticurses-curses and ticurses-tinfo, the
drop-in for ncurses' libtinfo, the manual pages, and the Python package, in the folder below PREFIX in which python3 looks for packages. The program comes along where it is
built. CC, AR and OBJCOPY are the C compiler, the archiver and the copier of objects, cc, ar and objcopy if they aren't
set.

The status is 0, 1 if a file could not be written, 2 for other words than these and for folders that a .pc file can't
have, 125 if a crate, the compiler or the archiver failed, 127 without one of them, and 128 and the number of a signal
that ended it."""

import contextlib
import os
import re
import shutil
import site
import sys
import sysconfig
import tempfile

import build
import curses_library as curses
import tinfo_library as tinfo
from crates import TOP
from ending import Ended, heed, say, why
from linking import Failed
from sources import LIBRARIES, LIBRARY, PROVED, TERMINFO
from version import SONAME, TERMINFO_SONAME, VERSION

PKGCONFIG = """prefix={prefix}
includedir=${{prefix}}/include
libdir={libdir}

Name: ticurses
Description: Curses sessions with a proved refresh
Version: {version}
Cflags: -I${{includedir}}
Libs: -L${{libdir}}{found} -lticurses
"""
TERMINFO_PKGCONFIG = """prefix={prefix}
includedir=${{prefix}}/include
libdir={libdir}

Name: ticurses-terminfo
Description: Terminfo entries and a proved expansion of their strings
Version: {version}
Cflags: -I${{includedir}}
Libs: -L${{libdir}}{found} -lticurses_terminfo
"""
# where programs find shared libraries by themselves; elsewhere a program gets the path
KNOWN = ("/lib", "/usr/lib")
HEADERS = ("ticurses.h", "ticurses_calls.h", "ticurses_terminal.h", "ticurses_terminfo.h")
PAGES = ("ticurses.1", "ticurses.3", "ticurses-calls.3", "ticurses-curses.3", "ticurses-tinfo.3", "ticurses-script.5")
WORDS = ("PREFIX", "DESTDIR", "LIBDIR", "PYTHONDIR")
BINDING = f"{TOP}/bindings/python/ticurses"
# where the Python package looks for the libraries
INSTALLED = '''"""Where the libraries are installed, as ./install wrote it."""

LIBRARY: str = {path!r}
TERMINFO: str = {terminfo!r}
'''


def installed(libdir):
    """The text of the Python package that names the folder of the libraries."""
    return INSTALLED.format(path=f"{libdir}/{SONAME}", terminfo=f"{libdir}/{TERMINFO_SONAME}")


def package_files():
    """The files of the Python package, as paths in it; not the one that ./install writes."""
    found = []
    for at, folders, names in os.walk(BINDING):
        folders[:] = sorted(set(folders) - {"__pycache__"})
        found += [os.path.relpath(f"{at}/{it}", BINDING) for it in sorted(names) if it.endswith((".py", "py.typed"))]
    return [it for it in found if it != "_installed.py"]


class Where:
    """The folders, by the words and the environment."""

    def __init__(self, words, environment):
        given = dict(it.split("=", 1) for it in words if "=" in it)
        if len(given) < len(words) or not set(given) <= set(WORDS):
            raise Failed(2, f"usage: ./install [uninstall] {' '.join(f'[{it}=FOLDER]' for it in WORDS)}")
        found = {it: given.get(it, environment.get(it, "")) for it in WORDS}
        self.destination, self.prefix = found["DESTDIR"], os.path.abspath(found["PREFIX"] or "/usr/local")
        self.libdir = os.path.abspath(found["LIBDIR"] or f"{self.prefix}/lib")
        self.python = os.path.abspath(found["PYTHONDIR"] or python_folder(self.prefix))
        for name, folder in (("PREFIX", self.prefix), ("LIBDIR", self.libdir)):
            # a shell, pkg-config and the linker read them without quotes
            if not re.fullmatch(r"[\w/.+@=~-]*", folder):
                raise Failed(2, f"{name} is {folder!r}; a name there may have letters, digits and _ . + @ = ~ - alone")

    def is_known(self):
        """Whether programs find the libraries by themselves."""
        return self.libdir in KNOWN

    def pkgconfig(self, form):
        """The text of a .pc file of this form."""
        libdir, prefix = self.libdir, self.prefix.rstrip("/")
        if libdir.startswith(f"{prefix}/"):
            libdir = f"${{prefix}}{libdir[len(prefix) :]}"
        found = "" if self.is_known() else " -Wl,-rpath,${libdir}"
        return form.format(prefix=prefix, libdir=libdir, version=VERSION, found=found)


def python_folder(prefix):
    """The folder below the prefix in which this Python looks for packages; where there is none, the usual one."""
    for folder in site.getsitepackages():
        if os.path.relpath(folder, prefix).startswith("lib"):
            return folder
    return sysconfig.get_path("purelib", "posix_prefix", {"base": prefix, "platbase": prefix})


class File:
    """A file to install: where it goes, what it holds (a path, or a text) and its mode."""

    def __init__(self, at, path=None, text=None, mode=0o644):
        self.at, self.path, self.text, self.mode = at, path, text, mode

    def place(self):
        """Writes the file, which replaces an older one at once."""
        folder = os.path.dirname(self.at)
        os.makedirs(folder, exist_ok=True)
        # a new file, whatever other users have put there
        descriptor, new = tempfile.mkstemp(prefix=".ticurses-", dir=folder)
        try:
            with open(descriptor, "wb") as file:
                file.write(self.held())
                os.fchmod(file.fileno(), self.mode)
            os.replace(new, self.at)
        except BaseException:
            os.remove(new)
            raise
        print(f"install: {self.at}")

    def held(self):
        if self.path is None:
            return self.text.encode("utf-8", "surrogateescape")
        with open(self.path, "rb") as file:
            return file.read()


def compiled_files(where, room="."):
    """The files of the libraries of curses.h and of term.h, which are in the room."""
    top, libdir = f"{where.destination}{where.prefix}", f"{where.destination}{where.libdir}"
    headers = dict.fromkeys((*curses.HEADERS, *tinfo.HEADERS))
    found = [File(f"{top}/include/ticurses/{it}", f"{curses.INCLUDE}/{it}") for it in headers]
    for library, name in ((curses, "curses"), (tinfo, "tinfo")):
        found.append(File(f"{libdir}/{library.ARCHIVE}", f"{room}/{library.ARCHIVE}"))
        found.append(File(f"{libdir}/{library.SONAME}", f"{room}/{library.SONAME}", mode=0o755))
        found.append(File(f"{libdir}/pkgconfig/ticurses-{name}.pc", text=where.pkgconfig(library.PKGCONFIG)))
    found.append(File(f"{libdir}/{tinfo.DROP_IN_FOLDER}/{tinfo.DROP_IN}", f"{room}/{tinfo.DROP_IN}", mode=0o755))
    return found


def files(where):
    """All files but those that are compiled from C and the program, in the order in which they are placed."""
    top, libdir = f"{where.destination}{where.prefix}", f"{where.destination}{where.libdir}"
    package = f"{where.destination}{where.python}/ticurses"
    found = [File(f"{top}/include/{it}", f"{TOP}/include/{it}") for it in HEADERS]
    for made in LIBRARIES:
        archive, shared = (File(f"{libdir}/{os.path.basename(it)}", it) for it in made.files)
        shared.mode = 0o755
        found += [archive, shared]
    for name, form in (("ticurses", PKGCONFIG), ("ticurses-terminfo", TERMINFO_PKGCONFIG)):
        found.append(File(f"{libdir}/pkgconfig/{name}.pc", text=where.pkgconfig(form)))
    for page in PAGES:
        found.append(File(f"{top}/share/man/man{page[-1]}/{page}", f"{TOP}/man/{page}"))
    found += [File(f"{package}/{it}", f"{BINDING}/{it}") for it in package_files()]
    found.append(File(f"{package}/_installed.py", text=installed(where.libdir)))
    return found


def program(where):
    return File(f"{where.destination}{where.prefix}/bin/ticurses", PROVED.files[0], mode=0o755)


def links(where):
    """The links by which -lticurses and the like find the shared libraries, and where they lead."""
    libdir = f"{where.destination}{where.libdir}"
    return {f"{libdir}/{it.partition('.so')[0]}.so": it for it in (SONAME, TERMINFO_SONAME, curses.SONAME, tinfo.SONAME)}


def compiled(where, room):
    """The files of the libraries of curses.h and of term.h, compiled into the room; none where there is no compiler."""
    searched = "" if where.is_known() else "$ORIGIN"
    try:
        tinfo.built(room, *TERMINFO.files, searched)
        curses.built(room, [LIBRARY.files[1], f"{room}/{tinfo.SONAME}"], searched)
    except Failed as failed:
        if failed.status != 127:
            raise
        print(f"install: {failed}, and the libraries of <ticurses/curses.h> and <ticurses/term.h> are left out")
        return []
    return compiled_files(where, room)


def install(where):
    """Places all files."""
    # what is installed is for all users
    os.umask(0o022)
    with tempfile.TemporaryDirectory() as room:
        placed = files(where) + compiled(where, room)
        if PROVED.is_current():
            placed.append(program(where))
        else:
            print("install: the program isn't built (./build makes it), and is left out")
        for file in placed:
            file.place()
    for at, to in links(where).items():
        if not os.path.exists(f"{os.path.dirname(at)}/{to}"):
            continue
        if os.path.lexists(at):
            os.remove(at)
        os.symlink(to, at)
        print(f"install: {at}")


def uninstall(where):
    """Removes the files that `install` places. A missing file is no error."""
    package = f"{where.destination}{where.python}/ticurses"
    modules = sorted({os.path.dirname(f"{package}/{it}") for it in package_files()}, key=len, reverse=True)
    for at in [*(it.at for it in files(where) + compiled_files(where)), program(where).at, *links(where)]:
        if os.path.lexists(at):
            os.remove(at)
            print(f"install: {at} is removed")
    for folder in modules:
        shutil.rmtree(f"{folder}/__pycache__", ignore_errors=True)
    # a folder that has files of others stays
    libdir = f"{where.destination}{where.libdir}"
    folders = [f"{libdir}/{tinfo.DROP_IN_FOLDER}", f"{libdir}/{os.path.dirname(tinfo.DROP_IN_FOLDER)}"]
    for folder in (*modules, f"{where.destination}{where.prefix}/include/ticurses", *folders):
        with contextlib.suppress(OSError):
            os.rmdir(folder)


def brought():
    """Has the libraries built; returns the status."""
    try:
        return build.bring_libraries()
    except OSError as error:
        raise Failed(125, f"the libraries can't be built here: {why(error)}") from error


def main():
    heed()
    try:
        if sys.argv[1:2] == ["uninstall"]:
            uninstall(Where(sys.argv[2:], os.environ))
            return 0
        where = Where(sys.argv[1:], os.environ)
        status = brought()
        if not status:
            install(where)
        return status
    except Ended as ended:
        say("install: stopped")
        return ended.status
    except Failed as failed:
        say(f"install: {failed}")
        return failed.status
    except OSError as error:
        say(f"install: {why(error)}")
        return 1


if __name__ == "__main__":
    sys.exit(main())
