#!/usr/bin/env python3
"""Makes a Debian package and a .tar.gz of the proved program and of the library for C and Python.

    ./package [FOLDER]

They go to FOLDER, or to out/. Nothing is proved that is proved already: the program and the library are taken as they
are, as they were kept, or as ./build and ./install build them. Packages of equal sources have equal bytes: files are
sorted, belong to root, and are as old as $SOURCE_DATE_EPOCH says, or else as the last commit, or else as the first of
January 2026. Both have the toolchain's verdict on each crate (PROVED), the checksums of what was proved (SHA256SUMS),
certificates of well-known entries, the second verifier, and conform with its vectors. The status is 0, 1 if a file
could not be written, 125 if a crate or a tool failed, 127 without a tool, 2 for other words."""

import contextlib
import gzip
import hashlib
import io
import lzma
import os
import re
import subprocess
import sys
import tarfile
import tempfile
import time

import build
import certificates
import curses_library as curses
import kept
import tinfo_library as tinfo
import verdicts
from crates import TOP
from ending import Ended, heed, say, why
from install import BINDING, HEADERS, PKGCONFIG, TERMINFO_PKGCONFIG, installed, package_files
from linking import Failed, run
from sources import LIBRARIES, LIBRARY, PROVED, TERMINFO
from version import SONAME, TERMINFO_SONAME, VERSION

PACKAGING = f"{TOP}/packaging"
MULTIARCH = "x86_64-linux-gnu"
NAME = f"ticurses-{VERSION}-{MULTIARCH}"
DEBIAN = f"ticurses_{VERSION}_amd64.deb"
MAINTAINER = "Tayraniello maintainers <maintainers@users.noreply.tayraniello.example>"
DOC, SHARED = "share/doc/ticurses", "share/ticurses"
# folders of the sources that are in share/ticurses as they are, by their names there
FOLDERS = {"second": "tools/second", "conform": "tools/conform", "vectors": "vectors"}
# the packages of Debian that have the shared libraries
PACKAGED = {"libc.so.6": "libc6", "libm.so.6": "libc6", "ld-linux-x86-64.so.2": "libc6", "libgcc_s.so.1": "libgcc-s1"}


def read(path):
    with open(path, "rb") as file:
        return file.read()


def epoch():
    """How old the files are."""
    given = os.environ.get("SOURCE_DATE_EPOCH", "")
    if re.fullmatch(r"\d{1,11}", given):
        return int(given)
    with contextlib.suppress(OSError, subprocess.CalledProcessError, ValueError):
        words = ["git", "-C", TOP, "log", "-1", "--format=%ct"]
        return int(subprocess.run(words, stdin=subprocess.DEVNULL, capture_output=True, check=True).stdout)
    return 1767225600


def stripped(path):
    """A program or a library without what only a debugger reads."""
    with tempfile.TemporaryDirectory() as room:
        run(["strip", "--strip-unneeded", "-o", f"{room}/stripped", path])
        return read(f"{room}/stripped")


def needs(path):
    """The shared libraries that a file needs, and the newest glibc whose symbols it names."""
    text = run(["objdump", "-p", path], env={**os.environ, "LC_ALL": "C"})
    versions = [tuple(map(int, it.split("."))) for it in re.findall(r"\bGLIBC_([\d.]+)", text)]
    return set(re.findall(r"NEEDED\s+(\S+)", text)), max(versions, default=(2, 2))


class Tree:
    """The files of a package, by their paths: their content and their modes; the content of a link is its target."""

    def __init__(self):
        self.files, self.links = {}, {}

    def add(self, path, held, mode=0o644):
        self.files[path] = (held if isinstance(held, bytes) else held.encode("utf-8", "surrogateescape"), mode)

    def tar(self, top, age):
        """An archive of all, with the folders above each, in the order of the paths."""
        paths = {*self.files, *self.links}
        folders = {"/".join(it.split("/")[:at]) for it in paths for at in range(1, it.count("/") + 1)}
        held = io.BytesIO()
        with tarfile.open(fileobj=held, mode="w", format=tarfile.USTAR_FORMAT) as archive:
            for path in sorted({"", *folders, *paths}):
                entry = tarfile.TarInfo(f"{top}/{path}".rstrip("/") if path else top)
                entry.mtime, entry.uname, entry.gname = age, "root", "root"
                if path in self.files:
                    data, entry.mode = self.files[path]
                    entry.size = len(data)
                    archive.addfile(entry, io.BytesIO(data))
                elif path in self.links:
                    entry.type, entry.linkname, entry.mode = tarfile.SYMTYPE, self.links[path], 0o777
                    archive.addfile(entry)
                else:
                    entry.type, entry.mode = tarfile.DIRTYPE, 0o755
                    archive.addfile(entry)
        return held.getvalue()


def zipped(held, age=0):
    """Bytes as gzip has them, without a name and with this age."""
    packed = io.BytesIO()
    with gzip.GzipFile(filename="", mode="wb", compresslevel=9, fileobj=packed, mtime=age) as file:
        file.write(held)
    return packed.getvalue()


class Compiled:
    """The libraries of curses.h and of term.h, whose shared forms look for the proved ones where this says."""

    def __init__(self, searched):
        with tempfile.TemporaryDirectory() as room:
            tinfo.built(room, *TERMINFO.files, searched)
            curses.built(room, [LIBRARY.files[1], f"{room}/{tinfo.SONAME}"], searched)
            self.archives = {it.ARCHIVE: read(f"{room}/{it.ARCHIVE}") for it in (curses, tinfo)}
            self.shared = {it.SONAME: stripped(f"{room}/{it.SONAME}") for it in (curses, tinfo)}
            self.drop_in = stripped(f"{room}/{tinfo.DROP_IN}")


class Proved:
    """The program and the libraries, what the toolchain said of them, and the checksums of what was proved."""

    def __init__(self):
        self.program = stripped(PROVED.files[0])
        self.archives = {os.path.basename(it.files[0]): read(it.files[0]) for it in LIBRARIES}
        self.shared = {os.path.basename(it.files[1]): stripped(it.files[1]) for it in LIBRARIES}
        libraries, versions = zip(*(needs(it) for it in (PROVED.files[0], *(it.files[1] for it in LIBRARIES))))
        self.libraries, self.glibc = set().union(*libraries), ".".join(map(str, max(versions)))
        all_made = (PROVED, *LIBRARIES)
        sources = [it.sources() for it in all_made]
        said = [verdicts.read(it, own) for it, own in zip(all_made, sources)]
        self.verdicts = "".join(dict.fromkeys(line for lines in said for line in lines))
        self.certificates = certificates.files(PROVED.files[0], zipped)
        self.sums = "".join(
            sorted({line for it in sources for line in it.splitlines(True)}, key=lambda it: it.split("  ", 1)[1])
        )

    def depends(self):
        """The packages of Debian that have the shared libraries."""
        unknown = self.libraries - PACKAGED.keys()
        if unknown:
            raise Failed(125, f"no package is known that has {', '.join(sorted(unknown))}")
        names = {PACKAGED[it] for it in self.libraries}
        return ", ".join(f"libc6 (>= {self.glibc})" if it == "libc6" else it for it in sorted(names))


def add_libraries(tree, libdir, made):
    """Both forms of libraries, and the links to the shared ones."""
    for name, held in {**made.archives, **made.shared}.items():
        tree.add(f"{libdir}/{name}", held)
    for name in made.shared:
        tree.links[f"{libdir}/{name.partition('.so')[0]}.so"] = name


def add_compiled(tree, prefix, libdir, searched):
    """The libraries of curses.h and of term.h, the drop-in, and the headers."""
    made = Compiled(searched)
    for header in (*curses.HEADERS, *tinfo.HEADERS):
        tree.add(f"{prefix}include/ticurses/{header}", read(f"{curses.INCLUDE}/{header}"))
    add_libraries(tree, libdir, made)
    tree.add(f"{libdir}/{tinfo.DROP_IN_FOLDER}/{tinfo.DROP_IN}", made.drop_in)


def add_shared(tree, proved, at):
    """The files that need no library: certificates, the second verifier, conform and its vectors."""
    for name, folder in FOLDERS.items():
        for file in sorted(os.listdir(f"{TOP}/{folder}")):
            if os.path.isfile(f"{TOP}/{folder}/{file}"):
                mode = 0o755 if (name, file) == ("second", "verify.py") else 0o644
                tree.add(f"{at}/{name}/{file}", read(f"{TOP}/{folder}/{file}"), mode)
    for file, held in proved.certificates.items():
        tree.add(f"{at}/certificates/{file}", held)
    count = sum(file.endswith(".ti") for file in proved.certificates)
    tree.add(f"{at}/certificates/README", filled("certificates/README", COUNT=str(count)))


def add_common(tree, proved, prefix, libdir, python, pages_zipped):
    """The files of both packages, below a prefix."""
    tree.add(f"{prefix}bin/ticurses", proved.program, 0o755)
    for header in HEADERS:
        tree.add(f"{prefix}include/{header}", read(f"{TOP}/include/{header}"))
    add_libraries(tree, libdir, proved)
    for name in ("_installed.py", *package_files()):
        tree.add(f"{python}/ticurses/{name}", read(f"{BINDING}/{name}"))
    for page in sorted(os.listdir(f"{TOP}/man")):
        held, ending = read(f"{TOP}/man/{page}"), ""
        if pages_zipped:
            held, ending = zipped(held), ".gz"
        tree.add(f"{prefix}share/man/man{page[-1]}/{page}{ending}", held)
    add_shared(tree, proved, f"{prefix}{SHARED}")
    for at, _, names in os.walk(f"{TOP}/examples"):
        for name in names:
            path = os.path.relpath(f"{at}/{name}", TOP)
            tree.add(f"{prefix}{DOC}/{path}", read(f"{TOP}/{path}"), 0o644)


def tarball(proved, age):
    """The archive that installs itself."""
    tree = Tree()
    add_common(tree, proved, "", "lib", "python", False)
    add_compiled(tree, "", "lib", "$ORIGIN")
    names = ["bin/ticurses", *(it for it in tree.files if re.match(r"lib/.*(\.a|\.so\.\d+)$", it))]
    made = [(name, tree.files[name][0]) for name in names]
    tree.add(f"{DOC}/PROVED", proved.verdicts)
    tree.add(f"{DOC}/SHA256SUMS", proved.sums)
    tree.add(f"{DOC}/BUILT", "".join(f"{hashlib.sha256(held).hexdigest()}  {name}\n" for name, held in made))
    tree.add(f"{DOC}/NEWS.md", read(f"{TOP}/NEWS.md"))
    tree.add(f"{DOC}/LICENSE", read(f"{TOP}/LICENSE"))
    tree.add("README", filled("README", GLIBC=proved.glibc))
    tree.add("install.sh", filled("install.sh", MAJOR=VERSION.split(".")[0]), 0o755)
    return zipped(tree.tar(NAME, age), age)


def filled(name, **words):
    """A file of packaging/ with its words filled in."""
    text = read(f"{PACKAGING}/{name}").decode()
    for word, given in {"VERSION": VERSION, **words}.items():
        text = text.replace(f"@{word}@", given)
    return text


def changelog(age):
    """The changelog in Debian's form."""
    day = time.strftime("%a, %d %b %Y %H:%M:%S +0000", time.gmtime(age))
    return f"ticurses ({VERSION}) unstable; urgency=medium\n\n  * NEWS.md has what is new.\n\n -- {MAINTAINER}  {day}\n"


def copyright_text():
    """The license in Debian's form."""
    own, of_ncurses = license_in(read(f"{TOP}/LICENSE").decode()), license_in(certificates.heading())
    return (
        "Format: https://www.debian.org/doc/packaging-manuals/copyright-format/1.0/\nUpstream-Name: ticurses\n\n"
        f"Files: *\nCopyright: {own[0]}\nLicense: Expat\n\n"
        f"Files: {SHARED}/certificates/*\nCopyright: {of_ncurses[0]}\nLicense: X11\n\n"
        f"License: Expat\n{own[1]}\nLicense: X11\n{of_ncurses[1]}"
    )


def license_in(text):
    """The holders and the terms of a license, as Debian writes them."""
    holders = "\n ".join(re.findall(r"^Copyright (?:\(c\) )?(.*)$", text, re.M))
    lines = text[text.index("Permission is hereby") :].strip().splitlines()
    return holders, "".join(f" {line}\n" if line.strip() else " .\n" for line in lines)


def debian(proved, age):
    """The Debian package: an archive of three members."""
    tree = Tree()
    libdir = f"usr/lib/{MULTIARCH}"
    add_common(tree, proved, "usr/", libdir, "usr/lib/python3/dist-packages", True)
    add_compiled(tree, "usr/", libdir, "")
    forms = {"ticurses": PKGCONFIG, "ticurses-terminfo": TERMINFO_PKGCONFIG, "ticurses-curses": curses.PKGCONFIG}
    forms["ticurses-tinfo"] = tinfo.PKGCONFIG
    for name, form in forms.items():
        text = form.format(prefix="/usr", libdir=f"${{prefix}}/lib/{MULTIARCH}", version=VERSION, found="")
        tree.add(f"{libdir}/pkgconfig/{name}.pc", text)
    tree.add(
        "usr/lib/python3/dist-packages/ticurses/_installed.py",
        installed(f"/{libdir}").replace("./install", "the package"),
    )
    doc = f"usr/{DOC}"
    tree.add(f"{doc}/changelog.gz", zipped(changelog(age).encode()))
    tree.add(f"{doc}/copyright", copyright_text())
    tree.add(f"{doc}/NEWS.md.gz", zipped(read(f"{TOP}/NEWS.md")))
    tree.add(f"{doc}/PROVED", proved.verdicts)
    tree.add(f"{doc}/SHA256SUMS.gz", zipped(proved.sums.encode("utf-8", "surrogateescape")))
    size = sum(len(held) for held, _ in tree.files.values())
    control = Tree()
    control.add("control", filled("control", SIZE=str(-(-size // 1024)), DEPENDS=proved.depends()))
    control.add(
        "md5sums",
        "".join(f"{hashlib.md5(held).hexdigest()}  {path}\n" for path, (held, _) in sorted(tree.files.items())),
    )
    names = [it.partition(".so")[0] for it in (SONAME, TERMINFO_SONAME, curses.SONAME, tinfo.SONAME)]
    control.add("shlibs", "".join(f"{it} {VERSION.split('.')[0]} ticurses (>= {VERSION})\n" for it in names))
    control.add("triggers", "activate-noawait ldconfig\n")
    members = [
        ("debian-binary", b"2.0\n"),
        ("control.tar.xz", lzma.compress(control.tar(".", age), preset=6)),
        ("data.tar.xz", lzma.compress(tree.tar(".", age), preset=6)),
    ]
    heads = [f"{name:<16}{age:<12}{0:<6}{0:<6}{'100644':<8}{len(held):<10}`\n".encode() for name, held in members]
    return b"!<arch>\n" + b"".join(head + held + b"\n" * (len(held) % 2) for head, (_, held) in zip(heads, members))


def is_known(made):
    """Whether what the toolchain said of what is built is here, or was kept. The gate leaves a program without it."""
    return verdicts.read(made, made.sources()) is not None or (
        kept.fetch(made) and verdicts.read(made, made.sources()) is not None
    )


def bring():
    """Has the program and the libraries, with what the toolchain said of them; returns the status."""
    for made in (PROVED, *LIBRARIES):
        status = build.bring(made)
        if not status and not is_known(made):
            # the toolchain goes over what it has kept of each crate
            with build.alone():
                status = build.built(made)
                if not status:
                    kept.keep(made)
        if status:
            return status
    return 0


def write(folder, name, held):
    """Puts a file in its place at once."""
    with open(f"{folder}/.{name}.new", "wb") as file:
        file.write(held)
    os.replace(f"{folder}/.{name}.new", f"{folder}/{name}")
    print(f"package: {folder}/{name}, {len(held)} bytes, sha256 {hashlib.sha256(held).hexdigest()}")


def made(folder):
    """Makes both packages; returns the status."""
    status = bring()
    if status:
        return status
    proved, age = Proved(), epoch()
    os.umask(0o022)
    os.makedirs(folder, exist_ok=True)
    write(folder, DEBIAN, debian(proved, age))
    write(folder, f"{NAME}.tar.gz", tarball(proved, age))
    print(
        f"package: they run on x86-64 Linux with glibc {proved.glibc} or later, and need {', '.join(sorted(proved.libraries))}"
    )
    return 0


def main():
    heed()
    if len(sys.argv) > 2 or sys.argv[1:2] and sys.argv[1].startswith("-"):
        say("usage: ./package [FOLDER]")
        return 2
    try:
        return made(sys.argv[1] if sys.argv[1:] else f"{TOP}/out")
    except Ended as ended:
        say("package: stopped")
        return ended.status
    except Failed as failed:
        say(f"package: {failed}")
        return failed.status
    except OSError as error:
        say(f"package: {why(error)}")
        return 1


if __name__ == "__main__":
    sys.exit(main())
