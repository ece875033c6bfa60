"""Links both forms of a library for C, as libticurses.a and the shared one, from what the toolchain leaves of its
crate."""

import os
import shutil
import subprocess
import tempfile

# what a program may link, and no other symbol of the archive; so a program may link several of the libraries, each with
# its own copy of what lies below
EXPORTED = "{ global: ticurses_raw_*; local: *; };\n"
# the compiler, the archiver and the copier of objects: the variable that names each, and its usual name
TOOLS = (("CC", "cc"), ("AR", "ar"), ("OBJCOPY", "objcopy"))


class Failed(Exception):
    """A step that failed: the status of the whole, and what is said."""

    def __init__(self, status, text):
        super().__init__(text)
        self.status = status


def run(words, **how):
    """Runs a program, whose output is returned."""
    if not shutil.which(words[0]):
        raise Failed(127, f"{words[0]} is missing")
    ran = subprocess.run(words, stdin=subprocess.DEVNULL, stdout=subprocess.PIPE, text=True, **how)
    if ran.returncode:
        raise Failed(125, f"{' '.join(words)} failed, with status {ran.returncode}")
    return ran.stdout


def kit():
    """The folder of the toolchain, which has the allocator that the archive is linked with."""
    return os.path.dirname(run(["rt", "doc"]).split()[0])


def link(made):
    """Makes both forms, where they belong."""
    with tempfile.TemporaryDirectory() as room:
        _link_in(room, made)
        for file in made.files:
            os.makedirs(os.path.dirname(file), exist_ok=True)
            shutil.copy2(f"{room}/{os.path.basename(file)}", f"{file}.new")
            os.replace(f"{file}.new", file)


def _link_in(room, made):
    archive, shared = map(os.path.basename, made.files)
    whole = f"{archive.removeprefix('lib')[:-2]}.o"
    compiler, archiver, copier = (os.environ.get(it) or other for it, other in TOOLS)
    # names without a path, since a linker's script and a message of it have them
    shutil.copy(f"{made.out}/lib{made.crate}.a", f"{room}/{made.crate}.a")
    shutil.copy(f"{kit()}/c/liblibc_c.a", f"{room}/libc_c.a")
    with open(f"{room}/exported", "w", encoding="ascii") as file:
        file.write(EXPORTED)
    parts = ["-Wl,--whole-archive", f"{made.crate}.a", "libc_c.a", "-Wl,--no-whole-archive"]
    run([*compiler.split(), "-r", "-nostdlib", "-o", whole, *parts], cwd=room)
    # a program that links the archive may have any name but the library's
    run([*copier.split(), "--wildcard", "--keep-global-symbol=ticurses_raw_*", whole], cwd=room)
    run([*archiver.split(), "rcsD", archive, whole], cwd=room)
    words = ["-shared", f"-Wl,-soname,{shared}", "-Wl,--version-script,exported", "-o", shared]
    run([*compiler.split(), *words, whole], cwd=room)
