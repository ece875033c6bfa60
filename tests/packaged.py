"""The packages that ./package makes of the program and the library as they are built: that they are the same bytes each
time, have no path of this machine, need no toolchain, and can be removed."""

import contextlib
import gzip
import hashlib
import io
import lzma
import os
import re
import shutil
import subprocess
import sys
import tarfile
import tempfile

from linked import Terminal, fed, missing
from trying import TOP, held_in

sys.path.append(f"{TOP}/tools")

from build import is_there
from package import is_known
from sources import LIBRARIES, PROVED
from version import SONAME, VERSION

TERMINALS = f"{TOP}/examples/terminals.ti"
# the same session by a script and by the Python package
CALLS = ["newwin 1 5 20 1 2", "box 1 - -", "move 1 2 3", "attron 1 BU", "addstr 1 from a package", "refresh 1"]
IN_PYTHON = """
import os, sys
sys.path.insert(0, sys.argv[1])
import ticurses
held = open(sys.argv[2], "rb").read()
with ticurses.Session(held, 24, 80, certificate=open(sys.argv[3], "rb").read(), name="xt") as session:
    session.call(*sys.argv[4:])
    os.write(1, session.output())
    session.lost()
    os._exit(0)
"""


def hold(holds, what, *seen):
    if not holds:
        sys.exit(f"package: {what}: {seen}")


def ran(words, **how):
    done = subprocess.run(words, stdin=subprocess.DEVNULL, stdout=subprocess.PIPE, stderr=subprocess.PIPE, **how)
    hold(
        done.returncode == 0,
        f"{' '.join(map(str, words))} ended with status {done.returncode}",
        done.stdout,
        done.stderr,
    )
    return done.stdout


def kit():
    """The toolchain's folder, where there is one."""
    with contextlib.suppress(OSError, subprocess.CalledProcessError):
        return os.path.dirname(
            subprocess.run(["rt", "doc"], capture_output=True, check=True).stdout.decode().split()[0]
        )
    return None


class Bare:
    """Runs programs in an environment without the toolchain: it isn't on the PATH, and its folder is empty where this
    user may put another one in its place."""

    def __init__(self):
        self.words, folder = [], kit()
        hides = ["unshare", "--mount", "sh", "-c", 'mount -t tmpfs none "$0" && exec "$@"', str(folder)]
        if folder and shutil.which("unshare") and subprocess.run([*hides, "true"], capture_output=True).returncode == 0:
            self.words = hides
            hold(not ran([*self.words, "ls", folder]), "the toolchain's folder is not hidden")
        else:
            print(
                "package: the toolchain's folder can't be hidden here; it is off the PATH alone, and what needs more is left out"
            )

    def line(self, words, **environment):
        """The words that run a program so."""
        given = {"PATH": "/usr/bin:/bin", "HOME": "/nonexistent", "LC_ALL": "C", **environment}
        return [*self.words, "env", "-i", *(f"{key}={value}" for key, value in given.items()), *words]

    def run(self, words, **environment):
        return ran(self.line(words, **environment))


def check_needs(said):
    """README and TRUST name the glibc and the library beside it that ./package says what it made needs."""
    told = re.search(r"^package: they run on x86-64 Linux with glibc ([\d.]+) or later, and need (.+)$", said, re.M)
    hold(told, "./package doesn't say what is needed", said)
    readme, trust = held_in(f"{TOP}/README.md").decode(), held_in(f"{TOP}/docs/TRUST.md").decode()
    hold(f"on x86-64 Linux with glibc {told[1]} or later" in readme, "README names another glibc", told[1])
    row = re.search(r"^\| Linux \| (.*?) \|", trust, re.M)
    # libm and the loader belong to glibc
    others = {it.split(".so")[0] for it in told[2].split(", ")} - {"libc", "libm", "ld-linux-x86-64"}
    hold(row and {f"glibc {told[1]}", *others} <= set(row[1].split(", ")), "TRUST names others", row, told[1], others)


def make_twice(work):
    """Makes the packages twice, under another umask the second time, and gives the folder."""
    for name, umask in (("one", 0o022), ("two", 0o077)):
        check_needs(ran([f"{TOP}/package", f"{work}/{name}"], umask=umask).decode())
    names = sorted(os.listdir(f"{work}/one"))
    hold(
        names == [f"ticurses-{VERSION}-x86_64-linux-gnu.tar.gz", f"ticurses_{VERSION}_amd64.deb"], "other files", names
    )
    for name in names:
        hold(held_in(f"{work}/one/{name}") == held_in(f"{work}/two/{name}"), f"{name} has other bytes the second time")
    return [f"{work}/one/{it}" for it in names]


def unpack_debian(package, to):
    """Unpacks a Debian package without Debian's programs; gives its control file."""
    held, at, members = held_in(package), 8, {}
    while at < len(held):
        name, size = held[at : at + 16].decode().strip(), int(held[at + 48 : at + 58])
        members[name] = held[at + 60 : at + 60 + size]
        at += 60 + size + size % 2
    hold(list(members) == ["debian-binary", "control.tar.xz", "data.tar.xz"], "other members", list(members))
    with tarfile.open(fileobj=io.BytesIO(lzma.decompress(members["data.tar.xz"]))) as archive:
        hold(all(it.uid == it.gid == 0 for it in archive), "files of another owner than root")
        archive.extractall(to)
    with tarfile.open(fileobj=io.BytesIO(lzma.decompress(members["control.tar.xz"]))) as archive:
        return archive.extractfile("./control").read().decode()


def check_paths(folder):
    """No file has a path of this machine."""
    for at, _, names in os.walk(folder):
        for name in names:
            held = held_in(f"{at}/{name}")
            held = gzip.decompress(held) if name.endswith(".gz") else held
            for path in (TOP, kit() or TOP, tempfile.gettempdir() + "/ticurses"):
                hold(path.encode() not in held, f"{name} has the path {path}")


def check_program(bare, program, work):
    """The program answers, with the version that all has."""
    hold(bare.run([program, "--version"]).decode() == f"ticurses {VERSION}\n", "another version")
    certificate = f"{work}/xt.cert"
    bare.run([program, "check", f"{TERMINALS}:xt", "24", "80", "--out", certificate])
    hold(bare.run([program, "verify", f"{TERMINALS}:xt", "24", "80", certificate]) == b"yes\n", "no yes")
    return certificate


def check_python(bare, python, program, certificate, work, **environment):
    """The Python package sends what the program plays."""
    with open(f"{work}/script", "w", encoding="ascii") as file:
        file.writelines(f"{it}\n" for it in CALLS)
    played = bare.run([program, "play", f"{TERMINALS}:xt", "24", "80", certificate, f"{work}/script"])
    told = bare.run(["python3", "-Bsc", IN_PYTHON, python, TERMINALS, certificate, *CALLS], **environment)
    hold(told == played, "the Python package sends something else", told, played)


def check_c(bare, words, libdir, program, work):
    """hello.c compiles against what was unpacked, and draws."""
    hello = f"{work}/hello-{len(os.listdir(work))}"
    ran(bare.line(["cc", "-Wall", "-Werror", "-o", hello, f"{TOP}/examples/c/hello.c", *words], TMPDIR=work))
    os.makedirs(f"{work}/terminfo/x", exist_ok=True)
    bare.run([program, "tic", f"{TERMINALS}:xt", "--out", f"{work}/terminfo/x/xt"])
    line = bare.line([hello], TERM="xt", TERMINFO=f"{work}/terminfo", LD_LIBRARY_PATH=libdir)
    terminal, seen = Terminal(24, 80, line, {}), ""
    for _ in range(100):
        terminal.read(0.1)
        seen = fed(24, 80, terminal.sent)
        if "Hello from C" in seen:
            break
    hold("Hello from C" in seen, "hello shows", seen)
    terminal.press(b"q")
    hold(terminal.ends() == 0, "hello's status is not 0")


def found(bare, **environment):
    """The words of pkg-config for the package; None where it isn't installed."""
    if not shutil.which("pkg-config", path="/usr/bin:/bin"):
        return None
    words = bare.run(["pkg-config", "--cflags", "--libs", "ticurses"], **environment).decode().split()
    hold(
        bare.run(["pkg-config", "--modversion", "ticurses"], **environment).decode() == f"{VERSION}\n",
        "pkg-config has another version",
    )
    return words


def check_debian(bare, package, work):
    """The Debian package, unpacked into an empty folder."""
    root = f"{work}/root"
    control = unpack_debian(package, root)
    hold(f"\nVersion: {VERSION}\n" in control, "another version", control)
    check_paths(root)
    libdir = f"{root}/usr/lib/x86_64-linux-gnu"
    certificate = check_program(bare, f"{root}/usr/bin/ticurses", work)
    words = found(bare, PKG_CONFIG_SYSROOT_DIR=root, PKG_CONFIG_LIBDIR=f"{libdir}/pkgconfig")
    words = words or [f"-I{root}/usr/include", f"-L{libdir}", "-lticurses"]
    check_c(bare, [*words, f"-L{libdir}"], libdir, f"{root}/usr/bin/ticurses", work)
    # the package is made for /, so its Python package gets the path of the library
    check_python(
        bare,
        f"{root}/usr/lib/python3/dist-packages",
        f"{root}/usr/bin/ticurses",
        certificate,
        work,
        TICURSES_LIBRARY=f"{libdir}/{SONAME}",
    )
    if not missing("package", "lintian"):
        said = subprocess.run(["lintian", "--fail-on", "error", package], capture_output=True, text=True)
        hold(said.returncode == 0, "lintian finds", said.stdout)


def check_dpkg(package, work):
    """Debian's own program installs the package into an empty root, and removes all of it."""
    if missing("package", "dpkg"):
        return
    root = f"{work}/installed"
    for folder in ("info", "updates", "triggers"):
        os.makedirs(f"{root}/var/lib/dpkg/{folder}")
    for name in ("status", "available"):
        with open(f"{root}/var/lib/dpkg/{name}", "wb"):
            pass
    # an empty root has no libc6, and a user who isn't root may do this too
    words = ["dpkg", f"--root={root}", "--force-depends", "--force-not-root", "--force-bad-path"]
    ran([*words, "--install", package])
    hold(os.access(f"{root}/usr/bin/ticurses", os.X_OK), "dpkg installs no program")
    ran([*words, "--purge", "ticurses"])
    left = [f"{at}/{it}" for at, _, names in os.walk(root) for it in names if not at.startswith(f"{root}/var/lib/dpkg")]
    hold(not left, "a purge leaves", left)


def check_sums(folder):
    """The checksums are those of the sources, and each crate has a verdict."""
    for line in held_in(f"{folder}/SHA256SUMS").decode().splitlines():
        digest, path = line.split("  ", 1)
        hold(hashlib.sha256(held_in(f"{TOP}/{path}")).hexdigest() == digest, f"{path} has another checksum")
    proved = held_in(f"{folder}/PROVED").decode()
    crates = set(re.findall(r"^(\w+): ", proved, re.M))
    verdicts = set(re.findall(r"^(\w+): logic=proved functions=\d+ ", proved, re.M))
    hold({"ticurses", "curses_c", "terminfo_c"} <= crates and crates == verdicts, "crates without a verdict", crates - verdicts)


def check_shared(bare, program, shared):
    """The certificates, by both verifiers where that takes no minutes; one that is altered is refused by both."""
    folder = f"{shared}/certificates"
    ran(["sha256sum", "--check", "--quiet", "SHA256SUMS"], cwd=folder)
    names = sorted(name[: -len(".cert.gz")] for name in os.listdir(folder) if name.endswith(".cert.gz"))
    hold(len(names) >= 40, "few certificates", names)
    hold(f"{len(names)} entries" in held_in(f"{folder}/README").decode(), "README has another count")
    for name in names:
        entry, held = f"{folder}/{name}.ti", gzip.decompress(held_in(f"{folder}/{name}.cert.gz"))
        verifiers = [[program, "verify", f"{entry}:{name}", "24", "80", "-"]]
        if name in ("linux", "vt100", "xterm-256color"):
            verifiers.append(["python3", "-B", f"{shared}/second/verify.py", entry, "24", "80", "-"])
        for words in verifiers:
            said = subprocess.run(bare.line(words), input=held, capture_output=True)
            hold((said.returncode, said.stdout) == (0, b"yes\n"), f"no yes for {name}", words, said)
            said = subprocess.run(bare.line(words), input=held.replace(b"row=1 ", b"row=2 ", 1), capture_output=True)
            hold(said.returncode == 1 and b"NotShown" in said.stderr, f"an altered {name} passes", words, said)


# a Makefile, and what the workflow's runner has beside it
MAKEFILE = """screens: screens.py
\tprintf '#!/bin/sh\\nexec /usr/bin/python3 -B screens.py "$$@"\\n' >$@
\tchmod +x $@
"""
SUDO = '#!/bin/sh\n[ "$1 $2 $3" = "apt-get install --yes" ] && exec dpkg -x "$4" root\nexit 9\n'


def block(page, language):
    """The first block of code in a language."""
    return re.search(rf"^```{language}\n(.*?)^```$", page, re.M | re.S)[1]


def steps_of(workflow):
    """The commands of a workflow's steps."""
    found = re.findall(r"^( *)- run: (?:\|\n((?:\1    .*\n)+)|(.*)\n)", workflow, re.M)
    return ["\n".join(line.strip() for line in many.splitlines()) or one for _, many, one in found]


def check_workflow(package, work):
    """The steps of docs/TERMINAL.md's workflow, in a folder as a checkout would be, over its adapter for pyte."""
    words = ["/usr/bin/python3", "-c", "import pyte"]
    if missing("package", "dpkg", "make", "bash") or subprocess.run(words, capture_output=True).returncode:
        print("package: pyte isn't installed, or a tool is missing, and the page's workflow is left out")
        return
    page, room = held_in(f"{TOP}/docs/TERMINAL.md").decode(), f"{work}/workflow"
    os.makedirs(f"{room}/ci")
    os.makedirs(f"{room}/bin")
    shutil.copy(package, f"{room}/ci")
    for name, text in (("Makefile", MAKEFILE), ("screens.py", block(page, "python")), ("bin/sudo", SUDO)):
        with open(f"{room}/{name}", "w", encoding="utf-8") as file:
            file.write(text)
    os.chmod(f"{room}/bin/sudo", 0o755)
    [first] = re.findall(r"^    (python3 .* --write-expected expected.jsonl)$", page, re.M)
    install, make, judge = steps_of(block(page, "yaml"))
    how = {"cwd": room, "env": {**os.environ, "PATH": f"{room}/bin:/usr/bin:/bin"}}
    for step in (install, make, first, judge):
        step = step.replace("/usr/share/ticurses", f"{room}/root/usr/share/ticurses")
        ran(["bash", "--noprofile", "--norc", "-eo", "pipefail", "-c", step], **how)
    hold(os.path.exists(f"{room}/found.json"), "the workflow writes no found.json")
    with open(f"{room}/expected.jsonl", encoding="utf-8") as file:
        lines = file.read().splitlines(True)
    with open(f"{room}/expected.jsonl", "w", encoding="utf-8") as file:
        file.writelines(line for line in lines if "VPA/" not in line)
    judge = judge.replace("/usr/share", f"{room}/root/usr/share").replace("--json", "--only VPA --json")
    said = subprocess.run(["bash", "-eo", "pipefail", "-c", judge], capture_output=True, text=True, **how)
    hold(said.returncode == 1 and "new: command" in said.stdout, "a new difference passes the workflow", said)


def check_tarball(bare, package, work):
    """The archive: run in place, installed, used, and removed."""
    with tarfile.open(package) as archive:
        archive.extractall(f"{work}/unpacked")
    [top] = os.listdir(f"{work}/unpacked")
    top = f"{work}/unpacked/{top}"
    check_paths(top)
    check_sums(f"{top}/share/doc/ticurses")
    ran(["sha256sum", "--check", "--quiet", "share/doc/ticurses/BUILT"], cwd=top)
    check_program(bare, f"{top}/bin/ticurses", work)
    check_shared(bare, f"{top}/bin/ticurses", f"{top}/share/ticurses")
    prefix = f"{work}/prefix"
    os.makedirs(f"{prefix}/bin")
    held_in_place = f"{prefix}/bin/other"
    with open(held_in_place, "w", encoding="ascii") as file:
        file.write("stays\n")
    install = [f"{top}/install.sh", f"PREFIX={prefix}"]
    ran(bare.line(install), umask=0o077)
    for at, _, names in os.walk(prefix):
        for name in names:
            hold(
                os.path.islink(f"{at}/{name}") or os.stat(f"{at}/{name}").st_mode & 0o444 == 0o444,
                f"{name} can't be read by all",
            )
    certificate = check_program(bare, f"{prefix}/bin/ticurses", work)
    words = found(bare, PKG_CONFIG_LIBDIR=f"{prefix}/lib/pkgconfig")
    words = words or [f"-I{prefix}/include", f"-L{prefix}/lib", "-lticurses"]
    check_c(bare, words, f"{prefix}/lib", f"{prefix}/bin/ticurses", work)
    [python] = [
        os.path.dirname(at)
        for at, _, names in os.walk(prefix)
        if os.path.basename(at) == "ticurses" and "__init__.py" in names
    ]
    check_python(bare, python, f"{prefix}/bin/ticurses", certificate, work)
    ran(bare.line([install[0], "uninstall", *install[1:]]))
    left = [f"{at}/{it}" for at, _, names in os.walk(prefix) for it in names]
    hold(left == [held_in_place], "an uninstall leaves", left)
    refused = subprocess.run(bare.line([install[0], "PREFIX=/a b"]), capture_output=True)
    hold(refused.returncode == 2 and refused.stderr.count(b"\n") == 1, "a prefix with a space is taken", refused)


def main():
    for made in (PROVED, *LIBRARIES):
        if not is_there(made) or not is_known(made):
            print(f"package: no {made.name} of these sources is built or kept with its verdicts; nothing of this is tried")
            return
    if missing("package", "cc", "strip", "objdump"):
        return
    with tempfile.TemporaryDirectory() as work:
        tarball, debian = make_twice(work)
        bare = Bare()
        check_debian(bare, debian, work)
        check_dpkg(debian, work)
        check_workflow(debian, work)
        check_tarball(bare, tarball, work)
    print(
        "package: the same bytes twice; without a toolchain both answer, compile hello.c and draw; their certificates "
        "are verified; both are removed again"
    )


if __name__ == "__main__":
    main()
