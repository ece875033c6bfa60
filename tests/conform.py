"""tools/conform, run on the emulators that are quick: what it says is compared with what is known of them otherwise."""

import json
import os
import re
import shutil
import subprocess
import sys
import tempfile
from concurrent.futures import ThreadPoolExecutor
from pathlib import Path

from trying import PROGRAM, Case, run_cases

TOP = Path(__file__).resolve().parents[1]
TOOL = TOP / "tools" / "conform"
VECTORS = TOP / "vectors"
PAGE = (TOP / "docs" / "TERMINAL.md").read_text(encoding="utf-8")
QUICK = ["libvterm", "tmux", "pyte"]
sys.path.append(str(TOOL))

import cases as asked  # noqa: E402
import screens  # noqa: E402

# where each is known to differ (docs/TERMINAL.md): the function and what the cases are about
KNOWN = {
    "libvterm": {("DL", "margins"), ("IL", "margins"), ("ECH", "backgrounds")},
    "tmux": {("IL", "margins"), ("LF", "wrap-pending"), ("VPA", "wrap-pending")},
    "pyte": {("ECH", "backgrounds"), ("VPA", "wrap-pending"), ("SU", "functions")},
}
# and where none of them does
ALIKE, PLAIN = {"CUP", "HVP", "CHA", "CR"}, {"functions", "backgrounds", "wrap-pending"}


def fail(text):
    sys.exit(f"conform: {text}")


def run(*words):
    return subprocess.run([sys.executable, "-B", str(TOOL), *words], capture_output=True, text=True, check=False)


def on_vectors(room):
    """Each emulator that is there: the table, the list, and the file of differences say the same."""
    ran = run(*QUICK, "--json", f"{room}/found.json", "--most", "80", "--sessions", "10")
    if ran.returncode not in (0, 1) and "is left out" not in ran.stderr:
        fail(ran.stderr)
    if "could be run" in ran.stderr:
        print("conform: neither libvterm, tmux nor pyte is installed, so nothing is compared")
        return
    found = json.loads(Path(f"{room}/found.json").read_text(encoding="utf-8"))
    for name, told in found.items():
        places = {(one["function"], one["situation"]) for one in told["differ"]}
        for function, situation in places:
            if function in ALIKE and situation in PLAIN:
                fail(f"{name} differs in {function} ({situation}), where it is known to be as T")
        for known in KNOWN[name]:
            if known not in places:
                fail(f"{name} {told['version']}: no difference in {known[0]} ({known[1]}), where one is known")
        if f"{name} {told['version']}: {len(told['differ'])} of {told['cases']} cases differ" not in ran.stdout:
            fail(f"{name} has no line with its version and as many differences as the file has")
    missing = [name for name in QUICK if name not in found]
    for name in missing:
        if f"conform: {name} is left out" not in ran.stderr:
            fail(f"{name} is neither run nor named")
    print(f"conform: {', '.join(found)}: the differences that are known" + (f"; not installed: {', '.join(missing)}" if missing else ""))


CERTIFICATE = """ticert 2 4 20
bel 07 -
clear 1b5b481b5b324a row=0 col=0 nopend all
cub1 08 col-1 nopend
cup 0 0 1b5b313b3148 row=0 col=0 nopend
sgr 0 0 0 0 0 0 0 0 0 1b5b306d look:000000 ink:dd
smcup 1b5b3f3130343968 -
vpa 1 1b5b3264 row=1 nopend
end
"""


def on_certificate(room):
    """Lines of a certificate: pyte keeps a pending wrap over VPA, and erases with the negative look, as no session does."""
    Path(f"{room}/cert").write_text(CERTIFICATE, encoding="ascii")
    names = {name: numbers for name, numbers, data in asked.lines_of(CERTIFICATE, "it") if data}
    wanted = {"bel": [], "clear": [], "cub1": [], "cup": ["0", "0"], "sgr": ["0"] * 9, "smcup": [], "vpa": ["1"]}
    if names != wanted:
        fail(f"of the certificate's lines it reads {names}")
    for bad in ("cup 0 1b5b313b3148\n", "cub1 8 col-1\n", "clear\n", "cup x 0 41 -\n"):
        Path(f"{room}/bad").write_text("ticert 2 4 20\n" + bad, encoding="ascii")
        ran = run("--certificate", f"{room}/bad", "--sessions", "1")
        if ran.returncode != 3 or f"line 2 of {room}/bad isn't one of a certificate" not in ran.stderr:
            fail(f"of a certificate with {bad!r} it says {ran.stderr}")
    ran = run("pyte", "--certificate", f"{room}/cert")
    if "could be run" in ran.stderr:
        return
    wanted = [r"clear, negative: not so \(.*\); sessions erase", r"vpa 1, wrap pending: not so \(.*\); never sent"]
    if ran.returncode != 1 or not all(re.search(words, ran.stdout) for words in wanted) or re.search("(bel|cup 0 0|cub1|smcup), ", ran.stdout):
        fail(f"of the certificate it says\n{ran.stdout}{ran.stderr}")
    print("conform: which lines of a certificate aren't so on pyte")


FOLDERS = ["/etc/terminfo", "/lib/terminfo", "/usr/share/terminfo"]


def certificates(most):
    """Certificates of the system's entries, of the first for which there is one."""
    paths = sorted({str(path) for folder in FOLDERS for path in Path(folder).glob("*/*") if path.name[0] in "adlrstvx"}, key=lambda it: it.split("/terminfo/")[1])
    chosen, texts = paths[:: max(1, len(paths) // 150)], []
    while chosen and len(texts) < most:
        told = run_cases(PROGRAM, [Case(["check", path, "6", "20"]) for path in chosen[:most]])
        texts += [one.out for one in told if one.status == 0]
        chosen = chosen[most:]
    return texts[:most]


def on_database(room):
    """20 entries of the system's database: each capability of each certificate is tried."""
    texts = certificates(20)

    def one(at):
        path = Path(f"{room}/{at}.cert")
        path.write_bytes(texts[at])
        return path, run("pyte", "--certificate", str(path), "--json", f"{path}.json", "--situations")

    with ThreadPoolExecutor(2) as pool:
        for path, ran in pool.map(one, range(len(texts))):
            there = {line.split(" ")[0] for line in path.read_text(encoding="ascii").splitlines()} - {"ticert", "acsc", "end"}
            tried = {case.group for cases in asked.certificate(path).values() for case in cases}
            if there != tried or "Traceback" in ran.stderr or (ran.returncode not in (0, 1) and "could be run" not in ran.stderr):
                fail(f"of the certificate {path.name} it says {ran.returncode} {ran.stderr}, and leaves out {there - tried}")
    print(f"conform: each capability of {len(texts)} certificates of the system's database is tried")


def on_command(room):
    """Any program with a terminal in it, which reports only its cursor; here tmux, with its known differences."""
    if not shutil.which("tmux"):
        print("conform: tmux is not installed, and no program is given by --command")
        return
    # a server that ends isn't to be met by the next one
    line = f"tmux -S {room}/server$$ -f /dev/null set -g status off ';' new-session -d -x {{cols}} -y {{rows}} {{}}"
    ran = run("--command", line, "--json", f"{room}/given.json", "--most", "80", "--sessions", "1")
    if ran.returncode != 1:
        fail(f"--command of tmux: {ran.returncode} {ran.stderr}")
    if "left out" in ran.stderr:
        fail(f"--command of tmux: {ran.stderr}")
    told = json.loads(Path(f"{room}/given.json").read_text(encoding="utf-8"))["command"]
    places = {(one["function"], one["situation"]) for one in told["differ"]}
    if not KNOWN["tmux"] - {("IL", "margins")} <= places or any(function in ALIKE and it in PLAIN for function, it in places):
        fail(f"--command of tmux differs in {places}")
    print("conform: a program that is given by --command, with the differences of its cursor that are known")


# T's own model as a program that writes screens; in the named cases it errs in a way
FAKE = """
import json, os, sys
sys.path.append({vectors!r})
import model
rows, cols, wrong, how = int(sys.argv[1]), int(sys.argv[2]), sys.argv[3].split(), sys.argv[4]
for line in sys.stdin:
    name, digits = line.split()
    told = json.loads(model.object_of(name, bytes.fromhex(digits.strip("-")), rows, cols))
    # a member that `feed --json` has and the vectors don't
    told = {{"no_effect": [{{"name": "REP", "sequence": "CSI b", "times": 1}}], **told}}
    if name in wrong and how == "dies":
        os._exit(5)
    if name in wrong:
        told.update(dict(text=dict(rows=["~" * cols] * rows), cursor=dict(cursor=[0, 0]), name=dict(name="other"), rows=dict(rows=[])).get(how))
    print(json.dumps(told), flush=True)
"""
# of the cases that are asked of it
ONLY = ["--only", "numbers-6x20", "--sessions", "0"]


class Fake:
    """Runs of conform on that program."""

    def __init__(self, room):
        self.room = room
        Path(f"{room}/a fake.py").write_text(FAKE.format(vectors=str(VECTORS)), encoding="ascii")

    def run(self, wrong, how, *words, only=ONLY):
        line = f"'{sys.executable}' -B '{self.room}/a fake.py' {{rows}} {{cols}} '{wrong}' {how}"
        return run("--command", line, *only, *words)

    def wants(self, ran, status, *texts):
        if ran.returncode != status or not all(text in ran.stdout + ran.stderr for text in texts):
            fail(f"status {ran.returncode}, and not {status} with {texts}:\n{ran.stdout}{ran.stderr}")


def on_screens(room):
    """A program that writes whole screens: those of T, wrong ones, none at all."""
    fake, case = Fake(room), "numbers-6x20.cases/DCH/8"
    fake.wants(fake.run("", "text"), 0, ": 0 of 450 cases differ")
    fake.wants(fake.run(case, "text"), 1, ": 1 of 450 cases differ", "0,0 is '~' and not")
    fake.wants(fake.run(case, "cursor"), 1, "the cursor is at 0,0 and not at 2,6")
    fake.wants(fake.run(case, "dies"), 1, ": 1 of 450 cases differ", "it fails: EOFError('it ends with status 5')")
    fake.wants(fake.run(case, "name"), 3, "is left out: it answers 'other' where 'numbers-6x20.cases/DCH/8' is asked")
    fake.wants(fake.run(case, "rows"), 3, "is left out: it writes an object that is no screen")
    fake.wants(run("--command", "echo nothing", *ONLY), 3, "is left out: it writes a line that isn't JSON: b'nothing'")
    fake.wants(run("--command", "echo so >&2; exit 4", *ONLY), 3, "is left out: it writes no screen: it ends with status 4: so")
    print("conform: a program that writes screens: right ones, wrong ones, an early end")


def on_expected(room):
    """A file of expected differences: what is new and what has vanished, and files that are none."""
    fake, path = Fake(room), f"{room}/an expected.jsonl"
    first, second = "numbers-6x20.cases/CUU/3", "numbers-6x20.cases/EL/4"
    fake.wants(fake.run(first, "text", "--write-expected", path), 0)
    fake.wants(fake.run(first, "text", "--expected", path), 0, "nothing is new, and nothing has vanished")
    fake.wants(fake.run(f"{first} {second}", "text", "--expected", path), 1, ": 1 changes", f"new: command {second}: 0,0 is '~'")
    fake.wants(fake.run(first, "cursor", "--expected", path), 1, f"new: command {first}: the cursor is at 0,0", "; it was 0,0 is '~'")
    fake.wants(fake.run("", "text", "--expected", path), 1, f"vanished: command {first}: it was 0,0 is '~'")
    # a case that isn't run says nothing, and one that is no more has vanished
    fake.wants(fake.run("", "text", "--expected", path, only=["--only", "numbers-6x20/EL/4"]), 0, "nothing is new, and nothing has vanished")
    text = Path(path).read_text(encoding="utf-8")
    Path(path).write_text(text.replace("CUU/3", "CUU/333"), encoding="utf-8")
    fake.wants(fake.run("", "text", "--expected", path), 1, "CUU/333: there is no such case now")
    for bad, said in (("", "is no file of"), ("{}\n", "is no file of"), (text + "{}\n", "line 3 of"), (text + text.splitlines()[1], "line 3 of"), ("[]", "line 1 of")):
        Path(path).write_text(bad, encoding="utf-8")
        fake.wants(fake.run("", "text", "--expected", path), 3, said)
    fake.wants(fake.run("", "text", "--expected", f"{room}/nothing"), 3, "can't be read")
    fake.wants(fake.run("", "text", "--write-expected", f"{room}/no/folder"), 3, "can't be written")
    print("conform: expected differences: new ones, vanished ones, files that can't be read or written")


def on_choice():
    """--only: a function, a file with and without its size, a case; a word for which there is none."""
    sizes = asked.joined(asked.vectors(), asked.sessions(3, 1))
    for words, wanted in ((["DCH"], "DCH"), (["margins"], "margins-6x20"), (["margins-6x20"], "margins-6x20"), (["margins-6x20/DCH/2"], "margins-6x20")):
        chosen = [case for cases in asked.narrowed(sizes, words, None)[0].values() for case in cases]
        if not chosen or any(wanted not in (case.group, case.file.removesuffix(".cases")) for case in chosen) or ("/" in words[0]) != (len(chosen) == 1):
            fail(f"--only {words} chooses {len(chosen)} cases")
    ran = run("--only", "DCH", "--only", "nothing", "pyte")
    if ran.returncode != 2 or "--only nothing: no function" not in ran.stderr:
        fail(f"--only nothing: {ran.stderr}")


def on_adapter(room):
    """The page's adapter for pyte finds the known differences in its text."""
    Path(f"{room}/screens.py").write_text(block("python"), encoding="utf-8")
    ran = run("--command", f"PYTHONPATH=/usr/lib/python3/dist-packages '{sys.executable}' -B '{room}/screens.py' {{rows}} {{cols}}", "--only", "VPA", "--only", "CHA", "--only", "SU", "--json", f"{room}/own.json")
    if ran.returncode == 3 and "No module named 'pyte'" in ran.stderr:
        print("conform: pyte is not installed, and the page's adapter is left out")
        return
    places = {(one["function"], one["situation"]) for one in json.loads(Path(f"{room}/own.json").read_text(encoding="utf-8"))["command"]["differ"]}
    if not {("VPA", "wrap-pending"), ("SU", "functions")} <= places or ("CHA", "functions") in places:
        fail(f"the page's adapter differs in {places}")


def block(language):
    """The page's first block of code in a language."""
    return re.search(rf"^```{language}\n(.*?)^```$", PAGE, re.M | re.S)[1]


def in_c(room):
    """The page's program in C: libvterm keeps the column in IL and DL, and moves as T does otherwise."""
    Path(f"{room}/vectors.c").write_text(block("c"), encoding="utf-8")
    built = shutil.which("cc") and subprocess.run(["cc", "-std=c99", "-Wall", "-Wextra", "-Werror", "-o", f"{room}/vectors", f"{room}/vectors.c", "-lvterm"], capture_output=True, text=True, check=False)
    if not built or "vterm.h: No such file" in built.stderr:
        print("conform: cc or libvterm-dev is not installed, and the page's program in C is left out")
        return
    if built.returncode:
        fail(f"the page's program in C: {built.stderr}")
    reads(f"{room}/vectors", {"DL", "IL"}, "C, with libvterm")
    os.mkdir(f"{room}/job")
    shutil.copy(f"{room}/vectors.c", f"{room}/job")
    in_job(f"{room}/job", "c")


REGISTRY = "/usr/share/cargo/registry"
SOURCE = f"""[source.crates-io]
replace-with = "debian"

[source.debian]
directory = "{REGISTRY}"

[net]
offline = true
"""
CARGO = """[package]
name = "vectors"
version = "1.0.0"
edition = "2021"

[dependencies]
serde_json = "1"
vt100 = "0.15"
"""


def in_job(room, language):
    """The step of the page's second job for a language: it fails only where the names that differ are others."""
    job = re.findall(r"^```yaml\n(.*?)^```$", PAGE, re.M | re.S)[1]
    [step] = [it for it in re.findall(r"^ +- run: \|\n((?: {10}.*\n)+)", job, re.M) if f"expected-{language}.txt" in it]
    os.symlink(VECTORS, f"{room}/vectors")
    for change in (None, lambda lines: lines, lambda lines: lines[1:]):
        lines = Path(f"{room}/found.txt").read_text(encoding="ascii").splitlines(True) if change else []
        Path(f"{room}/expected-{language}.txt").write_text("".join(change(lines) if change else []), encoding="ascii")
        ran = subprocess.run(["sh", "-e", "-c", step], cwd=room, env={**os.environ, "CARGO_TARGET_DIR": f"{room}/target"}, capture_output=True, text=True, check=False)
        if ran.stderr or ran.returncode != (0 if change and change(lines) == lines else 1):
            fail(f"the page's job for {language}: {ran.returncode} {ran.stdout} {ran.stderr}")


def in_rust(room):
    """The page's program in Rust, with the crates of Debian's packages librust-vt100-dev and librust-serde-json-dev."""
    if not shutil.which("cargo") or not all(list(Path(REGISTRY).glob(f"{name}-*")) for name in ("vt100", "serde_json")):
        print("conform: cargo, or Debian's crates vt100 and serde_json, are not installed, and the page's program in Rust is left out")
        return
    os.makedirs(f"{room}/rust/src")
    Path(f"{room}/rust/Cargo.toml").write_text(CARGO, encoding="ascii")
    Path(f"{room}/rust/src/main.rs").write_text(block("rust"), encoding="utf-8")
    os.mkdir(f"{room}/rust/.cargo")
    Path(f"{room}/rust/.cargo/config.toml").write_text(SOURCE, encoding="ascii")
    built = subprocess.run(["cargo", "build", "--quiet"], cwd=f"{room}/rust", env={**os.environ, "CARGO_TARGET_DIR": f"{room}/rust/target"}, capture_output=True, text=True, check=False)
    if built.returncode:
        fail(f"the page's program in Rust: {built.stderr}")
    reads(f"{room}/rust/target/debug/vectors", RUST_DIFFERS, "Rust, with the crate vt100")
    in_job(f"{room}/rust", "rust")


# where the crate vt100 is known to differ under margins
RUST_DIFFERS = {"DL", "IL"}


def reads(program, differing, said):
    """A program that reads the vectors of margins: it finds the known differences, and none in CUP and CR."""
    stem = f"{VECTORS}/margins-6x20"
    ran = subprocess.run([program, f"{stem}.cases", f"{stem}.states", "6", "20"], capture_output=True, text=True, check=False)
    functions = {line.split("/")[0] for line in ran.stdout.splitlines()}
    if ran.returncode != 1 or ran.stderr or not differing <= functions or functions & {"CUP", "CR", "CHA"}:
        fail(f"the page's program in {said}: {ran.returncode} {ran.stderr} {functions}")
    print(f"conform: the page's program in {said} finds what is known")


def unknown_looks():
    """A blank that an emulator writes has its look; of one that it leaves out at the end of a line nothing is known."""
    wanted = screens.Screen([[("a", frozenset()), (" ", frozenset({"b4"}))]], (0, 0, True))
    for text, count in (("a", 0), ("a\033[44m ", 0), ("a ", 1), ("a\033[44mb", 1), ("", 1)):
        seen = screens.Screen(screens.read_sgr(text, 1, 2), (0, 0, True))
        if len(screens.differences(wanted, seen, "fb")) != count:
            fail(f"of {text!r} it says {screens.differences(wanted, seen, 'fb')}")


# two cells of one character: their looks, what the emulator tells, and whether that is a difference that one can see
VISIBLE = [
    (" ", "f1", "f2", "fb", False), (" ", "Bf1", "K", "BKfb", False), (" ", "b1", "b2", "fb", True), (" ", "b1", "", "b", True),
    (" ", "R", "", "R", True), (" ", "Rf1", "Rf2", "Rfb", True), (" ", "U", "", "U", True), (" ", "Uf1", "Uf2", "Uf", True),
    ("a", "f1", "f2", "fb", True), ("a", "K", "", "K", True), ("a", "K", "", "B", False),
    ("a", "If1", "f2", "fb", False), ("a", "Ib1", "b2", "fb", True), ("a", "If1", "If2", "If", False), ("a", "I", "", "I", True),
    ("a", "IRf1", "IRf2", "IRf", True), (" ", "I", "", "I", False), ("a", "BIR", "B", "BUK", False), (" ", "BR", "B", "BUK", False),
]  # fmt: skip


def visible_looks():
    """Only what one can see is a difference."""
    for char, wanted, seen, reads, differs in VISIBLE:
        one, two = (screens.Screen([[(char, screens.marks_in(look))]], (0, 0, True)) for look in (wanted, seen))
        if bool(screens.differences(one, two, reads)) != differs:
            fail(f"{char!r} as {wanted!r} and as {seen!r}, of which {reads!r} is told: {screens.differences(one, two, reads)}")


def refused():
    """An emulator that can't be run is named, with its last words."""
    if run("nobody").returncode != 2:
        fail("an emulator that nobody knows isn't refused")
    ran = run("--command", "echo nothing; exit 3 # {}", "--most", "1", "--sessions", "1")
    if ran.returncode != 3 or "conform: command is left out: it ends with status 3: nothing\n" not in ran.stderr:
        fail(f"of a command that fails it says {ran.stderr}")


def main():
    with tempfile.TemporaryDirectory() as room:
        on_vectors(room)
        on_certificate(room)
        on_database(room)
        on_command(room)
        on_screens(room)
        on_expected(room)
        on_adapter(room)
        in_c(room)
        in_rust(room)
    on_choice()
    unknown_looks()
    visible_looks()
    refused()


if __name__ == "__main__":
    main()
