"""`--fix --diff`: patch(1) makes of each file what `--fix` writes, and diff(1) prints the same hunks."""

import shutil
import subprocess
import sys
import tempfile
from pathlib import Path

from fixes import SIZE, TEXT, WANTED
from trying import PROGRAM, Case, run_cases

TICURSES = f"{PROGRAM}/out/ticurses"
# two files whose entries are wrong in both, and one entry of the first uses one of the second
OWN = b"own|of its own file,\n\tel1=\\E[K, use=lent,\n"
LENT = b"lent|of another file,\n\tclear=\\E[H\\E[2J, sgr0=\\E[m,\n\tcup=\\E[%i%p1%d;%p2%dH, el=\\E[1K,\n"
# a field that continues on a further line
WRAPPED = b"w|wrapped,\n\tclear=\\E[H\\E[2J, sgr0=\\E[m, cup=\\E[%i%p1%d;\n\t  %p2%dH, el=\\E[1K, el1=\\E[K,\n"


def fail(text):
    sys.exit(f"diffs: {text}")


def run(words, folder, given=b""):
    return subprocess.run([TICURSES, *words], cwd=folder, input=given, capture_output=True)


def patched(folder, diff, names):
    """The files after patch(1)."""
    with tempfile.TemporaryDirectory() as other:
        for name in names:
            shutil.copy(f"{folder}/{name}", f"{other}/{name}")
        ran = subprocess.run(["patch", "-s", "-p0"], cwd=other, input=diff, capture_output=True)
        if ran.returncode or sorted(it.name for it in Path(other).iterdir()) != sorted(names):
            fail(f"patch refuses {diff}: {ran.stdout}")
        return [Path(f"{other}/{name}").read_bytes() for name in names]


def hunks(diff):
    """A diff without the lines that name its files."""
    return [line for line in diff.split(b"\n") if not line.startswith((b"--- ", b"+++ "))]


def judge_one(folder):
    """One file: the diff is that of diff(1) between the text and what --fix writes, and standard error is the same."""
    for name in WANTED:
        words = ["check", "--fix", f"text:{name}", *SIZE]
        whole, diff = run(words, folder), run([*words, "--diff"], folder)
        if (diff.returncode, diff.stderr) != (whole.returncode, whole.stderr):
            fail(f"{name}: {diff.returncode}, {diff.stderr}, and with the text {whole.returncode}, {whole.stderr}")
        if patched(folder, diff.stdout, ["text"]) != [whole.stdout]:
            fail(f"{name}: patch makes another text by {diff.stdout}")
        Path(f"{folder}/mended").write_bytes(whole.stdout)
        wanted = subprocess.run(["diff", "-u", "text", "mended"], cwd=folder, capture_output=True).stdout
        if hunks(diff.stdout) != hunks(wanted) or not diff.stdout.startswith(b"--- text\n+++ text\n@@ "):
            fail(f"{name}: not what diff(1) prints: {diff.stdout}\n{wanted}")
        stored = run([*words, "--diff", "--out", "stored"], folder)
        if stored.stdout or Path(f"{folder}/stored").read_bytes() != diff.stdout:
            fail(f"{name}: --out has {Path(f'{folder}/stored').read_bytes()}")
    if Path(f"{folder}/text").read_bytes() != TEXT:
        fail("--diff changes its source")


def judge_several(folder):
    """Several files: one diff of all that change, and nothing where nothing does."""
    names = ["own", "lent"]
    words = ["survey", "--fix", *SIZE, "own", "--with", "lent"]
    diff = run([*words, "--diff"], folder)
    run([*words, "--out", "both"], folder)
    whole = [Path(f"{folder}/both/{name}").read_bytes() for name in names]
    if diff.returncode or diff.stdout.count(b"--- ") != 2 or patched(folder, diff.stdout, names) != whole:
        fail(f"two files: {diff.returncode}, {diff.stdout}, {diff.stderr}")
    again = run([*words[:-3], "both/own", "--with", "both/lent", "--diff"], folder)
    if again.returncode or again.stdout:
        fail(f"of mended files: {again.returncode}, {again.stdout}, {again.stderr}")


def judge_wrapped(folder):
    """With --join the lines of a field stay where they are; and standard input has a diff too."""
    words = ["check", "--fix", "--join", "wrapped:w", *SIZE]
    whole, diff = run(words, folder), run([*words, "--diff"], folder)
    wanted = WRAPPED.replace(b"el=\\E[1K, el1=\\E[K", b"el=\\E[K, el1=\\E[1K")
    if whole.stdout != wanted or patched(folder, diff.stdout, ["wrapped"]) != [wanted]:
        fail(f"a wrapped text: {whole.stdout}, {diff.stdout}")
    piped = run(["check", "--fix", "--join", "--diff", "--", "-:w", *SIZE], folder, WRAPPED)
    if hunks(piped.stdout) != hunks(diff.stdout):
        fail(f"of standard input: {piped.stdout}, {piped.stderr}")


def judge_refused(folder):
    Path(f"{folder}/further").mkdir()
    Path(f"{folder}/further/own").write_bytes(LENT)
    twice = b"error: 'own' and 'further/own' have one name, under which --out stores both\n"
    for words, told in (
        (["check", "--diff", "text:one", *SIZE], b"error: --standard and --diff say what --fix writes: they are for --fix\n"),
        (["survey", "--fix", *SIZE, "own", "--with", "further/own", "--out", "both"], twice),
    ):
        ran = run(words, folder)
        if ran.returncode != 2 or ran.stdout or not ran.stderr.startswith(told):
            fail(f"{words}: {ran.returncode}, {ran.stdout}, {ran.stderr}")


def main():
    run_cases(PROGRAM, [Case(["--version"])])
    if not shutil.which("patch") or not shutil.which("diff"):
        print("diffs: patch or diff is not installed; --fix --diff is left out")
        return
    with tempfile.TemporaryDirectory() as folder:
        for name, text in {"text": TEXT, "own": OWN, "lent": LENT, "wrapped": WRAPPED}.items():
            Path(f"{folder}/{name}").write_bytes(text)
        judge_one(folder)
        judge_several(folder)
        judge_wrapped(folder)
        judge_refused(folder)
    print(f"diffs: patch makes of {len(WANTED) + 3} texts what --fix writes, and diff prints the same hunks")


if __name__ == "__main__":
    main()
