"""The help and the manual pages, the lists of the help beside those of the code, usage errors, standard input as a file,
and hints."""

import os
import pty
import re
import shutil
import subprocess
import sys
import tempfile

from trying import PROGRAM, TOP, Case, held_in, run_cases

sys.path.append(f"{TOP}/tools")

from manpages import Help, box, items_of, pages

MINI = b"mini|sample,\n\tclear=\\E[H\\E[2J, cup=\\E[%i%p1%d;%p2%dH, sgr0=\\E[m,\n"
SCRIPT = b"addstr 0 hi\nrefresh 0\n"
SHOWN = b"hi\n  \ncursor 1 0\n"
TWICE = b"error: '-' is standard input, which can be read once; a file of that name is './-'\n"
UNWRITTEN = b"error: '-' is standard input, which can't be written; a file of that name is './-'\n"

# lines with options or words that don't go together, each by the message that it gets
UNRULY = {
    "feed shows one of --state, --json and --cases; --plain-text is not for --cases": [
        "feed --state --json 2 2 f", "feed --state --cases 2 2 f", "feed --json --cases 2 2 f", "feed --cases --plain-text 2 2 f",
        "feed --state --json --cases --plain-text 2 2 f",
    ],
    "infocmp prints one ENTRY, or compares two with either -c or -n": [
        "infocmp a b", "infocmp -c a", "infocmp -n a", "infocmp -cn a b", "infocmp a b c", "infocmp -c a b c",
    ],
    "check --fix writes a source text: --all, --json and --sarif are not for --fix": [
        "check --fix --all f:e 2 2", "check --fix --json f:e 2 2", "check --fix --sarif f:e 2 2", "check --fix --all f:e 2 2 --out g",
    ],
    "check writes a certificate, or with --all lists the faults: --out is not for --all": ["check --all f:e 2 2 --out g"],
    "check writes a certificate, or reports on the entry: --out is not for --json and --sarif": [
        "check --json f:e 2 2 --out g", "check --sarif f:e 2 2 --out g", "check --all --json f:e 2 2 --out g",
    ],
    "--parts is for --all, and not for --json and --sarif, where part says it of each entry": [
        "survey --parts 2 2 f", "survey --parts --all --json 2 2 f", "survey --parts --sarif 2 2 f", "survey --parts --fix 2 2 f",
    ],
    "--baseline is for --json and --sarif": ["survey --baseline g 2 2 f", "survey --all --baseline g --out h 2 2 f"],
    "survey writes a text only with --fix: --out is for --fix": [
        "survey --out g 2 2 f", "survey --json --out g 2 2 f", "survey --sarif --baseline h --out g 2 2 f",
    ],
    "survey --fix writes the text of one source FILE: --all, --json, --sarif and --baseline are not for --fix": [
        "survey --fix 2 2 f g", "survey --fix --all 2 2 f", "survey --fix --json 2 2 f", "survey --fix --sarif 2 2 f",
        "survey --fix --baseline g 2 2 f", "survey --fix --with g 2 2 f h", "survey --fix --json --with g 2 2 f",
    ],
}  # fmt: skip

# a line that each command takes, and lines that are to do the same
SPELLED = {
    "expand --cup %p1%d 2 4 7": ["expand %p1%d --cup 2 4 7", "expand %p1%d 2 4 7 --cup", "expand --cup -- %p1%d 2 4 7"],
    "feed --state --plain-text 2 2 script": ["feed 2 2 script --plain-text --state", "feed 2 --state 2 --plain-text -- script"],
    "tic --out made mini:mini": ["tic mini:mini --out made", "tic --out=made mini:mini", "tic --out=made -- mini:mini"],
    "infocmp -c --join mini:mini mini:mini": ["infocmp mini:mini -c mini:mini --join", "infocmp --join -c -- mini:mini mini:mini"],
    "check --with mini --out made mini:mini 2 2": ["check mini:mini --out=made 2 2 --with=mini"],
    "check --sarif mini:mini 2 2": ["check --all --json --sarif mini:mini 2 2", "check mini:mini 2 2 --sarif --all"],
    "survey --fail --json 2 2 mini mini": ["survey 2 2 mini mini --json --fail", "survey 2 2 mini --json mini --fail"],
}

# the enums whose variants a command's help lists, and those that it doesn't
LISTED = [
    ("expand", ["ti_parm/src/fault.rt ParmFault", "ti_source/src/escapes.rt EscapeFault", "vt_term/src/tokenizer.rt TokenFaultKind"], set()),
    ("tic", ["ti_source/src/types.rt FaultKind", "ti_resolve/src/faults.rt ResolveFault", "ti_compiled/src/types.rt PackFault"], set()),
    ("check", ["ti_checker/src/causes.rt Cause", "ti_parm/src/fault.rt ParmFault"], {"Parm"}),
    ("verify", ["ti_cert/src/faults.rt CertFaultKind", "ti_cert/src/faults.rt AgreeFault"], {"ReadFailed"}),
    ("show", ["cur_drawing/src/refusals.rt Refusal"], set()),
]


def fail(text):
    sys.exit(f"manual: {text}")


def source(path):
    return held_in(f"{TOP}/crates/{path}").decode()


def helps():
    """The output of `--help` of the program and of each command."""
    top = run_cases(PROGRAM, [Case(["--help"])])[0].out.decode()
    names = Help(top).commands()
    told = run_cases(PROGRAM, [Case([name, "--help"]) for name in names])
    return {"": top} | {name: it.out.decode() for name, it in zip(names, told)}


def judge_help(texts):
    """The text that `--help` prints is that of tests/help, `help` and `-h` print it too, and no other command is there."""
    names = {f"{name or 'ticurses'}.txt": text for name, text in texts.items()}
    if sorted(names) != sorted(os.listdir(f"{TOP}/tests/help")):
        fail(f"tests/help has {sorted(os.listdir(f'{TOP}/tests/help'))}")
    others = run_cases(PROGRAM, [Case(words) for name in texts for words in (["help", name], [name, "-h"]) if name])
    wanted = [text for name, text in texts.items() for _ in range(2) if name]
    wrong = [name for name, text in names.items() if held_in(f"{TOP}/tests/help/{name}").decode() != text]
    if wrong or [it.out.decode() for it in others] != wanted:
        fail(f"--help differs from tests/help in {wrong}, or from help and -h")
    print(f"manual: --help of {len(names)} is that of tests/help")


def judge_unruly():
    """Options that don't go together are a usage error with its own message, and nothing else is done."""
    rows = [(message, line.split()) for message, lines in UNRULY.items() for line in lines]
    for (message, words), told in zip(rows, run_cases(PROGRAM, [Case(words) for _, words in rows])):
        if (told.status, told.out, told.err.decode()) != (2, b"", f"error: {message}\n\nFor more information, try '--help'.\n"):
            fail(f"{words}: status {told.status}, {told.out}, {told.err}")
    print(f"manual: {len(rows)} lines of options that don't go together are usage errors")


def judge_options(texts):
    """Each option is refused the second time, but for `--with`; none is taken by a part of its name or by another command."""
    options = {name: [flag.split() for flag, _ in Help(text).options()] for name, text in texts.items() if name}
    known = {flag[0] for flags in options.values() for flag in flags}
    rows = [(name, words) for name, flags in options.items() for words in refused_options(flags, known)]
    for (name, words), told in zip(rows, run_cases(PROGRAM, [Case([name, *words]) for name, words in rows])):
        if told.status != 2 or told.out or not told.err.startswith((b"error: the argument '-", b"error: unexpected argument '-")):
            fail(f"{name} {words}: status {told.status}, {told.out}, {told.err}")
    print(f"manual: {len(rows)} repeated, shortened or unknown options are refused")


def refused_options(flags, known):
    """The words that a command with these options refuses at once; `known` are the options of all commands."""
    twice = [[name, *("f" for _ in value)] * 2 for name, *value in flags if name != "--with"]
    short = [[name[:-1], *("f" for _ in value)] for name, *value in flags if len(name) > 3]
    others = sorted(known - {name for name, *_ in flags})
    return [*twice, *short, *([name] for name in others)]


def judge_spelled():
    """Options may be anywhere before `--`, and a value after `=`."""
    files = {"mini": MINI, "script": SCRIPT}
    for line, others in SPELLED.items():
        told = [answered(words.split(), files) for words in (line, *others)]
        if any(it != told[0] for it in told) or told[0][0]:
            fail(f"{line}: {told}")
    print(f"manual: {sum(map(len, SPELLED.values()))} lines do what {len(SPELLED)} others do")


def answered(words, files):
    """The status and outputs of a run, and the file that it writes."""
    with tempfile.TemporaryDirectory() as room:
        told = run_cases(PROGRAM, [Case([it.replace("made", f"{room}/made") for it in words])], files)[0]
        return told.status, told.out, told.err, os.path.exists(f"{room}/made") and held_in(f"{room}/made")


def judge_pages(texts):
    if not shutil.which("groff"):
        print("manual: groff is not installed, and whether it sets the pages is left out")
    for path, text in pages(texts, box()).items():
        if held_in(f"{TOP}/{path}", b"").decode() != text:
            fail(f"{path} isn't what tools/manpages.py makes of --help; run it")
        if shutil.which("groff"):
            shown = subprocess.run(["groff", "-mdoc", "-Tutf8", "-ww", f"{TOP}/{path}"], capture_output=True, check=True)
            if shown.stderr:
                fail(shown.stderr.decode())
    print(f"manual: the pages have what --help prints of {len(texts) - 1} commands")


# what the arguments of a call are, by their names in the help
CLASSES = {"w": "W", "s": "W", "d": "W", "new": "W", "f": "F", "cell": "C", "line": "L", "A": "A", "TEXT": "T", "0": "0"}
# and by the methods that read them
READS = {
    "window": "W", "two_windows": "WW", "number": "N", "two_numbers": "NN", "four_numbers": "NNNN", "flag": "F", "zero": "0",
    "cell": "C", "cell_or": "L", "attrs": "A", "rest": "T",
}  # fmt: skip


def read_calls():
    """The classes of the arguments of each call, as the reader of scripts takes them."""
    forms = {}
    for name, body in re.findall(r"^(?:pub\(crate\) )?fn (\w+)[^{]*?\{.*?^\{(.*?)^\}", source("cur_scripts/src/arguments.rt"), re.M | re.S):
        reads = re.findall(r"words\s*\.(\w+)\(|(?<=\W)(sides|corners)\(", body)
        forms[name] = [method or child for method, child in reads if method != "end"]
    flat = {name: "".join(READS.get(it) or "".join(READS[each] for each in forms[it]) for it in reads) for name, reads in forms.items()}
    table = re.findall(r'b"(\w+)" => (\w+)\(', source("cur_scripts/src/table.rt"))
    return {call: flat[reader] for call, reader in table}


def told_calls(text):
    """The classes of the arguments of each call, as `play --help` lists them."""
    block = next(it for it in Help(text).body if it[0].startswith("The calls are"))
    calls = [term.split() for term, _ in items_of(block[1:])]
    return {name: "".join(CLASSES.get(it, "N") for it in words) for name, *words in calls}


def judge_calls(text):
    read, told = read_calls(), told_calls(text)
    if read != told or len(read) < 45:
        fail(f"play --help and the reader differ in {sorted(set(read.items()) ^ set(told.items()))}")
    print(f"manual: play --help has the {len(read)} calls with the arguments that the reader takes")


def variants(path, name):
    """The names of an enum's variants."""
    body = re.search(rf"^pub enum {name}[^{{]*\{{(.*?)^\}}", source(path), re.M | re.S)[1]
    return set(re.findall(r"^    (\w+)", body, re.M)) - {"NoMemory"}


def judge_causes(texts):
    """The lists of kinds and causes have each variant of the code's enums."""
    for command, enums, left_out in LISTED:
        blocks = [it for it in Help(texts[command]).body if re.match(r"(KIND|CAUSE|NAME) is one of", it[0])]
        listed = {it for block in blocks for line in block for it in re.findall(r"^  ((?:\w+, )*\w+)", line)}
        listed = {name for names in listed for name in names.split(", ")}
        wanted = set().union(*(variants(*it.split()) for it in enums)) - left_out
        if wanted - listed:
            fail(f"{command} --help doesn't list {sorted(wanted - listed)}")
    print(f"manual: the causes that {len(LISTED)} commands list are those of the code")


def judge_input():
    """`-` is standard input, in each place of each command, and `./-` is a file."""
    packed = made(["tic", "mini:mini", "--out"])
    script, cert = ["--", "mini:mini", "2", "2"], run_cases(PROGRAM, [Case(["check", "mini:mini", "2", "2"])], {"mini": MINI})[0].out
    files = {"mini": MINI, "cert": cert, "script": SCRIPT, "packed": packed}
    wanted = [
        (["infocmp", "--", "-:mini"], MINI, None),
        (["infocmp", "-"], packed, None),
        (["infocmp", "-c", "--", "mini:mini", "-:mini"], MINI, b"clear\ncup\nsgr0\n"),
        (["tic", "--", "-:mini"], MINI, b""),
        (["check", "--", "-:mini", "2", "2"], MINI, cert),
        (["check", "-", "2", "2"], packed, cert),
        (["verify", "--", "-:mini", "2", "2", "cert"], MINI, b"yes\n"),
        (["verify", "mini:mini", "2", "2", "-"], cert, b"yes\n"),
        (["show", "--", "-:mini", "2", "2", "cert", "script"], MINI, SHOWN),
        (["show", "mini:mini", "2", "2", "-", "script"], cert, SHOWN),
        (["show", "mini:mini", "2", "2", "cert", "-"], SCRIPT, SHOWN),
        (["play", "mini:mini", "2", "2", "cert", "-"], SCRIPT, None),
        (["feed", "2", "2", "-"], b"hi", b"hi\n  \ncursor 0 1\n"),
        (["survey", "2", "2", "-"], MINI, b"mini yes\ntotal 1, yes 1\n"),
        (["survey", "--json", "--baseline", "-", "2", "2", "mini"], b"", None),
        (["check", "--with", "-", "mini:mini", "2", "2"], MINI, cert),
        (["infocmp", "--with", "-", "mini:mini"], MINI, None),
    ]
    for (words, _, out), told in zip(wanted, run_cases(PROGRAM, [Case(words, given) for words, given, _ in wanted], files)):
        if told.status or told.err or not told.out and out != b"" or out is not None and told.out != out:
            fail(f"{words}: status {told.status}, {told.out}, {told.err}")
    judge_refused(script, files)
    with tempfile.TemporaryDirectory() as room:
        for name, held in (("-", b"no"), ("mini", MINI)):
            with open(f"{room}/{name}", "wb") as file:
                file.write(held)
        told = in_folder(room, ["feed", "2", "2", "./-"], b"other")
        kept = in_folder(room, ["tic", "--out", "mini", "--", "-:mini"], open(f"{room}/mini", "rb"))
        if told.stdout != b"no\n  \ncursor 0 1\n" or kept.returncode != 3 or open(f"{room}/mini", "rb").read() != MINI:
            fail(f"./-: {told}; a source that is standard input: {kept}")
    print(f"manual: - is standard input in {len(wanted)} places, and ./- is a file")


def judge_refused(script, files):
    """Standard input is read once, and isn't written; nothing else is done then."""
    cases = [
        (["verify", "--", "-:mini", "2", "2", "-"], TWICE),
        (["play", *script, "-", "-"], TWICE),
        (["show", "--", "-", "2", "2", "cert", "-"], TWICE),
        (["infocmp", "-c", "-", "-"], TWICE),
        (["infocmp", "-c", "--with", "-", "mini:mini", "mini:mini"], TWICE),
        (["infocmp", "-n", "--with", "-", "mini:mini", "packed"], TWICE),
        (["tic", "--with", "-", "--", "-:mini"], TWICE),
        (["check", "--json", "--with", "-", "-", "2", "2"], TWICE),
        (["survey", "2", "2", "-", "mini", "-"], TWICE),
        (["survey", "--json", "--baseline", "-", "--", "2", "2", "-"], TWICE),
        (["survey", "--json", "--baseline", "-", "--with", "-", "2", "2", "mini"], TWICE),
        (["survey", "--with", "-", "--with", "-", "2", "2", "mini"], TWICE),
        (["tic", "mini:mini", "--out", "-"], UNWRITTEN),
        (["check", "mini:mini", "2", "2", "--out", "-"], UNWRITTEN),
        (["check", "--fix", "mini:mini", "2", "2", "--out=-"], UNWRITTEN),
        (["survey", "--fix", "--out", "-", "2", "2", "mini"], UNWRITTEN),
    ]
    for (words, error), told in zip(cases, run_cases(PROGRAM, [Case(words) for words, _ in cases], files)):
        if told.status != 2 or told.out or not told.err.startswith(error):
            fail(f"{words}: status {told.status}, {told.out}, {told.err}")


def made(words):
    """The file that a command writes."""
    with tempfile.TemporaryDirectory() as room:
        if run_cases(PROGRAM, [Case([*words, f"{room}/made"])], {"mini": MINI})[0].status:
            fail(f"{words} failed")
        return held_in(f"{room}/made")


def in_folder(room, words, given):
    """A run in this folder, with bytes or an open file as standard input."""
    how = {"input": given} if isinstance(given, bytes) else {"stdin": given}
    return subprocess.run([f"{PROGRAM}/out/ticurses", *words], cwd=room, capture_output=True, check=False, **how)


def judge_hints():
    """Hints on what to write in place of an entry's name, and of a folder in a survey."""
    with tempfile.TemporaryDirectory() as room:
        os.mkdir(f"{room}/tree")
        named, missing = in_folder(room, ["check", "xterm", "24", "80"], b""), in_folder(room, ["infocmp", "none"], b"")
        folder = in_folder(room, ["survey", "24", "80", "tree/"], b"")
    usual = next((path for at in ("etc", "lib", "usr/share") if os.path.exists(path := f"/{at}/terminfo/x/xterm")), None)
    lines = [told.stderr.decode().splitlines() for told in (named, missing, folder)]
    if usual and lines[0][2:] != [f"'xterm': write {usual}, which is the compiled file of this name"]:
        fail(f"check xterm: {lines[0]}")
    if lines[1][0] != "file: none" or not lines[1][2].endswith("usually /usr/share/terminfo/n/none"):
        fail(f"infocmp none: {lines[1]}")
    if lines[2] != ["file: tree/", "'tree/' is a folder", "'tree/': survey takes files; those in its folders are tree/*/*"]:
        fail(f"survey of a folder: {lines[2]}")
    print("manual: an entry's name and a folder have a line that says what to write instead")


def judge_count():
    """`check --out` ends with the bound of a session and the count of lines, on a terminal alone. A cell takes 1 byte, 6 of
    the longest cup and 3 of sgr0; sgr0 and clear, with 10 bytes, lead out of an unknown state."""
    with tempfile.TemporaryDirectory() as room:
        with open(f"{room}/mini", "wb") as file:
            file.write(MINI)
        words = [f"{PROGRAM}/out/ticurses", "check", "mini:mini", "2", "2", "--out", "made"]
        silent = subprocess.run(words, cwd=room, capture_output=True, check=True)
        leader, follower = pty.openpty()
        subprocess.run(words, cwd=room, stdout=subprocess.PIPE, stderr=follower, check=True)
        os.close(follower)
        shown = os.read(leader, 4096)
        os.close(leader)
    wanted = b"a refresh sends at most 10 bytes for each cell that differs, and once more; the way out of an unknown state has 10\n"
    if silent.stderr or shown.replace(b"\r", b"") != wanted + b"yes, 8 lines\n":
        fail(f"check --out: {silent.stderr}; on a terminal {shown}")
    print("manual: check --out has the bound of a session and its count of lines, on a terminal alone")


def main():
    texts = helps()
    judge_help(texts)
    judge_pages(texts)
    judge_unruly()
    judge_options(texts)
    judge_spelled()
    judge_calls(texts["play"])
    judge_causes(texts)
    judge_input()
    judge_hints()
    judge_count()


if __name__ == "__main__":
    main()
