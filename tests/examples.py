"""Whole runs of the program: the words, the status, standard output and standard error."""

import contextlib
import json
import os
import pty
import select
import shutil
import struct
import subprocess
import sys
import tempfile

from trying import PATIENCE, PROGRAM, TOP, Case, Told, run_cases

MINI = b"mini|sample,\n\tclear=\\E[H\\E[2J, cup=\\E[%i%p1%d;%p2%dH, sgr0=\\E[m,\n"
VT = rb"""vt|vt100 manner,
	am, xenl, cols#80, lines#24, bel=^G, cr=\r,
	acsc=``aaffggjjkkllmmnnooppqqrrssttuuvvwwxxyyzz{{||}}~~,
	clear=\E[H\E[J$<50>, csr=\E[%i%p1%d;%p2%dr, cub1=^H, cud1=\n,
	cuf1=\E[C$<2>, cuu1=\E[A$<2>, cup=\E[%i%p1%d;%p2%dH$<5>,
	ed=\E[J$<50>, el=\E[K$<3>, el1=\E[1K$<3>, enacs=\E(B\E)0,
	home=\E[H, ind=\n, ri=\EM$<5>, rmacs=^O, smacs=^N,
	sgr=\E[0%?%p1%p6%|%t;1%;%?%p2%t;4%;%?%p1%p3%|%t;7%;%?%p4%t;5%;m%?%p9%t\016%e\017%;$<2>,
	sgr0=\E[m\017$<2>,
"""
XT = rb"""xt|xterm manner,
	acsc=``aaffjjkkllmmnnqqttuuvvwwxx~~, civis=\E[?25l,
	clear=\E[H\E[2J\E[3J, cnorm=\E[?12l\E[?25h,
	cup=\E[%i%p1%d;%p2%dH, cvvis=\E[?12;25h, ech=\E[%p1%dX,
	el=\E[K, hpa=\E[%i%p1%dG, rmacs=\E(B, smacs=\E(0,
	rmcup=\E[?1049l\E[23;0;0t, smcup=\E[?1049h\E[22;0;0t,
	sgr=%?%p9%t\E(0%e\E(B%;\E[0%?%p6%t;1%;%?%p5%t;2%;%?%p2%t;4%;%?%p1%p3%|%t;7%;%?%p4%t;5%;%?%p7%t;8%;m,
	sgr0=\E(B\E[m,
xc|xterm colours,
	setaf=\E[3%p1%dm, setab=\E[4%p1%dm, op=\E[39;49m, use=xt,
"""
BASE = b"base|what each needs,\n\tclear=\\E[H\\E[2J, cup=\\E[%i%p1%d;%p2%dH, sgr0=\\E[m,\n"
EVEN = bytes.fromhex("1a01 0400 0200 0100 0000 0000 617c6200 0001 5000")
STRING = bytes.fromhex("1a01 0200 0000 0000 0700 0400 6d00 ffffffffffffffffffffffff 0000 1b5b4b00")
WIDE = bytes.fromhex("1e02 0400 0200 0100 0000 0000 617c6200 0001 409c0000")
PACKED_MINI = (
    bytes.fromhex("1a010c000000000028001d00")
    + b"mini|sample\0"
    + b"".join(struct.pack("<h", {5: 0, 10: 8, 39: 25}.get(at, -1)) for at in range(40))
    + b"\x1b[H\x1b[2J\0\x1b[%i%p1%d;%p2%dH\0\x1b[m\0"
)
CERTIFICATE = (
    b"ticert 2 2 2\n"
    b"clear 1b5b481b5b324a row=0 col=0 nopend all\n"
    b"cup 0 0 1b5b313b3148 row=0 col=0 nopend\n"
    b"cup 0 1 1b5b313b3248 row=0 col=1 nopend\n"
    b"cup 1 0 1b5b323b3148 row=1 col=0 nopend\n"
    b"cup 1 1 1b5b323b3248 row=1 col=1 nopend\n"
    b"sgr0 1b5b6d look:000000 ink:dd\n"
    b"end\n"
)


def certificate(change):
    """The certificate of `mini`, its lines changed."""
    lines = CERTIFICATE.splitlines(keepends=True)
    change(lines)
    return b"".join(lines)


def chain(last, behind, times=1):
    """Entries e0 and on, each with `use=` of the next, perhaps more than once, and the last one with this field."""
    lines = [f"e{at}|e{at}," + f" use=e{at + 1}," * times for at in range(last)]
    return "\n".join([*lines, f"e{last}|e{last}, {behind},"]).encode()


def packed(*sizes, number=None):
    """A compiled file with the names `m`, perhaps the first number, and first strings of so many x."""
    table = b"".join(b"x" * size + b"\0" for size in sizes)
    offsets = [sum(sizes[:at]) + at for at in range(len(sizes))]
    numbers = b"" if number is None else struct.pack("<i", number)
    header = struct.pack("<6h", 0o1036 if numbers else 0o432, 2, 0, bool(numbers), len(sizes), len(table))
    return header + b"m\0" + numbers + struct.pack(f"<{len(sizes)}h", *offsets) + table


def long_strings(*sizes, more=""):
    """A source text with the names `m`, these fields, and first strings of so many x."""
    names = ["cbt", "bel", "cr", "csr", "tbc", "clear", "el", "ed"]
    return f"m,{more}\n".encode() + b"".join(b"\t%s=%s,\n" % (it.encode(), b"x" * n) for it, n in zip(names, sizes))


# what the files hold that the words name
FILES = {
    "mini": MINI,
    "wrong_kind": b"a|a, cols=80,\n",
    "wrong_octal": b"a|a, cols#08,\n",
    "past_range": b"a|a, cols#2147483648,\n",
    "open_field": b"a|a, am\n",
    "wrong_escape": b"a|a, el=\\\n",
    "no_name": b" am,\n",
    "odd": b"a|a, el=\\0\\q,\n",
    "notes": b"a|a,\n\tam, xyz, am, el=\\q,\n\tzzz=1,\n",
    "uses": b"x|x, use=y, use=z,\ny|y, el@,\nz|z, el=\\E[K, am,\n",
    "loop": b"a|a, use=b,\nb|b, use=a,\n",
    "unknown_use": b"a|a, use=q,\n",
    # an entry that can't be read, and what uses it, before and after it and with names that no comma ends
    "unread": b"u|uses it, use=b,\nb|one of two,\n\tcols#80,\n\tlines#8x,\n" + MINI + b"b|the other, am,\nv|as well,\n\tuse=u,\n"
    b"o|open\nw|of that, use=o,\nl|last, use=gone, use=b,\n",
    "unread_front": b"\n# none\n\tam,\n" + MINI,
    "deep": chain(64, "am"),
    "too_deep": chain(65, "am"),
    "deep_loop": chain(64, "use=e0"),
    # if each use were walked, these were 2 to the 64th
    "twice": chain(64, "am", times=2),
    "even": b"a|b, am, cols#80,\n",
    "odd_names": b"ab, am, cols#80,\n",
    "one_string": b"m, el=\\E[K,\n",
    "wide": b"a|b, am, cols#40000,\n",
    "widest": b"a|b, am, cols#2147483647,\n",
    "not_wide": b"a|b, am, cols#32767,\n",
    "large": long_strings(4079),
    "too_large": long_strings(4080),
    "large_wide": long_strings(*[4095] * 7, 4061, more=" cols#40000,"),
    "too_large_wide": long_strings(*[4095] * 7, 4062, more=" cols#40000,"),
    "even.out": EVEN,
    "even_short": EVEN[:11],
    "even_swapped": b"\1\x1a" + EVEN[2:],
    "unpadded": bytes.fromhex("1a01 0300 0200 0100 0000 0000 616200 0001 5000"),
    "string.out": STRING,
    "mini.out": PACKED_MINI,
    "largest": b"a|a,\n" + b"#" * (16_777_216 - 6) + b"\n",
    "past_limit": b"a|a,\n" + b"#" * (16_777_217 - 6) + b"\n",
    "past_table": STRING[:26] + b"\4" + STRING[27:],
    "open_string": STRING[:-1] + b"\1",
    "wide.out": WIDE,
    "wide_negative": WIDE[:-1] + b"\x80",
    "wide_short": WIDE[:-1],
    "no_names": EVEN[:12] + b"#" + EVEN[13:],
    "long_string": packed(4095),
    "too_long_string": packed(4096),
    "no_names_long": packed(4096).replace(b"m", b"#", 1),
    "longest": EVEN + b"x" * (131072 - len(EVEN)),
    "too_long": EVEN + b"x" * (131073 - len(EVEN)),
    "caret": b"a|a,\n\tsetaf=%p1%p2%^%d,\n",
    "advice": BASE
    + rb"""dull|sgr drops bold and standout,
	sgr=\E[0%?%p2%t;4%;%?%p3%t;7%;m, bold=\E[1m, smul=\E[4m, smso=\E[7m, use=base,
odd|bold is shown by its own string in another rendition,
	sgr=\E[0m, bold=\E[4m, use=base,
half|colors without op,
	setaf=\E[3%p1%dm, setab=\E[4%p1%dm, use=base,
one|op alone,
	op=\E[39;49m, use=base,
lines|a table of characters without the strings that switch,
	acsc=qqxx, smacs=\E(0, civis=\E[?25l, use=base,
""",
    "unchecked": BASE
    + rb"""good|strings that aren't checked do what their names say,
	am, xenl, smul=\E[4m, rmul=\E[24m, smso=\E[7m, rmso=\E[27m, smir=\E[4h, rmir=\E[4l,
	ich1=\E[@, ich=\E[%p1%d@, dch1=\E[P, dch=\E[%p1%dP, il1=\E[L, il=\E[%p1%dL,
	dl1=\E[M, dl=\E[%p1%dM, indn=\E[%p1%dS, rin=\E[%p1%dT, kbs=^H, kf1=\EOP, use=base,
bad|they do something else,
	cols#4, am, smul=\E[4m, rmul=\E[27m, smso=\E[7m, rmso=\E[24m, smir=\E[4h, rmir=\E[4h,
	ich1=\E[P, dch1=\E[2P, il1=\E[2L, dl1=\E[2K, indn=\E[%p1%dT, rin=\n, op=\E[m, use=base,
unwrapped|a whole terminal's entry that says nothing of its wrap,
	cols#4, use=base,
odd|T ignores them in part or they can't be run,
	am, xenl, ich1=\E[@\E[3m, dch1=\E[38;5;1m\E[P, il1=\E[?3h, dl1=%gA%d, indn=%, rin=\E]x, sitm=\E[3m,
	rep=%p1%c\E[%p2%db, use=base,
""",
    "hints": BASE
    + rb"""a|names that no capability has,
	rmasc=^O, ell=\E[K, use=b, use=c,
	clear=\E[H\E[2J, cup=\E[%i%p1%d;%p2%dH, clear=\E[2J,
b|used,
	el=\E[\K, foo, sgr0=\E[m,
c|used too,
	setb=%p1%p2%^%d, use=b,
d|not used,
	bar, setf=%p1%p2%^%d,
	ka1=^\, quux, ka3=^\q,
e|a value goes on up to its comma,
	kf1=a\ , kf2=\ b, kf3=a ,
""" + b"\t\r,\n",
    "extended": BASE + rb"""a|names of user_caps(5) and others that look like them,
	AX, E3=\E[3J, NQ, RGB#8, U8#1, XM=\E[?1000h, xm=\E[M, kUP=\EA, kUP5=\Ea, kDC10=\Eb, kEND16=\Ec, kLFT2=\Ed,
	Ax, E4=\E[4J, RGBA, kUP1=\EA, kUP17=\Ea, kDC02=\Eb, kENDX=\Ec, kHOM=\Ed, use=base,
""",
    "many": b"a|many fields,\n" + b"".join(b"\tq%d,\n" % at for at in range(1200)),
    "hostile": b"a|a, use=\x1b[31m,\n",
    "latin": b"h\xe9",
    "wrap": b"abcde",
    "scroll": b"abcdefghi",
    "bell": bytes.fromhex("1b5b07"),
    "unfinished": bytes.fromhex("1b5b31"),
    "moves": bytes.fromhex("1b5b323b33721b5b333b314861620a63"),
    "rendition": bytes.fromhex("1b5b313b376d61"),
    "hidden": bytes.fromhex("1b5b3f32356c"),
    "background": bytes.fromhex("1b5b34346d1b5b4b"),
    "mini.cert": CERTIFICATE,
    "no_sgr0.cert": certificate(lambda lines: lines.pop(6)),
    "no_cup.cert": certificate(lambda lines: lines.pop(5)),
    "twice.cert": certificate(lambda lines: lines.insert(4, lines[3])),
    "not_shown.cert": CERTIFICATE.replace(b"1b5b313b3248", b"1b5b313b3148"),
    "other.cert": CERTIFICATE.replace(b"1b5b313b3148", b"1b5b313b3166"),
    "upper.cert": CERTIFICATE.replace(b"1b5b48", b"1B5b48"),
    "open.cert": CERTIFICATE[:-1],
    "long.cert": CERTIFICATE[:13] + b"x" * 250,
    "empty.cert": b"",
}

CUP = "\\E[%i%p1%d;%p2%dH"
HOMES = "\\E[H" * 1000


def longest(front, rows, cols):
    """The place whose line of `cup`, where this is sent before the place, would make the certificate of `mini` too long."""
    length = len(f"ticert 2 {rows} {cols}\n") + len(CERTIFICATE.splitlines(keepends=True)[1])
    for row, col in ((row, col) for row in range(rows) for col in range(cols)):
        sent = front + f"\x1b[{row + 1};{col + 1}H".encode()
        length += len(f"cup {row} {col} {sent.hex()} row={row} col={col} nopend\n")
        if length + len("end\n") > 67108864:
            return f"cup {row} {col}"
    return "none"


# fields of an entry, the entry that they are added to, the size, and why `check` refuses it; none: it gets its certificate
CHECKED = [
    ("", "vt", "24", "80", None),
    ("", "vt", "2", "4", None),
    ("sgr0=\\E[m\\017$<x>,", "vt", "24", "80", "sgr0: NotTame"),
    ("smcup=\\E[H\\E[B,", "vt", "24", "80", None),
    ("", "xt", "24", "80", None),
    ("cvvis=\\E[34l,", "xt", "24", "80", None),
    ("", "xc", "24", "80", None),
    ("setab=\\E[3%p1%dm,", "xc", "24", "80", "setab 0: WrongEffect"),
    ("cup=\\E[H\\E[%p1%dB\\E[%p2%dC,", "mini", "2", "2", "cup 0 0: WrongEffect"),
    ("cup=\\E[%i%p1%d;%p2%d,", "mini", "2", "2", "cup 0 0: Unfinished"),
    ("el=%+,", "mini", "2", "2", "el: Underflow"),
    ("cup=\\E[%gA%d;1H,", "mini", "2", "2", "cup 0 0: StaticRead"),
    ("sgr0=^O,", "mini", "2", "2", "sgr0: WrongEffect"),
    ("sgr0=\\E[22;24;25;27;28m,", "mini", "2", "2", "sgr0: WrongEffect"),
    ("xmc#1,", "mini", "2", "2", "xmc: FlagOut"),
    ("clear@,", "mini", "2", "2", "clear: Absent"),
    ("home=\\E[1;2r\\E[r\\E[H,", "mini", "24", "80", "home: NotShown"),
    # a fault of each kind
    ("hc,", "mini", "2", "2", "hc: FlagOut"),
    ("gn,", "mini", "2", "2", "gn: FlagOut"),
    ("os,", "mini", "2", "2", "os: FlagOut"),
    ("cup@,", "mini", "2", "2", "cup: Absent"),
    ("sgr0@,", "mini", "2", "2", "sgr0: Absent"),
    ("acsc=q\\200,", "mini", "2", "2", "acsc: AcsByte"),
    ("hpa=\\E[%i%p1%qG,", "mini", "2", "2", "hpa 0: BadCode"),
    ("hpa=\\E[%?%p1%t1%e2G,", "mini", "2", "2", "hpa 0: BadNest"),
    ("hpa=\\E[%{2147483647}%{1}%+%dG,", "mini", "2", "2", "hpa 0: Overflow"),
    ("hpa=\\E[%{256}%cG,", "mini", "2", "2", "hpa 0: BadChar"),
    ("hpa=\\E[%p1%sG,", "mini", "2", "2", "hpa 0: WrongKind"),
    ("hpa=%p1%{128}%+%c,", "mini", "2", "2", "hpa 0: Stuck"),
    ("cup=\\E[%p1%d;%p2%dH,", "mini", "2", "4", "cup 0 1: WrongEffect"),
    ("el=\\E[1K,", "mini", "2", "4", "el: WrongEffect"),
    ("ech=\\E[%p1%dP,", "mini", "2", "4", "ech 1: NotTame"),
    ("clear=\\E[H\\E[J\\E[B,", "mini", "2", "4", "clear: WrongEffect"),
    ("civis=\\E[?25h,", "mini", "2", "4", "civis: WrongEffect"),
    ("csr=\\E[%i%p2%d;%p1%dr,", "mini", "3", "4", "csr 0 1: WrongEffect"),
    ("cr=\\n,", "mini", "2", "4", "cr: NotTame"),
    ("cuu1=\\E[2A,", "mini", "3", "4", "cuu1: NotTame"),
    ("home=\\E[H\\E[1m,", "mini", "2", "4", "home: WrongEffect"),
    ("bel=^N,", "mini", "2", "4", "bel: WrongEffect"),
    ("sgr=\\E[%?%p6%t1%e0%;m,", "mini", "2", "4", "sgr 0 0 0 0 0 1 0 0 0: WrongEffect"),
    ("sgr=\\E[0%?%p5%t;1%;m,", "mini", "2", "4", "sgr 0 0 0 0 1 0 0 0 0: BadLook"),
    # a mark of another attribute comes before a wrong effect, for strings of one attribute too; none at all, or one too few, is a wrong effect
    ("rev=\\E[1;7m,", "mini", "2", "4", "rev: BadLook"),
    ("smul=\\E[1m,", "mini", "2", "4", "smul: BadLook"),
    ("dim=\\E[0;1m,", "mini", "2", "4", "dim: BadLook"),
    ("smul=,", "mini", "2", "4", "smul: WrongEffect"),
    ("bold=\\E[0;1m,", "mini", "2", "4", "bold: WrongEffect"),
    ("sgr=\\E[%?%p6%t1;4%;m,", "mini", "2", "4", "sgr 0 0 0 0 0 1 0 0 0: BadLook"),
    # two attributes together show what each shows alone: SGR 71 is nothing, and an empty number takes bold off again
    ("sgr=\\E[0;%?%p1%t7%;%?%p6%t1%;m,", "mini", "2", "4", "sgr 1 0 0 0 0 1 0 0 0: WrongEffect"),
    ("sgr=\\E[0%?%p6%t;1%;%?%p7%t;%;m,", "mini", "2", "4", "sgr 0 0 0 0 0 1 1 0 0: WrongEffect"),
    ("el=\\E[,", "xt", "24", "80", "el: Unfinished"),
    # what is wrong with all strings together: the way out of an unknown state begins with SI or with CR, and not with ESC
    ("sgr0=^O\\E[m,", "mini", "2", "2", "clear: NoResync"),
    ("smcup=\\r\\E[?1049h,", "vt", "2", "4", "clear: NoResync"),
    # and the character sets: without enacs nothing makes G1 the line drawing set, so that SO activates a plain one; a new G0 leaves G1 active;
    # sgr0 leaves G0 the line drawing set, where there is no way to switch sets, or none for lack of acsc
    ("enacs@,", "vt", "2", "4", "smacs: WrongEffect"),
    ("rmacs=\\E(B,", "vt", "2", "4", "rmacs: WrongEffect"),
    ("enacs@, rmacs=\\E(B,", "vt", "2", "4", "smacs: WrongEffect"),
    ("sgr0=\\E[m\\E(0,", "mini", "2", "2", "acsc: BadLook"),
    ("smacs=\\E(0, rmacs=\\E(B, sgr0=\\E(0\\E[m,", "mini", "2", "2", "acsc: BadLook"),
    # before the way out of an unknown state
    ("enacs=^N, sgr0=\\E)0\\E[m,", "mini", "2", "2", "acsc: BadLook"),
    # two faults: the one of the first line is reported
    ("bel=^N, el=%+,", "mini", "2", "2", "bel: WrongEffect"),
    ("sgr0=^O\\E[m, vpa=%+,", "mini", "2", "2", "vpa 0: Underflow"),
    # longer than a certificate may be, by lines of 6 KB and more
    (f"cup={HOMES}{CUP},", "mini", "200", "500", longest(b"\x1b[H" * 1000, 200, 500) + ": TooLong"),
    (f"cup={HOMES}{CUP}, sgr0=%+,", "mini", "200", "50", "sgr0: Underflow"),
]

# entries of the system's own database, and why each has its certificate at 24 by 80, worked out by hand from what infocmp prints of it.
# In all: `clear` and `cup` are absolute; `ed`, `el`, `el1`, `ech` erase from the cursor alone; `cub1`, `cuf1`, `cuu1`, `cud1`, `cr`, `ind`, `ri` are BS or CUB, CUF,
# CUU or RI, LF, CR, LF and RI, which do on the screen and on a margin what is wanted; setaf and setab with 0 to 7 send SGR 30 to 37 and 40 to 47, op SGR 39 and 49; a set of
# attributes sends SGR 0 and the number of each. Sequences that the terminal ignores change nothing.
SYSTEM = {
    # smacs and rmacs designate G0, and sgr0 begins with that
    "xterm": None,
    "xterm-256color": None,
    "kitty": None,
    # enacs designates G1, which smacs shifts in and rmacs, sgr and sgr0 shift out; standout of screen is SGR 3, which the terminal doesn't know: it looks like nothing
    "screen": None,
    "tmux": None,
    "linux": None,
    "vt100": None,
}

# the notes on entries of the table, worked out by hand: what the terminal ignores of their strings. The others have none;
# nor has one of which a string ends within a sequence, or has a fault.
XT_NOTES = [
    "clear 1b5b334a",
    "cnorm 1b5b3f31326c",
    "cvvis 1b5b3f31323b323568",
    "rmcup 1b5b3f313034396c",
    "rmcup 1b5b32333b303b3074",
    "smcup 1b5b3f3130343968",
    "smcup 1b5b32323b303b3074",
]
NOTES = {4: XT_NOTES, 5: [*XT_NOTES[:2], "cvvis 1b5b33346c", *XT_NOTES[3:]], 6: XT_NOTES, 7: XT_NOTES, 51: ["smcup 1b5b3f3130343968"]}

# a source of the sample entries, and one with an entry c0, c1 and so on for each line of the table
FILES["samples"] = MINI + VT + XT
FILES["checks"] = FILES["samples"] + b"".join(
    f"c{at}|checked,\n\t{fields} use={base},\n".encode() for at, (fields, base, *_) in enumerate(CHECKED)
)

# the words, the status, standard output, standard error
RUNS = [
    (["expand", CUP, "2", "4", "1", "3"], 0, "1b5b323b3448\ncursor 1 3\n", ""),
    (["expand", "--cup", CUP, "2", "4", "1", "3"], 0, "1b5b323b3448\ncursor 1 3\ncup yes\n", ""),
    (["expand", "a\\E[1", "2", "4"], 1, "611b5b31\n", "refused: Unfinished 1\n"),
    (["expand", "--cup", "\\E[H", "2", "4"], 0, "1b5b48\ncursor 0 0\ncup no 0 1\n", ""),
    (["expand", "%i%i%p1%d", "2", "4", "1"], 0, "33\ncursor 0 1\n", ""),
    (["expand", "%q", "2", "4"], 1, "", "refused: BadCode\n"),
    (["tic", "wrong_kind:a"], 1, "", "refused: line 1: WrongKind\n"),
    (["tic", "wrong_octal:a"], 1, "", "refused: line 1: BadNumber\n"),
    (["tic", "past_range:a"], 1, "", "refused: line 1: NumberRange\n"),
    (["tic", "open_field:a"], 1, "", "refused: line 1: OpenField\n"),
    (["tic", "wrong_escape:a"], 1, "", "refused: line 1: BadEscape\n"),
    (["tic", "no_name:a"], 1, "", "refused: line 1: NoName\n"),
    (["tic", "odd:a"], 0, "", "note line 1: OddEscape\n"),
    (["infocmp", "odd:a"], 0, "a|a,\n\tel=\\200q,\n", ""),
    (
        ["tic", "notes:a"],
        0,
        "",
        "note line 2: UnknownName\nnote line 2: Duplicate\nnote line 2: OddEscape\nnote line 3: UnknownName\n",
    ),
    (["tic", "notes:b"], 1, "", None),
    (["infocmp", "uses:x"], 0, "x|x,\n\tam,\n", ""),
    (["infocmp", "-c", "uses:x", "uses:z"], 0, "am\n", ""),
    (["infocmp", "-c", "uses:z", "uses:z"], 0, "am\nel\n", ""),
    (["infocmp", "-n", "uses:x", "uses:z"], 0, None, ""),
    (["infocmp", "-c", "even.out", "even:b"], 0, "am\ncols\n", ""),
    (["infocmp", "-c", "even.out", "wide.out"], 0, "am\n", ""),
    (["infocmp", "loop:a"], 1, "", "refused: Cycle a\n"),
    (["infocmp", "unknown_use:a"], 1, "", "refused: NoSuchEntry q\n"),
    (["infocmp", "deep:e0"], 0, "e0|e0,\n\tam,\n", ""),
    (["infocmp", "too_deep:e0"], 1, "", "refused: TooMany e65\n"),
    (["infocmp", "too_deep:e1"], 0, "e1|e1,\n\tam,\n", ""),
    (["infocmp", "deep_loop:e0"], 1, "", "refused: Cycle e0\n"),
    (["infocmp", "twice:e0"], 0, "e0|e0,\n\tam,\n", ""),
    (["infocmp", "even:b"], 0, "a|b,\n\tam,\n\tcols#80,\n", ""),
    (["infocmp", "even.out"], 0, "a|b,\n\tam,\n\tcols#80,\n", ""),
    (["infocmp", "even_short"], 1, "", "refused: Short\n"),
    (["infocmp", "even_swapped"], 1, "", "refused: BadMagic\n"),
    (["infocmp", "unpadded"], 1, "", "refused: Short\n"),
    (["infocmp", "string.out"], 0, "m,\n\tel=\\E[K,\n", ""),
    (["infocmp", "past_table"], 1, "", "refused: BadOffset\n"),
    (["infocmp", "open_string"], 1, "", "refused: NoNul\n"),
    (["infocmp", "wide.out"], 0, "a|b,\n\tam,\n\tcols#40000,\n", ""),
    (["infocmp", "wide_negative"], 1, "", "refused: BadNumber\n"),
    (["infocmp", "wide_short"], 1, "", "refused: Short\n"),
    (["infocmp", "no_names"], 1, "", "refused: BadNames\n"),
    (["infocmp", "long_string"], 0, "m,\n\tcbt=" + "x" * 4095 + ",\n", ""),
    (["infocmp", "too_long_string"], 1, "", "refused: TooLarge\n"),
    (["infocmp", "no_names_long"], 1, "", "refused: BadNames\n"),
    (["infocmp", "longest"], 0, "a|b,\n\tam,\n\tcols#80,\n", ""),
    (["infocmp", "too_long"], 3, "", "file: too_long\n"),
    (["infocmp", "mini.out"], 0, f"mini|sample,\n\tclear=\\E[H\\E[2J,\n\tcup={CUP},\n\tsgr0=\\E[m,\n", ""),
    (["infocmp", "largest:a"], 0, "a|a,\n", ""),
    (["infocmp", "past_limit:a"], 3, "", "file: past_limit\n"),
    (["infocmp", "absent"], 3, "", "file: absent\n"),
    (["infocmp", "absent:a"], 3, "", "file: absent\n"),
    (["infocmp", "-c", "even_short", "absent"], 1, "", "refused: Short\n"),
    (["infocmp", "-c", "-n", "even.out", "even.out"], 2, "", None),
    (["infocmp", "-c", "even.out"], 2, "", None),
    (["infocmp", "even.out", "even.out"], 2, "", None),
    (["infocmp"], 2, "", None),
    (["tic", "too_large:m"], 0, "", ""),
    (["feed", "2", "4", "wrap"], 0, "abcd\ne   \ncursor 1 1\n", ""),
    (["feed", "2", "4", "scroll"], 0, "efgh\ni   \ncursor 1 1\n", ""),
    (["feed", "2", "4", "bell"], 1, "", "refused: Stuck 2\n"),
    (["feed", "2", "4", "unfinished"], 0, "    \n    \ncursor 0 0\n", ""),
    (["feed", "3", "4", "moves"], 0, "    \nab  \n  c \ncursor 2 3\n", ""),
    (["feed", "2", "4", "rendition"], 0, "a   \n    \ncursor 0 1\nlook 0 0-0 BR\n", ""),
    (["feed", "2", "4", "hidden"], 0, "    \n    \ncursor 0 0 hidden\n", ""),
    (["feed", "2", "4", "background"], 0, "    \n    \ncursor 0 0\nlook 0 0-3 b4\n", ""),
    (["feed", "1", "4", "wrap"], 1, "", "refused: BadSize\n"),
    (["feed", "2", "4", "absent"], 3, "", "file: absent\n"),
    (["verify", "mini:mini", "2", "2", "mini.cert"], 0, "yes\n", ""),
    (["verify", "mini:mini", "2", "2", "no_sgr0.cert"], 1, "", "refused: line 7: Missing sgr0\n"),
    (["verify", "mini:mini", "2", "2", "no_cup.cert"], 1, "", "refused: line 6: Missing cup 1 1\n"),
    (["verify", "mini:mini", "2", "2", "twice.cert"], 1, "", "refused: line 5: OutOfOrder\n"),
    (["verify", "mini:mini", "2", "2", "not_shown.cert"], 1, "", "refused: line 4: NotShown\n"),
    (["verify", "mini:mini", "2", "2", "other.cert"], 1, "", "refused: Disagree cup 0 0\n"),
    (["verify", "mini:mini", "2", "2", "upper.cert"], 1, "", "refused: line 2: BadLine\n"),
    (["verify", "mini:mini", "2", "2", "open.cert"], 1, "", "refused: line 8: BadLine\n"),
    (["verify", "mini:mini", "2", "2", "long.cert"], 1, "", "refused: line 2: BadLine\n"),
    (["verify", "mini:mini", "2", "2", "empty.cert"], 1, "", "refused: line 1: BadLine\n"),
    (["verify", "mini:mini", "2", "3", "mini.cert"], 1, "", "refused: line 1: BadLine\n"),
    (["verify", "mini:mini", "24", "80", "/dev/zero"], 1, "", "refused: line 1: BadLine\n"),
    (["verify", "uses:z", "2", "2", "mini.cert"], 1, "", "refused: Disagree clear\n"),
    (["verify", "mini:mini", "2", "2", "absent"], 3, "", "file: absent\n"),
    (["verify", "mini:mini", "2", "2", "/"], 3, "", "file: /\n"),
    (["verify", "absent:a", "2", "2", "absent.cert"], 3, "", "file: absent\n"),
    (["verify", "absent:a", "1", "2", "absent.cert"], 1, "", "refused: BadSize\n"),
    (["verify", "mini:mini", "1", "x", "absent.cert"], 2, "", None),
    (["verify", "mini:mini", "2", "2"], 2, "", None),
]

RUNS += [
    (["check", "mini:mini", "2", "2"], 0, CERTIFICATE.decode(), ""),
    (["check", "mini:mini", "1", "2"], 1, "", "refused: BadSize\n"),
    (["check", "mini:mini", "2", "501"], 1, "", "refused: BadSize\n"),
    (["check", "absent:a", "2", "501"], 1, "", "refused: BadSize\n"),
    (["check", "absent:a", "2", "2"], 3, "", "file: absent\n"),
    (["check", "mini:maxi", "2", "2"], 1, "", "refused: NoSuchEntry maxi\n"),
    (["check", "open_field:a", "2", "2"], 1, "", "refused: line 1: OpenField\n"),
    (["check", "even_short", "2", "2"], 1, "", "refused: Short\n"),
    (["check", "mini:mini", "2", "x"], 2, "", None),
    (["check", "mini:mini", "2"], 2, "", None),
    (["check", "mini:mini", "2", "2", "2"], 2, "", None),
]

# what is said of each entry of the sample source, of compiled files, and of files without entries
RUNS += [
    (
        ["survey", "24", "80", "samples", "even.out", "wide.out", "even_short", "wrong_kind", "unknown_use"],
        0,
        "mini yes\nvt yes\nxt yes\nxc yes\na no clear: Absent\na no clear: Absent\neven_short refused: Short\n"
        "a refused: line 1: WrongKind\na refused: NoSuchEntry q\n"
        "total 9, yes 4, Absent 2, refused 3\n",
        "",
    ),
    (
        ["survey", "24", "80", "unread", "unread_front"],
        0,
        "u refused: line 4: BadNumber\nb refused: line 4: BadNumber\nmini yes\nb no clear: Absent\n"
        "v refused: line 4: BadNumber\no refused: line 10: OpenField\nw refused: line 10: OpenField\n"
        "l refused: NoSuchEntry gone\nunread_front refused: line 3: NoName\n"
        "total 9, yes 1, Absent 1, refused 7\n",
        "",
    ),
    (["survey", "24", "80", "absent", "mini"], 3, "mini yes\ntotal 1, yes 1\n", "file: absent\n"),
    # with --fail the lines are those without it; any no or refused is status 1, after a file that can't be read
    (["survey", "--fail", "24", "80", "samples"], 0, "mini yes\nvt yes\nxt yes\nxc yes\ntotal 4, yes 4\n", ""),
    (["survey", "--all", "--fail", "24", "80", "mini"], 0, "mini yes\ntotal 1, yes 1\n", "opens 1\n"),
    (["survey", "--fail", "24", "80", "empty.cert"], 0, "total 0\n", ""),
    (
        ["survey", "--fail", "24", "80", "even.out", "mini"],
        1,
        "a no clear: Absent\nmini yes\ntotal 2, yes 1, Absent 1\n",
        "refused: Faulty\n",
    ),
    (
        ["survey", "--fail", "24", "80", "mini", "unknown_use"],
        1,
        "mini yes\na refused: NoSuchEntry q\ntotal 2, yes 1, refused 1\n",
        "refused: Faulty\n",
    ),
    (
        ["survey", "24", "80", "even_short", "--fail"],
        1,
        "even_short refused: Short\ntotal 1, refused 1\n",
        "refused: Faulty\n",
    ),
    (
        ["survey", "--fail", "24", "80", "absent", "unknown_use"],
        3,
        "a refused: NoSuchEntry q\ntotal 1, refused 1\n",
        "file: absent\n",
    ),
    (["survey", "--fail", "24", "501", "mini"], 1, "", "refused: BadSize\n"),
    (["survey", "24", "501", "mini"], 1, "", "refused: BadSize\n"),
    (["survey", "24", "x", "mini"], 2, "", None),
    (["survey", "24", "80"], 2, "", None),
]

# a word that is not UTF-8
RUNS.append((["feed", "2", "2", "no\udcff"], 2, "", None))

CARET = "hint line 2: in setaf `%^` is read as `%` and a control character, by ncurses as exclusive or, which is written `%\\^`"

# of the entry `hints:a` and of those that it uses
HINTS = [
    "hint line 4: rmasc is no capability",
    "hint line 4: ell is no capability",
    "hint line 5: clear stands in the entry before, where the first one counts",
    "hint line 7: el has `\\K`, which is no escape and stands for the byte behind the backslash",
    "hint line 7: foo is no capability",
    "hint line 9: in setb `%^` is read as `%` and a control character, by ncurses as exclusive or, which is written `%\\^`",
]
OTHERS = [
    "hint line 11: bar is no capability",
    "hint line 11: in setf `%^` is read as `%` and a control character, by ncurses as exclusive or, which is written `%\\^`",
    # a caret takes the backslash after it
    "hint line 12: quux is no capability",
]
ENDS = [
    "hint line 14: kf1 has `\\ `, which is no escape and stands for the byte behind the backslash",
    "hint line 14: kf2 has `\\ `, which is no escape and stands for the byte behind the backslash",
    "hint line 15: \\015 is no capability",
]
DULL = [
    "advice sgr: smso=\\E[7m shows standout, sgr never does",
    "advice sgr: bold=\\E[1m shows bold, sgr never does",
]

WRAP = "advice am: missing, but T goes on in the next line after the last column"
WAIT = "advice xenl: missing, but T stays in the last column until the next character comes"
UNUSED = "advice colors: missing beside op, so programs use no colors"
BAD = [
    "advice op: setaf and setab are missing, so colors are never shown",
    r"advice dch1: dch1=\E[2P doesn't delete a cell on T",
    r"advice dl1: dl1=\E[2K doesn't delete a line on T",
    r"advice rmir: rmir=\E[4h doesn't end smir on T",
    r"advice rmso: rmso=\E[24m doesn't end smso on T",
    r"advice rmul: rmul=\E[27m doesn't end smul on T",
    r"advice ich1: ich1=\E[P doesn't insert a blank on T",
    r"advice il1: il1=\E[2L doesn't insert a line on T",
    r"advice indn: indn=\E[%p1%dT doesn't scroll up by 2 lines on T",
    r"advice rin: rin=\n doesn't scroll down by 2 lines on T",
    WAIT,
    UNUSED,
]


def counted(checked, right=0, advised=0, keys=0, unseen=""):
    """The line about the strings of an entry."""
    names = f": {unseen}" if unseen else ""
    return (
        f"strings: {checked} checked, {right} others right in one run, {advised} with advice, {keys} of keys,"
        f" {len(unseen.split())} not looked at{names}"
    )


# the words, the status, and the lines of standard error that advise or hint
ADVISED = [
    *((["check", f"samples:{name}", "24", "80"], 0, []) for name in ("mini", "vt", "xt", "xc")),
    *((["check", "--all", f"samples:{name}", "24", "80"], 0, lines)
      for name, lines in (("mini", [counted(3)]), ("vt", [counted(21)]), ("xt", [counted(15)]), ("xc", [counted(18)]))),
    (["check", "--all", "unchecked:good", "2", "4"], 0, [counted(5, 13, 0, 2, "smir")]),
    (["check", "unchecked:bad", "2", "4"], 0, BAD[:1]),
    (["check", "--all", "unchecked:bad", "2", "4"], 0, [*BAD, counted(5, 0, 9, 0, "smir op")]),
    (["check", "--all", "unchecked:unwrapped", "2", "4"], 0, [WRAP, counted(3)]),
    (["check", "--all", "unchecked:odd", "2", "4"], 0, [counted(3, 0, 0, 0, "dch1 dl1 ich1 il1 indn rin rep sitm")]),
    (["check", "advice:dull", "2", "4"], 0, DULL),
    (["check", "--all", "advice:dull", "2", "4"], 0, [*DULL, counted(4, 0, 0, 0, "bold smso smul")]),
    (["check", "--json", "advice:dull", "2", "4"], 0, []),
    (["check", "advice:odd", "2", "4"], 0, []),
    (["check", "advice:half", "2", "4"], 0, ["advice setaf: op is missing, so colors are never shown"]),
    (["check", "advice:one", "2", "4"], 0, ["advice op: setaf and setab are missing, so colors are never shown"]),
    (["check", "advice:lines", "2", "4"], 0, [
        "advice acsc: rmacs is missing, so the line drawing set is never used",
        "advice civis: cnorm is missing, so the cursor is never hidden",
    ]),
    (["check", "hints:a", "2", "4"], 0, HINTS),
    (["check", "--all", "hints:a", "2", "4"], 0, [*HINTS, counted(4, 0, 0, 0, "setb")]),
    (["check", "hints:d", "2", "4"], 1, OTHERS),
    (["check", "hints:base", "2", "4"], 0, []),
    (["check", "extended:a", "2", "4"], 0, [f"hint line 5: {name} is no capability" for name in ("Ax", "E4", "RGBA", "kUP1", "kUP17", "kDC02", "kENDX")]),
    (["check", "many:a", "2", "4"], 1, [
        *(f"hint line {at + 2}: q{at} is no capability" for at in range(1000)),
        "hint line 1002: 200 further fields of the entry have hints too",
    ]),
    (["survey", "2", "4", "hints"], 0, []),
    (["survey", "--all", "2", "4", "hints"], 0, [f"{line}, in hints" for line in HINTS + OTHERS + ENDS]),
]  # fmt: skip

LONG = (
    f"'{'x' * 200}' .. in line 2 of long.cert: a line is written as `cup 0 0 1b5b313b3148 row=0 col=0 nopend`, with"
    " parameters that the size allows; the last one is `end`, and each ends with LF"
)

OPEN = (
    "smcup, enacs, sgr0, rmacs, csr of the whole screen and clear, sent one after another, are to lead a terminal out of any"
    " state, so they have to begin with ESC: a sequence that was cut off would take any other first byte as part of it"
)

DRAWN = (
    "each string is right by itself, but they can leave the line drawing set active, and a program switches sets only where"
    " acsc, smacs and rmacs are all there: its letters would show as lines"
)

# parts of what is said of a run
KEPT = "no cell has changed"
ALL = "bold dim underlined blinking reverse invisible in red on blue"
LINES = "G0 is the line drawing set, G1 is the line drawing set"

# the words, and the last line of standard error, in plain words
EXPLAINED = [
    (["infocmp", "wrong_kind"], "'wrong_kind' looks like terminfo source text: one of its entries is named as FILE:NAME"),
    (["infocmp", "even_swapped"], "'even_swapped' is not a compiled terminfo file: it begins with neither 1a 01 nor 1e 02"),
    (["infocmp", "-c", "even.out", "even_short"], "'even_short' ends within the header or a section of a compiled terminfo file"),
    (["infocmp", "-c", "even_short", "even.out"], "'even_short' ends within the header or a section of a compiled terminfo file"),
    (
        ["tic", "wrong_kind:a"],
        "'cols=80' in line 1 of wrong_kind: this capability is of another kind; it is written as NAME#NUMBER",
    ),
    (
        ["tic", "wrong_octal:a"],
        "'cols#08' in line 1 of wrong_octal: the number is neither decimal, nor 0x and hexadecimal digits, nor 0 and octal digits",
    ),
    (["tic", "past_range:a"], "'cols#2147483648' in line 1 of past_range: the number is above 2147483647"),
    (
        ["tic", "open_field:a"],
        "'open_field', line 1: a field ends with a comma on its own line;"
        " ncurses writes source text in this form by `infocmp -1` and `tic -I -1`",
    ),
    (["tic", "notes:a"], "unknown names: xyz (1), zzz (1)"),
    (["infocmp", "too_deep:e0"], "'e65' is the 65th entry that is used, and 64 are allowed, in too_deep"),
    (["infocmp", "hostile:a"], "'\\033[31m' is not the name of an entry in hostile"),
    (["infocmp", "unknown_use:a"], "check, infocmp, survey, tic and verify take --with FILE, a file whose entries can be used too"),
    (["tic", "caret:a"], CARET),
    (["infocmp", "caret:a"], CARET),
    (["infocmp", "too_long"], "'too_long' has more than 131072 bytes"),
    (["infocmp", "absent:a"], "'absent': there is no such file or folder"),
    (["infocmp", "/:a"], "'/' is a folder"),
    (["feed", "2", "4", "bell"], "'bell': byte 2 is 7, which does not continue the sequence before it"),
    (["feed", "2", "4", "latin"], "'latin': byte 1 is 233, and the terminal takes 7-bit text, bytes 0 to 127"),
    (["expand", "a\\E[1", "2", "4"], "'the bytes sent': the sequence that begins at byte 1 is not complete"),
    (["expand", "%q", "2", "4"], "'STRING' has a `%` that does not begin a code"),
    (["tic", "too_large:m", "--out", "/"], "'/': the compiled file would have more than 4096 bytes, or than 32768 where a number is above 32767"),
    (["tic", "even:a", "--out", "/"], "'/' is a folder"),
    (["tic", "even:a", "--out", "/dev/full"], "'/dev/full': there is no space left for it"),
    (["tic", "even:a", "--out", "even"], "'even' is the file that the entry is read from"),
    (
        ["verify", "mini:mini", "2", "2", "no_cup.cert"],
        "'sgr0 1b5b6d look:000000 ink:dd' in line 6 of no_cup.cert: the line of `cup 1 1` has to stand here",
    ),
    (
        ["verify", "mini:mini", "2", "3", "mini.cert"],
        "'ticert 2 2 2' in line 1 of mini.cert: the first line of a certificate for this size is `ticert 2 2 3`",
    ),
    (
        ["verify", "mini:mini", "2", "2", "empty.cert"],
        "'' in line 1 of empty.cert: the first line of a certificate for this size is `ticert 2 2 2`",
    ),
    (["verify", "mini:mini", "2", "2", "long.cert"], LONG),
    (["verify", "mini:mini", "2", "2", "/"], "'/' is a folder"),
    (["check", "checks:c7", "24", "80"], f"seen: {KEPT}, the cursor is at row 0, column 0, the rendition is plain in black on default"),
    (["check", "checks:c8", "2", "2"], f"seen: {KEPT}, the cursor is at row 1, column 1"),
    (["check", "checks:c12", "2", "2"], f"seen: {KEPT}, the cursor is at row 0, column 0, the rendition is {ALL}, {LINES}, G0 is active, the cursor is hidden"),
    (["check", "checks:c13", "2", "2"], f"seen: {KEPT}, the cursor is at row 0, column 0, the rendition is plain in red on blue, {LINES}, G1 is active, the cursor is hidden"),
    (["check", "checks:c30", "2", "4"], "seen: the cell at row 0, column 0 is blank, the cursor is at row 0, column 0"),
    (["check", "checks:c32", "2", "4"], "seen: 8 cells from row 0, column 0 to row 1, column 3 are blank, the cursor is at row 1, column 0"),
    (["check", "checks:c33", "2", "4"], "seen: nothing changes"),
    (["check", "checks:c34", "3", "4"], "seen: nothing changes"),
    (["check", "checks:c50", "2", "2"], OPEN),
    (["check", "checks:c51", "2", "4"], OPEN),
    # from the charset to which smacs leads
    (["check", "checks:c53", "2", "4"], "seen: nothing changes"),
    (["check", "checks:c55", "2", "2"], DRAWN),
]

# what begins no further line
FIXED = (b"refused:", b"note ", b"file:", b"call ")

# an entry, and the bytes that `tic --out` writes of it; none: it refuses, and writes no file
WRITTEN = [
    ("even:a", EVEN),
    ("even.out", EVEN),
    ("odd_names:ab", bytes.fromhex("1a01 0300 0200 0100 0000 0000 616200 0001 00 5000")),
    ("one_string:m", STRING),
    ("wide:a", WIDE),
    ("widest:a", WIDE[:-4] + b"\xff\xff\xff\x7f"),
    ("not_wide:a", EVEN[:-2] + b"\xff\x7f"),
    ("mini:mini", PACKED_MINI),
    ("large:m", packed(4079)),
    ("too_large:m", None),
    ("large_wide:m", packed(*[4095] * 7, 4061, number=40000)),
    ("too_large_wide:m", None),
]


def judge(words, told, status, out, err):
    """Ends the script where a run printed something else; None was not known before. After the known lines of standard
    error at most one more may come, in plain words, and two after that of a file, an open field or a name without entry."""
    right = told.status == status and (out is None or told.out == out.encode())
    if err is not None:
        further = told.err.removeprefix(err.encode())
        most = 2 if any(word in err for word in ("file:", "OpenField", "NoSuchEntry")) else 1
        right = right and told.err.startswith(err.encode()) and further.count(b"\n") <= most
        right = right and not further.startswith(FIXED) and (bool(err) or not further)
        right = right and all(byte == 10 or 32 <= byte <= 126 for byte in further)
    # where the words are wrong, something says so
    if not right or (status == 2 and not told.err):
        sys.exit(f"examples: {words}: status {told.status}, {told.out}, {told.err}")


def judge_checked(words, told, no, notes):
    """Ends the script where `check` printed something else: the notes, and a certificate of the size, or the line of
    its no (what follows `refused: no `), and below it in plain words why."""
    front, behind = b"ticert 2 %s %s\n" % tuple(word.encode() for word in words[2:4]), b"\nend\n"
    noted = "".join(f"note {note}\n" for note in notes).encode()
    err, right = told.err.removeprefix(noted), told.err.startswith(noted)
    if no is None:
        right = right and told.status == 0 and told.out.startswith(front) and told.out.endswith(behind) and not err
    else:
        first, *further = err.splitlines()
        right = right and told.status == 1 and not told.out and first == b"refused: no " + no.encode() and bool(further)
        right = right and not any(line.startswith(FIXED) for line in further)
        right = right and all(32 <= byte <= 126 for line in further for byte in line)
    if not right:
        sys.exit(f"examples: {words}: status {told.status}, {told.out[:200]}, {told.err}")


def judge_checks():
    """`check` of each entry of CHECKED, and `verify` of each certificate that it writes."""
    cases = [Case(["check", f"checks:c{at}", rows, cols]) for at, (_, _, rows, cols, _) in enumerate(CHECKED)]
    answers = run_cases(f"{TOP}/crates/ticurses", cases, FILES)
    verified, certificates = [], {}
    for at, (case, answer, checked) in enumerate(zip(cases, answers, CHECKED)):
        judge_checked(case.words, answer, checked[-1], NOTES.get(at, []))
        if checked[-1] is None:
            certificates[f"c{at}.cert"] = answer.out
            verified.append(Case(["verify", *case.words[1:], f"c{at}.cert"]))
    for case, answer in zip(verified, run_cases(f"{TOP}/crates/ticurses", verified, {**FILES, **certificates})):
        judge(case.words, answer, 0, "yes\n", "")
    long = run_cases(f"{TOP}/crates/ticurses", [Case(["check", "mini:mini", "24", "80"])], FILES)[0].out
    if long.count(b"\n") != 1924:
        sys.exit("examples: a certificate has not a line for each place")
    print(f"examples: {len(CHECKED)} entries are checked, and {len(verified)} certificates verify")


def judge_system():
    """`check` of entries of the system's database, those that it has."""
    if not shutil.which("infocmp"):
        print("examples: infocmp is not installed, and the entries of the system's database are left out")
        return
    folders = subprocess.run(["infocmp", "-D"], capture_output=True, text=True, check=False).stdout.split()
    paths = {name: path for name in SYSTEM for folder in reversed(folders) if os.path.isfile(path := f"{folder}/{name[0]}/{name}")}
    cases = [Case(["check", path, "24", "80"]) for path in paths.values()]
    for name, case, answer in zip(paths, cases, run_cases(f"{TOP}/crates/ticurses", cases, FILES)):
        refused = next((line for line in answer.err.splitlines() if line.startswith(b"refused: no ")), None)
        wanted = SYSTEM[name] and b"refused: no " + SYSTEM[name].encode()
        if refused != wanted or answer.out.startswith(b"ticert 2 24 80\n") != (wanted is None):
            sys.exit(f"examples: {case.words}: status {answer.status}, {answer.out[:200]}, {answer.err}")
    print(f"examples: {len(paths)} of {len(SYSTEM)} entries of the system's database have their verdict")


def judge_certificate_stored(work):
    """`check --out` writes the certificate and nothing else; where it refuses or fails, all files are as before."""
    stored = f"{work}/stored"
    os.mkdir(stored)
    for name, held in (("source", MINI), ("kept", b"as before")):
        with open(f"{stored}/{name}", "wb") as file:
            file.write(held)
    runs = [
        (["check", "mini:mini", "2", "2", "--out", f"{stored}/made"], 0, ""),
        (["check", "checks:c15", "2", "2", "--out", f"{stored}/kept"], 1, "refused: no clear: Absent\n"),
        (["check", f"{stored}/source:mini", "2", "2", "--out", f"{stored}/source"], 3, f"file: {stored}/source\n"),
        (["check", "mini:mini", "2", "2", "--out", "/"], 3, "file: /\n"),
        (["check", "mini:mini", "2", "2", "--out", "/dev/full"], 3, "file: /dev/full\n"),
    ]
    cases = [Case(words) for words, _, _ in runs]
    for (words, status, err), answer in zip(runs, run_cases(f"{TOP}/crates/ticurses", cases, FILES)):
        judge(words, answer, status, "", err)
    held = {name: open(f"{stored}/{name}", "rb").read() for name in os.listdir(stored)}
    if held != {"made": CERTIFICATE, "source": MINI, "kept": b"as before"}:
        sys.exit(f"examples: check --out left {held}")


def judge_explained(words, told, line):
    """Ends the script where neither of the last two lines of standard error, which may be a hint, is this one."""
    if line.encode() not in told.err.splitlines()[-2:]:
        sys.exit(f"examples: {words}: {told.err}")


def judge_advice():
    """The advice and the hints of a run: exactly these lines, and no verdict or status changes for them."""
    cases = [Case(words) for words, _, _ in ADVISED]
    for (words, status, wanted), told in zip(ADVISED, run_cases(f"{TOP}/crates/ticurses", cases, FILES)):
        lines = [line for line in told.err.decode().splitlines() if line.startswith(("advice ", "hint ", "strings: "))]
        if lines != wanted or told.status != status:
            sys.exit(f"examples: {words}: status {told.status}, {lines}")
    print(f"examples: {len(ADVISED)} runs advise and hint as they should")


def judge_kept(work):
    """A file that `tic --out` can't replace is as before, and nothing is left beside it; one that it replaces keeps its
    permissions, and a link stays a link."""
    kept = f"{work}/kept"
    os.mkdir(kept)
    for name in ("file", "other"):
        with open(f"{kept}/{name}", "wb") as file:
            file.write(b"as before")
    os.chmod(f"{kept}/file", 0o640)
    os.symlink("file", f"{kept}/link")
    cases = [Case(["tic", "too_large:m", "--out", f"{kept}/other"]), Case(["tic", "even:a", "--out", f"{kept}/link"])]
    refused, written = run_cases(f"{TOP}/crates/ticurses", cases, FILES)
    judge(["tic", "too_large:m", "--out"], refused, 1, "", "refused: TooLarge\n")
    judge(["tic", "even:a", "--out"], written, 0, "", "")
    held = {name: open(f"{kept}/{name}", "rb").read() for name in os.listdir(kept)}
    if held != {"other": b"as before", "file": EVEN, "link": EVEN} or not os.path.islink(f"{kept}/link"):
        sys.exit(f"examples: tic --out left {held}")
    if os.stat(f"{kept}/file").st_mode & 0o777 != 0o640:
        sys.exit("examples: tic --out changed the permissions of its file")


def judge_progress(work):
    """On a terminal `survey` prints where it is, a file and then its entry, and erases that in the end."""
    with open(f"{work}/mini", "wb") as file:
        file.write(MINI)
    leader, follower = pty.openpty()
    words = ["survey", "24", "80", "mini"]
    ran = subprocess.run([f"{PROGRAM}/out/ticurses", *words], cwd=work, env={}, stdout=subprocess.PIPE, stderr=follower)
    os.close(follower)
    shown = read_terminal(leader)
    judge(words, Told(ran.returncode, ran.stdout, b""), 0, "mini yes\ntotal 1, yes 1\n", "")
    if shown != b"\r0 of 1: mini\r0 of 1: mini\r            \r":
        sys.exit(f"examples: survey on a terminal showed {shown}")


def judge_streamed(work):
    """The line of a file's entry is written before the next file is opened: a pipe that nobody writes to until then."""
    os.mkfifo(f"{work}/pipe")
    for form in [], ["--all"], ["--json"]:
        words = ["survey", *form, "2", "2", "mini", "pipe"]
        with subprocess.Popen([f"{PROGRAM}/out/ticurses", *words], cwd=work, env={}, stdout=subprocess.PIPE) as survey:
            is_known = select.select([survey.stdout], [], [], PATIENCE)[0]
            subprocess.run(["sh", "-c", "cat mini >pipe"], cwd=work, check=True, timeout=PATIENCE)
            lines = survey.stdout.read().splitlines()
        if form == ["--json"]:
            lines = [json.loads(line)["file"] for line in lines]
        wanted = ["mini", "pipe"] if form == ["--json"] else [b"mini yes", b"mini yes", b"total 2, yes 2"]
        if not is_known or lines != wanted or survey.returncode:
            sys.exit(f"examples: {words}: {survey.returncode} {lines}; a line before the pipe is opened: {bool(is_known)}")


def judge_unread(work):
    """Each path that can't be read is named, and the others have their lines."""
    words = ["survey", "24", "80", "absent", "mini", ".", "gone"]
    told = subprocess.run([f"{PROGRAM}/out/ticurses", *words], cwd=work, env={}, capture_output=True, check=False)
    causes = ["'absent': there is no such file or folder", "'.' is a folder", "'gone': there is no such file or folder"]
    wanted = ["file: absent", *causes, "'.' could not be read either", "'gone' could not be read either"]
    if told.returncode != 3 or told.stdout != b"mini yes\ntotal 1, yes 1\n" or told.stderr.decode().splitlines() != wanted:
        sys.exit(f"examples: {words}: {told.returncode} {told.stdout} {told.stderr}")


def read_terminal(leader):
    """All that was written to a terminal that nobody has open any longer; it may come in several pieces."""
    shown = b""
    with contextlib.suppress(OSError):
        while piece := os.read(leader, 4096):
            shown += piece
    os.close(leader)
    return shown


def judge_neither(told):
    """`infocmp -n` of x and z: flags, numbers and strings, each kind in the order of names; `am` and `el` are had."""
    lines = told.out.decode().splitlines()
    kinds = [lines[:43], lines[43:82], lines[82:]]
    if len(lines) != 495 or len(set(lines)) != 495 or {"am", "el"} & set(lines) or "hz" not in kinds[0]:
        sys.exit("examples: infocmp -n lists other names")
    if "cols" not in kinds[1] or "clear" not in kinds[2] or any(kind != sorted(kind) for kind in kinds):
        sys.exit("examples: infocmp -n lists the names in another order")


def main():
    with tempfile.TemporaryDirectory() as work:
        cases = [Case(words) for words, _, _, _ in RUNS]
        for at, (entry, _) in enumerate(WRITTEN):
            cases.append(Case(["tic", entry, "--out", f"{work}/{at}"]))
        cases += [Case(words) for words, _ in EXPLAINED]
        told = run_cases(f"{TOP}/crates/ticurses", cases, FILES)
        for (words, *wanted), answer in zip(RUNS, told):
            judge(words, answer, *wanted)
            if wanted[1] is None:
                judge_neither(answer)
        for at, ((entry, file), answer) in enumerate(zip(WRITTEN, told[len(RUNS) :])):
            judge(["tic", entry, "--out"], answer, 0 if file else 1, "", "" if file else "refused: TooLarge\n")
            if os.path.exists(f"{work}/{at}") != bool(file) or file and open(f"{work}/{at}", "rb").read() != file:
                sys.exit(f"examples: tic {entry} --out wrote another file")
        for (words, last), answer in zip(EXPLAINED, told[len(RUNS) + len(WRITTEN) :]):
            judge_explained(words, answer, last)
        judge_kept(work)
        judge_certificate_stored(work)
        judge_progress(work)
        judge_streamed(work)
        judge_unread(work)
        judge_checks()
        judge_advice()
        judge_system()
    print(f"examples: {len(EXPLAINED)} failures are explained, and a file that can't be replaced is as before")
    print(f"examples: {len(RUNS)} runs told what they are to tell, and {len(WRITTEN)} of `tic --out` wrote their file or none")


main()
