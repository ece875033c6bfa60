"""docs/CAPABILITIES.md: a row for each checked capability, from the tables of ti_rows, ti_conforms and ti_words."""

import os
import re
import sys

from made import MADE, wrapped
from specs import CRATES, block_at, read

# The words that only this page has, for each capability: its parameters, and the likely cause of a refusal.
SAID = {
    "clear": ("", "it homes or erases alone, or sends what T ignores"),
    "cup": ("row 0 to R-1, column 0 to C-1", "no `%i`, rows and columns swapped, or a move of another family of terminals"),
    "home": ("", "it is `cup` to another place, or leaves a wrap pending"),
    "cr": ("", "it goes to the next line too"),
    "hpa": ("column 0 to C-1", "no `%i`"),
    "vpa": ("row 0 to R-1", "no `%i`"),
    "cub1": ("", "it isn't BS or CUB, or moves more than a column"),
    "cuf1": ("", "it prints a space"),
    "cuu1": ("", "it also goes to column 0, or scrolls"),
    "cud1": ("", "LF with CR, which also goes to column 0"),
    "cub": ("columns 1 to C-1", "it doesn't take its parameter as a count"),
    "cuf": ("columns 1 to C-1", "it doesn't take its parameter as a count"),
    "cuu": ("rows 1 to R-1", "it doesn't take its parameter as a count"),
    "cud": ("rows 1 to R-1", "it doesn't take its parameter as a count"),
    "el": ("", "it moves the cursor, or erases the whole line"),
    "el1": ("", "it leaves out the cursor's cell"),
    "ed": ("", "it homes the cursor, or erases only the line"),
    "ech": ("cells 1 to C", "DCH in its place"),
    "sgr": ("seven of 0 or 1, and two 0", "an attribute that stays on, an empty parameter that turns all off, or a rendition of another attribute"),
    "sgr0": ("", "it leaves colors or an attribute on"),
    "setaf": ("color 0 to 7", "colors of `setf`'s order, or the background"),
    "setab": ("color 0 to 7", "colors of `setb`'s order, or the foreground"),
    "op": ("", "it resets one color only, or attributes too"),
    "smul": ("", "the rendition of another attribute"),
    "rev": ("", "the rendition of another attribute"),
    "blink": ("", "the rendition of another attribute"),
    "dim": ("", "the rendition of another attribute"),
    "bold": ("", "the rendition of another attribute"),
    "invis": ("", "the rendition of another attribute"),
    "smso": ("", "it turns an attribute off, or sets a color"),
    "enacs": ("", "it prints, or changes more than the sets"),
    "smacs": ("", "a set that isn't the one for line drawing, or one that `enacs` didn't designate"),
    "rmacs": ("", "the graphic set stays active from some settled state"),
    "csr": ("first row t, last row b, t above b", "no `%i`, or margins that aren't both given"),
    "ind": ("", "it also goes to column 0 (NEL)"),
    "ri": ("", "it only moves up, and doesn't scroll"),
    "civis": ("", "it changes more than the cursor's visibility"),
    "cnorm": ("", "it doesn't show the cursor (`?12l` alone)"),
    "cvvis": ("", "it hides the cursor"),
    "smcup": ("", "it sets margins or scrolls"),
    "rmcup": ("", "it leaves margins, or hides or shows the cursor"),
    "bel": ("", "it prints"),
}

BESIDE = {
    "Colors": "if `setaf`, `setab` and `op` are all there",
    "Single": "if there is no `sgr`",
    "Sets": "if `smacs`, `rmacs` and `acsc` are all there",
    "Alone": "if it is there",
}

MARGINS = {"Whole": "the whole screen", "Legal": "any", "OnBottom": "any, the cursor on the bottom one",
           "OnTop": "any, the cursor on the top one"}
ROOM = {"left": "columns to the left", "right": "columns to the right", "above": "rows above", "below": "rows below"}


def arms(text):
    """The arms of a match over capabilities: each capability's name with what the arm answers."""
    found = {}
    for names, answer in re.findall(r"((?:Row::\w+(?:\([^)]*\))?\s*\|?\s*)+|\b_)\s*=>\s*(.*?)(?:,\n|\n\s*\}\n)", text, re.S):
        for name in re.findall(r"Row::(\w+)", names) or ["_"]:
            found.setdefault(name.lower(), " ".join(answer.split()))
    return found


def function(text, name):
    """The text of a function's body."""
    at = text.index(f"fn {name}")
    return block_at(text, text.index("{\n", text.index(")", at)))


def start_words(answer):
    """The states that an expression of starts.rt makes."""
    words, room = [], ""
    found = re.match(r"room_(\w+)\((\w+), (.*)\)$", answer)
    if found:
        side, count, answer = found.groups()
        if "On" not in answer:
            room = f"; {count} {ROOM[side]}" if count != "1" else f"; 1 {ROOM[side].replace('s ', ' ', 1)}"
    if "calm" in answer:
        pending, margins = "false", "Whole"
    else:
        pending, margins = re.search(r"starting\(size, (\w+), Margins::(\w+)\)", answer).groups()
    words.append("any cursor" if pending == "true" else "no wrap pending")
    return f"{words[0]}{room}; margins: {MARGINS[margins]}"


def equations(text):
    """The equations of a definition file: what stands to the left of each, with its right side on one line."""
    found = re.findall(r"^(\w[^:\n=]*?) =((?: [^\n]+)?(?:\n +[^\n]+)*)", text, re.M)
    return {left: " ".join(right.split()) for left, right in found}


def spoken(right, constants):
    """The words of a right side: its strings in their order, and a letter for each number."""
    right = re.sub(r'number_text \((codes "[^"]*")\) (?:\w+|\(color_number c\))', r"\1 decimal n", right)
    parts = re.findall(rf'codes "([^"]*)"|decimal (\w)|\b({"|".join(constants) or "(?!)"})\b', right)
    return "".join(string or constants.get(name) or f"*{number}*" for string, number, name in parts)


def wanted_words(text):
    """The wanted effect of each capability, in the words of a refusal, from the definition of these."""
    found = equations(text)
    constants = {name: spoken(found[name], {}) for name in ("no_more", "around")}
    wanted = {}
    for left, right in found.items():
        row = re.match(r"\w+_text \(?([A-Z]\w*)", left)
        if row:
            wanted[row[1].lower()] = spoken(found.get(right, right), constants)
    front, behind = re.findall(r'codes "([^"]*)"', found["listed_text names"])
    wanted["sgr"] = front.rstrip(":").replace("these attributes", "the attributes asked for") + behind
    return wanted


REQUIRED = (
    "{} capabilities of terminfo(5) are checked, and no others; this page says nothing about a capability that has no"
    " row. `clear`, `cup` and `sgr0` are required; any other one may be absent."
)

METHOD = (
    "Method: `check` expands each string with every parameter list that the size (R rows, C columns) allows. The "
    "bytes must do on [T](TERMINAL.md) what the column \"wanted\" says, and nothing else, from every state that the "
    "column \"starts\" allows. In every start cells, renditions, sets and the cursor's visibility are free, autowrap "
    "is on and insert mode off. `sgr`, `sgr0`, the strings of single attributes, `smcup` and `rmcup` may also switch "
    "character sets. `check` doesn't try the states one by one: it computes one record of the effect from all of them"
    " ([vt_effects](../crates/vt_effects/README.md)), and a refusal names a state from which the string goes wrong."
)

LOOKS = (
    "A yes and looks: an attribute is shown by its own rendition or not at all, and `standout` by any. So a "
    "certificate allows an `sgr` that never turns bold on; bold text is then plain. Where the entry has a string for "
    "a feature that is never shown, `check` says so after the certificate (`advice`): an attribute that `sgr` never "
    "shows, colors where one of `setaf`, `setab` and `op` is missing, `acsc` without `smacs` or `rmacs`, `civis` "
    "without `cnorm`. `check --all` also runs some strings that aren't checked once on T (`ich`, `dch`, `il`, `dl`, "
    "`indn`, `rin`, `ich1`, `dch1`, `il1`, `dl1`, `rmul`, `rmso`, `rmir`), and advises against one that doesn't do what "
    "its name says; one that T ignores in part is not looked at. A last line counts the strings of the entry."
)

TOGETHER = (
    "All strings together: `smacs` must leave the graphic set active and `rmacs` the plain one, from every state of "
    "the sets in which strings of the entry can leave them; `acsc` may give only characters of 32 to 126 to "
    "the 25 letters that stand for a line or a sign (CERTIFICATE.md lists them); and the strings that lead out of an unknown state (`smcup`, `enacs`, `sgr0`, `rmacs`, `csr`, `clear`, in this order) "
    "must do so even after output that was cut off within a sequence. An entry with `xmc`, `hc`, `gn` or `os` gets no"
    " certificate."
)


def source(crate, name):
    """The text of a file of a crate's src/."""
    return read(os.path.join(CRATES, crate, "src", name))


def definition(crate, name):
    """The text of a file of a crate's specs/."""
    return read(os.path.join(CRATES, crate, "specs", name))


def table(names):
    """The rows of the page's table, one for each of these capabilities."""
    starts = arms(function(source("ti_rows", "starts.rt"), "start"))
    groups = arms(function(source("ti_conforms", "entries.rt"), "group_of"))
    wanted = wanted_words(definition("ti_words", "Wanted.antt"))
    for name in names:
        params, cause = SAID[name]
        start = start_words(starts.get(name, starts["_"]))
        group = BESIDE[groups.get(name, groups["_"]).split("::")[-1]]
        yield f"| `{name}` | {params or 'none'} | {start} | {wanted[name]} | {group} | {cause} |"


def page():
    """The text of docs/CAPABILITIES.md."""
    rows = source("ti_rows", "rows.rt")
    variants = re.findall(r"^    (\w+)(?:\([^)]*\))?,$", block_at(rows, rows.index("pub enum Row")), re.M)
    names = [name.lower() for name in variants]
    if set(names) != set(SAID):
        sys.exit(f"pages: capabilities without words: {sorted(set(names) ^ set(SAID))}")
    head = [wrapped(text) + "\n" for text in (REQUIRED.format(len(names)), METHOD, LOOKS)]
    columns = "| capability | parameters | starts | wanted | checked | what a no may mean |"
    lines = ["# The checked capabilities\n", MADE, *head, columns, "|---|---|---|---|---|---|", *table(names)]
    return "\n".join([*lines, "", wrapped(TOGETHER)]) + "\n"
