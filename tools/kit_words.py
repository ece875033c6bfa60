"""The words of the toolchain's library that definitions import: where the kit states each, and in how many lines."""

import contextlib
import functools
import os
import re
import subprocess

from specs import CRATES, apart, read, spec

IMPORT = re.compile(r"^\s*(?:ghost )?(?:pub )?use Rattle\.(\w+)\.specs\.([\w.]+)\.\{([^}]*)\};?\s*$", re.M)
PASSED = re.compile(r"^\s*(?:unfoldable )?pub use ([\w.]+)(?:\.\{([^}]*)\})?;?\s*$", re.M)
KINDS = r"(?:(?:pub|abbrev|unfoldable|opaque|record|data|inductive|native) )*"
# the folders of the modules whose names begin so; those of `Prim` are built into the prover
ROOTS = {"mathlib": ("antt/port/mathlib/src",), "lib": ("logic/Lib", "antt/lib"), "Prim": ()}
BUILT_IN = "Prim"


@functools.lru_cache(maxsize=None)
def folder():
    """The folder of the kit's sources; None where there is no toolchain."""
    with contextlib.suppress(OSError, subprocess.CalledProcessError, IndexError):
        ran = subprocess.run(["rt", "doc"], stdin=subprocess.DEVNULL, capture_output=True, check=True)
        return os.path.join(os.path.dirname(ran.stdout.decode().split()[0]), "rattle")
    return None


def names_in(listed):
    """The names of an import, each with the name that it gets there."""
    for each in filter(None, map(str.strip, listed.split(","))):
        own, _, local = each.partition(" as ")
        yield own, local or own


def is_in(word, text):
    """Whether a text has a word, or each part of a sign."""
    if "◌" in word:
        return all(part in text for part in word.split("◌") if part)
    return re.search(rf"(?<![\w'-]){re.escape(word)}(?![\w'-])", text) is not None


def imported(known):
    """The library's words that these definitions name, as pairs of a module and a name."""
    found = set()
    for crate, module in sorted({it[:2] for it in known}):
        there = spec(crate, module)
        text = "\n".join("\n".join(there.blocks[word]) for one, of, word in known if (one, of) == (crate, module))
        source = apart(read(os.path.join(CRATES, crate, "specs", f"{module}.antt")))
        for library, path, listed in IMPORT.findall(source):
            if not os.path.isdir(os.path.join(CRATES, library)):
                named = (it for it, local in names_in(listed) if is_in(local, text))
                found |= {(f"Rattle.{library}.specs.{path}", it) for it in named}
    return found


def paths_of(module):
    """The files in which a module may be."""
    parts = module.split(".")
    if parts[0] == "Rattle":
        return [f"{parts[1]}/specs/{'/'.join(parts[3:])}.antt"]
    return [f"{root}/{'/'.join(parts[1:])}.antt" for root in ROOTS.get(parts[0], ())]


def variant(module, name):
    """The Rust type that declares a type or a variant of this name: its file and its lines; else None."""
    parts = module.split(".")
    if "declared" not in parts:
        return None
    inner = [it for it in parts[parts.index("declared") + 1 :] if it != "TheVariants"]
    owner = inner[-1] if parts[-1] == "TheVariants" else name
    at = f"{parts[1]}/src/{'/'.join(inner[:-1])}.rt"
    return (at, owner, declaration(read(f"{folder()}/{at}"), owner)) if os.path.isfile(f"{folder()}/{at}") else None


def declaration(text, name):
    """The lines of a type's declaration in Rust, with its doc comments and the names of its bits, but no blank ones; 0
    where there is none."""
    lines = text.splitlines()
    declares = re.compile(rf"pub (?:ghost )?(?:struct|enum|type) {name}\b")
    at = next((i for i, line in enumerate(lines) if declares.match(line)), None)
    if at is None:
        return 0
    first = at
    while first and lines[first - 1].startswith(("///", "#[")):
        first -= 1
    last = at
    while not re.search(r"[;}]$", lines[last]) or lines[last].startswith(" "):
        last += 1
    named = re.search(rf"^bitflag_items! \{{\n    impl {name}\b.*?^\}}$", text, re.M | re.S)
    held = [*lines[first : last + 1], *(named[0].splitlines() if named else [])]
    return sum(1 for line in held if line.strip() and not line.startswith("#["))


def stated(lines, name):
    """The word that states a name in these lines of a module, which is the name or the type whose constructor it is,
    and in how many lines; None where none does."""
    # constructors of one type may have one line
    signed = re.compile(rf"\s*{KINDS}(?:[^\W\d]\w* )*?{re.escape(name)}(?: [^\W\d]\w*)*\s+(?:[({{].*)?:(?:\s|$)")
    uses = re.compile(r"\s*(?:unfoldable )?(?:pub )?use ")
    at = next((i for i, line in enumerate(lines) if signed.match(line.split("--")[0]) and not uses.match(line)), None)
    if at is None:
        return None
    type_of = next((line for line in reversed(lines[:at]) if indent(line) < indent(lines[at])), "")
    owner = re.match(r"\s*(?:pub )?data (\S+)", type_of)
    if owner:
        return stated(lines, owner[1])
    count = 1
    for line in lines[at + 1 :]:
        bare = line.strip()
        is_case = indent(line) == indent(lines[at]) and "=" in bare and is_in(name, re.split(r" =(?: |$)", bare)[0])
        if not bare or indent(line) <= indent(lines[at]) and not is_case and not bare.startswith("--"):
            break
        count += not bare.startswith("--")
    return name, count


def indent(line):
    return len(line) - len(line.lstrip()) if line.strip() else 1000


def place_of(module, name, seen=()):
    """Where the kit states a word: the file, the word's name there, and the lines. The file of built in words is
    `Prim`, and that of words that aren't found is empty."""
    if module.split(".")[0] == BUILT_IN:
        return BUILT_IN, name, 0
    found = variant(module, name)
    if found:
        return found
    for path in paths_of(module):
        if (path, name) in seen or not os.path.isfile(f"{folder()}/{path}"):
            continue
        text = read(f"{folder()}/{path}")
        found = stated(text.splitlines(), name)
        if found:
            return path, *found
        for other, listed in PASSED.findall(apart(text)):
            for own, local in names_in(listed):
                if local == name:
                    return place_of(other, own, (*seen, (path, name)))
    return passed_on(module, name)


def passed_on(module, name):
    """The place of a word of a module that a library passes on whole, as `std` does with those of `core`."""
    parts = module.split(".")
    index = f"{folder()}/{parts[1]}/specs/Lib.antt" if parts[0] == "Rattle" else ""
    if os.path.isfile(index):
        for other, listed in PASSED.findall(read(index)):
            if not listed and other.split(".")[-1] == parts[3] and other != module:
                return place_of(".".join([other, *parts[4:]]), name)
    return "", name, 0
