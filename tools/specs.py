"""The definitions of specs/ and the clauses of src/: what each file has, which words a text names, and what these name."""

import os
import re

from crates import TOP

CRATES = os.path.join(TOP, "crates")

WORD = r"[^\W\d]\w*"
NAME = rf"(?:\S*◌\S*|{WORD})"


def read(path):
    with open(path, encoding="utf-8") as file:
        return file.read()


def crates_listed():
    """The crates of crates.txt, each with those of them that it depends on."""
    crates = {}
    for line in read(os.path.join(TOP, "crates.txt")).splitlines():
        line = line.split("#")[0].strip()
        if line:
            name, below = line.split(":")
            crates[name.split()[0]] = below.split()
    return {name: [crate for crate in below if crate in crates] for name, below in crates.items()}


def files_of(crate, folder, ending):
    place = os.path.join(CRATES, crate, folder)
    if not os.path.isdir(place):
        return []
    return sorted(name[: -len(ending)] for name in os.listdir(place) if name.endswith(ending))


# ---- what the names of a file mean

USE = re.compile(
    r"^\s*(?:ghost )?(?:pub )?use Rattle\.([a-z_]+)\.specs\.([A-Z]\w*)(?:\.\{([^}]*)\})?(?: as (\w+))?;?\s*$", re.M
)
TOGETHER = re.compile(r"^(\s*(?:ghost )?(?:pub )?use Rattle\.[a-z_]+\.specs)\.\{(.*)\};?\s*$", re.M)
PASSED_ON = re.compile(r"^pub use [^\n]*$", re.M)
# the types that the code declares, and their variants and fields
DECLARED = re.compile(
    r"^\s*(?:ghost )?(?:pub )?use Rattle\.([a-z_]+)\.specs\.declared\.([\w.]+)\.\{([^}]*)\};?\s*$", re.M
)


def apart(text):
    """A text in which each import names one module: those of a crate that were imported together stand one by one."""

    def each(found):
        front, inside = found.groups()
        parts, depth = [""], 0
        for letter in inside:
            depth += (letter == "{") - (letter == "}")
            if letter == "," and not depth:
                parts.append("")
            else:
                parts[-1] += letter
        return "\n".join(f"{front}.{part.strip()};" for part in parts)

    return TOGETHER.sub(each, text)


def imports_of(text):
    """The words and the modules of specifications that a text names: each by its own name there."""
    words, modules = {}, {}
    for crate, module, names, alias in USE.findall(apart(text)):
        if names:
            for name in names.split(","):
                name = name.strip()
                own, _, local = name.partition(" as ")
                words[(local or own).strip()] = (crate, module, own.strip())
        else:
            modules[alias or module] = (crate, module)
    return words, modules


def declared_in(text):
    """The types of the code that a text names: for each word there the crate, the file of src/ and the type."""
    found = {}
    for crate, path, names in DECLARED.findall(apart(text)):
        # Call.TheVariants.{Show} is a variant of the type Call
        parts = path.split(".The")[0].split(".")
        for name in names.split(","):
            own, _, local = name.strip().partition(" as ")
            found[(local or own).strip()] = (crate, "/".join(parts[:-1]), parts[-1])
    return found


class Spec:
    """A file of specs/: its definitions, each with the text that states it."""

    START = re.compile(rf"(?:abbrev |unfoldable |opaque |pub |record |data |inductive )*({NAME})")

    def __init__(self, crate, module):
        self.crate, self.module = crate, module
        text = read(os.path.join(CRATES, crate, "specs", module + ".antt"))
        self.words, self.modules = imports_of(text)
        self.passed = imports_of("\n".join(PASSED_ON.findall(text)))[0]
        self.types = declared_in(text)
        self.blocks, self.owner, self.order = {}, {}, []
        current = None
        for line in text.splitlines():
            if line.startswith(("--", "use ", "pub use ", "pub mod ", "mod ")):
                continue
            if line and not line[0].isspace():
                found = self.START.match(line)
                if found:
                    current = found.group(1)
                    if current not in self.blocks:
                        self.blocks[current] = []
                        self.order.append(current)
            elif current:
                member = re.match(rf"\s+(?:pub )?({WORD}) :", line)
                if member and member.group(1) not in self.owner:
                    self.owner[member.group(1)] = current
            if current:
                self.blocks[current].append(line.split(" --")[0])

    def shown(self, word):
        """The words by which a reader finds a definition: of a block of mutual ones the names of its members."""
        return [it for it, owner in self.owner.items() if owner == word] if word == "mutual" else [word]

    def name_of(self, word):
        """The definition in which a word stands: itself, or the type whose constructor it is."""
        if word in self.blocks:
            return word
        return self.owner.get(word)


SPECS = {}


def spec(crate, module):
    key = (crate, module)
    if key not in SPECS:
        path = os.path.join(CRATES, crate, "specs", module + ".antt")
        SPECS[key] = Spec(crate, module) if os.path.exists(path) else None
    return SPECS[key]


def meant(crate, module, name):
    """Where the definition of a word is that a file has: in the file, or in the one from which it passes the word on."""
    there = spec(crate, module)
    if there is None:
        return None
    if there.name_of(name):
        return crate, module, there.name_of(name)
    return meant(*there.passed[name]) if name in there.passed else None


def cited(text, words, modules, own=None):
    """The definitions that a text names."""
    found = set()
    for alias, word in re.findall(rf"({WORD})\.({WORD})", text):
        if alias in modules:
            found.add(meant(*modules[alias], word))
    signs = {word for word in words if "◌" in word and all(part in text for part in word.split("◌"))}
    for word in set(re.findall(WORD, text)) | signs:
        if word in words:
            found.add(meant(*words[word]))
        elif own and word in own.blocks:
            found.add((own.crate, own.module, word))
        elif own and word in own.owner and (word[0].isupper() or own.owner[word] == "mutual"):
            found.add((own.crate, own.module, own.owner[word]))
    return found - {None}


def closure(roots):
    """The definitions, and all that they name."""
    known, left = set(), list(roots)
    while left:
        one = left.pop()
        if one in known:
            continue
        known.add(one)
        there = spec(one[0], one[1])
        text = "\n".join(there.blocks[one[2]])
        left.extend(cited(text, there.words, there.modules, there))
    return known


# ---- exported clauses

EXPORTED_TO_C = re.compile(r'^#\[unsafe\(no_mangle\)\]\npub extern "C" fn (\w+)', re.M)


def each_clause(text, at):
    """The clauses of the function whose parameters begin after `at`: each one's kind, name (or none) and text."""
    found, i, depth = [], at, 0
    while i < len(text):
        char = text[i]
        if char in "([":
            depth += 1
        elif char in ")]":
            depth -= 1
        elif char == ";" and depth == 0:
            break
        elif char == "{" and depth == 0:
            head = re.search(rf"\b(requires|ensures)\*?(?:\s+({WORD}))?$", text[at:i].rstrip())
            end, inner = i + 1, 1
            while inner and end < len(text):
                inner += {"{": 1, "}": -1}.get(text[end], 0)
                end += 1
            if not head:
                break
            found.append((head.group(1), head.group(2) or "", text[i:end]))
            i = end
            continue
        i += 1
    return found


def clauses(text, at):
    """The clauses of the function whose parameters begin after `at`, as one text."""
    return "\n".join(text for _, _, text in each_clause(text, at))


def block_at(text, at):
    """The text in braces that begins at or after `at`."""
    start = text.index("{", at)
    end, inner = start + 1, 1
    while inner and end < len(text):
        inner += {"{": 1, "}": -1}.get(text[end], 0)
        end += 1
    return text[start:end]


def exported(crate):
    """The names that a crate's lib.rt exports from its modules, and those that it passes on from other crates."""
    text = read(os.path.join(CRATES, crate, "src", "lib.rt"))
    own, passed = set(), []
    modules = set(re.findall(r"^(?:pub )?mod (\w+);", text, re.M))
    for path, names, name in re.findall(r"pub use ([\w:]+?)::(?:\{([^}]*)\}|(\w+));", text):
        listed = {n.strip() for n in names.split(",") if n.strip()} if names else {name}
        top = path.split("::")[0]
        if top in modules or top == "crate":
            own |= listed
        else:
            passed.append((top, listed))
    for module in modules:
        own |= set(EXPORTED_TO_C.findall(read(os.path.join(CRATES, crate, "src", module + ".rt"))))
    laws = [m for m in re.findall(r"^pub mod (\w+);", text, re.M)]
    return own, passed, laws


def each_item(crate):
    """The public functions of a crate's modules: each one's name, the text of its file, and where its parameters begin."""
    for module in files_of(crate, "src", ".rt"):
        text = read(os.path.join(CRATES, crate, "src", module + ".rt"))
        for item in re.finditer(r'^pub (?:extern "C" )?fn (\w+)', text, re.M):
            yield item.group(1), text, item.end()


def roots_of(crate, names=None):
    """The definitions that the exported clauses of a crate name."""
    if not os.path.isdir(os.path.join(CRATES, crate, "src")):
        return set()
    own, passed, laws = exported(crate)
    if names is not None:
        own = {name for name in own if name in names}
        laws = []
    found = set()
    for module in files_of(crate, "src", ".rt"):
        text = read(os.path.join(CRATES, crate, "src", module + ".rt"))
        words, modules = imports_of(text)
        parts = []
        for item in re.finditer(r'^pub (?:extern "C" )?fn (\w+)', text, re.M):
            if item.group(1) in own or module in laws:
                parts.append(clauses(text, item.end()))
        for item in re.finditer(r"^pub trait (\w+)[^\n]*\{", text, re.M):
            if item.group(1) in own:
                parts.append(block_at(text, item.start()))
        for item in re.finditer(r"^impl(?:<[^{\n]*?>)? (?:(\w+)(?:<[^{\n]*>)? for )?(\w+)[^{\n]*\{", text, re.M):
            if item.group(2) not in own:
                continue
            body = block_at(text, item.start())
            if item.group(1) == "Model":
                parts.append(re.sub(r"ghost invariant = \{.*?\};", "", body, flags=re.S))
            elif item.group(1) is None:
                inner, more = imports_of(body)
                words.update(inner)
                modules.update(more)
                for method in re.finditer(r"^    pub fn (\w+)", body, re.M):
                    parts.append(clauses(body, method.end()))
        found |= cited("\n".join(parts), words, modules)
    if names is None:
        for other, listed in passed:
            found |= roots_of(other, listed)
    return found
