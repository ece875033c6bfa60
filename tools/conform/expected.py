"""Files of expected differences: a line of JSON that says what the file is, and one for each case that differs."""

import json
import os
import tempfile
from pathlib import Path

from cases import Wrong
from told import natural

HEAD = "conform_expected"
MEMBERS = {"emulator": str, "file": str, "case": str, "count": int, "first": str}


def lines_of(results):
    """A line for each difference: how many there are in the case, and the first."""
    yield {HEAD: 1, "versions": {name: told.version for name, told in results.items()}}
    for name, told in results.items():
        for case, found in told.differ():
            yield {"emulator": name, "file": case.file, "case": case.name, "count": len(found), "first": found[0]}


def write(path, text):
    """Writes a file as a whole or not at all; what isn't a file, such as /dev/stdout, is written to."""
    path = os.path.realpath(path)
    try:
        if os.path.exists(path) and not os.path.isfile(path):
            Path(path).write_text(text, encoding="utf-8")
            return
        replace(path, text)
    except OSError as error:
        raise Wrong(f"{path} can't be written: {error.strerror}") from None


def replace(path, text):
    handle, new = tempfile.mkstemp(prefix=".conform-", dir=os.path.dirname(path))
    try:
        with os.fdopen(handle, "w", encoding="utf-8") as file:
            file.write(text)
        os.chmod(new, os.stat(path).st_mode & 0o777 if os.path.exists(path) else 0o666 & ~umask())
        os.replace(new, path)
    except BaseException:
        os.unlink(new)
        raise


def umask():
    now = os.umask(0o077)
    os.umask(now)
    return now


def write_expected(path, results):
    write(path, "".join(json.dumps(line) + "\n" for line in lines_of(results)))


class Expected:
    """The content of a file: by emulator, then by file and case, how many differences and the first."""

    def __init__(self, path):
        try:
            lines = Path(path).read_text(encoding="utf-8").splitlines()
        except (OSError, UnicodeDecodeError) as error:
            raise Wrong(f"{path} can't be read: {error}") from None
        self.path, self.of = path, {}
        if not lines or self.read(lines[0], 1).get(HEAD) != 1:
            raise Wrong(f"{path} is no file of --write-expected")
        for at, line in enumerate(lines[1:], 2):
            self.take(self.read(line, at), at)

    def read(self, line, at):
        try:
            told = json.loads(line)
        except ValueError:
            told = None
        if not isinstance(told, dict):
            raise Wrong(f"line {at} of {self.path} isn't an object of JSON")
        return told

    def take(self, told, at):
        if any(type(told.get(name)) is not kind for name, kind in MEMBERS.items()):
            raise Wrong(f"line {at} of {self.path} lacks one of {', '.join(MEMBERS)}")
        cases, key = self.of.setdefault(told["emulator"], {}), (told["file"], told["case"])
        if key in cases:
            raise Wrong(f"line {at} of {self.path} has a case again")
        cases[key] = (told["count"], told["first"])

    def compare(self, name, told, known):
        """The new differences and the vanished ones: words for each. A case that was not run says nothing, but for one that isn't
        among the known ones any more."""
        wanted, ran = self.of.get(name, {}), {case.key(): found for case, found in told.found}
        gone = {key for key in wanted if key[0] in {file for file, _ in known} and key not in known}
        places = sorted(ran.keys() | gone, key=lambda key: (key[0], natural(key[1])))
        answers = {key: change(wanted.get(key), ran.get(key), key in gone) for key in places}
        return [f"{why}: {name} {'/'.join(key)}{words}" for key, (why, words) in answers.items() if why]


def change(before, found, is_gone):
    """The change of a case, and how it differs now."""
    if is_gone:
        return "vanished", ": there is no such case now"
    if found and before is None:
        return "new", f": {found[0]}"
    if before is not None and not found:
        return "vanished", f": it was {before[1]}"
    if found and before != (len(found), found[0]):
        return "new", f": {found[0]} ({len(found)} in all); it was {before[1]} ({before[0]} in all)"
    return "", ""
