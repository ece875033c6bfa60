"""The certificates that the packages carry: of the entries of packaging/certificates/entries.ti, for 24 rows and 80
columns, as the program writes them."""

import concurrent.futures
import hashlib
import os
import re
import subprocess
import tempfile

from crates import TOP
from linking import Failed

ENTRIES = f"{TOP}/packaging/certificates/entries.ti"
ROWS, COLS = "24", "80"


def entries():
    """The entries by their first names: each one's text. Comments above the first one belong to none."""
    with open(ENTRIES, encoding="ascii") as file:
        lines = [line for line in file if line.strip() and not line.startswith("#")]
    found = {}
    for line in lines:
        if not line[0].isspace():
            name = re.match(r"[^|,]+", line)[0]
            if name in found:
                raise Failed(125, f"{ENTRIES} has two entries named {name}")
            found[name] = ""
        found[name] += line
    return found


def heading():
    """The comments above the entries, which have their license."""
    with open(ENTRIES, encoding="ascii") as file:
        return "".join(re.sub("^# ?", "", line) for line in file if line.startswith("#"))


def certificate(program, name):
    """The certificate of one entry. An entry that has none is an error: its line is to be removed."""
    with tempfile.TemporaryDirectory() as room:
        words = [program, "check", f"{ENTRIES}:{name}", ROWS, COLS, "--out", f"{room}/certificate"]
        ran = subprocess.run(words, stdin=subprocess.DEVNULL, capture_output=True, check=False)
        if ran.returncode:
            raise Failed(125, f"{name} of {ENTRIES} has no certificate: {os.fsdecode(ran.stderr).strip()}")
        with open(f"{room}/certificate", "rb") as file:
            return file.read()


def files(program, zipped):
    """The files of the folder, by their names: entries, certificates (compressed by `zipped`) and their checksums."""
    texts = entries()
    with concurrent.futures.ThreadPoolExecutor(os.cpu_count()) as pool:
        made = dict(zip(texts, pool.map(lambda name: certificate(program, name), texts)))
    found = {f"{name}.ti": text.encode("ascii") for name, text in texts.items()}
    found.update((f"{name}.cert.gz", zipped(held)) for name, held in made.items())
    sums = (f"{hashlib.sha256(held).hexdigest()}  {name}\n" for name, held in sorted(found.items()))
    return {**found, "SHA256SUMS": "".join(sums).encode("ascii")}
