"""The commands of README.md, docs/TOUR.md and docs/KEEPING.md, those of each page one after another in an empty folder,
and what each is to print."""

import os
import shutil
import subprocess
import sys
import tempfile

from trying import TOP

INDENT = "    "


def steps(text):
    """Each command with the lines below it."""
    found = []
    for line in text.splitlines():
        if line.startswith(f"{INDENT}$ "):
            found.append((line[len(INDENT) + 2 :], []))
            open_step = True
        elif line.startswith(INDENT) and found and open_step:
            found[-1][1].append(line[len(INDENT) :])
        else:
            open_step = False
    return found


def run(page):
    """Runs the commands of a page. Without jq those that need it are left out."""
    with open(f"{TOP}/{page}", encoding="utf-8") as file:
        found = steps(file.read())
    tried = [it for it in found if shutil.which("jq") or "jq " not in it[0]]
    with tempfile.TemporaryDirectory() as room:
        for name in ("ticurses", "examples", "tools"):
            os.symlink(f"{TOP}/{name}", f"{room}/{name}")
        for command, lines in tried:
            how = {"cwd": room, "env": {**os.environ, "TERM": "xterm-256color"}}
            ran = subprocess.run(["sh", "-c", command], stdout=subprocess.PIPE, stderr=subprocess.PIPE, **how)
            wanted = "".join(f"{line}\n" for line in lines)
            if ran.returncode != 0 or ran.stdout.decode() != wanted:
                sys.exit(f"tour: {command}: status {ran.returncode}\n{ran.stdout.decode()}{ran.stderr.decode()}and was to print\n{wanted}")
    left = f"; jq is not installed, and {len(found) - len(tried)} that need it are left out" if len(tried) < len(found) else ""
    print(f"tour: {len(tried)} commands print what {page} says{left}")


def main():
    pages = ["README.md", "docs/TOUR.md", "docs/KEEPING.md"]
    if not shutil.which("infocmp") or not shutil.which("tic"):
        print("tour: infocmp or tic is not installed, and the commands of README are left out")
        pages.remove("README.md")
    for page in pages:
        run(page)


main()
