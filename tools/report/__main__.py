"""Makes one HTML file of what `ticurses survey --json --all` prints, to be looked at with any browser.

    ticurses survey --json --all 24 80 my.ti | python3 tools/report --out report.html
    python3 tools/report found.json >report.html

Python alone is needed. Without FILE, or with -, standard input is read; without --out the page goes to standard output.
The page has no script or font from elsewhere, and each fault once: by grade, and then by how many entries have it. The status is 0, 1 if the input isn't what the survey
prints, 2 for words that can't be understood, 3 if a file can't be read or written, and 128 and the number of a signal
that ended it."""

import argparse
import contextlib
import os
import stat
import sys
import tempfile

sys.path.append(os.path.dirname(os.path.dirname(os.path.abspath(__file__))))

from ending import Ended, heed, say, why
from found import NoReport, found_in
from page import page


def arguments():
    parser = argparse.ArgumentParser(
        prog="report", description=__doc__, formatter_class=argparse.RawDescriptionHelpFormatter, allow_abbrev=False
    )
    parser.add_argument("file", metavar="FILE", nargs="?", default="-", help="what the survey printed; - is standard input")
    parser.add_argument("--out", metavar="FILE", help="writes the page to this file, whole or not at all")
    return parser.parse_args()


def read(path):
    if path == "-":
        return sys.stdin.buffer.read()
    with open(path, "rb") as file:
        return file.read()


def mode_of(path):
    """The mode of a file, or that of a new one."""
    try:
        return stat.S_IMODE(os.stat(path).st_mode)
    except FileNotFoundError:
        mask = os.umask(0)
        os.umask(mask)
        return 0o666 & ~mask


def is_special(path):
    """Whether there is something that takes what is written, and can't be replaced: a terminal, a pipe."""
    return os.path.exists(path) and not os.path.isfile(path)


def replace(path, data):
    """The file at the path, or where a link there leads, gets the data at once."""
    path = os.path.realpath(path)
    mode = mode_of(path)
    descriptor, new = tempfile.mkstemp(prefix=".report-", dir=os.path.dirname(path))
    try:
        with open(descriptor, "wb") as file:
            os.fchmod(file.fileno(), mode)
            file.write(data)
        os.replace(new, path)
    except BaseException:
        with contextlib.suppress(FileNotFoundError):
            os.remove(new)
        raise


def write(path, data):
    if path is None:
        sys.stdout.buffer.write(data)
        sys.stdout.buffer.flush()
    elif is_special(path):
        with open(path, "wb") as file:
            file.write(data)
    else:
        replace(path, data)


def run():
    given = arguments()
    try:
        data = page(found_in(read(given.file))).encode()
        write(given.out, data)
    except NoReport as error:
        say(f"report: {'standard input' if given.file == '-' else given.file}: {error}")
        return 1
    except OSError as error:
        say(f"report: {why(error)}")
        return 3
    return 0


def main():
    heed()
    try:
        status = run()
    except Ended as ended:
        status = ended.status
    if status == 3:
        # what standard output didn't take can't be written at the end either
        with contextlib.suppress(OSError):
            os.dup2(os.open(os.devnull, os.O_WRONLY), sys.stdout.fileno())
    return status


if __name__ == "__main__":
    sys.exit(main())
