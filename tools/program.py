#!/usr/bin/env python3
"""Prints the path of the program that ./ticurses is to run: the proved one, where it was made from the sources as they
are, in this checkout or in another; else the unproved one, and says so. The status is 1 where neither is there."""

import os
import sys

from ending import say
from sources import PROVED, UNPROVED

NOT_PROVED = (
    "ticurses: this build is not proved; it checks itself as it runs and is some hundred times slower "
    "(./build makes the proved one)"
)


def current():
    """The program's path; None where it has to be built."""
    if PROVED.is_current() and os.access(PROVED.files[0], os.X_OK):
        return PROVED.files[0]
    # it takes as long to load as all the rest
    import kept

    try:
        files = kept.found(PROVED, PROVED.sources())
    except (OSError, KeyError):
        files = None
    if files and os.access(files[0], os.X_OK):
        return files[0]
    if UNPROVED.is_current() and os.access(UNPROVED.files[0], os.X_OK):
        say(NOT_PROVED)
        return UNPROVED.files[0]
    return None


def main():
    path = current()
    if path is None:
        return 1
    sys.stdout.buffer.write(os.fsencode(path))
    return 0


if __name__ == "__main__":
    sys.exit(main())
