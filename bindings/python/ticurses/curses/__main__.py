"""Runs a program that imports `curses` over this package:

    python3 -m ticurses.curses PROGRAM.py [ARGUMENT..]
    python3 -m ticurses.curses -m MODULE [ARGUMENT..]
"""

from __future__ import annotations

import os
import runpy
import sys

from . import stand_in


def main() -> int:
    words = sys.argv[1:]
    is_module = words[:1] == ["-m"]
    if len(words) < 1 + is_module:
        print("usage: python3 -m ticurses.curses [-m] PROGRAM [ARGUMENT..]", file=sys.stderr)
        return 2
    stand_in()
    sys.argv = words[is_module:]
    if is_module:
        runpy.run_module(sys.argv[0], run_name="__main__", alter_sys=True)
    else:
        # as in the interpreter, modules beside the program are found first
        sys.path.insert(0, os.path.dirname(os.path.abspath(sys.argv[0])))
        runpy.run_path(sys.argv[0], run_name="__main__")
    return 0


if __name__ == "__main__":
    sys.exit(main())
