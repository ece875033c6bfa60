"""The standard library's modules over this package, unchanged, and a stand-in for `curses`."""

from __future__ import annotations

import contextlib
import importlib
import importlib.util
import os
import sys
from importlib.machinery import PathFinder
from types import ModuleType
from typing import Iterator

__all__ = ["stand_in"]

# the names by which programs import the package, and those of its modules that exist
_NAMES = ("curses", "_curses")
_MODULES = ("ascii", "textpad")


@contextlib.contextmanager
def _standing_in() -> Iterator[None]:
    """Has imports of `curses` find this package until the block ends."""
    before = {name: sys.modules.get(name) for name in (*_NAMES, "curses.ascii")}
    package = sys.modules[__package__]
    sys.modules.update({name: package for name in _NAMES})
    sys.modules["curses.ascii"] = sys.modules.get(f"{__package__}.ascii", package)
    try:
        yield
    finally:
        for name, module in before.items():
            if module is None:
                del sys.modules[name]
            else:
                sys.modules[name] = module


def taken(name: str) -> ModuleType:
    """The standard library's module of this name, unchanged."""
    # a program's own module of this name doesn't count
    spec = PathFinder.find_spec(f"curses.{name}", [f"{os.path.dirname(os.__file__)}/curses"])
    if spec is None or spec.origin is None:
        raise ImportError(f"this Python has no curses.{name}", name=f"{__package__}.{name}")
    own = importlib.util.spec_from_file_location(f"{__package__}.{name}", spec.origin)
    assert own is not None and own.loader is not None
    module = importlib.util.module_from_spec(own)
    with _standing_in():
        own.loader.exec_module(module)
    return module


def stand_in() -> None:
    """Has `import curses` find this package from now on, and `curses.ascii` and `curses.textpad` the standard library's
    modules over it. Modules that have imported `curses` before keep the one that they have."""
    package = sys.modules[__package__]
    sys.modules.update({name: package for name in _NAMES})
    for name in _MODULES:
        sys.modules[f"curses.{name}"] = importlib.import_module(f"{__package__}.{name}")
