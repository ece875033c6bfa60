"""The standard library's `curses.textpad`, unchanged, over this package."""

import sys
from typing import TYPE_CHECKING

from . import ascii as _ascii  # the module imports it by its name
from ._standard import taken

if TYPE_CHECKING:
    from curses.textpad import *
else:
    sys.modules[__name__] = taken("textpad")
