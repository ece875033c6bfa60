"""The standard library's `curses.ascii`, unchanged, over this package."""

import sys
from typing import TYPE_CHECKING

from ._standard import taken

if TYPE_CHECKING:
    from curses.ascii import *
else:
    sys.modules[__name__] = taken("ascii")
