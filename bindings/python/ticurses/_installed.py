"""The paths of the installed libraries, which ./install writes here; empty in a checkout."""

LIBRARY: str = ""
TERMINFO: str = ""
