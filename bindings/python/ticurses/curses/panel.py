"""Panels, which the library doesn't have."""

raise ImportError("ticurses.curses has no panels", name=__name__)
