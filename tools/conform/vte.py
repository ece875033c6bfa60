"""A VTE widget (GTK 3), in this process: its text and attributes as HTML."""

import html
import os
import re
import sys
import time

from emulator import Emulator, Missing, OtherSize
from screens import alike

FRONT, BACK = "E0E0E0", "101010"
# the columns from one tab stop to the next
TAB = 8
PALETTE = ["000000", "C00000", "00C000", "C0C000", "0000C0", "C000C0", "00C0C0", "B0B0B0"]


class Vte(Emulator):
    # bold, underline and blink; faint, negative and concealed are reported as colors, and colors as they look
    name, package, reads = "vte", "libvte-2.91-0", "BUK"
    wants_display = True

    def start(self):
        os.environ["NO_AT_BRIDGE"] = "1"
        try:
            self.toolkit()
        except (ImportError, ValueError):
            raise Missing("gir1.2-vte-2.91, gir1.2-gtk-3.0 or python3-gi isn't installed") from None
        self.window = self.gtk.Window()
        self.terminal = self.vte.Terminal()
        self.terminal.set_scrollback_lines(0)
        self.terminal.set_cursor_blink_mode(self.vte.CursorBlinkMode.OFF)
        self.terminal.set_font(self.pango.FontDescription("DejaVu Sans Mono 6"))
        self.terminal.set_size(self.cols, self.rows)
        self.terminal.set_bold_is_bright(False)
        self.terminal.connect("commit", self.commit)
        self.window.add(self.terminal)
        self.window.show_all()
        self.spin(0.5)
        size = self.terminal.get_row_count(), self.terminal.get_column_count()
        if size != (self.rows, self.cols):
            raise OtherSize(f"it has {size[0]} rows and {size[1]} columns where {self.rows} and {self.cols} were asked for")

    def toolkit(self):
        try:
            import gi
        except ImportError:
            sys.path.append("/usr/lib/python3/dist-packages")
            import gi
        gi.require_version("Gtk", "3.0")
        gi.require_version("Gdk", "3.0")
        gi.require_version("Vte", "2.91")
        from gi.repository import Gdk, GLib, Gtk, Pango
        from gi.repository import Vte as widget

        self.gtk, self.gdk, self.pango, self.vte = Gtk, Gdk, Pango, widget
        self.loop = GLib.MainContext.default()

    def commit(self, _terminal, text, _size):
        self.got += text.encode()

    def spin(self, seconds=0.0):
        end = time.monotonic() + seconds
        while True:
            while self.loop.pending():
                self.loop.iteration(False)
            if time.monotonic() >= end:
                return
            time.sleep(0.002)

    def put(self, data):
        self.terminal.feed(data)

    def until(self, pattern, seconds=20):
        end = time.monotonic() + seconds
        while time.monotonic() < end:
            self.spin()
            match = re.search(pattern, self.got)
            if match:
                self.got = self.got[match.end() :]
                return match
            time.sleep(0.001)
        raise TimeoutError(f"vte doesn't answer with {pattern!r}")

    def cells(self):
        board = self.gtk.Clipboard.get(self.gdk.SELECTION_CLIPBOARD)
        self.terminal.select_all()
        self.terminal.copy_clipboard_format(self.vte.Format.HTML)
        got = board.wait_for_contents(self.gdk.Atom.intern("text/html", False)).get_data()
        self.terminal.unselect_all()
        # a line that was wrapped doesn't end in the HTML; each row's text alone tells how long it is
        cells = [cell for line in html_lines(got.decode("utf-16")) for cell in [*line, None]]
        lines, top = [], self.terminal.get_cursor_position()[1] - self.cursor()[0]
        for row in range(top, top + self.rows):
            text = self.terminal.get_text_range(row, 0, row, self.cols, None, None)[0].rstrip("\n")
            length = len(text.expandtabs(TAB))
            line, cells = cells[:length], cells[length:]
            lines.append((line + [(" ", frozenset())] * self.cols)[: self.cols])
            if cells and cells[0] is None:
                cells = cells[1:]
        return lines

    def close(self):
        if hasattr(self, "window"):
            self.window.destroy()
            self.spin()
        super().close()


def html_lines(text):
    """The cells of VTE's HTML. Blanks that HT has passed over are one tab there."""
    text = text[text.index("<pre>") + 5 : text.rindex("</pre>")]
    lines, stack = [[]], []
    for part in re.findall(r"<[^>]*>|&[^;]*;|.|\n", text, re.S):
        if part.startswith("</"):
            stack.pop()
        elif part.startswith("<") and len(part) > 1:
            stack.append(part)
        elif part == "\n":
            lines.append([])
        elif part == "\t":
            lines[-1] += [(" ", frozenset())] * (TAB - len(lines[-1]) % TAB)
        else:
            tags = " ".join(stack)
            lines[-1].append((alike(html.unescape(part)), frozenset(mark for mark, tag in zip("BUK", ("<b>", "<u", "<blink>")) if tag in tags)))
    return lines
