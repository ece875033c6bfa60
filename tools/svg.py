"""SVG pictures as lists of elements: text that needs no font of its own, whole coordinates, the same bytes each time."""

import re
from xml.sax.saxutils import escape, quoteattr

INK, FAINT, PAPER, FRAME = "#1b1f24", "#57606a", "#ffffff", "#d0d7de"
SANS, MONO = "Helvetica, Arial, sans-serif", "Menlo, Consolas, 'DejaVu Sans Mono', monospace"


def number(value):
    """A coordinate, with one digit after the point if it needs one."""
    return f"{value:.1f}".rstrip("0").rstrip(".")


class Picture:
    """A picture that grows element by element."""

    def __init__(self, width, title):
        self.width, self.title, self.height, self.elements = width, title, 0, []

    def add(self, name, text=None, **attributes):
        """An element; `_` in an attribute's name is a hyphen, and the bottom of the picture moves down to it."""
        given = "".join(
            f" {key.rstrip('_').replace('_', '-')}={quoteattr(number(value) if isinstance(value, (int, float)) else value)}"
            for key, value in attributes.items()
            if value is not None
        )
        self.elements.append(f"<{name}{given}/>" if text is None else f"<{name}{given}>{escape(text)}</{name}>")

    def box(self, x, y, width, height, fill, **more):
        self.height = max(self.height, y + height)
        self.add("rect", x=x, y=y, width=width, height=height, fill=fill, **more)

    def line(self, x1, y1, x2, y2, color, **more):
        self.height = max(self.height, y1, y2)
        self.add("line", x1=x1, y1=y1, x2=x2, y2=y2, stroke=color, **more)

    def text(self, x, y, text, size=12, color=INK, font=SANS, **more):
        self.height = max(self.height, y + size / 3)
        self.add("text", text, x=x, y=y, font_family=font, font_size=size, fill=color, **more)

    def cells(self, x, y, text, step, size, color, **more):
        """Characters, each in a cell of its own width, whatever the font's is; each run of them is an element."""
        for run in re.finditer(r"[^ ]+", text):
            places = " ".join(number(x + step * at) for at in range(run.start(), run.end()))
            self.height = max(self.height, y + size / 3)
            self.add("text", run[0], x=places, y=y, font_family=MONO, font_size=size, fill=color, **more)

    def written(self, margin=14):
        """The picture's file."""
        height = number(self.height + margin)
        head = (
            f'<svg xmlns="http://www.w3.org/2000/svg" width="{self.width}" height="{height}" '
            f'viewBox="0 0 {self.width} {height}" role="img">\n<title>{escape(self.title)}</title>\n'
            f'<rect width="{self.width}" height="{height}" rx="6" fill="{PAPER}" stroke="{FRAME}"/>\n'
        )
        return head + "\n".join(self.elements) + "\n</svg>\n"
