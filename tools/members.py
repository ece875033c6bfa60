"""The members of an object of `--json`, as docs/report.schema.json has them, for pages and the manual."""

import json

from crates import TOP


def members():
    """Each member with its description."""
    with open(f"{TOP}/docs/report.schema.json", encoding="utf-8") as file:
        properties = json.load(file)["properties"]
    return [(name, " ".join(held["description"].split())) for name, held in sorted(properties.items())]


def table():
    """The table of a page."""
    rows = [f"| `{name}` | {text.replace('|', chr(92) + '|')} |" for name, text in members()]
    return "\n".join(["| member | what it is |", "|---|---|", *rows])
