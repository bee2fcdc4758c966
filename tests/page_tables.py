"""Tables of measurements, and their places in docs/PERFORMANCE.md."""

import os
import re
import sys

from cluster import TOP

DOCS = os.path.join(TOP, "docs")


def table(head, rows):
    """A table in Markdown."""
    lines = ["| " + " | ".join(row) + " |\n" for row in [head, ["---"] * len(head), *rows]]
    return "".join(lines)


def put(begin, text, end):
    """Puts the text between these lines of docs/PERFORMANCE.md."""
    path = os.path.join(DOCS, "PERFORMANCE.md")
    with open(path) as file:
        old = file.read()
    parts = re.fullmatch(f"(.*{re.escape(begin)}).*({re.escape(end)}.*)", old, re.DOTALL)
    if parts is None:
        sys.exit(f"{path} has no place for the table")
    with open(path, "w") as file:
        file.write(f"{parts[1]}{text}{parts[2]}")
