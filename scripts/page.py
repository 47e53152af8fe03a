#!/usr/bin/env python3
"""Makes crates/ir_picture/src/page.rt, the literals of the page that `ir view` writes, of crates/ir_picture/page/view.html.

python3 scripts/page.py [--check]

The data takes the place of MARK in the page. What comes before it and after it is cut into parts at ends of lines, since the prover takes a
long literal for longer than its parts. With --check it writes nothing and prints a line if the file differs, and then fails; scripts/rooms.py
prints that line too.
"""
import sys
from pathlib import Path

TOP = Path(__file__).resolve().parent.parent
PAGE = TOP / "crates" / "ir_picture" / "page" / "view.html"
MADE = TOP / "crates" / "ir_picture" / "src" / "page.rt"
MARK = "/*DATA*/"
# In how many parts the text before the data is cut, and the text after it. specs/Answers.antt puts as many together.
HEAD_PARTS, TAIL_PARTS = 2, 4
# The most columns of a line of the source where it isn't a text's.
MOST_COLUMNS = 100

START = '//! The page, but for its data. `python3 scripts/page.py` makes this file of page/view.html.\n'


def parts_of(text, count):
    """The text in parts of about the same length, each of whole lines but for the last."""
    parts, lines = [], text.splitlines(keepends=True)
    for left in range(count, 0, -1):
        most, part = sum(map(len, lines)) / left, ""
        while lines and (left == 1 or not part or len(part) + len(lines[0]) / 2 < most):
            part += lines.pop(0)
        parts.append(part)
    return parts


def constant(name, text):
    """A constant that is a text, laid out as `rt fmt` does it."""
    literal = '"' + text.replace("\\", "\\\\").replace('"', '\\"') + '"'
    start = f"pub const {name}: &str ="
    apart = len(start) + 1 + len(literal.partition("\n")[0]) > MOST_COLUMNS
    return start + ("\n    " if apart else " ") + literal + ";\n"


def made(page):
    """The source of the literals of a page."""
    if not page.isascii() or page.count(MARK) != 1:
        sys.exit(f"{PAGE.relative_to(TOP)}: has to be ASCII, with {MARK} once")
    head, tail = page.split(MARK)
    source = START
    for name, says, text, count in (("HEAD", "before", head, HEAD_PARTS), ("TAIL", "after", tail, TAIL_PARTS)):
        for number, part in enumerate(parts_of(text, count), 1):
            source += f"\n/// Part {number} of what comes {says} the data.\n" + constant(f"{name}_{number}", part)
    return source


def differences():
    """A line if the file isn't as it would be made."""
    if not MADE.exists() or MADE.read_text(encoding="utf-8") != made(PAGE.read_text(encoding="utf-8")):
        yield f"{MADE.relative_to(TOP)}: isn't made of {PAGE.relative_to(TOP)}; `python3 scripts/page.py` makes it"


def main():
    if sys.argv[1:] not in ([], ["--check"]):
        sys.exit(__doc__)
    if not sys.argv[1:]:
        MADE.write_text(made(PAGE.read_text(encoding="utf-8")), encoding="utf-8")
    found = list(differences())
    print("\n".join(found) or "page: the literals are those of the page")
    return 1 if found else 0


if __name__ == "__main__":
    sys.exit(main())
