#!/usr/bin/env python3
"""Writes into a built program what `ir --version` says of it: of which commit it is, and whether it was proved.

python3 scripts/stamp.py PROGRAM proved|unproved

The program has that text with dashes in place of the commit, and `not proved`. The commit is that of the clone, 12 digits of it. If files of crates/
differ from it, the last digit is a `+`. Without git the dashes stay. Nothing else of the program changes.
"""
import re
import subprocess
import sys
from pathlib import Path

TOP = Path(__file__).resolve().parent.parent
TEXT = re.compile(rb"\(commit [-+0-9a-f]{12}, (?:not|was) proved\)")
WORDS = {"proved": b"was", "unproved": b"not"}
UNKNOWN = "-" * 12


def said_by_git(*words):
    """What git says, or None if it fails."""
    try:
        ran = subprocess.run(["git", *words], cwd=TOP, stdout=subprocess.PIPE, stderr=subprocess.DEVNULL, text=True, check=False)
    except OSError:
        return None
    return ran.stdout.strip() if ran.returncode == 0 else None


def commit():
    """The commit of the clone in 12 characters."""
    name = said_by_git("rev-parse", "--short=12", "HEAD")
    if not name:
        return UNKNOWN
    return name[:11] + "+" if said_by_git("status", "--porcelain", "--", "crates", "crates.txt") else name[:12]


def main():
    if len(sys.argv) != 3 or sys.argv[2] not in WORDS:
        sys.exit("usage: python3 scripts/stamp.py PROGRAM proved|unproved")
    program = Path(sys.argv[1])
    text = b"(commit %s, %s proved)" % (commit().encode("ascii"), WORDS[sys.argv[2]])
    stamped, count = TEXT.subn(text, program.read_bytes())
    if count != 1:
        sys.exit(f"{program}: the text of its version stands there {count} times, and not once")
    program.write_bytes(stamped)


if __name__ == "__main__":
    main()
