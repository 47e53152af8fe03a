#!/usr/bin/env python3
"""Shows a first look at the program: the sessions of examples/sessions, and the first hunt of the README.

python3 scripts/try_unproved.py PROGRAM

Each file of examples/sessions is what a session reads: an image and a trace, a line of hexadecimal digits each, and then commands. Prints the
commands and the answers, and ends with status 1 if one of them fails.
"""
import subprocess
import sys
import tempfile
from pathlib import Path

TOP = Path(__file__).resolve().parent.parent
SESSIONS = TOP / "examples" / "sessions"
HUNT = (
    ("asm", str(TOP / "examples" / "lost_update.s"), "lost.img"),
    ("hunt", "lost.img", "lost.trc", "--seeds", "0+1000", "--until", "!word 0 0 2"),
    ("stale", "lost.trc"),
)


def commands_of(session):
    """The commands that a session reads, after its image and its trace."""
    return session.read_text(encoding="ascii").splitlines()[2:]


def main():
    if len(sys.argv) != 2:
        sys.exit("usage: python3 scripts/try_unproved.py PROGRAM")
    program = Path(sys.argv[1]).resolve()
    for session in sorted(SESSIONS.iterdir()):
        print(f"\n{session.name}: " + ", ".join(commands_of(session)), flush=True)
        with open(session, "rb") as typed:
            status = subprocess.run([program], stdin=typed, check=False).returncode
        if status != 0:
            sys.exit(f"{session.name} ended with status {status}")
    with tempfile.TemporaryDirectory() as folder:
        for words in HUNT:
            shown = [word.replace(f"{TOP}/", "") for word in words]
            print(f"\n$ ./{program.name} " + " ".join(f"'{word}'" if " " in word else word for word in shown), flush=True)
            status = subprocess.run([program, *words], cwd=folder, check=False).returncode
            if status != 0:
                sys.exit(f"ir {words[0]} ended with status {status}")
    print(f"\nTo go on: ./{program.name} --help, and docs/guide/tutorial.md")


if __name__ == "__main__":
    main()
