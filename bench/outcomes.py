#!/usr/bin/env python3
"""How long `ir explore` and `ir explore --within` take for guests of 1,140, 2,600 and 4,960 outcomes.

python3 bench/outcomes.py IR [--turns N]

Two threads add to a word, each addition in an entry, and print what they read: so each order of their entries is another outcome. Thread 0 makes three
additions. Prints of each guest its outcomes, states and entries, and the seconds of processor time, best of N: of `ir explore`, the same for each entry of
each outcome in microseconds, and of a comparison of the guest with itself, which makes two searches.
"""
import argparse
import os
import re
import subprocess
import tempfile
from pathlib import Path

from shrinking import processor_seconds

from faults import call, get, of_threads, put, repeated, writes

FEW, MANY = 3, (17, 23, 29)
FINISHED = re.compile(r"finished outcomes (\d+) states (\d+) hangs 0")


def source(rounds):
    """The guest, of which thread 1 makes so many additions."""
    turn = writes(get(0, "s1") + "        addi s1, s1, 1\n" + put(0, "s1")) + call(2, "s1, 0")
    lives = "".join(f"{name}:\n{repeated(f'again_{name}', count, turn)}{call(1, 'zero, 0')}" for name, count in (("one", FEW), ("other", rounds)))
    return of_threads(["one", "other"], lives)


def least_seconds(words, folder, turns):
    """The least processor time of a command, and its lines."""
    runs = [processor_seconds(words, folder) for _ in range(turns)]
    return min(seconds for seconds, _ in runs), runs[0][1]


def main():
    parser = argparse.ArgumentParser(description=__doc__.splitlines()[0])
    parser.add_argument("program", metavar="IR", help="the built program")
    parser.add_argument("--turns", type=int, default=3, help="how often each is measured")
    asked = parser.parse_args()
    program = os.path.abspath(asked.program)
    with tempfile.TemporaryDirectory() as place:
        folder = Path(place)
        for rounds in MANY:
            (folder / "guest.s").write_text(source(rounds), encoding="ascii")
            subprocess.run([program, "asm", "guest.s", "guest.img"], cwd=folder, check=True)
            search, lines = least_seconds([program, "explore", "guest.img"], folder, asked.turns)
            outcomes, states = (int(number) for number in FINISHED.search(lines[-1]).groups())
            entries = FEW + rounds
            both, _ = least_seconds([program, "explore", "guest.img", "--within", "guest.img"], folder, asked.turns)
            print(f"outcomes {outcomes} states {states} entries {entries}: {search:.2f} seconds, {search / outcomes / entries * 10**6:.1f} microseconds an entry; "
                  f"compared with itself {both:.2f} seconds", flush=True)


if __name__ == "__main__":
    main()
