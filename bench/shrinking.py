#!/usr/bin/env python3
"""How long `ir shrink` takes: a run of 10^4 steps with some 200 switches, of two threads that add to a word.

python3 bench/shrinking.py IR [--turns N]

Each thread makes 96 additions, an addition in two entries, and works between these. The run is of the first seed of `ir hunt --by walk` that loses an addition. Prints
its steps and switches, the seconds of processor time in which it is shrunk, best of N, and the host instructions by valgrind's callgrind, if it is installed.
"""
import argparse
import os
import re
import shutil
import subprocess
import sys
import tempfile
from pathlib import Path

from faults import call, get, of_threads, put, reads, repeated, writes

ROUNDS = 96
# Private steps between the two entries of an addition.
WORK = 26
COLLECTED = re.compile(r"Collected : (\d+)")


def source():
    """The guest."""
    work = f"        addi t0, zero, {WORK // 2}\nwork:   addi t0, t0, -1\n        bne t0, zero, work\n"
    body = reads(get(0, "s1")) + "        addi s1, s1, 1\n" + work + writes(put(0, "s1"))
    return of_threads(["main", "main"], f"main:\n{repeated('again', ROUNDS, body)}{call(1, 'zero, 0')}")


def processor_seconds(words, folder):
    """The processor time of a command, and its lines."""
    before = os.times()
    ended = subprocess.run(words, cwd=folder, check=True, capture_output=True, text=True)
    after = os.times()
    return after.children_user + after.children_system - before.children_user - before.children_system, ended.stdout.splitlines()


def main():
    parser = argparse.ArgumentParser(description=__doc__.splitlines()[0])
    parser.add_argument("program", metavar="IR", help="the built program")
    parser.add_argument("--turns", type=int, default=5, help="how often it is measured")
    asked = parser.parse_args()
    program = os.path.abspath(asked.program)
    until = ["--until", f"!word 0 0 {2 * ROUNDS}"]
    with tempfile.TemporaryDirectory() as place:
        folder = Path(place)
        (folder / "guest.s").write_text(source(), encoding="ascii")
        subprocess.run([program, "asm", "guest.s", "guest.img"], cwd=folder, check=True)
        hunt = subprocess.run([program, "hunt", "guest.img", "found.trc", "--by", "walk", *until], cwd=folder, check=True, capture_output=True, text=True)
        steps = sum(int(line.split()[7]) for line in hunt.stdout.splitlines()[1:])
        words = [program, "shrink", "guest.img", "found.trc", "least.trc", *until]
        runs = [processor_seconds(words, folder) for _ in range(asked.turns)]
        print(f"{steps} steps, {hunt.stdout.split()[4].count(',')} switches hunted; {' '.join(runs[0][1][0].split()[:4])}, {runs[0][1][1]}")
        print(f"{min(seconds for seconds, _ in runs):.2f} seconds of processor time")
        if shutil.which("valgrind") is None:
            print("valgrind isn't installed, so no host instructions")
            return
        counted = subprocess.run(["valgrind", "--tool=callgrind", f"--callgrind-out-file={os.devnull}", *words], cwd=folder, capture_output=True, text=True, check=True)
        found = COLLECTED.search(counted.stderr)
        print(f"{int(found[1]) / 10**9:.2f} * 10^9 host instructions" if found else "callgrind counted nothing")


if __name__ == "__main__":
    sys.exit(main())
