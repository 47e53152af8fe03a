#!/usr/bin/env python3
"""Counts the host instructions that each operation of a guest costs, by valgrind's callgrind.

python3 bench/instructions.py IR [--jobs N]

A guest is one thread with a loop around the operation. It is run with n turns and with 2n turns, and the
difference, without that of an empty loop, is the operation's cost, so that the figures repeat to the last digit for
the same program. What sets a call's arguments counts with the call, at the cost of plain instructions. Prints a
table: a row for each operation; a column for recording in order, recording by threads, fitting, and moving to the end.
Then what a step costs on average in each guest of one thread that bench/speed.py times, with its loop. If valgrind isn't installed it says so, and ends with status 0.
"""
import argparse
import os
import re
import shutil
import subprocess
import sys
import tempfile
from concurrent.futures import ThreadPoolExecutor
from itertools import product
from pathlib import Path

from guests import bodies, call, counted

# Turns of the shorter guest, in units of 4,096. The longer takes fewer than 2^19 steps, so that opening keeps no state on its way, and a move
# to the end goes all the way.
UNITS = 3
COLLECTED = re.compile(r"Collected : (\d+)")
RECORD = ["--budget", "1000000000"]
ENTER, LEAVE, GET, PUT, SELF = 8, 9, 10, 11, 12


# Each operation: its name, the statements of a turn, how many operations they are, and what comes before the loop.
INSIDE = call(ENTER, 0)
OPERATIONS = [
    ("nothing", [], 1, []),
    ("add", ["add t1, t1, t2"] * 16, 16, []),
    ("mul", ["mul t1, t1, t2"] * 16, 16, []),
    ("lw", ["lw t1, 0(s0)"] * 16, 16, ["lui s0, 0x100"]),
    ("sw", ["sw t1, 0(s0)"] * 16, 16, ["lui s0, 0x100"]),
    ("SELF", call(SELF), 1, []),
    ("GET", call(GET, 0, 0), 1, INSIDE),
    ("PUT", call(PUT, 0, 0, 1), 1, INSIDE),
    ("ENTER_WRITE with LEAVE", call(ENTER, 0) + call(LEAVE, 0), 1, []),
]
MODES = ("in order", "by threads", "fitting", "to the end")


def source(statements, before, units):
    """A guest of one thread that takes the statements 4,096 times the units."""
    lines = [".objects 1", *before, f"lui t0, {units}", "turn:", *statements, "addi t0, t0, -1", "bne t0, zero, turn"]
    return "\n".join([*lines, *call(1, 0)]) + "\n"


def host_instructions(words, lines=""):
    """The host instructions of a command."""
    run = subprocess.run(["valgrind", "--tool=callgrind", f"--callgrind-out-file={os.devnull}", *words], input=lines,
                         text=True, capture_output=True, check=False)
    found = COLLECTED.search(run.stderr)
    if run.returncode != 0 or not found:
        sys.exit(f"{words}: status {run.returncode}\n{run.stdout}{run.stderr}")
    return int(found[1])


def cost(program, place, text):
    """What recording, fitting and moving cost for a guest: a count for each mode."""
    source_file, image, trace = (place.with_suffix(suffix) for suffix in (".s", ".img", ".trc"))
    source_file.write_text(text, encoding="ascii")
    subprocess.run([program, "asm", source_file, image], check=True)
    in_order = host_instructions([program, "record", image, trace, "--order", "0", *RECORD])
    by_threads = host_instructions([program, "record", image, trace, *RECORD])
    fitting = host_instructions([program, "debug", image, trace])
    return in_order, by_threads, fitting, host_instructions([program, "debug", image, trace], "end\n") - fitting


def costs_of(program, jobs, texts):
    """The cost of each of these guests."""
    with tempfile.TemporaryDirectory() as folder, ThreadPoolExecutor(jobs) as pool:
        return list(pool.map(lambda row: cost(program, Path(folder) / str(row[0]), row[1]), enumerate(texts)))


def beyond(costs, turns):
    """What each of these turns costs, by guests of n and of 2n turns: a row for each pair."""
    return [[(more - few) / turns for few, more in zip(*pair)] for pair in zip(costs[::2], costs[1::2])]


def table(program, jobs):
    """The cost of each operation beyond an empty turn, a row for each; the first is the empty turn itself."""
    texts = [source(statements, before, units) for (_, statements, _, before), units in product(OPERATIONS, (UNITS, 2 * UNITS))]
    each = beyond(costs_of(program, jobs, texts), UNITS << 12)
    yield OPERATIONS[0][0], each[0]
    for (name, _, count, _), costs in zip(OPERATIONS[1:], each[1:]):
        yield name, [(with_it - without) / count for with_it, without in zip(costs, each[0])]


def averages(program, jobs):
    """What a step costs on average in each guest of one thread that is timed, with its loop; and the average over these guests."""
    pairs = [[counted(name, body, units, steps) for units in (UNITS, 2 * UNITS)] for name, body, _, steps in bodies()]
    costs = costs_of(program, jobs, [guest.source() for pair in pairs for guest in pair])
    rows = [[cost / (more.steps - few.steps) for cost in row] for (few, more), row in zip(pairs, beyond(costs, 1))]
    yield from ((few.name, row) for (few, _), row in zip(pairs, rows))
    yield "their average", [sum(column) / len(rows) for column in zip(*rows)]


def main():
    parser = argparse.ArgumentParser(description=__doc__.splitlines()[0])
    parser.add_argument("program", metavar="IR", type=Path, help="the built program")
    parser.add_argument("--jobs", type=int, default=len(os.sched_getaffinity(0)), help="how many commands at the same time")
    arguments = parser.parse_args()
    if not shutil.which("valgrind"):
        print("host instructions aren't counted: valgrind isn't installed")
        return
    program = str(arguments.program.resolve())
    for head, rows in (("operation", table), ("a step of", averages)):
        print(f"{head:24}" + "".join(f"{mode:>12}" for mode in MODES))
        for name, costs in rows(program, arguments.jobs):
            print(f"{name:24}" + "".join(f"{count:>12.1f}" for count in costs), flush=True)


if __name__ == "__main__":
    main()
