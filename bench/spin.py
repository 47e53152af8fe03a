#!/usr/bin/env python3
"""How many states `ir explore` and Spin find in the same programs, and how long each takes.

python3 bench/spin.py IR

Each program is a guest of bench/exploring.py, and here a Promela model in which an entry and all that follows it up to the next one is an atomic
step, as in `ir explore`. Spin checks it for deadlocks, without its partial order reduction and with it. A line for each program: the states and seconds
of each. Needs Debian's spin and gcc: without them it says so and ends with status 0. The status is 1 if a search isn't finished.
"""
import argparse
import os
import re
import shutil
import subprocess
import sys
import tempfile
import time
from pathlib import Path
from typing import NamedTuple

from exploring import LAST, bank, counter, explored, lost_update, own_objects, peterson, philosophers, readers_and_writers, ticket_lock, work_queue

STORED = re.compile(r"(\d+) states, stored")


class Program(NamedTuple):
    """A program by its name: as a guest, and as a Promela model."""

    name: str
    guest: str
    model: str


def variables(*names, kind="int"):
    """Declarations of variables that are 0 at first."""
    return "".join(f"{kind} {name};\n" for name in names)


def processes(name, count, body, own=""):
    """So many processes of this body, with these variables of their own."""
    return f"active [{count}] proctype {name}() {{\nbyte round; {own}\n{body}\n}}\n"


def rounds_of(rounds, steps):
    """Atomic steps, so many rounds of them: the last also counts the round, and a step that waits is a condition first."""
    *before, last = steps
    lines = [f"atomic {{ {step} }};" for step in before]
    again = f"round++; if :: round < {rounds} -> goto again :: else fi"
    return "again:\n" + "\n".join([*lines, f"atomic {{ {last}; {again} }}"])


def dining(threads, rounds):
    """Philosophers: each takes the fork of the lower number first, and gives both back as it has both."""
    def life(thread):
        low, high = sorted((thread, (thread + 1) % threads))
        return processes(f"p{thread}", 1, rounds_of(rounds, [f"f{low} == 0 -> f{low} = 1", f"f{high} == 0 -> f{low} = 0"]))

    return variables(*(f"f{thread}" for thread in range(threads)), kind="bit") + "".join(map(life, range(threads)))


def summing(readers, writers, rounds):
    """Writers that add one to x, and readers that add x to a sum of their own."""
    adds, sums = rounds_of(rounds, ["x = x + 1"]), rounds_of(rounds, ["sum = sum + x"])
    return variables("x") + processes("writer", writers, adds) + processes("reader", readers, sums, "int sum;")


def queue(threads, tasks):
    """Threads that take the next number, while there is one, and add it to a sum."""
    body = (f"again:\natomic {{ task = next; if :: task < {tasks} -> next = next + 1 :: else -> goto out fi }};\n"
            "atomic { sum = sum + task; goto again };\nout: skip")
    return variables("next", "sum") + processes("taker", threads, body, "int task;")


def locked_by_flags(rounds):
    """Peterson's lock around an update in two steps."""
    def life(thread):
        other = 1 - thread
        waits = (f"poll: atomic {{ if :: flag{other} == 0 -> goto inside :: else fi }};\n"
                 f"atomic {{ if :: turn == {other} -> goto poll :: else fi }};\ninside: ")
        body = (f"again:\natomic {{ flag{thread} = 1 }};\natomic {{ turn = {other} }};\n{waits}atomic {{ seen = x }};\natomic {{ x = seen + 1 }};\n"
                f"atomic {{ flag{thread} = 0; round++; if :: round < {rounds} -> goto again :: else fi }}")
        return processes(f"p{thread}", 1, body, "int seen;")

    return variables("flag0", "flag1", "turn", "x") + life(0) + life(1)


def locked_by_tickets(threads, rounds):
    """A lock by tickets around an update in two steps."""
    body = ("again:\natomic { ticket = next; next = next + 1 };\npoll: atomic { if :: serving != ticket -> goto poll :: else fi };\n"
            "atomic { seen = x };\natomic { x = seen + 1 };\n"
            f"atomic {{ serving = serving + 1; round++; if :: round < {rounds} -> goto again :: else fi }}")
    return variables("next", "serving", "x") + processes("p", threads, body, "int ticket; int seen;")


def programs():
    """Each program."""
    for threads, rounds in ((2, 5), (3, 3), (4, 3)):
        yield Program(f"lost update, {threads} threads, {rounds} rounds", lost_update(threads, rounds),
                      variables("x") + processes("p", threads, rounds_of(rounds, ["seen = x", "x = seen + 1"]), "int seen;"))
    yield Program("counter, 6 threads, 3 rounds", counter(6, 3), variables("x") + processes("p", 6, rounds_of(3, ["x = x + 1"])))
    yield Program("bank, 5 threads, 4 rounds", bank(5, 4), variables("x", "y") + processes("p", 5, rounds_of(4, ["x = x - 1; y = y + 1"])))
    yield Program("philosophers, 6 threads, 2 rounds", philosophers(6, 2), dining(6, 2))
    yield Program("3 readers and 2 writers, 2 rounds", readers_and_writers(3, 2, 2), summing(3, 2, 2))
    yield Program("work queue, 4 threads, 6 tasks", work_queue(4, 6), queue(4, 6))
    yield Program("Peterson's lock, 20 rounds", peterson(20), locked_by_flags(20))
    yield Program("lock by tickets, 3 threads, 4 rounds", ticket_lock(3, 4), locked_by_tickets(3, 4))
    yield Program("own objects, 6 threads, 9 rounds", own_objects(6, 9), "".join(
        variables(f"x{thread}") + processes(f"p{thread}", 1, rounds_of(9, [f"x{thread} = x{thread}"])) for thread in range(6)))


def searched(folder, model, *options):
    """How many states Spin stores of a model, and the seconds; none if it isn't done."""
    (folder / "model.pml").write_text(model, encoding="ascii")
    subprocess.run(["spin", "-a", "model.pml"], cwd=folder, check=True, stdout=subprocess.DEVNULL)
    subprocess.run(["gcc", "-O2", "-w", "-DSAFETY", *options, "-o", "pan", "pan.c"], cwd=folder, check=True)
    start = time.monotonic()
    ended = subprocess.run(["./pan", "-n", "-m1000000", "-w22"], cwd=folder, check=True, capture_output=True, text=True)
    stored = STORED.search(ended.stdout)
    return (int(stored[1]) if stored and "errors: 0" in ended.stdout else None), time.monotonic() - start


def main():
    parser = argparse.ArgumentParser(description=__doc__.splitlines()[0])
    parser.add_argument("program", metavar="IR", help="the built program")
    ir = os.path.abspath(parser.parse_args().program)
    if missing := [name for name in ("spin", "gcc") if not shutil.which(name)]:
        print(f"beside Spin: left out, because there is no {' and no '.join(missing)}")
        return
    is_bad = False
    print("| Program | States | Seconds | States of Spin | Seconds | With its reduction | Seconds |\n|---|---|---|---|---|---|---|")
    with tempfile.TemporaryDirectory() as place:
        for program in programs():
            last, seconds, _ = explored(ir, Path(place), program.guest)
            found = LAST.fullmatch(last)
            whole, some = searched(Path(place), program.model, "-DNOREDUCE"), searched(Path(place), program.model)
            states = f"{int(found[2]):,}" if found else last
            counts = " | ".join(f"{count:,} | {clock:.2f}" if count is not None else f"not finished | {clock:.2f}" for count, clock in (whole, some))
            print(f"| {program.name} | {states} | {seconds:.2f} | {counts} |", flush=True)
            is_bad |= not found or None in (whole[0], some[0])
    sys.exit(is_bad)


if __name__ == "__main__":
    main()
