#!/usr/bin/env python3
"""Runs a command, and then tells the processor time of the prover by crate, as rows of a table in Markdown.

python3 scripts/gate_times.py rt ci > gate.log

What the command prints passes through. Each process of the prover that the command started is looked at twice a second (/proc), so that
up to half a second of each isn't counted. Columns: the crate's own proof and building it, its tests, its must-fail edits.
"""
import os
import re
import subprocess
import sys
import threading
import time
from collections import defaultdict
from pathlib import Path

TICKS = os.sysconf("SC_CLK_TCK")
CRATE = re.compile(r"--crate-name (\w+)")
COLUMNS = ("proof", "tests", "edits")
# Inherited by all that the command starts, so that another prover beside it isn't counted.
MARK = f"GATE_TIMES={os.getpid()}"


def column_of(words):
    """Which column a command of the prover counts in."""
    if "/rt-edits-" in words or "/rt-edit-" in words:
        return "edits"
    return "tests" if re.search(r"(^| )--test( |$)", words) else "proof"


def processes():
    """Each process of the prover: its number with its start, its crate and column, its seconds."""
    for folder in Path("/proc").iterdir():
        if not folder.name.isdigit():
            continue
        try:
            words = (folder / "cmdline").read_bytes().decode(errors="replace").replace("\0", " ")
            crate = CRATE.search(words) if "/rattle " in words else None
            if crate is None or MARK.encode() not in (folder / "environ").read_bytes().split(b"\0"):
                continue
            where = os.readlink(folder / "cwd")
            stat = (folder / "stat").read_text().rpartition(")")[2].split()
        except OSError:
            continue
        seconds = sum(int(ticks) for ticks in stat[11:15]) / TICKS
        yield (folder.name, stat[19]), (crate.group(1), column_of(f"{words} {where}")), seconds


def watch(ended, seen):
    """Keeps the last that was seen of each process."""
    while not ended.wait(0.5):
        for process, place, seconds in processes():
            seen[process] = (place, seconds)


def table(seen):
    """The rows, crates of most time first, and their sums."""
    sums = defaultdict(float)
    for place, seconds in seen.values():
        sums[place] += seconds
    crates = {crate for crate, _ in sums}
    total = {crate: sum(sums[crate, column] for column in COLUMNS) for crate in crates}
    yield "| Crate | Proof | Tests | Must-fail edits | Sum |"
    yield "|---|---|---|---|---|"
    for crate in sorted(crates, key=lambda name: -total[name]):
        cells = [f"{sums[crate, column]:.0f}" for column in COLUMNS]
        yield f"| {crate} | {' | '.join(cells)} | {total[crate]:.0f} |"
    cells = [f"{sum(sums[crate, column] for crate in crates):.0f}" for column in COLUMNS]
    yield f"| all, in seconds | {' | '.join(cells)} | {sum(total.values()):.0f} |"


def main():
    if len(sys.argv) < 2:
        sys.exit("usage: python3 scripts/gate_times.py COMMAND [WORD..]")
    ended, seen = threading.Event(), {}
    watching = threading.Thread(target=watch, args=(ended, seen), daemon=True)
    start = time.monotonic()
    watching.start()
    name, _, value = MARK.partition("=")
    status = subprocess.run(sys.argv[1:], check=False, env=os.environ | {name: value}).returncode
    ended.set()
    watching.join()
    print(f"\n{(time.monotonic() - start) / 60:.1f} minutes by the clock\n")
    print("\n".join(table(seen)), flush=True)
    return status


if __name__ == "__main__":
    sys.exit(main())
