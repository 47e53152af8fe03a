#!/usr/bin/env python3
"""Measures what a trace of a million events takes in `ir stale`, `ir who`, `ir why`, `ir diff`, `ir view` and `ir trace`.

python3 bench/traces.py IR

Eight threads enter one object for reading and then for writing, again and again, 131,072 events each. They are recorded in rounds, and once
more after thread 0 has taken 1,000 steps alone. In rounds nearly each write is stale. Prints the processor time of each command, best of
five, the most memory that it has, and how much it writes.
"""
import os
import subprocess
import sys
import tempfile
from pathlib import Path

from guests import counted

READ, WRITE = (["addi a0, zero, 0", f"addi a7, zero, {call}", "ecall", "addi a7, zero, 9", "ecall"] for call in (7, 8))
GUEST = counted("reads and writes", READ + WRITE, 16).named("reads and writes", 8, 1)
COMMANDS = ("trace rounds.trc", "stale rounds.trc", "who rounds.trc 0", "who rounds.trc 0 0", "who rounds.trc 0 524288",
            "diff rounds.trc rounds.trc", "diff rounds.trc later.trc", "why rounds.trc 7 131071", "view --json rounds.trc", "view --chrome rounds.trc",
            "view --around 3 65536 rounds.trc", "stale rounds.trc --image g.img", "who rounds.trc 0 --image g.img",
            "who rounds.trc 0 524288 --image g.img", "who rounds.trc 0 --word 0 --image g.img", "why rounds.trc 7 131071 --image g.img",
            "view --json rounds.trc --image g.img", "view --chrome rounds.trc --image g.img", "view --around 3 65536 rounds.trc --image g.img")


def measured(program, arguments, folder):
    """A run: its seconds of processor time, its most memory in MB, the bytes that it writes."""
    with open(folder / "written", "wb") as out:
        run = subprocess.Popen([program, *arguments.split()], cwd=folder, stdout=out)
        _, status, usage = os.wait4(run.pid, 0)
    if status:
        sys.exit(f"{arguments}: status {status}")
    return usage.ru_utime + usage.ru_stime, usage.ru_maxrss / 1000, (folder / "written").stat().st_size


def main():
    if len(sys.argv) != 2:
        sys.exit(__doc__)
    program = os.path.abspath(sys.argv[1])
    with tempfile.TemporaryDirectory() as name:
        folder = Path(name)
        (folder / "g.s").write_text(GUEST.source())
        for arguments in ("asm g.s g.img", "record g.img rounds.trc --order 0", "record g.img later.trc --order 0x1000"):
            subprocess.run([program, *arguments.split()], cwd=folder, check=True, stdout=subprocess.DEVNULL)
        print(f"{'':36} seconds      MB   MB written")
        for arguments in COMMANDS:
            runs = [measured(program, arguments, folder) for _ in range(5)]
            print(f"{arguments:36} {min(run[0] for run in runs):7.2f} {runs[0][1]:7.0f} {runs[0][2] / 1e6:12.1f}", flush=True)


if __name__ == "__main__":
    main()
