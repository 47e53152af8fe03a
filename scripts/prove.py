#!/usr/bin/env python3
"""Proves a crate and all that it stands on, crates side by side where neither stands on the other.

python3 scripts/prove.py CRATE [JOBS]
python3 scripts/prove.py --jobs

Prints a line as each crate ends: how many of all have, the minutes so far and, after a first run on this machine, how many are left by the times of
the longest run yet (kept in the file .prove-times). Prints all that `rt all check` said of a crate that isn't proved. JOBS is how many are proved at
once: else as many as there are processors with 5 GiB of memory each. What is proved already is only looked at. With --jobs it prints that
number and proves nothing: the gate hands it to `rt ci` as RT_JOBS, which by its own guess of memory, three times what is needed, checks a crate
near the top with no other beside it.
"""
import json
import os
import re
import subprocess
import sys
import time
from pathlib import Path

TOP = Path(__file__).resolve().parent.parent
GIB_EACH = 5
# When each crate ended in the longest run so far, in seconds since that began.
TIMES = TOP / ".prove-times"


def listed():
    """The repository's crates, each with those of them that it stands on."""
    lines = (TOP / "crates.txt").read_text(encoding="utf-8").splitlines()
    rows = [line.partition(":") for line in lines if ":" in line and not line.startswith("#")]
    below = {name.split()[0]: rest.split() for name, _, rest in rows}
    return {name: [other for other in others if other in below] for name, others in below.items()}


def needed(crate, below):
    """The crate and all that it stands on."""
    found, rest = set(), [crate]
    while rest:
        name = rest.pop()
        if name not in found:
            found.add(name)
            rest += below[name]
    return found


def default_jobs():
    """How many checks have a processor and memory each."""
    found = re.search(r"^MemAvailable: +(\d+) kB", Path("/proc/meminfo").read_text(encoding="ascii"), re.MULTILINE)
    return max(1, min(len(os.sched_getaffinity(0)), int(found[1]) // (GIB_EACH << 20)))


def earlier_times():
    """When each crate ended in the longest run so far; none where there was none, or its file can't be read."""
    try:
        times = json.loads(TIMES.read_text(encoding="utf-8"))
        return {str(name): float(seconds) for name, seconds in times.items()}
    except (OSError, ValueError, AttributeError, TypeError):
        return {}


def left(name, ended, earlier):
    """What is left once the crate has ended, by an earlier run: the minutes, and the crate that ends last."""
    rest = {other: at for other, at in earlier.items() if other not in ended}
    if name not in earlier or not rest:
        return ""
    last = max(rest, key=rest.get)
    return f"; some {max(1, round((rest[last] - earlier[name]) / 60))} left, {last} the last"


def proved(crate, jobs, count):
    """Proves the crate and those below it, and prints a line as each ends. Answers the exit status and what was said."""
    start, sections, name = time.monotonic(), {"": []}, ""
    ended, earlier = {}, earlier_times()
    words = [sys.executable, TOP / "scripts" / "rt.py", "all", "check", "--jobs", jobs]
    with subprocess.Popen(words, cwd=TOP / "crates" / crate, text=True, errors="replace",
                          stdout=subprocess.PIPE, stderr=subprocess.STDOUT) as run:
        for line in run.stdout:
            if line.startswith("== "):
                name = line[3:].strip()
                sections[name] = []
                if name != "summary":
                    ended[name] = time.monotonic() - start
                    print(f"{name} ({len(ended)} of {count}), {ended[name] / 60:.1f} minutes{left(name, ended, earlier)}", flush=True)
            else:
                sections[name].append(line)
    if run.returncode == 0 and max(ended.values(), default=0) > max(earlier.values(), default=0):
        TIMES.write_text(json.dumps(ended), encoding="utf-8")
    return run.returncode, sections


def main():
    below = listed()
    if sys.argv[1:] == ["--jobs"]:
        print(default_jobs())
        return
    if len(sys.argv) not in (2, 3) or sys.argv[1] not in below:
        sys.exit("usage: python3 scripts/prove.py CRATE [JOBS] | --jobs")
    crate = sys.argv[1]
    jobs = sys.argv[2] if len(sys.argv) == 3 else str(default_jobs())
    status, sections = proved(crate, jobs, len(needed(crate, below)))
    if status != 0:
        summary = sections.get("summary", [])
        good = {line.split(":")[0] for line in summary if line.endswith(": ok\n")}
        print("".join(line for name, lines in sections.items() if name not in good for line in lines), end="")
        sys.exit(f"{crate}: not proved")


if __name__ == "__main__":
    main()
