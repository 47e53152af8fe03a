#!/usr/bin/env python3
"""What ordinary C programs with threads cost as guests: steps of an access or a call, a hunt, and explorations.

python3 bench/threads.py IR

Needs riscv64-unknown-elf-gcc. Says so if it isn't installed.
"""
import re
import subprocess
import sys
import tempfile
import time
from pathlib import Path

TOP = Path(__file__).resolve().parent.parent
sys.path.insert(0, str(TOP / "tests"))

import threads  # noqa: E402
from lib import parser_of_program, use  # noqa: E402

# What is done a hundred times.
TIMES = 100
BODIES = {
    "nothing": "__asm__ volatile(\"\");",
    "a plain read": "(void)plain;",
    "a plain write": "plain = 0;",
    "an increment, a read and a write": "plain++;",
    "an atomic load": "(void)atomic_load(&atom);",
    "an atomic addition": "atomic_fetch_add(&atom, 1);",
    "an addition of 64 bits": "atomic_fetch_add(&large, 1);",
    "lock and unlock": "pthread_mutex_lock(&lock); pthread_mutex_unlock(&lock);",
    "post and wait": "sem_post(&count); sem_wait(&count);",
    "malloc and free": "free(malloc(8));",
}
SOURCE = """#include <pthread.h>
#include <semaphore.h>
#include <stdatomic.h>
#include <stdlib.h>
static volatile int plain;
static atomic_int atom;
static _Atomic long long large;
static pthread_mutex_t lock = PTHREAD_MUTEX_INITIALIZER;
static sem_t count;
int main(void)
{{
    (void)plain, (void)atom, (void)large, (void)lock, (void)count;
    for (int i = 0; i < {times}; i++) {{ {body} }}
    return 0;
}}
"""


def steps_of(folder, body):
    """The steps of a guest that does this a hundred times."""
    (folder / "cost.c").write_text(SOURCE.format(times=TIMES, body=body))
    made = threads.guest(folder, "cost", "cost.c", "-w")
    _, lines = made.run("record", "cost.trc", "--order", "0", "--budget", "100000000")
    return int(re.search(r"steps (\d+)", lines[0])[1])


def print_costs(folder):
    """Prints the steps of each body."""
    none = steps_of(folder, BODIES["nothing"])
    for name, body in BODIES.items():
        if name != "nothing":
            print(f"{name}: {(steps_of(folder, body) - none) / TIMES:.0f} steps", flush=True)


def print_hunt(folder):
    """Prints the seconds of a hunt of 1,000 seeds that finds nothing."""
    made = threads.guest(folder, "account", threads.PROGRAMS / "account.c", "-DREPAIRED")
    start = time.monotonic()
    made.run("hunt", "none.trc", "--seeds", "0+1000", "--by", "walk", "--until", "fault")
    print(f"a hunt of 1,000 seeds of account: {time.monotonic() - start:.2f} s", flush=True)


def print_explorations(folder):
    """Prints the seconds of all explorations, one after the other."""
    for form in ("", "-DREPAIRED"):
        found = []
        for name in threads.programs():
            source, options = threads.source_of(name)
            found.append(threads.explored(threads.guest(folder, "g", source, *options, *([form] if form else []))))
        states, seconds = sum(one.states for one in found), sum(one.seconds for one in found)
        print(f"{len(found)} programs {'repaired' if form else 'with their faults'}: {states} states in {seconds:.1f} s, at most {max(one.seconds for one in found):.1f} s", flush=True)


def main():
    asked = parser_of_program(__doc__).parse_args()
    if not threads.gcc_is_there():
        print("riscv64-unknown-elf-gcc isn't installed, so guests from ordinary C programs aren't measured")
        return
    use(asked.program)
    with tempfile.TemporaryDirectory() as folder:
        print_costs(Path(folder))
        print_hunt(Path(folder))
        print_explorations(Path(folder))


if __name__ == "__main__":
    try:
        main()
    except subprocess.SubprocessError as why:
        sys.exit(str(why))
