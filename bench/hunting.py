#!/usr/bin/env python3
"""How many seeds `ir hunt` tries in a second, and how often a seed shows a fault.

python3 bench/hunting.py IR [--seeds N] [--table] [--jobs J]

Speed: a hunt that finds nothing, over a guest of 50 steps and one of a million, on one processor, on all of them, and by a process of its own on
each; and 10^8 steps by a seed beside `ir record --order`. Chances: of N seeds (2,000 if none are said, ten times as many for rare
faults) how many show each fault of faults.py, for each way. Each seed that shows it is found by a hunt of its own, from behind the last one.

With --table no speed is measured, and N is 100,000 for each. Each chance stands beside its aim; it may be 1.3 times as high or as low, and at
most 0.01 % where the aim is 0. Twenty seeds of each, or as many as were found, are hunted once more: the trace has to be the one of
`ir record --order`, to fit, and to show the fault in a session. The status is 1 if anything is otherwise.
"""
import argparse
import functools
import itertools
import os
import re
import subprocess
import sys
import tempfile
import time
from concurrent.futures import ProcessPoolExecutor
from multiprocessing import Queue
from pathlib import Path

from faults import TOP, WAYS, call, faults

FOUND = re.compile(rb"found seed (\d+) order ([0-9x,]+)\n")
FACTOR = 1.3
# The most percent where the aim is 0.
NEVER = 0.01
SAMPLE = 20
# The seeds that one process counts at a time.
SLICE = 2_500


def counting(rounds):
    """Two threads that count alone, and then enter an object once each."""
    return (f"        .objects 1\n        .thread main\n        .thread main\nmain:   li t0, {rounds}\nagain:  addi t0, t0, -1\n        bne t0, zero, again\n"
            + call(8, "zero, 0") + call(9, "zero, 0") + call(1, "zero, 0"))


def assembled(program, folder, name, source):
    """The image of a source."""
    (folder / f"{name}.s").write_text(source, encoding="ascii")
    subprocess.run([program, "asm", f"{name}.s", f"{name}.img"], cwd=folder, check=True)
    return f"{name}.img"


def started(program, folder, words, processors):
    """A run of the program on these processors."""
    return subprocess.Popen([program, *words], cwd=folder, stdout=subprocess.PIPE, preexec_fn=lambda: os.sched_setaffinity(0, processors))


def seconds_of(program, folder, words, sets):
    """The seconds in which as many runs as there are sets of processors end, one on each set."""
    start = time.monotonic()
    runs = [started(program, folder, words, processors) for processors in sets]
    for run in runs:
        run.communicate()
    seconds = time.monotonic() - start
    # A hunt here finds nothing.
    wanted = 5 if words[0] == "hunt" else 0
    if any(run.returncode != wanted for run in runs):
        sys.exit(f"{words}: statuses {[run.returncode for run in runs]}")
    return seconds


def speeds(program, folder, image, seeds, turns):
    """Seeds in a second, the best of a few turns each: on one processor, on all, and by a process on each."""
    everywhere = sorted(os.sched_getaffinity(0))
    best = [0.0, 0.0, 0.0]
    for _ in range(turns):
        for place, (count, sets) in enumerate(((1, [{everywhere[0]}]), (len(everywhere), [set(everywhere)]), (1, [{one} for one in everywhere]))):
            words = ["hunt", image, "no.trc", "--seeds", f"0+{seeds * count}", "--until", "fault"]
            seconds = seconds_of(program, folder, words, sets)
            best[place] = max(best[place], seeds * count * len(sets) / seconds)
    return best


def tell_speed(program, folder):
    """Prints how many seeds are tried in a second."""
    lost = assembled(program, folder, "lost", (TOP / "examples/lost_update.s").read_text(encoding="ascii"))
    alone = assembled(program, folder, "counting", counting(250_000))
    for image, seeds in ((lost, 100_000), (alone, 200)):
        one, threads, processes = speeds(program, folder, image, seeds, 3)
        print(f"{image}: {one:,.0f} seeds a second on one processor; on all {threads:,.0f}, {threads / one:.2f} times; by a process on each "
              f"{processes:,.0f}, {processes / one:.2f} times", flush=True)


def tell_steps(program, folder):
    """Prints how fast a guest of 10^8 steps goes by a seed, beside a recording in the order of that seed."""
    image, one = assembled(program, folder, "long", counting(25_000_000)), [{min(os.sched_getaffinity(0))}]
    more = [image, "r.trc", "--budget", "1000000000"]
    hunt = subprocess.run([program, "hunt", *more, "--seeds", "0+1", "--until", "!fault"], cwd=folder, stdout=subprocess.PIPE, check=True)
    order = FOUND.match(hunt.stdout)[2].decode()
    recorded, hunted = [], []
    for _ in range(3):
        recorded.append(seconds_of(program, folder, ["record", *more, "--order", order], one))
        # The run in rounds comes before those of the seeds.
        hunted.append(seconds_of(program, folder, ["hunt", *more, "--seeds", "0+3", "--until", "fault"], one) / 4)
    print(f"10^8 steps: {min(recorded):.2f} seconds by record --order, {min(hunted):.2f} by a seed: {min(recorded) / min(hunted):.2f} times as fast",
          flush=True)


def stand_on(processors):
    """This process stays on one of the processors, and so do its hunts, which then need no threads."""
    os.sched_setaffinity(0, {processors.get()})


def next_found(program, folder, image, trace, condition, way, seeds):
    """The lowest of these seeds that fulfils the condition, and LIST; or nothing."""
    words = [program, "hunt", image, trace, "--seeds", f"{seeds[0]}..{seeds[1]}", "--until", condition, "--by", way]
    run = subprocess.run(words, cwd=folder, stdout=subprocess.PIPE, check=False)
    match = FOUND.match(run.stdout)
    if run.returncode != (0 if match else 5):
        raise RuntimeError(f"{words}: {run}")
    return match and (int(match[1]), match[2].decode())


def found_in(program, folder, image, condition, way, seeds, first):
    """How many seeds of a slice fulfil the condition."""
    last, count = min(first + SLICE, seeds) - 1, 0
    while first <= last and (found := next_found(program, folder, image, f"{os.getpid()}.trc", condition, way, (first, last))):
        first, count = found[0] + 1, count + 1
    return count


def chance(pool, program, folder, image, condition, way, seeds):
    """How many of the seeds fulfil the condition, in percent."""
    count = functools.partial(found_in, program, folder, image, condition, way, seeds)
    return 100 * sum(pool.map(count, range(0, seeds, SLICE))) / seeds


def as_aimed(percent, aim):
    """Whether a chance is near enough to its aim."""
    return aim / FACTOR <= percent <= aim * FACTOR if aim else percent <= NEVER


def is_shown(program, folder, image, fault, order):
    """Whether hunted.trc is what LIST records, fits, and shows the fault."""
    subprocess.run([program, "record", image, "listed.trc", "--order", order], cwd=folder, stdout=subprocess.DEVNULL, check=True)
    if (folder / "listed.trc").read_bytes() != (folder / "hunted.trc").read_bytes():
        return False
    session = subprocess.run([program, "debug", image, "hunted.trc"], cwd=folder, stdout=subprocess.PIPE, check=False,
                             input=f"end\n{fault.command}\n".encode())
    ready, _, answer = session.stdout.partition(b"\n")
    return ready == b"ready" and bool(re.search(fault.answer, answer))


def shown(program, folder, image, fault, way, seeds):
    """How many of the first seeds that show the fault were hunted again, and of how many of them the trace shows it."""
    first, hunted, right = 0, 0, 0
    while hunted < SAMPLE and first < seeds:
        found = next_found(program, folder, image, "hunted.trc", fault.condition, way, (first, seeds - 1))
        if not found:
            break
        first, hunted = found[0] + 1, hunted + 1
        right += is_shown(program, folder, image, fault, found[1])
    return hunted, right


def tell_chances(pool, program, folder, seeds):
    """Prints how many seeds show each fault."""
    for place, fault in enumerate(faults()):
        image = assembled(program, folder, f"fault{place}", fault.source)
        tried = seeds * (10 if fault.aims and max(fault.aims) < 1 else 1)
        found = ", ".join(f"{way} {chance(pool, program, folder, image, fault.condition, way, tried):.2f} %" for way in WAYS)
        print(f"{fault.name}, {tried} seeds: {found}", flush=True)


def tell_table(pool, program, folder, seeds):
    """Prints each chance beside its aim, and what of the found traces is shown. The exit status: whether all is as it should be."""
    wrong = 0
    for place, fault in enumerate(fault for fault in faults() if fault.aims):
        image = assembled(program, folder, f"fault{place}", fault.source)
        for way, aim in zip(WAYS, fault.aims):
            percent = chance(pool, program, folder, image, fault.condition, way, seeds)
            hunted, right = shown(program, folder, image, fault, way, seeds)
            is_right = as_aimed(percent, aim) and hunted == right
            wrong += not is_right
            print(f"{fault.name}, {way}: {percent:.3f} %, aim {aim} %; {right} of {hunted} traces show it: {'right' if is_right else 'WRONG'}",
                  flush=True)
    print(f"{seeds} seeds each, {wrong} wrong")
    return 1 if wrong else 0


def main():
    parser = argparse.ArgumentParser(description=__doc__.splitlines()[0])
    parser.add_argument("program", metavar="IR", type=os.path.abspath)
    parser.add_argument("--seeds", type=int)
    parser.add_argument("--table", action="store_true")
    parser.add_argument("--jobs", type=int, default=len(os.sched_getaffinity(0)), help="how many hunts at the same time")
    arguments = parser.parse_args()
    processors = Queue()
    for _, processor in zip(range(arguments.jobs), itertools.cycle(os.sched_getaffinity(0))):
        processors.put(processor)
    with tempfile.TemporaryDirectory() as name, ProcessPoolExecutor(arguments.jobs, initializer=stand_on, initargs=(processors,)) as pool:
        folder = Path(name)
        if arguments.table:
            return tell_table(pool, arguments.program, folder, arguments.seeds or 100_000)
        tell_speed(arguments.program, folder)
        tell_steps(arguments.program, folder)
        tell_chances(pool, arguments.program, folder, arguments.seeds or 2_000)
    return 0


if __name__ == "__main__":
    sys.exit(main())
