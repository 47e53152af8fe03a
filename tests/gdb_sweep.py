#!/usr/bin/env python3
"""Random breakpoints and watches in a real gdb: each hit of each thread is shown once, forwards and backwards, in an order that the run allows.

python3 tests/gdb_sweep.py IR [--rounds N] [--seed S]

Needs gdb-multiarch. If it isn't installed nothing is tested, and the status is 0. Assembles and records guests of the repository. For each it
sets up to three breakpoints at random words of the code, goes through all hits by `continue` and back by `reverse-continue`, and compares
what gdb shows with each thread's hits by a session of `ir debug`. Then it does so with watches of up to three words of objects, and compares
what gdb shows with the steps that changed them by `ir who --word`. The last line is `N passed, M failed`.
"""
import random
import re
import shutil
import subprocess
import sys
import tempfile
from pathlib import Path

from lib import TOP, Wrong, finish, parser_of, program, run, use

GDB = "gdb-multiarch"
CODE = 0x10000
OBJECTS = 0x80000000
# Each guest, and how it is recorded.
GUESTS = {
    "calls": ("--budget", "600"),
    "counter": (),
    "hello": (),
    "helping": ("--budget", "500"),
    "lost_update": (),
    "overwritten": (),
    "sum": (),
    "two_locks": ("--budget", "500"),
}
# Goes through all hits, and prints of each stop its thread, its pc, and where all threads are.
THROUGH = """
import gdb
seen = []
gdb.events.stop.connect(seen.append)
def through(move):
    while True:
        gdb.execute(move, to_string=True)
        # a signal says that a thread has ended badly
        if isinstance(seen[-1], gdb.SignalEvent):
            continue
        if not isinstance(seen[-1], gdb.BreakpointEvent):
            break
        thread = gdb.selected_thread().num - 1
        pc = int(gdb.parse_and_eval("(unsigned)$pc"))
        print(f"stop {thread} {pc}", flush=True)
        gdb.execute("monitor pos")
    print("over", flush=True)
    gdb.execute("monitor pos")
through("continue")
through("reverse-continue")
"""


def positions_of(line):
    """The positions of an answer that says where the threads are."""
    return tuple(map(int, re.findall(r"\d+", line.split(" hit")[0])))


def answers(folder, guest, lines):
    """A session's answers, each a line."""
    ended = run(f"debug {guest}.img {guest}.trc", folder, input="".join(f"{line}\n" for line in lines).encode())
    if ended.returncode:
        raise Wrong(f"a session: {ended!r}")
    return ended.stdout.decode().splitlines()[1:]


def hits_of(folder, guest, addresses, thread, threads, steps):
    """The positions of a thread's hits, rising, by a session forwards, and by one backwards."""
    found = []
    for start, move in (("start", "cont"), ("end", "rcont")):
        lines = [f"break {thread} {address}" for address in addresses] + [start] + [f"{move} {thread}"] * (steps + 2)
        said = answers(folder, guest, lines)[len(addresses) + 1:]
        found.append([positions_of(line)[thread] for line in said if " hit " in line])
    return found[0], found[1]


def stops_of(folder, guest, points):
    """What gdb shows with these points, forwards and backwards: of each stop its thread, its pc, and where all threads are."""
    words = [GDB, "-nx", "-batch", "-ex", "set pagination off", "-ex", "set confirm off", "-ex", "set architecture riscv:rv32",
             "-ex", f"target remote | {program()} gdb {guest}.img {guest}.trc"]
    for point in points:
        words += ["-ex", point]
    words += ["-ex", f"source {folder / 'through.py'}"]
    ended = subprocess.run(words, cwd=folder, stdin=subprocess.DEVNULL, stdout=subprocess.PIPE, stderr=subprocess.STDOUT, text=True, errors="replace",
                           timeout=600, check=False)
    parts = ended.stdout.split("over\n")
    if len(parts) != 3:
        raise Wrong(f"gdb with {points}:\n{ended.stdout}")
    found = []
    for part in parts[:2]:
        stops = re.findall(r"^stop (\d+) (\d+)\n(at [\d ]+)$", part, re.M)
        found.append([(int(thread), int(pc), positions_of(where)) for thread, pc, where in stops])
    return found


def check_stops(stops, wanted, points, rises):
    """Each hit is shown once, where it is, and the threads only go on."""
    found = sorted((thread, where[thread]) for thread, _, where in stops)
    if found != sorted(wanted):
        raise Wrong(f"hits of {points}: gdb shows {found}, sessions {sorted(wanted)}")
    for (_, _, one), (_, _, other) in zip(stops, stops[1:]):
        before, after = (one, other) if rises else (other, one)
        if any(low > high for low, high in zip(before, after)):
            raise Wrong(f"threads go the other way with {points}: {one}, {other}")


def places_of(image):
    """The addresses of the words of an image's code."""
    return [CODE + 4 * place for place in range(int.from_bytes(image[6:10], "little"))]


def ends_of(folder, guest):
    """The last positions of the threads."""
    return positions_of(answers(folder, guest, ["end"])[0])


def check_round(folder, guest, chance):
    """One choice of breakpoints: how many hits there were."""
    ends = ends_of(folder, guest)
    places = places_of((folder / f"{guest}.img").read_bytes())
    addresses = sorted(chance.sample(places, min(len(places), chance.randint(1, 3))))
    by_threads = [hits_of(folder, guest, addresses, thread, len(ends), ends[thread]) for thread in range(len(ends))]
    points = [f"break *{address}" for address in addresses]
    found = stops_of(folder, guest, points)
    for way, stops in enumerate(found):
        check_stops(stops, [(thread, at) for thread, hits in enumerate(by_threads) for at in hits[way]], points, way == 0)
        if any(pc not in addresses for _, pc, _ in stops):
            raise Wrong(f"a stop beside {addresses}: {stops}")
    return sum(map(len, found))


def changes_of(folder, guest, number, word):
    """The thread and the step of each version in which a word of an object isn't what it was."""
    ended = run(f"who {guest}.trc {number} --word {word} --image {guest}.img", folder)
    if ended.returncode:
        raise Wrong(f"who: {ended!r}")
    said = ended.stdout.decode()
    before = re.search(r"^version 0 .* (\w+)$", said, re.M).group(1)
    found = []
    for thread, step, value in re.findall(r"^version \d+ by thread (\d+) .*step (\d+) word \d+ (\w+)$", said, re.M):
        if value != before:
            found.append((int(thread), int(step)))
        before = value
    return found


def objects_of(folder, guest):
    """How many objects the guest has."""
    said = answers(folder, guest, [f"obj {number}" for number in range(16)])
    return 16 - sum(1 for line in said if line.startswith("refused"))


def check_watches(folder, guest, chance):
    """One choice of watched words of objects: how often they changed."""
    words = [(number, word) for number in range(objects_of(folder, guest)) for word in range(2)]
    watched = chance.sample(words, min(len(words), chance.randint(1, 3)))
    points = [f"watch *(int *){OBJECTS + 64 * number + 4 * word}" for number, word in watched]
    changes = [change for number, word in watched for change in changes_of(folder, guest, number, word)]
    forwards, backwards = stops_of(folder, guest, points)
    check_stops(forwards, [(thread, step + 1) for thread, step in changes], points, True)
    check_stops(backwards, changes, points, False)
    return len(forwards) + len(backwards)


def made(folder):
    """Assembles and records the guests."""
    (folder / "through.py").write_text(THROUGH)
    for name, options in GUESTS.items():
        for words in (["asm", str(TOP / "examples" / f"{name}.s"), f"{name}.img"], ["record", f"{name}.img", f"{name}.trc", *options]):
            ended = run(words, folder)
            if ended.returncode:
                raise Wrong(f"{words}: {ended!r}")


def main():
    parser = parser_of(__doc__)
    parser.add_argument("--rounds", type=int, default=5, help="how many choices of breakpoints, and of watches, for each guest")
    parser.add_argument("--seed", type=int, default=1, help="the seed of the choices")
    asked = parser.parse_args()
    use(asked.program)
    if not shutil.which(GDB):
        print(f"{GDB} isn't installed, so nothing is tested")
        sys.exit(0)
    chance, passed, failed = random.Random(asked.seed), 0, 0
    with tempfile.TemporaryDirectory() as place:
        folder = Path(place)
        made(folder)
        for guest in GUESTS:
            hits = 0
            for check in [check_round, check_watches] * asked.rounds:
                try:
                    hits += check(folder, guest, chance)
                    passed += 1
                except (Wrong, subprocess.TimeoutExpired, OSError) as wrong:
                    failed += 1
                    print(f"{guest}: {wrong}", flush=True)
            print(f"{guest}: {hits} stops", flush=True)
    sys.exit(finish(passed, failed))


if __name__ == "__main__":
    main()
