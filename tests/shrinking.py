#!/usr/bin/env python3
"""`ir shrink` on faults of the guide, the examples, tests/c_guests and guests of more or fewer entries, and its refusals.

python3 tests/shrinking.py IR [--seeds N] [--jobs N] [--table] [FAULT ..]

Seeds of `ir hunt` that show a fault are shrunk. What is written has to be what `ir record --order LIST` records, the switches that the line names are
those of LIST, what is shrunk once more has no more switches (a guest in C may have: a line says so), and `ir hunt --shrink` comes to the same. Where
`ir explore --until` finds the fault, the fewest switches that it names have to be those of the shrunk run in at least nine of ten. It counts changes
between entries and tries, of which a run never has more than changes between steps. --table prints for each fault the switches of the hunted orders, of
the shrunk runs, and the fewest. Guests in C need riscv64-unknown-elf-gcc, and are left out if it isn't there. The last line is `N passed, M failed`.
"""
import shutil
import subprocess
import sys
import tempfile
from concurrent.futures import ThreadPoolExecutor
from dataclasses import dataclass, field
from pathlib import Path

from lib import TOP, Wrong, assembled, examples, finish, parser_of, run, use, wants

sys.path.append(str(TOP / "bench"))

import faults  # noqa: E402

WAYS = ("walk", "pct:3")
LOST = "lost_update"
COMPILER = TOP / "guest" / "ir-cc"
# How many seeds a hunt may try, how many states `ir explore` may keep, and the seconds of each.
MOST_SEEDS, MOST_STATES, MOST_SECONDS = 50_000, 400_000, 120
# In how many of a hundred the shrunk run has the fewest switches.
AT_LEAST = 90
# The arguments of a refused command, its status, and what standard error says.
REFUSED = [
    ("guest.img good.trc none.trc --until '!word 0 0 2'", 5, "the run of TRACE doesn't fulfil '!word 0 0 2'"),
    ("guest.img good.trc none.trc --until 'word 0 0 2' --until stale", 5, "the run of TRACE doesn't fulfil 'stale'"),
    ("guest.img good.trc good.trc --until 'word 0 0 2'", 2, "OUT would be written over TRACE"),
    ("guest.img good.trc guest.img --until 'word 0 0 2'", 2, "TRACE would be written over IMAGE"),
    ("guest.img guest.img none.trc --until 'word 0 0 2'", 3, "refused"),
    ("good.trc good.trc none.trc --until 'word 0 0 2'", 3, "refused"),
    ("other.img good.trc none.trc --until 'word 0 0 2'", 4, "no run of this image has this trace"),
    ("guest.img good.trc none.trc --until 'code 9 0'", 3, "the image has no such thread, object or word"),
    ("guest.img good.trc none.trc --until 'nothing'", 2, "is no condition"),
    ("guest.img good.trc none.trc --until fault --seconds 0", 2, "is no number from 1 to 1000000"),
    ("guest.img good.trc none.trc", 2, "--until"),
    ("guest.img absent.trc none.trc --until fault", 1, "absent.trc"),
]


@dataclass(frozen=True)
class Fault:
    """A guest, as a text in assembly or as a file for the compiler; the conditions of a run that shows its fault; what `ir explore` looks for, if it can; options of the
    recording; and whether the table alone takes it, and not the test."""

    name: str
    source: object
    conditions: tuple
    sought: tuple = ()
    budget: tuple = ()
    profile: tuple = ()
    long: bool = False

    def until(self, conditions):
        """Conditions as options."""
        return [word for condition in conditions for word in ("--until", condition)]


def adding(rounds):
    """Two threads that add 1 to a word, each addition in two entries."""
    body = faults.reads(faults.get(0, "s1")) + "        addi s1, s1, 1\n" + faults.writes(faults.put(0, "s1"))
    return faults.of_threads(["main", "main"], f"main:\n{faults.repeated('again', rounds, body)}{faults.call(1, 'zero, 0')}")


def sized():
    """Guests of some 5, 20 and 100 entries a thread."""
    for rounds in (2, 10, 50):
        yield Fault(f"a lost update, {2 * rounds} entries a thread", adding(rounds), (f"!word 0 0 {2 * rounds}",), (f"!word 0 0 {2 * rounds}",))
        fault = (f"word 0 0 {rounds + 1}",)
        yield Fault(f"check, then act, {2 * rounds + 1} entries", faults.check_then_act(rounds, rounds), fault, fault)
    for rounds in (1, 5, 25):
        yield Fault(f"a torn read, {4 * rounds + 1} and {2 * rounds + 1} entries", faults.sequence_lock(1, rounds), ("!word 0 3 0",), ("!word 0 3 0",))
    for entries in (5, 20, 100):
        fault = (f"code 1 {entries // 2}",)
        yield Fault(f"an entry in the middle of {entries}", faults.needle(entries), fault, fault)


def in_c():
    """The guests in C of examples/c and of tests/c_guests, and the ordinary programs of the guide."""
    small, large = ("--budget", "20000"), ("--budget", "100000")
    rows = [
        ("examples/c/bank.c", "!word 0 0 20", {}), ("examples/c/over.c", "end 1 7", {}), ("examples/c/sync.c", "fault", {}),
        ("examples/c/gas.S", "!word 0 0 11", {}), ("examples/c/buffer.c", "budget", {"sought": ("hang",), "budget": large}),
        ("examples/c/wide.c", "!code 0 64", {"profile": ("--profile", "2"), "sought": (), "long": True}),
        ("tests/c_guests/faults/peterson.c", "!word 3 0 2", {}), ("tests/c_guests/faults/bakery.c", "fault", {}),
        ("tests/c_guests/faults/deque.c", "bad", {}), ("tests/c_guests/faults/queue.c", "fault", {}), ("tests/c_guests/faults/cache.c", "fault", {}),
        ("tests/c_guests/faults/trap.c", "fault", {}), ("tests/c_guests/faults/stack.c", "end 0 7", {}),
        ("tests/c_guests/faults/ticket.c", "budget", {"sought": ("hang",), "budget": small}),
        ("tests/c_guests/faults/condvar.c", "budget", {"sought": ("hang",), "budget": small}),
        ("tests/threads/programs/account.c", "fault", {}), ("tests/threads/programs/deadlock.c", "budget", {"sought": ("hang",), "budget": small}),
    ]
    for path, condition, more in rows:
        # These guests poll, and a run that spends a budget would be a fault of a different kind, which `ir explore` doesn't have.
        conditions = (condition,) if condition == "budget" else (condition, "!budget")
        yield Fault(Path(path).name, TOP / path, conditions, **{"sought": (condition,), "budget": ("--budget", "50000"), **more})


def all_faults():
    """Each fault."""
    yield Fault(LOST, examples()[LOST], ("!word 0 0 2",), ("!word 0 0 2",))
    yield Fault(f"{LOST}, a stale write", examples()[LOST], ("stale",))
    account, checked = ((TOP / "docs" / "guide" / f"{name}.s").read_text() for name in ("account", "checked"))
    yield Fault("account.s", account, ("word 0 0 0xffffff9c",), ("word 0 0 0xffffff9c",))
    yield Fault("checked.s", checked, ("bad",), ("bad",), long=True)
    yield from sized()
    if shutil.which("riscv64-unknown-elf-gcc"):
        yield from in_c()


@dataclass
class Row:
    """What came of a fault: by each way the switches of the hunted orders, of the orders of their traces and of the shrunk runs; and the fewest of `ir explore`, or how
    it ended."""

    fault: Fault
    shrunk: dict = field(default_factory=dict)
    fewest: object = None
    ended: str = ""


def shrunk(lines):
    """The switches before and after, the list, and how the search ended, as the first lines say it."""
    words = lines[0].split() if lines else []
    if len(words) != 6 or words[0::2] != ["shrunk", "to", "order"]:
        raise Wrong(f"the first line is {lines[:1]}")
    return int(words[1]), int(words[3]), words[5], lines[1]


def switches_of(text):
    """How often the thread of an item isn't the one before it: each turn of a list that is printed takes a step."""
    threads = [item.partition("x")[0].rstrip("!") for item in text.split(",")]
    return sum(one != other for one, other in zip(threads, threads[1:]))


def done(words, folder, **more):
    """The lines of a command that succeeds."""
    ended = run(words, folder, **more)
    if ended.returncode:
        raise Wrong(f"{words}: status {ended.returncode}: {ended.stderr.decode()}")
    return ended.stdout.decode().splitlines()


def image_of(folder, fault):
    """The image of a fault's guest, or its ELF file."""
    if isinstance(fault.source, str):
        assembled(folder, "guest", fault.source)
        return "guest.img"
    by_hand = fault.source.suffix == ".S"
    words = ["riscv64-unknown-elf-gcc", fault.source, "@guest/ir.opts"] if by_hand else [sys.executable, COMPILER, fault.source]
    ended = subprocess.run([*words, "-o", folder / "guest.elf"], cwd=TOP, check=False, capture_output=True, text=True, timeout=300)
    wants(f"{fault.name}: compiled", (ended.returncode, ended.stderr), (0, ""))
    return "guest.elf"


def check_seed(folder, image, fault, seed, way):
    """A seed from this one on that shows the fault: hunted, shrunk, recorded again, and shrunk once more. Gives the seed, and the switches of the hunted order, of the
    order of its trace and of the shrunk run; nothing if no seed shows it."""
    until, options, name = fault.until(fault.conditions), [*fault.profile, *fault.budget], f"{fault.name} {way} {seed}"
    hunt = ["hunt", image, "found.trc", "--by", way, *options, *until]
    ended = run([*hunt, "--seeds", f"{seed}+{MOST_SEEDS}", "--seconds", str(MOST_SECONDS)], folder, timeout=3 * MOST_SECONDS)
    if ended.returncode:
        return None
    _, _, seed, _, hunted = ended.stdout.decode().splitlines()[0].split()
    before, after, order, end = shrunk(done(["shrink", image, "found.trc", "least.trc", *until], folder, timeout=600))
    wants(f"end of {name}", end, "minimal")
    wants(f"switches of {order}", switches_of(order), after)
    if after > before:
        raise Wrong(f"{name}: {before} to {after}")
    done(["record", image, "again.trc", "--order", order, *options], folder)
    wants(f"trace of {order}", (folder / "again.trc").read_bytes(), (folder / "least.trc").read_bytes())
    lines = done(["hunt", image, "both.trc", "--by", way, *options, *until, "--seeds", f"{seed}+1", "--shrink"], folder, timeout=600)
    begin = next(i for i, line in enumerate(lines) if line.startswith("shrunk "))
    wants(f"hunt --shrink of {name}", shrunk(lines[begin:]), (before, after, order, end))
    wants(f"its trace of {name}", (folder / "both.trc").read_bytes(), (folder / "least.trc").read_bytes())
    more = shrunk(done(["shrink", image, "least.trc", "again.trc", *until], folder, timeout=600))[1]
    if more > after:
        if isinstance(fault.source, str):
            raise Wrong(f"{name}: {after}, and once more {more}")
        print(f"{name}: {after}, and once more {more}", flush=True)
    return int(seed), switches_of(hunted), before, after, order


def fewest_of(folder, image, fault):
    """The fewest switches of a run that shows the fault, if `ir explore` finds it, and how its search ended."""
    if not fault.sought:
        return None, "not explored"
    try:
        ended = run(["explore", image, "fewest.trc", *fault.profile, *fault.until(fault.sought), "--states", str(MOST_STATES)], folder, timeout=2 * MOST_SECONDS)
    except subprocess.TimeoutExpired:
        return None, "explored for too long"
    lines = ended.stdout.decode().splitlines()
    told = next((line.split() for line in lines if line.startswith(("found ", "hang "))), None)
    last = next((line for line in reversed(lines) if line.startswith(("finished", "stopped", "found"))), "")
    if ended.returncode or told is None:
        return None, last
    return int(told[told.index("switches") + 1]), last


def row_of(fault, seeds):
    """What comes of a fault, over so many seeds of each way."""
    row = Row(fault)
    with tempfile.TemporaryDirectory() as place:
        folder = Path(place)
        image = image_of(folder, fault)
        row.fewest, row.ended = fewest_of(folder, image, fault)
        for way in WAYS:
            seed = 0
            for _ in range(seeds):
                found = check_seed(folder, image, fault, seed, way)
                if found is None:
                    break
                row.shrunk.setdefault(way, []).append(found)
                tell(row, way, found)
                seed = found[0] + 1
    return row


def check_refused(folder, row):
    """A command that is refused: nothing is written."""
    words, status, told = row
    kept = {path: path.read_bytes() for path in folder.glob("*.trc")}
    ended = run(f"shrink {words}", folder)
    wants(f"status of {words}", ended.returncode, status)
    if told not in ended.stderr.decode():
        raise Wrong(f"{words}: {ended.stderr!r} lacks {told!r}")
    wants(f"files after {words}", {path: path.read_bytes() for path in folder.glob("*.trc")}, kept)


def span(numbers):
    """Numbers, from the least to the most."""
    numbers = sorted(numbers)
    return "" if not numbers else str(numbers[0]) if numbers[0] == numbers[-1] else f"{numbers[0]} to {numbers[-1]}"


def print_table(rows):
    """The table of the faults."""
    print("| Fault | Hunted by walk | Shrunk | Hunted by pct:3 | Shrunk | Fewest |\n|---|---|---|---|---|---|")
    for row in rows:
        cells = [span(found[place] for found in row.shrunk.get(way, [])) for way in WAYS for place in (1, 3)]
        print(f"| {row.fault.name} | {' | '.join(cells)} | {'' if row.fewest is None else row.fewest} |", flush=True)


def tell(row, way, found):
    """A line about a seed of a fault."""
    seed, hunted, before, after, _ = found
    fewest = row.ended if row.fewest is None else f"fewest {row.fewest}"
    print(f"{row.fault.name} {way} {seed}: {hunted}, {before} to {after}, {fewest}", flush=True)


def compared(rows):
    """How many shrunk runs have the fewest switches, and of how many these are known. A hang has no run that could be compared."""
    explored = [row for row in rows if row.fewest is not None and row.fault.sought != ("hang",)]
    pairs = [(after, row.fewest) for row in explored for found in row.shrunk.values() for *_, after, _ in found]
    return sum(after <= fewest for after, fewest in pairs), len(pairs)


def arguments():
    """What is asked for."""
    parser = parser_of(__doc__)
    parser.add_argument("--seeds", type=int, default=3, help="how many seeds of each fault and way")
    parser.add_argument("--table", action="store_true", help="prints the table of the faults, the long ones too")
    parser.add_argument("faults", nargs="*", metavar="FAULT", help="faults that are shrunk; all if none is named")
    return parser.parse_intermixed_args()


def tried(check):
    """What a check gives, or what it found wrong."""
    try:
        return check()
    except (Wrong, subprocess.TimeoutExpired, OSError, ValueError) as wrong:
        print(wrong, flush=True)
        return None


def main():
    asked = arguments()
    use(asked.program)
    chosen = [fault for fault in all_faults() if fault.name in asked.faults or (not asked.faults and (asked.table or not fault.long))]
    with tempfile.TemporaryDirectory() as place:
        folder = Path(place)
        assembled(folder, "guest", examples()[LOST])
        assembled(folder, "other", examples()["counter"])
        done("record guest.img good.trc --order 0x200,1x200", folder)
        results = [tried(lambda row=row: check_refused(folder, row) or True) for row in REFUSED]
    with ThreadPoolExecutor(asked.jobs) as pool:
        rows = list(pool.map(lambda fault: tried(lambda: row_of(fault, asked.seeds)), chosen))
    known = [row for row in rows if row is not None]
    if asked.table:
        print_table(known)
    equal, count = compared(known)
    print(f"{equal} of {count} have the fewest switches")
    results += [*rows, count == 0 or 100 * equal >= AT_LEAST * count or None]
    sys.exit(finish(sum(it is not None for it in results), sum(it is None for it in results)))


if __name__ == "__main__":
    main()
