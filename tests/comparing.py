#!/usr/bin/env python3
"""`ir explore --within` and `--only` against the judge of tests/exploring.py, and their refusals.

python3 tests/comparing.py IR [--pairs N] [--seed S]

Of two guests the judge says which outcomes each has. What counts of them is cut out here, and compared as sets: so it is known which outcomes of
the first are outside, and what the last line says. The lines of these outcomes have to be those of `ir explore` without the option, with their
numbers. Half of the second guests are the first one with an operation changed. By classes the first outcome of each has to be printed. With a trace
the same has to be printed, and what is written are the files of `ir record` by the first printed list. The last line is `N passed, M failed`.
"""
import random
import subprocess
import sys
import tempfile
from pathlib import Path

from exploring import SILENT, WORDS, explored, judged, listed, random_guest, source_of
from lib import Wrong, assembled, finish, parser_of, run, use, wants

# The parts of an outcome that may count.
PARTS = ("out", "codes", "objects", "0", "1")
# Two threads add one each, in an entry for reading and one for writing, or in a single one.
LOST = [[("enter_read", 0), ("get", 0, 0, 0), ("leave", 0), ("add", 0, 1), ("enter_write", 0), ("put", 0, 0, 0), ("leave", 0)]] * 2
KEPT = [[("enter_write", 0), ("get", 0, 0, 0), ("add", 0, 1), ("put", 0, 0, 0), ("leave", 0)]] * 2


def counted(outcome, parts, objects):
    """What counts of an outcome of the judge."""
    threads, words = outcome
    each = [words[thing * WORDS:(thing + 1) * WORDS] for thing in range(objects)]
    chosen = each if parts is None or "objects" in parts else [each[int(part)] for part in parts if part.isdigit()]
    ends = tuple(thread[:2] for thread in threads) if parts is None or "codes" in parts else ()
    printed = tuple(thread[2] for thread in threads) if parts is None or "out" in parts else ()
    return ends, printed, tuple(chosen)


def blocks_of(lines):
    """The outcomes that are printed, as blocks of lines by their numbers, and the other lines."""
    blocks, others, here = {}, [], None
    for line in lines:
        if line.startswith("outcome "):
            here = blocks.setdefault(int(line.split()[1]), [])
        elif line.split()[0] in ("hang", "finished", "covered", "stopped", "image", "other", "within", "outside", "unknown", "classes"):
            here = None
        (others if here is None else here).append(line)
    return blocks, others


def changed(chance, guest):
    """A guest with one operation of one thread left out or doubled."""
    threads = [list(thread) for thread in guest]
    thread = chance.choice(threads)
    at = chance.randrange(len(thread))
    if thread[at][0] == "skip" or any(operation[0] == "skip" for operation in thread):
        return threads
    thread[at:at + 1] = [] if chance.random() < 0.5 and len(thread) > 1 else [thread[at]] * 2
    return threads


def outcomes_in(folder, name, guest, objects):
    """The outcomes of a guest: those that the judge finds, in the order in which `ir explore` lists them, and its lines."""
    assembled(folder, name, source_of(guest, objects))
    lines, _ = explored(folder, name)
    return set(judged(guest, objects, SILENT).outcomes), lines


def keys_of(blocks, lines, objects):
    """What each printed outcome is, as the judge has it."""
    return {number: listed([*block, lines[-1]], objects)[0][0] for number, block in blocks.items()}


def check_pair(folder, chance):
    """Two guests: the verdict, and the outcomes that are printed."""
    guest, objects = random_guest(chance)
    other, others = (changed(chance, guest), objects) if chance.random() < 0.5 else random_guest(chance)
    parts = chance.choice((None, chance.sample(PARTS, chance.randint(1, 3))))
    if parts is not None:
        parts = [part for part in parts if not part.isdigit() or int(part) < min(objects, others)] or ["out"]
    _, lines = outcomes_in(folder, "guest", guest, objects)
    theirs, other_lines = outcomes_in(folder, "other", other, others)
    like = {counted(outcome, parts, others) for outcome in theirs}
    blocks, last = blocks_of(lines)
    keys = keys_of(blocks, lines, objects)
    outside = [number for number, row in keys.items() if counted((row.threads, row.words), parts, objects) not in like]
    ended = run(["explore", "guest.img", "--within", "other.img", *(["--only", ",".join(parts)] if parts else [])], folder)
    printed, rest = blocks_of(ended.stdout.decode().splitlines())
    where = f"{guest} within {other} only {parts}"
    wants(f"outcomes of {where}", printed, {number: blocks[number] for number in outside})
    wants(f"ending of {where}", rest, [f"image {last[-1]}", f"other {blocks_of(other_lines)[1][-1]}", f"outside {len(outside)}" if outside else "within"])
    wants(f"status of {where}", ended.returncode, 5 if outside else 0)
    check_recorded(folder, where, "guest.img --within other.img" + (f" --only {','.join(parts)}" if parts else ""), ended)
    check_classes(folder, f"{guest} only {parts}", parts or ["out", "codes", "objects"], objects, (blocks, last, keys))


def check_recorded(folder, where, words, plain):
    """With a trace: the lines without it, and then those of `ir record` by the first printed list, which writes the same files."""
    image, *others = words.split()
    for file in (*folder.glob("first.*"), *folder.glob("again.*")):
        file.unlink()
    (folder / "first.trc").write_bytes(b"as it was")
    ended = run(["explore", image, "first.trc", *others, "--output", "first"], folder)
    lines = plain.stdout.decode().splitlines()
    if plain.returncode != 5:
        wants(f"what stands at TRACE of {where}", (folder / "first.trc").read_bytes(), b"as it was")
        wants(f"files of {where}", len([*folder.glob("first.*")]), 1)
        wants(f"the same without a trace of {where}", (ended.returncode, ended.stdout), (plain.returncode, plain.stdout))
        return
    order = lines[0].split(" order ")[1]
    again = run(["record", image, "again.trc", "--order", order, "--budget", "1000000000000", "--output", "again"], folder)
    wants(f"status with TRACE of {where}", ended.returncode, 5)
    wants(f"lines with TRACE of {where}", ended.stdout.decode().splitlines(), [*lines, *again.stdout.decode().splitlines()])
    written = {name: {file.suffix: file.read_bytes() for file in folder.glob(f"{name}.*")} for name in ("first", "again")}
    wants(f"files of {where}", written["first"], written["again"])


def check_classes(folder, where, parts, objects, known):
    """A guest's outcomes by classes: of each class the first is printed."""
    blocks, last, keys = known
    firsts = {}
    for number in sorted(keys):
        firsts.setdefault(counted((keys[number].threads, keys[number].words), parts, objects), number)
    ended = run(["explore", "guest.img", "--only", ",".join(parts)], folder)
    printed, rest = blocks_of(ended.stdout.decode().splitlines())
    wants(f"classes of {where}", printed, {number: blocks[number] for number in firsts.values()})
    wants(f"ending of {where}", rest, [*last, f"classes {len(firsts)}"])


# Arguments, the exit status, the last line of standard output, and what standard error says.
ROWS = [
    ("lost.img --within lost.img", 0, "within", ""),
    ("lost.img --within checked.img", 5, "outside 1", ""),
    ("checked.img --within lost.img", 0, "within", ""),
    ("lost.img --within checked.img --only codes", 0, "within", ""),
    ("lost.img --within checked.img --only 0", 5, "outside 1", ""),
    ("lost.img --within checked.img --states 2", 6, "unknown", ""),
    ("lost.img --within none.img", 1, None, "none.img"),
    ("lost.img --within lost.s", 3, None, "OTHER: the image is refused"),
    ("lost.s --within lost.img", 3, None, "the image is refused"),
    ("lost.img --within checked.img --only 7", 2, None, "lost.img: the guest has no object 7, which --only names"),
    ("lost.img --within checked.img --only", 2, None, "--only"),
    ("lost.img --within checked.img --only none", 2, None, "'none' isn't out, codes, objects or the number of an object up to 63"),
    ("lost.img --within checked.img --only out,,codes", 2, None, "'' isn't out, codes, objects or the number of an object up to 63"),
    ("lost.img --only out", 0, "classes 1", ""),
    ("lost.img --only 0", 0, "classes 2", ""),
    ("lost.img --only codes,out,objects --states 2", 6, "classes 0", ""),
    ("lost.img --only 7", 2, None, "lost.img: the guest has no object 7, which --only names"),
    ("lost.img --only none", 2, None, "'none' isn't out, codes, objects or the number of an object up to 63"),
    ("lost.s --only out", 3, None, "the image is refused"),
    ("lost.img x.trc --until fault --only out", 2, None, "cannot be used with"),
    ("lost.img x.trc --until fault --within checked.img", 2, None, "cannot be used with"),
    ("lost.img x.trc --only out", 2, None, "not provided: <--until <COND>|--within <OTHER>>"),
    ("lost.img x.trc", 2, None, "not provided: <--until <COND>|--within <OTHER>>"),
    ("lost.img --within lost.img --output x", 2, None, "not provided: <TRACE>"),
    ("lost.img x.trc --within lost.img", 0, "within", ""),
    ("lost.img x.trc --within checked.img", 5, "thread 1 end 1 code 0 steps 26 events 2", ""),
    ("lost.img x.trc --within checked.img --only codes", 0, "within", ""),
    ("lost.img x.trc --within checked.img --only 7", 2, None, "lost.img: the guest has no object 7, which --only names"),
    ("lost.img x.trc --within checked.img --states 2", 6, "unknown", ""),
    ("lost.img x.trc --within none.img", 1, None, "none.img"),
    ("lost.img x.trc --within lost.s", 3, None, "OTHER: the image is refused"),
    ("lost.img lost.img --within checked.img", 2, None, "TRACE would be written over IMAGE"),
    ("lost.img checked.img --within checked.img", 2, None, "TRACE would be written over OTHER"),
    ("lost.img x.trc --within over.0 --output over", 2, None, "PREFIX.T would be written over OTHER"),
    ("lost.img none/x.trc --within checked.img", 1, "outside 1", "none/x.trc can't be written"),
]


def check_row(folder, row):
    """A command and what it comes to."""
    words, status, last, told = row
    ended = run(["explore", *words.split()], folder)
    wants(f"status of {words}", ended.returncode, status)
    lines = ended.stdout.decode().splitlines()
    wants(f"last line of {words}", lines[-1] if lines else None, last)
    if told not in ended.stderr.decode():
        raise Wrong(f"{words}: {ended.stderr!r} lacks {told!r}")


def main():
    parser = parser_of(__doc__)
    parser.add_argument("--pairs", type=int, default=300, help="how many pairs of random guests")
    parser.add_argument("--seed", type=int, default=1, help="the seed of the guests")
    asked = parser.parse_args()
    use(asked.program)
    chance, passed, failed = random.Random(asked.seed), 0, 0
    with tempfile.TemporaryDirectory() as place:
        folder = Path(place)
        assembled(folder, "lost", source_of(LOST, 1))
        assembled(folder, "checked", source_of(KEPT, 1))
        (folder / "over.0").write_bytes((folder / "checked.img").read_bytes())
        checks = [*(lambda row=row: check_row(folder, row) for row in ROWS), *(lambda: check_pair(folder, chance) for _ in range(asked.pairs))]
        for check in checks:
            try:
                check()
                passed += 1
            except (Wrong, subprocess.TimeoutExpired, OSError) as wrong:
                failed += 1
                print(wrong, flush=True)
    sys.exit(finish(passed, failed))


if __name__ == "__main__":
    main()
