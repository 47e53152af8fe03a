#!/usr/bin/env python3
"""Images and traces that were cut or changed, opened by the program: each is refused, doesn't fit, or opens, and nothing else happens.

python3 tests/damaged_files.py IR [--few] [--count N] [--seed S] [--jobs J]

It tries these, each in a session of a few commands:

- every proper prefix of each image and trace, of `examples` and of guests of one to three threads below;
- each other value of each of their bytes, or with `--few` ten of the 255;
- N random mutations of the traces of three threads, 100,000 if none is given.

A run may take 1 GiB of address space and 20 seconds of a processor. Then come counts and lengths that the bytes don't bear out. Each is
reported with the most memory that was held at any one time: no more than without the count. Needs Linux and a C compiler (`cc`), for
counting.c. The last line is `N passed, M failed`.
"""
import collections
import concurrent.futures
import itertools
import os
import random
import re
import resource
import subprocess
import sys
import tempfile
from pathlib import Path

from lib import DOUBLE, REENTERED, STORES, assembled, counters, examples, finish, library, parser_of, program, recorded, use

COMMANDS = b"pos\nend\nlog 0\nnext 0\nback 0 1\nregs 0\nrcont 0\nkeep\nload 1\nquit\n"
MOST_MEMORY = 1 << 30
MOST_SECONDS = 20

# Three threads with an answer of the environment each, and entries of both kinds to two objects.
THREE = """
        .objects 2
        .object 0, 5
        .thread first
        .thread second
        .thread second
first:  addi a7, zero, 6
        ecall
        addi s0, a0, 0
        addi a0, zero, 0
        addi a7, zero, 8
        ecall
        addi a1, zero, 0
        addi a2, s0, 0
        addi a7, zero, 11
        ecall
        addi a7, zero, 9
        ecall
        addi a7, zero, 3
        ecall
        ebreak
second: addi a7, zero, 4
        ecall
        addi a0, zero, 0
        addi a7, zero, 7
        ecall
        addi a1, zero, 0
        addi a7, zero, 10
        ecall
        addi s1, a0, 0
        addi a0, zero, 0
        addi a7, zero, 9
        ecall
        addi a0, zero, 1
        addi a7, zero, 8
        ecall
        addi a1, zero, 2
        addi a2, s1, 1
        addi a7, zero, 11
        ecall
        addi a7, zero, 9
        ecall
        ebreak
"""

# Ends while it holds an object, whose first word it has changed.
BROKEN_INSIDE = "        .objects 1\n        addi a0, zero, 0\n        addi a7, zero, 8\n        ecall\n        addi a1, zero, 0\n" + """
        addi a2, zero, 7
        addi a7, zero, 11
        ecall
        ebreak
"""

# Enters object 3 and then object 2.
FALLING = """
        .objects 4
        addi a0, zero, 3
        addi a7, zero, 7
        ecall
        addi a0, zero, 2
        ecall
"""

# Two threads enter an object for reading, leave it and end; of three the last enters it for writing.
READERS = """
        .objects 1
        .thread reader
        .thread reader
reader: addi a0, zero, 0
        addi a7, zero, 7
        ecall
        addi a7, zero, 9
        ecall
        addi a7, zero, 1
        ecall
"""
READERS_AND_WRITER = READERS + """
        .thread writer
writer: addi a0, zero, 0
        addi a7, zero, 8
        ecall
        addi a7, zero, 9
        ecall
        addi a7, zero, 1
        ecall
"""

# One thread tries to enter an object while the other holds it, and once more when it has left.
TRYING = """
        .objects 1
        .thread writer
        .thread other
writer: addi a0, zero, 0
        addi a7, zero, 8
        ecall
        addi a7, zero, 9
        ecall
        ebreak
other:  addi a0, zero, 0
        addi a7, zero, 13               # TRY_WRITE
        ecall
        addi s0, a0, 0
        addi a0, zero, 0
        ecall
        addi a7, zero, 1
        ecall
"""

# Guests beside the examples: a name, the source, the order of the recording, the budget. Example `counter` has the loop of two counters.
GUESTS = (
    ("doubled", DOUBLE, "0", 1000),
    ("doubled_short", DOUBLE, "0", 2),
    ("two_counters", counters(2), "1x18", 1000),
    ("reentered", REENTERED, "0", 1000),
    ("stores", STORES, "0", 1000),
    ("broken_inside", BROKEN_INSIDE, "0", 1000),
    ("falling", FALLING, "0", 1000),
    ("readers", READERS, "0,1", 1000),
    ("readers_and_writer", READERS_AND_WRITER, "0x7,1x7", 1000),
    ("trying", TRYING, "0x3,1x3,0x3,1", 1000),
    ("sixteen_counters", ".large\n" + counters(16), "15x18,3x2", 1000),
)

# The orders in which the three are recorded.
ORDERS = ("0", "2,1,0", "1x8,0x9,2x30", "0x6,1x12,2x12,0x20,1x30", "1,2,0,1,2,0,1,2,0,1,2,0,1,2,0,1,2,0")

REFUSED = re.compile(rb"(image|trace) refused \d+\n")
VERDICTS = re.compile(rb"header differs \d+\n|incoherent thread \d+ event \d+ cause \d+\n"
                      rb"|(thread \d+ (same|disagrees event \d+ step \d+|starves event \d+)\n)+")


def limited(words, typed, **how):
    """The end of a run over what is typed, within its limits. It has them before its first line."""
    streams = {"stdin": subprocess.PIPE, "stdout": subprocess.PIPE, "stderr": subprocess.PIPE}
    with subprocess.Popen(words, **streams, **how) as run:
        resource.prlimit(run.pid, resource.RLIMIT_AS, (MOST_MEMORY, MOST_MEMORY))
        resource.prlimit(run.pid, resource.RLIMIT_CPU, (MOST_SECONDS, MOST_SECONDS))
        try:
            out, error = run.communicate(typed, timeout=120)
        except subprocess.TimeoutExpired:
            run.kill()
            raise
    return subprocess.CompletedProcess(words, run.returncode, out, error)


def typed_of(image, trace):
    """What is typed for a session over both."""
    return image.hex().encode() + b"\n" + trace.hex().encode() + b"\n" + COMMANDS


def session(image, trace):
    """The end of a session over both, and what it wrote."""
    return limited([program()], typed_of(image, trace))


def outcome(ended):
    """What became of them; none if that isn't allowed."""
    out = ended.stdout
    if ended.stderr:
        return None
    if ended.returncode == 3 and REFUSED.fullmatch(out):
        return "refused"
    if ended.returncode == 4 and VERDICTS.fullmatch(out):
        return "didn't fit"
    lines = out.split(b"\n")
    if ended.returncode == 0 and lines[0] == b"ready" and lines[-2:] == [b"bye", b""] and len(lines) > COMMANDS.count(b"\n") + 1:
        return "served"
    return None


def judge(case):
    """What became of an image and a trace that must be refused (`want`), or may be anything that is allowed, and what is wrong."""
    what, image, trace, want = case
    try:
        ended = session(image, trace)
    except subprocess.TimeoutExpired:
        return None, f"{what}: no end in 120 seconds"
    found = outcome(ended)
    if found is None or (want and ended.stdout != want):
        report = f"{what}: status {ended.returncode}, {ended.stdout[:200]!r}, {ended.stderr[:200]!r}"
        return None, f"{report}: image {image.hex()} trace {trace.hex()}"
    return found, ""


def pair(folder, name, source, order, budget=1_000_000):
    """The image of a source, and the trace of its recording."""
    return assembled(folder, name, source), recorded(folder, name, order, budget, ("--input", "input"))


def pairs(folder):
    """Images with traces, and of the three threads all traces."""
    found = [(name, *pair(folder, name, source, "0")) for name, source in examples().items()]
    found += [(name, *pair(folder, name, source, order, budget)) for name, source, order, budget in GUESTS]
    threes = [pair(folder, "three", THREE, order) for order in ORDERS]
    return found, threes[0][0], [trace for _, trace in threes]


def changed(bytes_, few):
    """The bytes with one of them changed: its place, its new value, all of them."""
    for place, byte in enumerate(bytes_):
        others = {byte ^ 1 << bit for bit in range(8)} | {0, 255} if few else set(range(256))
        for other in sorted(others - {byte}):
            yield place, other, bytes_[:place] + bytes([other]) + bytes_[place + 1:]


def systematic(name, image, trace, few):
    """Each prefix, and changes of each byte."""
    for length in range(len(image)):
        yield f"{name}, image cut at {length}", image[:length], trace, b"image refused 1\n"
    for length in range(len(trace)):
        yield f"{name}, trace cut at {length}", image, trace[:length], b"trace refused 1\n"
    for place, other, bytes_ in changed(image, few):
        yield f"{name}, image byte {place} {other}", bytes_, trace, b""
    for place, other, bytes_ in changed(trace, few):
        yield f"{name}, trace byte {place} {other}", image, bytes_, b""


def mutated(chance, trace, others):
    """The trace after one to four changes."""
    bytes_ = bytearray(trace)
    for _ in range(chance.randint(1, 4)):
        place = chance.randrange(len(bytes_) + 1)
        kind = chance.randrange(7)
        end = min(len(bytes_), place + chance.choice((1, 2, 4, 6, 10, 20)))
        if kind == 0 and place < len(bytes_):
            bytes_[place] = chance.randrange(256)
        elif kind == 1 and place < len(bytes_):
            bytes_[place] = (bytes_[place] + chance.choice((1, 255))) % 256
        elif kind == 2:
            del bytes_[place:end]
        elif kind == 3:
            bytes_[place:place] = bytes_[place:end]
        elif kind == 4:
            other = chance.choice(others)
            bytes_[place:end] = other[place:end]
        elif kind == 5:
            bytes_[place:end] = bytes(end - place)
        else:
            number = chance.choice((0, 1, 2, 255, 1 << 20, (1 << 32) - 1)).to_bytes(4, "little")
            bytes_[place:place + 4] = number
    return bytes(bytes_)


def all_cases(folder, count, seed, few):
    """All that is tried, with a seed of its own for each random one."""
    found, image, traces = pairs(folder)
    for name, each, trace in found + [("three", image, traces[-1])]:
        yield from systematic(name, each, trace, few)
    for number in range(count):
        chance = random.Random(seed * 1_000_003 + number)
        trace = mutated(chance, chance.choice(traces), traces)
        yield f"mutation {number} of seed {seed}", image, trace, b""


def measured(counting, words, typed, folder):
    """The end of a run, and the most bytes that it held at any one time."""
    with tempfile.TemporaryFile() as counted:
        counted.write(bytes(8))
        counted.flush()
        more = {"LD_PRELOAD": counting, "COUNTED": str(counted.fileno())}
        ended = limited(words, typed, cwd=folder, env=os.environ | more, pass_fds=(counted.fileno(),))
        counted.seek(0)
        return ended, int.from_bytes(counted.read(8), sys.byteorder)


def counts(image):
    """Counts that the bytes don't bear: what, an image and a trace with the count, the same with the least count, and what is answered."""
    def head(words, data):
        return bytes.fromhex("495249310100") + words.to_bytes(4, "little") + data.to_bytes(4, "little") + bytes.fromhex("00000100")

    def trace(events, threads=1):
        start = b"IRT1" + bytes([threads, 0, 0, 0]) + (1_000_000).to_bytes(8, "little")
        return start + (6).to_bytes(8, "little") + b"\1" + bytes(4) + events.to_bytes(4, "little")

    image_short, trace_short = b"image refused 1\n", b"trace refused 1\n"
    yield "16,384 words of code without them", head(16_384, 0), b"", head(1, 0), b"", image_short
    yield "65,536 bytes of data without them", head(1, 65_536) + bytes(4), b"", head(1, 1) + bytes(4), b"", image_short
    yield "1,048,576 events without them", image, trace(1_048_576), image, trace(1), trace_short
    more = bytes([1]) * 9
    yield "1,048,576 events, and one of them", image, trace(1_048_576) + more, image, trace(2) + more, trace_short
    yield "eight threads with one of them", image, trace(1_048_576, 8), image, trace(1, 8), trace_short


def unborne(folder):
    """Counts and lengths that the bytes don't bear: what was wrong of each. A line of each is printed."""
    counting = library(folder, "counting")
    image, trace = pair(folder, "hello", examples()["hello"], "0")
    for what, large_image, large_trace, least_image, least_trace, want in counts(image):
        ended, most = measured(counting, [program()], typed_of(large_image, large_trace), folder)
        _, least = measured(counting, [program()], typed_of(least_image, least_trace), folder)
        print(f"{what}: {most} bytes at most, {least} with the least count", flush=True)
        is_wanted = (ended.returncode, ended.stdout, ended.stderr) == (3, want, b"") and 0 < most <= least
        yield "" if is_wanted else f"{what}: {ended.returncode} {ended.stdout[:200]!r} {ended.stderr[:200]!r}, {most} bytes, not {least}"
    for what, long, want in (
        ("200,000,000 bytes of zeros", bytes(200_000_000), b"trace refused 2\n"),
        ("a trace, and zeros up to 200,000,000 bytes", trace + bytes(200_000_000 - len(trace)), b"trace refused 7\n"),
    ):
        (folder / "long.trc").write_bytes(long)
        ended, most = measured(counting, [program(), "debug", "hello.img", "long.trc"], COMMANDS, folder)
        print(f"{what}: {most} bytes at most", flush=True)
        is_wanted = (ended.returncode, ended.stdout, ended.stderr[:26]) == (3, want, b"ir: the trace is refused: ") and len(long) <= most <= 3 * len(long)
        yield "" if is_wanted else f"{what}: {ended.returncode} {ended.stdout[:200]!r} {ended.stderr[:200]!r}, {most} bytes"


def judged(cases, jobs):
    """What became of each case and what was wrong with it, ten thousand at a time; after each it reports how far it is."""
    count = 0
    with concurrent.futures.ProcessPoolExecutor(jobs) as pool:
        while batch := list(itertools.islice(cases, 10_000)):
            yield from pool.map(judge, batch, chunksize=64)
            count += len(batch)
            print(f"{count} tried, the last: {batch[-1][0]}", file=sys.stderr, flush=True)


def main():
    parser = parser_of(__doc__)
    parser.add_argument("--few", action="store_true", help="ten of the 255 other values of each byte")
    parser.add_argument("--count", type=int, default=100_000, help="how many random mutations")
    parser.add_argument("--seed", type=int, default=1, help="where they start")
    words = parser.parse_args()
    use(words.program)
    seen, faults = collections.Counter(), []
    with tempfile.TemporaryDirectory() as name:
        folder = Path(name)
        (folder / "input").write_bytes(b"input")
        for fault in unborne(folder):
            seen["whose counts aren't borne"] += not fault
            faults += [fault] if fault else []
        for found, fault in judged(all_cases(folder, words.count, words.seed, words.few), words.jobs):
            seen[found] += 1
            faults += [fault] if fault else []
    for fault in faults[:20]:
        print(fault)
    print(", ".join(f"{count} {what}" for what, count in sorted(seen.items(), key=str) if what))
    return finish(sum(seen.values()) - seen[None], len(faults))


if __name__ == "__main__":
    sys.exit(main())
