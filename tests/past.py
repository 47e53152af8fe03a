"""Tests of `ir stale`, `ir who`, `ir why` and `ir diff` on the built program, which `tests/program.py` runs.

What they print is compared with what a slow program, written here from the texts of their help, makes of the lines of `ir trace`. The table
of stale writes says of each guest in how many of its recordings the result is wrong, and in how many a stale write is listed.
"""
import os
import random
import re
import sys
from dataclasses import dataclass

from lib import TOP, Wrong, assembled, counters, examples, profile_of, recorded, run, said, shell, wants

sys.path.append(str(TOP / "bench"))

import faults  # noqa: E402
import places  # noqa: E402
import view  # noqa: E402

FULL = b"ir: standard output can't be written\n"

# The status where nobody reads what is printed: 128 and the number of SIGPIPE.
UNREAD = 141

# The lost update: both threads read version 0, thread 1 writes first.
BAD, GOOD = "0x10,1x25", "0x25"
STALE = b"""stale 1 of 2
thread 0 event 1 write 0 version 1 read event 0 version 0 overwritten by thread 1 event 1
"""
# With the image, the steps of the events, and the word that thread 0 would have read.
RESTS = b"""stale 1 of 2
thread 0 event 1 step 13 write 0 version 1 read event 0 step 2 version 0 overwritten by thread 1 event 1 step 13 word 0 was 00000000 is 00000001 value
"""
DIFF = b"""common 1 0
thread 0 differs event 1 ready in 2
1 write 0 version 1 readers 0 by thread 1 event 1
2 write 0 version 0 readers 1 by first words
thread 1 differs event 0 ready in 1
1 read 0 version 0 by first words
2 read 0 version 1 by thread 0 event 1
"""
VERSIONS = b"""object 0 versions 3
version 0 by first words readers 2
version 1 by thread 1 event 1 readers 0
version 2 by thread 0 event 1 readers 0
"""
VERSION_0 = b"""version 0 by first words readers 2
read thread 0 event 0
read thread 1 event 0
overwritten by thread 1 event 1
"""

# Thread 1 wrote after both had read, thread 0 after it.
WHY_FIRST = b"""thread 1 event 1 write 0 version 0 readers 2
needs thread 0 event 0 read 0 version 0
past 1 1
since thread 1 event 1 waited for thread 0 event 0
"""
WHY_LAST = b"""thread 0 event 1 write 0 version 1 readers 0
needs thread 1 event 1 write 0 version 0 readers 2
past 1 2
since thread 0 event 1 waited for thread 1 event 1
since thread 1 event 1 waited for thread 0 event 0
"""

# The same with the image.
WHO_STEPS = b"""object 0 versions 3
version 0 by first words readers 2
version 1 by thread 1 event 1 step 21 readers 0
version 2 by thread 0 event 1 step 21 readers 0
"""
WHO_STEPS_0 = b"""version 0 by first words readers 2
read thread 0 event 0 step 2
read thread 1 event 0 step 2
overwritten by thread 1 event 1 step 13
"""
# The second write put the word that was there.
WHO_WORD = b"""object 0 versions 3
version 0 by first words word 0 00000000
version 1 by thread 1 event 1 step 18 word 0 00000001
"""
WHY_STEPS = b"""thread 1 event 1 step 13 write 0 version 0 readers 2
needs thread 0 event 0 read 0 version 0 left at step 10
past 1 1
least 11 14
since thread 1 event 1 step 13 waited for thread 0 event 0 step 10
"""

# Thread 0 holds object 0 while it waits for object 1, which thread 2 holds for long; thread 1 waits for object 0.
NESTED = ".objects 2\n.thread outer\n.thread last\n.thread slow\n" + "".join((
    "outer:\n", faults.call(8, "zero, 0"), faults.call(8, "zero, 1"), faults.call(9, "zero, 1"), faults.call(9, "zero, 0"), faults.call(1, "zero, 0"),
    "last:\n", faults.call(8, "zero, 0"), faults.call(9, "zero, 0"), faults.call(1, "zero, 0"),
    "slow:\n", faults.call(8, "zero, 1"), "        addi t0, zero, 50\nloop:   addi t0, t0, -1\n        bne t0, zero, loop\n",
    faults.call(9, "zero, 1"), faults.call(1, "zero, 0")))
NESTED_ORDER = "2x4,0x8,1x8,2x200,0x50,1x50"
# A trace has no leaves. With the image the wait within the hold is followed, and what came before thread 0 left is counted.
NESTED_WHY = b"""thread 1 event 0 write 0 version 1 readers 0
needs thread 0 event 0 write 0 version 0 readers 0
past 1 0 0
since thread 1 event 0 waited for thread 0 event 0
"""
NESTED_STEPS = b"""thread 1 event 0 step 2 write 0 version 1 readers 0
needs thread 0 event 0 write 0 version 0 readers 0 left at step 11
past 2 0 1
least 12 3 107
since thread 1 event 0 step 2 waited for thread 0 event 0 step 11
since thread 0 event 1 step 5 waited for thread 2 event 0 step 106
"""

# Thread 0 enters three objects, one in the other, before it leaves the first, for which thread 1 waits: all three entries come before.
DEEP = ".objects 3\n.thread outer\n.thread last\n" + "".join((
    "outer:\n", *(faults.call(8, f"zero, {thing}") for thing in (0, 1, 2)), *(faults.call(9, f"zero, {thing}") for thing in (2, 1, 0)), faults.call(1, "zero, 0"),
    "last:\n", faults.call(8, "zero, 0"), faults.call(9, "zero, 0"), faults.call(1, "zero, 0")))
DEEP_STEPS = b"""thread 1 event 0 step 2 write 0 version 1 readers 0
needs thread 0 event 0 write 0 version 0 readers 0 left at step 17
past 3 0
least 18 3
since thread 1 event 0 step 2 waited for thread 0 event 0 step 17
"""

# Threads 0 and 2 part at object 1. Thread 0 writes what it read there into object 0, which it has held before, so thread 1 follows though it is ready.
HOLDS = ".objects 4\n.thread copies\n.thread follows\n.thread writes\n" + "".join((
    "copies:\n", faults.call(8, "zero, 0"), faults.call(8, "zero, 1"), faults.call(10, "zero, 1", "zero, 0"), "        addi a2, a0, 0\n",
    faults.call(11, "zero, 0", "zero, 0"), faults.call(9, "zero, 1"), faults.call(9, "zero, 0"), faults.call(1, "zero, 0"),
    "follows:\n", faults.call(7, "zero, 0"), faults.call(10, "zero, 0", "zero, 0"), "        addi s0, a0, 2\n", faults.call(9, "zero, 0"),
    faults.call(8, "s0, 0"), faults.call(9, "s0, 0"), faults.call(1, "zero, 0"),
    "writes:\n", faults.call(8, "zero, 1"), "        addi a2, zero, 1\n", faults.call(11, "zero, 1", "zero, 0"), faults.call(9, "zero, 1"), faults.call(1, "zero, 0")))
HELD = b"""common 1 1 0
thread 0 differs event 1 ready in 1
1 write 1 version 0 readers 0 by first words
2 write 1 version 1 readers 0 by thread 2 event 0
thread 1 differs event 1 ready in 1 and 2
1 write 2 version 0 readers 0 by first words
2 write 3 version 0 readers 0 by first words
thread 2 differs event 0 ready in 2
1 write 1 version 1 readers 0 by thread 0 event 1
2 write 1 version 0 readers 0 by first words
"""

# A coherent trace that no run has: each of two threads reads what the other writes later.
CIRCLE = bytes.fromhex("49525431 02 02 0000 40420f0000000000"
                       "0900000000000000 01 00000000 02000000" "04 00 01000000" "05 01 00000000 00000000"
                       "0900000000000000 01 00000000 02000000" "04 01 01000000" "05 00 00000000 00000000")
CIRCLES = b"""common 0 0
thread 0 differs event 0
1 read 0 version 1 by thread 1 event 1
2 read 0 version 1 by thread 1 event 1
thread 1 differs event 0
1 read 1 version 1 by thread 0 event 1
2 read 1 version 1 by thread 0 event 1
"""

# A writer and two readers: in one recording thread 1 reads before the write, in the other thread 2. The write has one reader in both.
READERS = ".objects 1\n.thread writes\n.thread reads\n.thread reads\n" + "".join(
    f"{label}: addi a7, zero, {call}\n ecall\n addi a7, zero, 9\n ecall\n addi a7, zero, 1\n ecall\n" for label, call in (("reads", 7), ("writes", 8)))
OTHER_READERS = b"""common 1 0 0
thread 0 same
thread 1 differs event 0 ready in 1 and 2
1 read 0 version 0 by first words
2 read 0 version 1 by thread 0 event 0
thread 2 differs event 0 ready in 1 and 2
1 read 0 version 1 by thread 0 event 0
2 read 0 version 0 by first words
"""

# Each row: the arguments, and what is written.
ANSWERS = (
    ("stale bad.trc", STALE),
    ("stale good.trc", b"stale 0 of 2\n"),
    ("stale hello.trc", b"stale 0 of 0\n"),
    ("stale circle.trc", b"stale 0 of 2\n"),
    ("stale bad.trc --image lost.img", RESTS),
    ("stale good.trc --image lost.img", b"stale 0 of 2\n"),
    ("who bad.trc 0", VERSIONS),
    ("who bad.trc 0 0", VERSION_0),
    ("who bad.trc 0 1", b"version 1 by thread 1 event 1 readers 0\noverwritten by thread 0 event 1\n"),
    ("who bad.trc 00 2", b"version 2 by thread 0 event 1 readers 0\nlast\n"),
    ("who bad.trc 0 --image lost.img", WHO_STEPS),
    ("who bad.trc 0 0 --image lost.img", WHO_STEPS_0),
    ("who --image lost.img bad.trc 0 2", b"version 2 by thread 0 event 1 step 21 readers 0\nlast\n"),
    ("who bad.trc 0 --word 0 --image lost.img", WHO_WORD),
    ("who --word 00 --image lost.img good.trc 0", WHO_WORD.replace(b"1 by thread 1", b"1 by thread 0") + b"version 2 by thread 1 event 1 step 18 word 0 00000002\n"),
    ("who bad.trc 0 --image lost.img --word 7", b"object 0 versions 3\nversion 0 by first words word 7 00000000\n"),
    ("why bad.trc 1 1 --image lost.img", WHY_STEPS),
    ("why bad.trc 1 1 --image lost.img --at 7,13", WHY_STEPS.replace(b"step 10\npast", b"step 10 open\npast")),
    ("why bad.trc 1 1 --image lost.img --at 11,0", WHY_STEPS.replace(b"step 10\npast", b"step 10 met\npast")),
    ("why bad.trc 1 1 --image lost.img --lines 0", b"".join(WHY_STEPS.splitlines(True)[:4])),
    ("why bad.trc 1 1", WHY_FIRST),
    ("why bad.trc 0 1", WHY_LAST),
    ("why bad.trc 0 1 --lines 1", b"".join(WHY_LAST.splitlines(True)[:4])),
    ("why bad.trc 0 1 --lines 0", b"".join(WHY_LAST.splitlines(True)[:3])),
    ("why nested.trc 1 0", NESTED_WHY),
    ("why nested.trc 1 0 --image nested.img", NESTED_STEPS),
    ("why nested.trc 1 0 --image nested.img --lines 1", b"".join(NESTED_STEPS.splitlines(True)[:5])),
    ("why deep.trc 1 0 --image deep.img", DEEP_STEPS),
    ("diff copied.trc written.trc", HELD),
    ("why bad.trc 01 00", b"thread 1 event 0 read 0 version 0\npast 0 0\n"),
    ("diff bad.trc good.trc", DIFF),
    ("diff bad.trc bad.trc", b"common 2 2\nthread 0 same\nthread 1 same\n"),
    ("diff bad.trc budget.trc", b"common 2 2\nbudget 1000000 and 30\nthread 0 same\nthread 1 same\n"),
    ("diff short.trc budget.trc", b"common 1 1\nbudget 13 and 30\nthread 0 differs event 1 ready in 1\n1 end 13 code 0 steps 14\n"
     b"2 write 0 version 1 readers 0 by thread 1 event 1\nthread 1 differs event 1 ready in 1 and 2\n1 end 13 code 0 steps 14\n"
     b"2 write 0 version 0 readers 2 by first words\n"),
    ("diff circle.trc circle.trc", CIRCLES),
    ("diff one.trc two.trc", OTHER_READERS),
)

NO_NUMBER = "ir: {}: '{}' is no number up to 4294967295\n"
NO_FILE = "ir: none.trc can't be read: no such file or folder\n"
LACKING = "ir: the following required arguments were not provided: {}\n"
NO_THREAD, NO_EVENT = "ir: the trace has no thread of this number\n", "ir: the thread has no event of this number\n"
NO_OBJECT, NO_VERSION = "ir: the trace has no object of this number\n", "ir: the object has no version of this number\n"
NO_WORD = "ir: the object has no word of this number\n"

# Each row: the arguments, the exit status, what is written, and what standard error says.
REFUSED = (
    *((f"{words} {more}".strip(), 2, "", LACKING.format(lacking)) for words, more, lacking in (
        ("stale", "", "<TRACE>"), ("who", "", "<TRACE> <O>"), ("who", "bad.trc", "<O>"), ("why", "", "<TRACE> <T> <E>"), ("why", "bad.trc 1", "<E>"), ("diff", "", "<FIRST> <SECOND>"),
        ("diff", "bad.trc", "<SECOND>"))),
    *((f"{words}", 1, "", NO_FILE) for words in (
        "stale none.trc", "stale none.trc --image lost.img", "who none.trc 0", "who none.trc 9 9", "why none.trc 0 0", "diff none.trc bad.trc", "diff bad.trc none.trc", "diff lost.img none.trc")),
    *((f"{words}", 1, "", "ir: folder can't be read: it is a folder\n") for words in ("stale folder", "who folder 0", "diff bad.trc folder")),
    ("diff bad.trc long", 1, "", "ir: long is over 200000000 bytes\n"),
    *((words, 3, "trace refused 2\n", "") for words in (
        "stale lost.img", "who lost.img 0", "who lost.img 9", "why lost.img 9 9", "diff lost.img bad.trc", "diff bad.trc lost.img", "diff lost.img odd.trc")),
    *((words, 3, "trace refused 1\n", "") for words in ("stale cut.trc", "who cut.trc 0", "diff cut.trc lost.img", "diff bad.trc cut.trc")),
    *((words, 4, "incoherent thread 0 event 1 cause 2\n", "") for words in (
        "stale odd.trc", "who odd.trc 0", "who odd.trc 9", "why odd.trc 9 9", "diff odd.trc bad.trc", "diff bad.trc odd.trc", "diff odd.trc lost.img")),
    ("why circle.trc 0 0", 4, "circle thread 0 event 0\n", ""),
    ("why circle.trc 1 1", 4, "circle thread 0 event 0\n", ""),
    *((f"why {name} {thread} 0", 2, "", NO_THREAD) for name in ("bad.trc", "circle.trc") for thread in (2, 256, 258, 4294967295)),
    *((f"why {name} 1 {event}", 2, "", NO_EVENT) for name in ("bad.trc", "circle.trc") for event in (2, 4294967295)),
    ("why hello.trc 0 0", 2, "", NO_EVENT),
    *((f"why bad.trc {thread} 0", 2, "", NO_NUMBER.format("T", thread)) for thread in ("x", "0x0", "+1", "4294967296")),
    *((f"why bad.trc 0 {event}", 2, "", NO_NUMBER.format("E", event)) for event in ("x", "0x0", "+1", "4294967296")),
    *((f"why bad.trc 0 0 --lines {lines}", 2, "", NO_NUMBER.format("--lines", lines)) for lines in ("x", "+1", "4294967296")),
    *((f"{words} --image {image}", status, line, "") for words in ("who {} 0", "who {} 9", "who {} 0 --word 0", "who {} 9 --word 99", "why {} 0 0", "why {} 9 9", "view {}", "view {} --json", "view {} --chrome")
      for words, image, status, line in (
        (words.format("bad.trc"), "bad.trc", 3, "image refused 2\n"), (words.format("cut.trc"), "lost.img", 3, "trace refused 1\n"),
        (words.format("hello.trc"), "lost.img", 4, "header differs 1\n"))),
    *((f"why bad.trc 1 1 --image lost.img --at {at}", 2, "", "ir: the positions are no consistent cut of the run\n")
      for at in ("7", "7,13,0", "26,13", "0,14", "18446744073709551615,0")),
    *((f"why bad.trc 1 1 --image lost.img --at {at}", 2, "", f"ir: --at: '{part}' is no number up to 18446744073709551615\n")
      for at, part in (("x", "x"), ("7,", ""), ("7,-1", "-1"), ("7,18446744073709551616", "18446744073709551616"))),
    ("why bad.trc 1 1 --at 0,0", 2, "", LACKING.format("--image <IMAGE>")),
    ("view bad.trc --span 9", 2, "", LACKING.format("--around <T> <E>")),
    ("who bad.trc 0 3 --image lost.img", 2, "", NO_VERSION),
    ("who bad.trc 1 --image lost.img", 2, "", NO_OBJECT),
    *((f"who bad.trc 0 --word {word} --image lost.img", 2, "", NO_WORD) for word in (8, 256, 4294967295)),
    *((f"who bad.trc {object_} --word 9 --image lost.img", 2, "", NO_OBJECT) for object_ in (1, 256, 4294967295)),
    *((f"who bad.trc 0 --word={word} --image lost.img", 2, "", NO_NUMBER.format("--word", word)) for word in ("x", "0x0", "+1", "-1", "4294967296")),
    ("who bad.trc 0 --word 0", 2, "", LACKING.format("--image <IMAGE>")),
    ("who bad.trc 0 0 --word 0 --image lost.img", 2, "", "ir: the argument '[V]' cannot be used with '--word <K>'\n"),
    ("who none.trc 0 --word 0 --image lost.img", 1, "", NO_FILE),
    ("why bad.trc 2 0 --image lost.img", 2, "", NO_THREAD),
    ("why bad.trc 1 2 --image lost.img", 2, "", NO_EVENT),
    ("who bad.trc 1", 2, "", NO_OBJECT),
    ("who bad.trc 1 0", 2, "", NO_OBJECT),
    ("who bad.trc 256", 2, "", NO_OBJECT),
    ("who bad.trc 4294967295", 2, "", NO_OBJECT),
    ("who hello.trc 0", 2, "", NO_OBJECT),
    ("who bad.trc 0 3", 2, "", NO_VERSION),
    ("who bad.trc 0 4294967295", 2, "", NO_VERSION),
    *((f"who bad.trc {object_}", 2, "", NO_NUMBER.format("O", object_)) for object_ in ("x", "0x0", "+1", "4294967296", "1e0")),
    *((f"who bad.trc 0 {version}", 2, "", NO_NUMBER.format("V", version)) for version in ("x", "0x0", "+1", "4294967296")),
    ("who none.trc x", 2, "", NO_NUMBER.format("O", "x")),
    ("who bad.trc 9 x", 2, "", NO_NUMBER.format("V", "x")),
    ("who bad.trc ''", 2, "", NO_NUMBER.format("O", "")),
    ("who bad.trc -1", 2, "", "ir: unexpected argument '-1' found\n"),
    ("stale bad.trc good.trc", 2, "", "ir: unexpected argument 'good.trc' found\n"),
    ("who bad.trc 0 0 0", 2, "", "ir: unexpected argument '0' found\n"),
    ("diff bad.trc good.trc bad.trc", 2, "", "ir: unexpected argument 'bad.trc' found\n"),
    ("diff bad.trc counter.trc", 4, "header differs 1\n", ""),
    ("diff counter.trc bad.trc", 4, "header differs 1\n", ""),
    ("diff hello.trc counter.trc", 4, "header differs 1\n", ""),
    ("diff bad.trc locks.trc", 4, "header differs 2\n", ""),
)


# What a trace says, read off the lines of `ir trace`.

@dataclass(frozen=True)
class Entry:
    """An entry of an object, by the place of its event."""

    thread: int
    event: int
    is_write: bool
    object: int
    version: int

    def place(self):
        """Its place in words."""
        return f"thread {self.thread} event {self.event}"


class Recording:
    """A trace: how many objects there are, the budget, and of each thread its end and the texts of its events; and all entries."""

    ENTRY = re.compile(r"(read|write) (\d+) version (\d+)")

    def __init__(self, lines):
        words = lines[0].split()
        self.objects, self.budget, self.ends, self.logs = int(words[3]), int(words[5]), [], []
        for line in lines[1:]:
            words = line.split()
            if words[0] == "thread":
                self.ends.append(line.partition(" end ")[2].partition(" events ")[0])
                self.logs.append([])
            elif words[0] != "log":
                self.logs[-1].append(line.partition(" ")[2])
        self.entries = [Entry(thread, event, found[1] == "write", int(found[2]), int(found[3])) for thread, log in enumerate(self.logs)
                        for event, text in enumerate(log) if (found := self.ENTRY.match(text))]

    def writer(self, object_, version):
        """The write entry of an object at a version, or none."""
        return next((x for x in self.entries if x.is_write and (x.object, x.version) == (object_, version)), None)

    def readers(self, object_, version):
        """The read entries of an object at a version."""
        return [x for x in self.entries if not x.is_write and (x.object, x.version) == (object_, version)]

    def entry(self, thread, event):
        """The entry that an event is, or none."""
        return next((x for x in self.entries if (x.thread, x.event) == (thread, event)), None)

    def maker(self, object_, version):
        """What made a version, in words."""
        return self.writer(object_, version - 1).place() if version else "first words"


def stale_lines(trace):
    """The lines of `ir stale`."""
    found = []
    for write in filter(lambda x: x.is_write, trace.entries):
        earlier = [x for x in trace.entries if (x.thread, x.object) == (write.thread, write.object) and x.event < write.event]
        if earlier and not earlier[-1].is_write and earlier[-1].version < write.version:
            read = earlier[-1]
            over = trace.writer(read.object, read.version)
            found.append(f"{write.place()} write {write.object} version {write.version} read event {read.event} version {read.version}"
                         f" overwritten by {over.place()}")
    return [f"stale {len(found)} of {sum(x.is_write for x in trace.entries)}", *found]


def version_line(trace, object_, version):
    """The line of a version."""
    return f"version {version} by {trace.maker(object_, version)} readers {len(trace.readers(object_, version))}"


def who_lines(trace, object_, version=None):
    """The lines of `ir who`."""
    if version is None:
        count = 1 + sum(x.is_write and x.object == object_ for x in trace.entries)
        return [f"object {object_} versions {count}", *(version_line(trace, object_, at) for at in range(count))]
    over = trace.writer(object_, version)
    reads = [f"read {x.place()}" for x in trace.readers(object_, version)]
    return [version_line(trace, object_, version), *reads, f"overwritten by {over.place()}" if over else "last"]


def needs_of(trace, thread, event):
    """What an event needs of other threads: what made the version that it enters, and the read entries that it writes over."""
    x = trace.entry(thread, event)
    needs = [trace.writer(x.object, x.version - 1)] if x and x.version else []
    needs += trace.readers(x.object, x.version) if x and x.is_write else []
    return [need for need in needs if need.thread != thread]


def why_lines(trace, places, thread, event, most):
    """The lines of `ir why`, `places` being where each event's box starts."""
    needs, counts = needs_of(trace, thread, event), [0] * len(trace.logs)
    left = [(thread, i) for i in range(event)] + [(need.thread, i) for need in needs for i in range(need.event + 1)]
    seen = set(left)
    while left:
        own, number = left.pop()
        counts[own] = max(counts[own], number + 1)
        more = {(need.thread, i) for need in needs_of(trace, own, number) for i in range(need.event + 1)} - seen
        seen |= more
        left += more
    lines = [f"thread {thread} event {event} {trace.logs[thread][event]}"]
    lines += [f"needs {need.place()} {trace.logs[need.thread][need.event]}" for need in needs]
    lines.append("past " + " ".join(map(str, counts)))
    for _ in range(most):
        waits = [i for i in range(event + 1) if needs_of(trace, thread, i)]
        if not waits:
            break
        last = min(needs_of(trace, thread, waits[-1]), key=lambda need: (-places[need.thread, need.event], need.thread, need.event))
        lines.append(f"since thread {thread} event {waits[-1]} waited for {last.place()}")
        thread, event = last.thread, last.event
    return lines


def starts_of(data):
    """Where the box of each event of a trace's bytes starts, by slow and plain ways."""
    threads = view.parsed(data)[2]
    boxes = view.boxes_of(threads)
    places, _ = view.places_of(threads, boxes, view.needs_of(threads))
    return {(thread, first + k): place[0] for (thread, first, count), place in zip(boxes, places) for k in range(count)}


def common(one, two):
    """How many first events of each thread two traces have in common: all that are equal, without those whose version has another maker, or one
    that isn't among them, until none is left out any more."""
    counts = [next((at for at, (a, b) in enumerate(zip(*logs)) if a != b), min(map(len, logs))) for logs in zip(one.logs, two.logs)]
    while True:
        before = list(counts)
        for x in one.entries:
            makers = [trace.writer(x.object, x.version - 1) for trace in (one, two)] if x.version else [None, None]
            is_made = makers[0] == makers[1] and (makers[0] is None or makers[0].event < counts[makers[0].thread])
            if x.event < counts[x.thread] and not is_made:
                counts[x.thread] = x.event
        if counts == before:
            return counts


def is_ready(trace, counts, thread):
    """Whether all that a thread's next event needs of other threads is among the first events."""
    x = trace.entry(thread, counts[thread])
    if x is None:
        return True
    needs = [trace.writer(x.object, x.version - 1)] if x.version else []
    needs += trace.readers(x.object, x.version) if x.is_write else []
    return all(need.thread == thread or need.event < counts[need.thread] for need in needs)


def there(trace, thread, event):
    """What a trace has of a thread at a place."""
    if event == len(trace.logs[thread]):
        return "end " + trace.ends[thread]
    x = trace.entry(thread, event)
    return trace.logs[thread][event] + (f" by {trace.maker(x.object, x.version)}" if x else "")


def diff_lines(one, two):
    """The lines of `ir diff`."""
    counts = common(one, two)
    lines = ["common " + " ".join(map(str, counts))]
    lines += [f"budget {one.budget} and {two.budget}"] if one.budget != two.budget else []
    for thread, count in enumerate(counts):
        if (one.logs[thread], one.ends[thread]) == (two.logs[thread], two.ends[thread]) and count == len(one.logs[thread]):
            lines.append(f"thread {thread} same")
            continue
        ready = [str(number) for number, trace in ((1, one), (2, two)) if is_ready(trace, counts, thread)]
        lines.append(f"thread {thread} differs event {count}" + (" ready in " + " and ".join(ready) if ready else ""))
        lines += [f"1 {there(one, thread, count)}", f"2 {there(two, thread, count)}"]
    return lines


# Guests.

def counting_twenty():
    """The lost update of checked.s, twenty times a thread, without its work."""
    return (TOP / "docs/guide/checked.s").read_text().replace("li      t0, 20000", "li      t0, 1")


def paying_safely():
    """account.s with a payer that looks again in the entry in which it pays, so it is right."""
    source = (TOP / "docs/guide/account.s").read_text()
    return source.replace("        addi    a2, a0, -100\n", "        blt     a0, t0, leave\n        addi    a2, a0, -100\n").replace(
        "        addi    a0, zero, 0\n        addi    a7, zero, 9             # LEAVE\n",
        "leave:  addi    a0, zero, 0\n        addi    a7, zero, 9             # LEAVE\n")


def bank():
    """The image of examples/c/bank.c."""
    return places.files()["BANK_IMAGE"]


# Of each guest: its source or its image, and what the words of object 0 are if the result is wrong; nothing, if no word shows it.
WRONG = {
    "lost update": (examples()["lost_update"], r"(?!00000002)"),
    "twenty additions each": (counting_twenty(), r"(?!00000028)"),
    "account": ((TOP / "docs/guide/account.s").read_text(), r"ffffff9c"),
    "bank in C": (bank(), r"(?!00000014)"),
    "check, then act": (faults.check_then_act(2, 3), r"00000003"),
}
# Right guests whose threads read in one entry and write in another, and one whose fault is no stale write.
LISTED = {
    "account, looked at again": (paying_safely(), r"(?!00000000)"),
    "sequence lock": (faults.sequence_lock(2, 4), r"\w+ \w+ \w+ (?!00000000)"),
}
# Guests none of whose threads does.
CLEAN = {
    **{name.replace("_", " "): (examples()[name], wrong) for name, wrong in (
        ("two_locks", r"(?!0000004b)"), ("counter", r"(?!00000004)"), ("spinning", r"(?!00000014)"), ("helping", r"(?!00000000)"),
        ("sum", None), ("hello", None), ("calls", None), ("overwritten", None))},
    "eight counters": (counters(8), r"(?!00000008)"),
    "polling": ((TOP / "docs/guide/polling.s").read_text(), r"(?!00000001)"),
    "needle": (faults.needle(20), r"(?!00000013)"),
}
SEEDS = 40

# Two threads that read once and then write twice: the second write finds what it writes over.
TWICE = faults.of_threads(["main", "main"], "main:\n" + faults.repeated("again", 2, faults.reads() + faults.writes("") + faults.writes(""))
                          + faults.call(1, "zero, 0"))


def made(folder, name, guest):
    """Puts the image of a guest into the folder; the profile with which it is recorded."""
    if isinstance(guest, bytes):
        (folder / f"{name}.img").write_bytes(guest)
        return 1
    assembled(folder, name, guest)
    return profile_of(guest)


def written(arguments, folder):
    """The lines that a run writes, which ends with status 0."""
    ended = run(arguments, folder)
    wants(arguments, (ended.returncode, ended.stderr, ended.stdout[-1:]), (0, b"", b"\n"))
    return ended.stdout.decode().splitlines()


def trace_of(folder, name):
    """The trace of this name, read off its lines."""
    return Recording(written(f"trace {name}.trc", folder))


def left_at(folder, name, waiting, need):
    """Where its thread leaves what an event needs, by the lines of that event."""
    start = f"needs {need.place()} "
    lines = written(f"why {name}.trc {waiting[0]} {waiting[1]} --image g.img --lines 0", folder)
    return int(next(line for line in lines if line.startswith(start)).rpartition(" ")[2])


def waits_alike(folder, name, trace, places, thread, event, most):
    """With the image `past` has the events below the least cut, and each wait goes on from the last event before what is needed is left."""
    steps = {(int(words[1]), int(words[3])): int(words[5]) for words in map(str.split, written(f"events g.img {name}.trc", folder))}
    lines = written(f"why {name}.trc {thread} {event} --image g.img --lines {most}", folder)
    least = [int(number) for line in lines if line.startswith("least ") for number in line.split()[1:]]
    counts = [sum(own == other and step < position for (own, _), step in steps.items()) - (other == thread) for other, position in enumerate(least)]
    waits = []
    for _ in range(most):
        waiting = [i for i in range(event + 1) if needs_of(trace, thread, i)]
        if not waiting:
            break
        last = min(needs_of(trace, thread, waiting[-1]), key=lambda need: (-places[need.thread, need.event], need.thread, need.event))
        left = left_at(folder, name, (thread, waiting[-1]), last)
        waits.append(f"since thread {thread} event {waiting[-1]} step {steps[thread, waiting[-1]]} waited for {last.place()} step {left}")
        thread, event = last.thread, max(i for (own, i), step in steps.items() if own == last.thread and step < left)
    wants("past and waits", [line for line in lines if line.startswith(("past ", "since "))], ["past " + " ".join(map(str, counts)), *waits])


def read_alike(folder):
    """Over recordings of each guest in random orders: each answer is what the program above makes of the lines of `ir trace`."""
    numbers = random.Random(1)
    for guest, _ in [*WRONG.values(), *LISTED.values(), *CLEAN.values(), (TWICE, None), (NESTED, None)]:
        profile, before = made(folder, "g", guest), None
        for turn in range(12):
            threads = list(range((folder / "g.img").read_bytes()[4]))
            order = ",".join(f"{numbers.choice(threads)}x{numbers.randint(1, 40)}" for _ in range(numbers.randint(1, 40)))
            way = f"--order {order}" if turn % 2 else f"--chaos {numbers.getrandbits(64)}"
            budget = numbers.choice((60, 1000, 100_000, 100_000))
            name = f"g{turn % 2}"
            wants(way, run(f"record g.img {name}.trc --profile {profile} --budget {budget} {way}", folder).returncode, 0)
            trace = trace_of(folder, name)
            wants(f"{way}: stale", written(f"stale {name}.trc", folder), stale_lines(trace))
            for object_ in range(trace.objects):
                lines = who_lines(trace, object_)
                wants(f"{way}: who {object_}", written(f"who {name}.trc {object_}", folder), lines)
                version = numbers.randrange(len(lines) - 1)
                wants(f"{way}: who {object_} {version}", written(f"who {name}.trc {object_} {version}", folder), who_lines(trace, object_, version))
            places = starts_of((folder / f"{name}.trc").read_bytes())
            for thread, event in numbers.sample(sorted(places), min(4, len(places))):
                most = numbers.choice((0, 1, 3, 20))
                wants(f"{way}: why {thread} {event}", written(f"why {name}.trc {thread} {event} --lines {most}", folder),
                      why_lines(trace, places, thread, event, most))
                waits_alike(folder, name, trace, places, thread, event, min(most, 3))
            if before:
                wants(f"{way}: diff", written(f"diff g{1 - turn % 2}.trc {name}.trc", folder), diff_lines(before, trace))
            before = trace


PUT = 11


def words_said(lines):
    """The words of an object, off its lines in a session."""
    return next(line for line in lines if line.startswith("words ")).split()[1:]


def puts_word(asked, object_, index):
    """Whether a step puts the word, off the lines of `next` and `regs` before it."""
    registers = dict(pair.split("=") for line in asked for pair in line.split() if "=" in pair)
    numbers = [int(registers[name], 16) for name in ("a7", "a0", "a1")]
    return asked[-1].endswith(" ecall") and numbers == [PUT, object_, index]


def word_lines(folder, object_, index):
    """The lines of `ir who --word` for g.img and g.trc: what sessions show where each version's maker leaves the object, and before each of its
    steps there."""
    entries = {tuple(line.split()[1:4:2]): int(line.split()[5]) for line in written("events g.img g.trc", folder)}
    head, first, *rows = written(f"who g.trc {object_} --image g.img", folder)
    assert first.startswith("version 0 by first words ")
    spans = [(words[4], words[6], entries[words[4], words[6]] + 1, int(words[8])) for words in (row.split() for row in rows)]
    asked = [f"obj {object_}"]
    for thread, _, start, leave in spans:
        for step in range(start, leave):
            asked += [f"goto {thread} {step}", f"regs {thread}", f"next {thread}"]
        asked += [f"goto {thread} {leave}", f"obj {object_}"]
    answers = said(folder, "g", asked).decode().splitlines()[1:]
    moves = [at for at, line in enumerate(answers) if line.startswith("at ")] + [len(answers)]
    before, at = words_said(answers[:moves[0]])[index], 0
    lines = [head, f"version 0 by first words word {index} {before}"]
    for version, (thread, event, start, leave) in enumerate(spans, 1):
        put = ""
        for step in range(start, leave):
            put = f" step {step}" if puts_word(answers[moves[at]:moves[at + 1]], object_, index) else put
            at += 1
        word = words_said(answers[moves[at]:moves[at + 1]])[index]
        at += 1
        lines += [f"version {version} by thread {thread} event {event}{put} word {index} {word}"] if word != before else []
        before = word
    return lines


def words_read(folder):
    """Over a hundred recordings in random orders: the changes of a word are those that sessions show."""
    numbers, listed = random.Random(2), 0
    guests = [guest for guest, _ in [*WRONG.values(), *LISTED.values(), *CLEAN.values(), (TWICE, None)]]
    for turn in range(100):
        guest = guests[turn % len(guests)]
        profile = made(folder, "g", guest)
        way = f"--chaos {numbers.getrandbits(64)} --budget {numbers.choice((60, 200, 500))}"
        wants(way, run(f"record g.img g.trc --profile {profile} {way}", folder).returncode, 0)
        objects = trace_of(folder, "g").objects
        for object_ in numbers.sample(range(objects), min(2, objects)):
            index = numbers.choice((0, 0, 1, 7))
            lines = word_lines(folder, object_, index)
            wants(f"{way}: who {object_} --word {index}", written(f"who g.trc {object_} --word {index} --image g.img", folder), lines)
            listed += len(lines) - 2
    wants("changes in a hundred recordings", listed > 200, True)


def row_of(folder, guest, wrong):
    """Of recordings by forty seeds: in how many a stale write is listed and how many there are in all, the same of those that rest on what was read,
    in how many the result is wrong, and in how many of these a stale write is listed, without the image and with it."""
    profile, counts = made(folder, "g", guest), [0] * 7
    for seed in range(SEEDS):
        wants(f"seed {seed}", run(f"record g.img g.trc --profile {profile} --budget 100000 --chaos {seed}", folder).returncode, 0)
        stale, rests = (int(written(f"stale g.trc{image}", folder)[0].split()[1]) for image in ("", " --image g.img"))
        words = said(folder, "g", ["end", "obj 0"]).decode().partition("words ")[2] if wrong else ""
        is_wrong = bool(words and re.match(wrong, words))
        more = (stale > 0, stale, rests > 0, rests, is_wrong, is_wrong and stale > 0, is_wrong and rests > 0)
        counts = [count + one for count, one in zip(counts, more)]
    return counts


def stale_table(folder):
    """The table of stale writes: each recording of a lost update or a check before an act that came to a wrong result has one, which rests on
    what was read. A guest that never reads in one entry and writes in another has none. Of no right result does a stale write rest on what was
    read, but for a lost update that was lost for another one."""
    print(f"Of {SEEDS} recordings: with a stale write, stale writes in all, the same of those that rest, wrong, wrong with a stale write, and with one that rests")
    for name, (guest, wrong) in (WRONG | LISTED | CLEAN).items():
        listed, _, resting, _, bad, bad_listed, bad_resting = counts = row_of(folder, guest, wrong)
        print(f"  {name:26}" + "".join(f"{count:6}" for count in counts), flush=True)
        if name in WRONG:
            wants(f"{name}: wrong recordings, and those with a stale write", (bad > 0, bad_listed, bad_resting), (True, bad, bad))
        if name in CLEAN:
            wants(f"{name}: recordings with a stale write, and wrong ones", (listed, resting, bad), (0, 0, 0))
        if name == "account, looked at again":
            wants(f"{name}: recordings with a stale write, and wrong ones", (listed > 0, resting, bad), (True, 0, 0))


def prepare(folder):
    """The traces that the rows above name."""
    for name, image in (("bad", "lost_update"), ("hello", "hello"), ("counter", "counter"), ("locks", "two_locks")):
        assembled(folder, name, examples()[image])
    (folder / "lost.img").write_bytes((folder / "bad.img").read_bytes())
    for name in ("hello", "counter", "locks"):
        recorded(folder, name, "0")
    for name, order, budget in (("bad", BAD, 1_000_000), ("good", GOOD, 1_000_000), ("budget", BAD, 30), ("short", BAD, 13)):
        ended = run(f"record lost.img {name}.trc --order {order} --budget {budget}", folder)
        wants(f"recording {name}", ended.returncode, 0)
    assembled(folder, "readers", READERS)
    for name, order in (("one", "1x6,0x6,2x6"), ("two", "2x6,0x6,1x6")):
        wants(f"recording {name}", run(f"record readers.img {name}.trc --order {order}", folder).returncode, 0)
    assembled(folder, "nested", NESTED)
    wants("recording nested", run(f"record nested.img nested.trc --order {NESTED_ORDER}", folder).returncode, 0)
    assembled(folder, "deep", DEEP)
    wants("recording deep", run("record deep.img deep.trc --order 0x100,1x100", folder).returncode, 0)
    assembled(folder, "holds", HOLDS)
    for name, order in (("copied", "0x80,1x80,2x80"), ("written", "2x80,0x80,1x80")):
        wants(f"recording {name}", run(f"record holds.img {name}.trc --order {order}", folder).returncode, 0)
    bad = (folder / "bad.trc").read_bytes()
    (folder / "cut.trc").write_bytes(bad[:-1])
    # Event 1 of thread 0 is a write entry of version 1, with no reader; here of version 0, as event 1 of thread 1.
    (folder / "odd.trc").write_bytes(bad[:41] + b"\0" + bad[42:])
    (folder / "circle.trc").write_bytes(CIRCLE)
    (folder / "folder").mkdir(exist_ok=True)
    with open(folder / "long", "wb") as file:
        file.truncate(200_000_001)


def answered(folder):
    """The examples, byte by byte."""
    for arguments, lines in ANSWERS:
        ended = run(arguments, folder)
        wants(arguments, (ended.returncode, ended.stdout, ended.stderr), (0, lines, b""))


def refused(folder):
    """What can't be answered is named, with its status."""
    for arguments, status, line, message in REFUSED:
        ended = run(arguments, folder)
        said = ended.stderr.decode()
        wants(arguments, (ended.returncode, ended.stdout.decode(), said if message or not line else ""), (status, line, message))
        if status == 3 and line and not re.fullmatch(r"(ir: the (image|trace|first trace|second trace) is refused: .*\n|ir: IMAGE and TRACE are exchanged\n)+", said):
            raise Wrong(f"{arguments}: standard error: {said!r}")
    # A trace that is refused, or incoherent, is so as in a session.
    for name in ("odd", "cut"):
        opened = run(f"debug lost.img {name}.trc", folder)
        ended = run(f"stale {name}.trc", folder)
        wants(name, (ended.returncode, ended.stdout), (opened.returncode, opened.stdout))
    # So with an image: bytes that are none, and a trace that none of its runs has.
    for image, name in (("lost.img", "odd"), ("lost.img", "cut"), ("lost.img", "hello"), ("bad.trc", "bad"), ("bad.trc", "cut")):
        opened = run(f"debug {image} {name}.trc", folder)
        ended = run(f"stale {name}.trc --image {image}", folder)
        wants(f"{name} with {image}", (ended.returncode, ended.stdout), (opened.returncode, opened.stdout))


def not_written(folder):
    """A full device and a closed output are reported, and a pipe that no process reads isn't."""
    for arguments in ("stale bad.trc", "stale bad.trc --image lost.img", "stale odd.trc", "stale lost.img", "who bad.trc 0", "who bad.trc 0 0",
                      "who bad.trc 0 --word 0 --image lost.img", "why bad.trc 0 1", "diff bad.trc good.trc", "diff bad.trc counter.trc"):
        for to in (">/dev/full", ">&-"):
            ended = shell(f"./ir {arguments} {to}", folder)
            wants(f"{arguments} {to}", (ended.returncode, ended.stdout, ended.stderr), (1, b"", FULL))
        reader, writer = os.pipe()
        os.close(reader)
        ended = run(arguments, folder, stdout=writer)
        os.close(writer)
        wants(f"{arguments}: a closed pipe", (ended.returncode, ended.stderr), (UNREAD, b""))
    ended = shell("./ir who bad.trc 1 2>&-", folder)
    wants("a closed standard error", (ended.returncode, ended.stdout), (2, b""))


def all_of_it(folder):
    """All tests of what a trace says of its past, in a folder of their own."""
    prepare(folder)
    for test in (answered, refused, not_written, read_alike, words_read, stale_table):
        test(folder)
