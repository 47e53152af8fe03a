"""The programs of tests/c_guests/faults: how the fault of each is found, what a real gdb shows of it, and what the repaired form comes to.

A program is a guest on ir.h or an ordinary one with threads: guest/ir-cc compiles both. -DREPAIRED leaves out its fault.
"""
from dataclasses import dataclass
from pathlib import Path

FOLDER = Path(__file__).resolve().parent / "faults"


@dataclass(frozen=True)
class Fault:
    """A fault: the search and the condition that record it, what is typed in gdb, and what gdb has to show (regular expressions).

    `ends` is the end and the code of some thread of the recording. LINE in what is typed or shown stands for the number of the line of the source that
    has the text `at`. `outcomes` is how many outcomes the repaired form has."""

    search: str
    condition: str
    ends: tuple
    at: str
    typed: tuple
    shown: tuple
    outcomes: int

    def line(self, name):
        """The number of the line with the fault, in the source of this name."""
        lines = (FOLDER / f"{name}.c").read_text(encoding="utf-8").splitlines()
        return str(1 + next(i for i, line in enumerate(lines) if self.at in line))


ASSERTED = ("break ir_assertion_failed", "continue", "up", "source guest/threads/shared.gdb")

FAULTS = {
    "peterson": Fault(
        "hunt", "!word 3 0 2", (1, 0), "ir_put(COUNT, 0, count + 1);",
        ("break peterson.c:LINE if count != *(int *)0x800000c0", "continue", "print count", "print *(int *)0x800000c0", "up"),
        (r"hit Breakpoint 1, add \(\) at .*peterson.c:LINE$", r"= 0$", r"= 1$", r"adder_body \(\) at .*peterson.c"), 2),
    "deque": Fault(
        "hunt", "bad", (1, 1), "ir_store(RING, bottom % PLACES, job);",
        ("continue", "info threads", "watch *(int *)0x80000080", "reverse-continue"),
        ("received signal SIGTERM", r"ended: code 1\)", r"Old value = 2$", r"New value = 0$", r"push \(job=.*\) at .*deque.c:LINE$"), 3),
    "cache": Fault(
        "hunt", "fault", (2, 0), "assert(found == computed(key));",
        (*ASSERTED, "shared cached", "shared value"), (r"get \(.*\) at .*cache.c:LINE$", r"^cached = [12]$", r"^value = [12]01$"), 2),
    "ticket": Fault(
        "explore", "hang", (13, 0), "while (atomic_load(&called) != ticket)",
        ("continue", "thread apply all bt"), ("received signal SIGXCPU", r"(in |#\d+ +)lock \(\) at .*ticket.c:LINE$"), 2),
    "queue": Fault(
        "hunt", "fault", (2, 0), "assert(count < PLACES);",
        (*ASSERTED, "shared tail", "shared head"), (r"put \(.*\) at .*queue.c:LINE$", r"^tail = 2$", r"^head = 0$"), 2),
    "condvar": Fault(
        "explore", "hang", (13, 0), "ir_wait(DOOR, LOCK, OPENED);",
        ("continue", "thread apply all bt"), ("received signal SIGXCPU", r"in ir_wait \(.*\) at", r"visitor_body \(\) at .*condvar.c:LINE$"), 1),
    "bakery": Fault(
        "hunt", "fault", (2, 0), "ir_assert(others == 0);",
        ("continue", "print {int[2]}0x80000040", "up"),
        ("received signal SIGABRT", r"work \(\) at .*bakery.c:LINE$", r"= \{(1, [01]|[01], 1)\}$", r"customer_body \(\) at .*bakery.c"), 1),
    "trap": Fault(
        "hunt", "fault", (2, 0), "__builtin_trap();",
        ("continue", "bt"),
        ("received signal SIGABRT", r"checked \(.*\) at .*trap.c:LINE$", r"#1 .*advance \(\) at .*trap.c", r"#2 .*closer_body \(\) at .*trap.c"), 1),
    "stack": Fault(
        "hunt", "end 0 7", (7, 0), "page[0] = node;",
        ("continue", "info threads", *["up", "print page[0]"] * 4, "bt -2"),
        ("received signal SIGSEGV", r"length \(node=\d\) at .*stack.c:LINE$", r"ended: bad store\)", "= 3$", "= 2$", "= 1$", "= 3$", r"walker_body \(\) at .*stack.c"), 1),
}


def record(number, word, name):
    """A record of .ir.names."""
    return number.to_bytes(4, "little") + word.to_bytes(4, "little") + name.ljust(32, b"\0")


ITSELF = 0xFFFFFFFF
GOOD = record(3, ITSELF, b"count")

# What is wrong with names: the bytes of the section .ir.names, and what is reported of them.
BAD_NAMES = {
    "cut-short": (GOOD + record(2, ITSELF, b"turn")[:20], "1 left out: the end of .ir.names: there are 60 bytes of 60, and a name takes 40"),
    "not-utf-8": (record(2, ITSELF, b"\xff\xfe") + GOOD, "1 left out: a name of .ir.names that isn't in UTF-8: b'\\xff\\xfe'"),
    "blank": (record(2, ITSELF, b"a b") + GOOD, "1 left out: a name of .ir.names with blanks or control characters: b'a b'"),
    "escape": (record(2, ITSELF, b"\x1b[2J") + GOOD, "1 left out: a name of .ir.names with blanks or control characters: b'\\x1b[2J'"),
    "empty": (record(2, ITSELF, b"") + GOOD, "1 left out: a name of .ir.names that is empty"),
    "no-object": (record(4, ITSELF, b"four") + GOOD, "1 left out: a name of .ir.names for what isn't there: 'object 4'"),
    "no-word": (record(0, 8, b"eight") + GOOD, "1 left out: a name of .ir.names for what isn't there: 'object 0 word 8'"),
    "twice": (GOOD + record(3, ITSELF, b"other"), "1 left out: a second name of .ir.names: b'other'"),
    "much": (b"\xff" * 400 + GOOD, "10 left out: a name of .ir.names"),
    "many": (GOOD + record(3, ITSELF, b"x") * 200_000, "100001 left out: names of .ir.names after the first 100,000"),
}
