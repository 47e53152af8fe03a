"""Guests with a fault that few orders show: their sources, what a run that shows it comes to, and how many seeds are to show it."""
from dataclasses import dataclass
from pathlib import Path

TOP = Path(__file__).resolve().parent.parent
WAYS = ("walk", "pct:2", "pct:3")


@dataclass(frozen=True)
class Fault:
    """A guest; the condition that a hunt looks for; what a session at the end of such a run is asked, and an expression that occurs in the
    answer; and of how many seeds in a hundred that is the aim, for each of WAYS, or nothing."""

    name: str
    source: str
    condition: str
    command: str
    answer: bytes
    aims: tuple = ()


def call(number, *operands):
    """The instructions of a system call, with these operands in a0, a1, a2."""
    lines = [f"        addi a{place}, {operand}" for place, operand in enumerate(operands)]
    return "\n".join([*lines, f"        addi a7, zero, {number}", "        ecall", ""])


def get(word, register):
    """A register gets a word of object 0."""
    return call(10, "zero, 0", f"zero, {word}") + f"        addi {register}, a0, 0\n"


def put(word, register):
    """A word of object 0 gets a register."""
    return call(11, "zero, 0", f"zero, {word}", f"{register}, 0")


def reads(body=""):
    """An entry of object 0 for reading."""
    return call(7, "zero, 0") + body + call(9, "zero, 0")


def writes(body):
    """An entry of object 0 for writing."""
    return call(8, "zero, 0") + body + call(9, "zero, 0")


def repeated(label, rounds, body):
    """A body, this many times; s0 counts."""
    return f"        addi s0, zero, {rounds}\n{label}:\n{body}        addi s0, s0, -1\n        bne s0, zero, {label}\n"


def of_threads(threads, code):
    """A guest of one object and of threads that begin at these labels."""
    return "        .objects 1\n" + "".join(f"        .thread {thread}\n" for thread in threads) + code


def needle(entries):
    """Thread 0 writes 0 to entries - 1 into a word, an entry each; thread 1 reads it once, and ends with what it read."""
    writing = writes(put(0, "s1")) + "        addi s1, s1, 1\n"
    return of_threads(["writer", "reader"], f"writer:\n{repeated('again', entries, writing)}{call(1, 'zero, 0')}"
                      f"reader:\n{reads(get(0, 's1'))}{call(1, 's1, 0')}")


def check_then_act(limit, rounds):
    """Two threads that look, in an entry, whether a word is below the limit. In the next they add one to it, if it was when they looked. This,
    a few times, and then an entry more. More than the limit is there if both look at the last moment, and then both act."""
    look = reads(get(0, "s1"))
    act = writes("        bge s1, s2, full\n" + get(0, "s3") + "        addi s3, s3, 1\n" + put(0, "s3") + "full:\n")
    return of_threads(["main", "main"], f"main:   addi s2, zero, {limit}\n{repeated('again', rounds, look + act)}{reads()}{call(1, 'zero, 0')}")


def sequence_lock(readers, rounds):
    """The writer counts up word 0, writes words 1 and 2, and counts up again: four entries a round. So the count is odd while it writes.

    A reader takes word 2 in one entry, and word 1 with the count in the next. It should refuse them where the count was odd at either entry, or
    isn't the same at both. It looks once, at the second, whether the count is odd. So what it takes is torn if the writer came between its
    two entries, wrote word 2, and isn't writing any more. It counts these in s4, and adds them to word 3 in an entry at its end. The writer
    has an entry more at its end too.
    """
    count = writes(get(0, "s1") + "        addi s1, s1, 1\n" + put(0, "s1"))
    writing = "        addi s2, s2, 1\n" + count + writes(put(1, "s2")) + writes(put(2, "s2")) + count
    reading = (reads(get(2, "s2")) + reads(get(1, "s1") + get(0, "s3"))
               + "        andi s3, s3, 1\n        bne s3, zero, refused\n        beq s1, s2, refused\n        addi s4, s4, 1\nrefused:\n")
    adding = writes(get(3, "s5") + "        add s5, s5, s4\n" + put(3, "s5"))
    return of_threads(["writer"] + ["reader"] * readers, f"writer:\n{repeated('write', rounds, writing)}{reads()}{call(1, 'zero, 0')}"
                      f"reader:\n{repeated('read', rounds, reading)}{adding}{call(1, 's4, 0')}")


def torn(readers, rounds, aims):
    """Any torn read of a sequence lock."""
    return Fault(f"sequence lock, {1 + readers} threads, {rounds} rounds: torn", sequence_lock(readers, rounds), "!word 0 3 0", "obj 0",
                 rb"words \w+ \w+ \w+ (?!00000000)", aims)


def faults():
    """The faults whose chances are measured. The word at the end of a run, or a register, shows each of them."""
    lost = (TOP / "examples/lost_update.s").read_text(encoding="ascii")
    account = (TOP / "docs/guide/account.s").read_text(encoding="ascii")
    yield Fault("lost update", lost, "!word 0 0 2", "obj 0", b"words 00000001 ", (50, 25, 38))
    yield Fault("overdrawn account", account, "word 0 0 0xffffff9c", "obj 0", b"words ffffff9c ")
    yield Fault("check, then act: over the limit", check_then_act(2, 3), "word 0 0 3", "obj 0", b"words 00000003 ", (50, 14, 24))
    yield torn(1, 2, (14, 7, 11))
    yield Fault("sequence lock, 2 threads, 4 rounds: all torn", sequence_lock(1, 4), "word 0 3 4", "obj 0",
                rb"words \w+ \w+ \w+ 00000004 ", (0, 0, 0))
    for entries, aims in ((100, (0, 0.5, 0.5)), (400, (0, 0.14, 0.12))):
        yield Fault(f"one entry between two given ones of {entries}", needle(entries), f"code 1 {entries // 2}", "regs 1",
                    b"s1=%08x" % (entries // 2), aims)
    yield torn(2, 8, (51, 12, 21))
