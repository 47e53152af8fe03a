"""The guests that are measured: their sources, and how many steps they take."""
from dataclasses import dataclass, replace

CODE = 0x10000
END = ["addi a0, zero, 0", "addi a7, zero, 1", "ecall"]
ENTER_AND_LEAVE = ["addi a7, zero, 8", "ecall", "addi a7, zero, 9", "ecall"]


@dataclass(frozen=True)
class Guest:
    """Statements of an instruction each, how many threads take them from the first on, the objects, and the steps of one thread; where
    threads take different ways, those of all."""

    name: str
    statements: list
    steps: int
    threads: int = 1
    objects: int = 0
    total: int = 0

    def is_large(self):
        """Whether it needs the large form and the second profile."""
        return self.threads > 8 or self.objects > 16

    def all_steps(self):
        """The steps of all threads together."""
        return self.total or self.threads * self.steps

    def source(self):
        """Its source."""
        form = [".large"] if self.is_large() else []
        lines = [*form, f".objects {self.objects}", *[".thread main"] * self.threads, "main:", *self.statements]
        return "\n".join(lines) + "\n"

    def named(self, name, threads=1, objects=0):
        """The same by another name, with these threads and objects."""
        return replace(self, name=name, threads=threads, objects=objects)


EMPTY = Guest("empty", END[1:], 2)


def counted(name, body, units, body_steps=None):
    """The body, 4,096 times the units, while t0 counts down; then END with code 0. A body that jumps takes `body_steps`."""
    turn = [*body, "addi t0, t0, -1"]
    loop = [*turn, f"bne t0, zero, .-{4 * len(turn)}"]
    once = (len(body) if body_steps is None else body_steps) + 2
    return Guest(name, [f"lui t0, {units}", *loop, *END], 1 + (units << 12) * once + len(END))


def bodies():
    """What guests of one thread do in a turn, in which they differ: a name, the body, the turns in units of 4,096, and the steps of a body
    that jumps."""
    # Word t0 of an array of 64 KiB, from its last to its first, again and again.
    place = ["lui a1, 0x100", "slli a0, t0, 18", "srli a0, a0, 16", "add a0, a0, a1"]
    forks = ["bne t0, zero, .+8", "ecall", "blt t0, zero, .+8", "bgeu t0, zero, .+8", "ecall"]
    calls = ["jal ra, .+12", "jal zero, .+16", "ecall", "addi a0, a0, 1", "jalr zero, 0(ra)"]
    yield "counted loop", [], 12200, None
    yield "loads and stores", [*place, "lw a2, 0(a0)", "addi a2, a2, 1", "sw a2, 0(a0)"], 3000, None
    yield "multiply and divide", ["mul a0, t0, t0", "mulh a1, a0, t0", "div a2, a0, t0", "remu a3, a0, t0"], 4000, None
    yield "branches", forks, 4000, 3
    yield "calls", calls, 4000, 4


def of_one_thread():
    """Guests of one thread that differ in what they do in a turn."""
    for name, body, units, steps in bodies():
        yield counted(name, body, units, steps)


def entering(turns, units=32):
    """4,096 times the units: a loop of 1 + 2 * turns private steps, then a write entry of object 0 and its leave."""
    inner = [f"addi t1, zero, {turns}", "addi t1, t1, -1", "bne t1, zero, .-4"]
    return counted("entering", inner + ENTER_AND_LEAVE, units, 1 + 2 * turns + 4)


def entering_its_own(turns, units=32):
    """The same of the object that has the thread's number."""
    inner = [f"addi t1, zero, {turns}", "addi t1, t1, -1", "bne t1, zero, .-4", "addi a0, s0, 0"]
    guest = counted("entering its own", inner + ENTER_AND_LEAVE, units, 1 + 2 * turns + 5)
    head = ["addi a7, zero, 12", "ecall", "addi s0, a0, 0"]
    return replace(guest, statements=head + guest.statements, steps=len(head) + guest.steps)


def of_threads():
    """Guests of one thread and of eight, which enter objects more or less often."""
    yield counted("one thread, counted loop", [], 12200)
    yield counted("", [], 1525).named("eight threads, counted loop", 8)
    yield entering(4).named("one thread, an entry each 15 steps", 1, 1)
    yield entering(4).named("eight threads, an entry each 15 steps", 8, 1)
    yield entering(46).named("eight threads, an entry each 99 steps", 8, 1)
    yield entering(71).named("eight threads, an entry each 149 steps", 8, 1)
    yield entering_its_own(46).named("eight threads, an object each, 100 steps", 8, 8)


def side_by_side():
    """Guests whose threads run on several processors. To start threads on processors that do nothing takes some hundredths of a second, so each
    takes some tenths."""
    private = counted("", [], 12200)
    yield private.named("4 threads, private work only", 4)
    yield counted("", [], 3050).named("16 threads, private work only", 16)
    yield entering_its_own(46, 128).named("4 threads, an object each, an entry each 100 steps", 4, 4)
    yield entering(496, 16).named("8 threads, one object, an entry each 999 steps", 8, 1)
    yield entering(4, 255).named("4 threads, one object, an entry each 15 steps", 4, 1)


def alone_and_together():
    """Guests of one thread, each with the same guest of four threads: private work, and an object each."""
    private, own = counted("", [], 12200), entering_its_own(46, 128)
    yield private.named("private work only"), private.named("4 threads, private work only", 4)
    yield own.named("an entry each 100 steps", 1, 1), own.named("4 threads, an object each, an entry each 100 steps", 4, 4)


def call(number, *arguments):
    """A call with its arguments set before it."""
    return [*(f"addi a{at}, zero, {value}" for at, value in enumerate(arguments)), f"addi a7, zero, {number}", "ecall"]


# Reads word 0 of object 0 into t1, and writes t1 back.
READ = [*call(7, 0), *call(10, 0, 0), "addi t1, a0, 0", *call(9, 0)]
WRITE = [*call(8, 0), "addi a0, zero, 0", "addi a1, zero, 0", "addi a2, t1, 0", "addi a7, zero, 11", "ecall", *call(9, 0)]


def turns_of(name, body, threads, steps, body_steps=None):
    """So many threads that take the body again and again, some 10^7 steps together."""
    once = (len(body) if body_steps is None else body_steps) + 2
    units = max(1, steps // (threads * once << 12))
    return counted(name, body, units, body_steps).named(f"{threads} threads, {name}", threads, 1)


def locked_by_count(threads, steps):
    """Thread 0 makes a count odd, writes a word, and makes the count even; the others read count, word and count."""
    write_word = [*call(8, 0), *call(11, 0, 1, 1), *call(9, 0)]
    read_word = [*call(7, 0), *call(10, 0, 1), *call(9, 0)]
    add_one = ["addi t1, t1, 1", *WRITE]
    fork = ["addi a7, zero, 12", "ecall"]
    bodies = [[*add_one, *write_word, *add_one], [*READ, *read_word, *READ]]
    units = [max(1, steps // (threads * (len(body) + 2) << 12)) for body in bodies]
    writer, reader = (counted("", body, unit) for body, unit in zip(bodies, units))
    over = [f"bne a0, zero, .+{4 * (1 + len(writer.statements))}"]
    total = threads * 3 + writer.steps + (threads - 1) * reader.steps
    statements = [*fork, *over, *writer.statements, *reader.statements]
    return Guest(f"{threads} threads, sequence lock", statements, 0, threads, 1, total)


def contended(steps=10_000_000):
    """Guests whose threads meet at one object, each with two, four and eight threads."""
    work = ["addi t2, zero, 4", "addi t2, t2, -1", "bne t2, zero, .-4"]
    lost = [*READ, "addi t1, t1, 1", *WRITE]
    checked = [*READ, "lui t3, 0x7ffff", f"bge t1, t3, .+{4 * (2 + len(WRITE))}", "addi t1, t1, 1", *WRITE]
    reads = ["addi t3, zero, 15", *READ, "addi t3, t3, -1", f"bne t3, zero, .-{4 * (1 + len(READ))}", *WRITE]
    for threads in (2, 4, 8):
        yield turns_of("lost update", lost, threads, steps)
        yield turns_of("check, then act", checked, threads, steps)
        yield turns_of("an entry each 17 steps", [*work, *call(8, 0), *call(9, 0)], threads, steps, 15)
        yield locked_by_count(threads, steps)
        yield turns_of("15 reads, then a write", reads, threads, steps, 1 + 15 * (len(READ) + 2) + len(WRITE))


def hit_late(after):
    """A counted loop, and another of 4,096 times `after` turns; and the address at which the second begins."""
    first, second = counted("", [], 12200 - after), counted("", [], after)
    head = first.statements[:-len(END)]
    guest = Guest("hit late", head + second.statements, first.steps + second.steps - len(END))
    return guest, CODE + 4 * len(head)


def four_pages():
    """Stores to four pages in turn."""
    place = ["lui a1, 0x100", "andi a0, t0, 3", "slli a0, a0, 12", "add a0, a0, a1"]
    return counted("four pages", [*place, "sw t0, 0(a0)"], 3500)


# How many calls `calling` makes, and what its last instruction is: a7 and the instruction.
CALLS = 255 << 12
LAST = {"a refused try": (13, "ecall"), "SELF": (12, "ecall"), "neither": (12, "addi a0, a0, 0")}


def calling(name):
    """A loop of CALLS turns, each with this instruction after a0 = 0 and a7."""
    number, last = LAST[name]
    return counted(name, ["addi a0, zero, 0", f"addi a7, zero, {number}", last], CALLS >> 12).named(name, 1, 1)


def beside_a_writer(guest):
    """The guest run by thread 1 while thread 0 holds object 0 for writing; and the steps of both."""
    stay = counted("", [], 700)
    enter = ["addi a0, zero, 0", "addi a7, zero, 8", "ecall"]
    fork = ["addi a7, zero, 12", "ecall", f"bne a0, zero, .+{4 * (1 + len(enter) + len(stay.statements))}"]
    statements = fork + enter + stay.statements + guest.statements
    steps = 2 * len(fork) + len(enter) + stay.steps + 1 + guest.steps
    return Guest(guest.name, statements, 0, 2, 1), steps
