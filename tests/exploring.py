#!/usr/bin/env python3
"""`ir explore` against a judge that takes each step of each thread, and against counts that are known on paper.

python3 tests/exploring.py IR [--guests N] [--seed S]

The judge is written anew here, for guests of a few operations: from each state it takes the next operation of each thread, and merges nothing
but equal states. It answers CLOCK, RANDOM and INPUT too. It says which outcomes there are, and by how many switches at least. Of the states in
which all threads rest it counts those that differ in more than registers which nothing reads any more: these are the states and hangs of the
last line. Each order that `ir explore` prints is recorded, with the same --random and --input, and a session says what that run comes to. With conditions the first outcome
that fulfils them is recorded, or nothing. The last line is `N passed, M failed`.
"""
import random
import re
import subprocess
import sys
import tempfile
from collections import deque
from pathlib import Path
from typing import NamedTuple

from lib import Wrong, assembled, examples, finish, parser_of, profile_of, program, recorded, run, said, shell, use, wants

WORDS = 8
REGISTERS = ("s0", "s1", "s2")
CALLS = {"clock": 4, "random": 5, "input": 6, "enter_read": 7, "enter_write": 8, "leave": 9, "get": 10, "put": 11, "try": 13, "print": 2, "end": 1}


class World(NamedTuple):
    """What answers a guest: the number that random words start from, and the input of each thread."""

    random: int
    input: bytes


SILENT = World(0, b"")


class Source(NamedTuple):
    """What is left to answer a thread: how often it has called CLOCK, the generator of its random words, and the bytes that it hasn't read."""

    ticks: int
    generator: tuple
    left: bytes


class Thread(NamedTuple):
    """A thread of the judge: its next operation, its registers, what it holds, what it printed, its end and code, and what answers it."""

    at: int
    registers: tuple
    held: tuple
    printed: bytes
    ended: tuple
    source: Source


# PCG32 (XSH RR) with 64 bits of state. The state is the one before the step, and the increment is odd.
MULTIPLIER = 6364136223846793005


def mixed(state):
    """The word of a state: its high bits folded into lower ones, and then rotated by the highest five."""
    word, turn = (state >> 18 ^ state) >> 27 & 0xFFFFFFFF, state >> 59
    return (word >> turn | word << (-turn & 31)) & 0xFFFFFFFF


def stepped(state, increment):
    """The next state of a generator."""
    return (state * MULTIPLIER + increment) % 2**64


def seeded(number):
    """The generator that starts from a number: four words of another PCG32, with a fixed increment, are its state and its increment."""
    words = []
    for _ in range(4):
        number = stepped(number, 0xA17654E46FBE17F3)
        words.append(mixed(number))
    increment = words[2] | words[3] << 32 | 1
    return stepped((words[0] | words[1] << 32) + increment, increment), increment


def answered(call, source):
    """What a source answers to a call, and what is left of it."""
    match call:
        case "clock":
            return source.ticks, source._replace(ticks=source.ticks + 1)
        case "random":
            state, increment = source.generator
            return mixed(state), source._replace(generator=(stepped(state, increment), increment))
        case "input":
            return source.left[0] if source.left else 0xFFFFFFFF, source._replace(left=source.left[1:])
    raise ValueError(call)


def started(thread, world):
    """A thread before its first operation."""
    return Thread(0, (0,) * len(REGISTERS), (), b"", (), Source(0, seeded((world.random + thread) % 2**64), world.input))


def ecall(call, *arguments):
    """The lines of a call."""
    number = f"        addi a7, zero, {CALLS[call]}" + ("    # TRY_WRITE" if call == "try" else "")
    return [f"        addi a{place}, {value}" for place, value in enumerate(arguments)] + [number, "        ecall"]


def lines_of(operation, label):
    """An operation in assembly; a jump goes to the label of the operation that it names."""
    match operation:
        case ("set", register, value):
            return [f"        addi {REGISTERS[register]}, zero, {value}"]
        case ("add", register, value):
            return [f"        addi {REGISTERS[register]}, {REGISTERS[register]}, {value}"]
        case ("mask", register, value):
            return [f"        andi {REGISTERS[register]}, {REGISTERS[register]}, {value}"]
        case ("clock" | "random" | "input" as call, register):
            return ecall(call) + [f"        addi {REGISTERS[register]}, a0, 0"]
        case ("skip", register, value, to):
            return [f"        addi t0, zero, {value}", f"        beq {REGISTERS[register]}, t0, {label}{to}"]
        case ("get", thing, index, register):
            return ecall("get", f"zero, {thing}", f"zero, {index}") + [f"        addi {REGISTERS[register]}, a0, 0"]
        case ("put", thing, index, register):
            return ecall("put", f"zero, {thing}", f"zero, {index}", f"{REGISTERS[register]}, 0")
        case ("try", thing, register):
            return ecall("try", f"zero, {thing}") + [f"        addi {REGISTERS[register]}, a0, 0"]
        case ("print" | "end" as call, register):
            return ecall(call, f"{REGISTERS[register]}, 0")
        case (call, thing):
            return ecall(call, f"zero, {thing}")
    raise ValueError(operation)


def source_of(threads, objects):
    """The guest in assembly. A thread that comes to the end of its operations ends with code 0."""
    lines = [f"        .objects {objects}"] + [f"        .thread t{thread}x0" for thread in range(len(threads))]
    for thread, operations in enumerate(threads):
        for at, operation in enumerate(operations):
            lines += [f"t{thread}x{at}:", *lines_of(operation, f"t{thread}x")]
        lines += [f"t{thread}x{len(operations)}:", *ecall("end", "zero, 0")]
    return "\n".join(lines) + "\n"


# The judge.


def may_enter(threads, thing, access):
    """Whether nobody is in the object who keeps such an entry out."""
    return all(held != thing or (access == "enter_read" and how == "enter_read") for thread in threads for held, how in thread.held)


def fault(thread, end):
    """The thread with an end that isn't asked for."""
    return thread._replace(ended=(end, 0))


def put_word(words, place, value):
    """The words with one that is another."""
    return words[:place] + (value,) + words[place + 1:]


def entered(threads, t, thing, access):
    """The thread behind its entry, or none while it waits."""
    thread = threads[t]
    if any(held >= thing for held, _ in thread.held):
        return fault(thread, 10)
    if not may_enter(threads, thing, access):
        return None
    return thread._replace(at=thread.at + 1, held=thread.held + ((thing, access),))


def own(thread, operation):
    """The thread behind an operation of its own."""
    registers, on = thread.registers, thread._replace(at=thread.at + 1)
    match operation:
        case ("set", register, value):
            return on._replace(registers=put_word(registers, register, value % 2**32))
        case ("add", register, value):
            return on._replace(registers=put_word(registers, register, (registers[register] + value) % 2**32))
        case ("mask", register, value):
            return on._replace(registers=put_word(registers, register, registers[register] & value))
        case ("clock" | "random" | "input" as call, register):
            answer, left = answered(call, thread.source)
            return on._replace(registers=put_word(registers, register, answer), source=left)
        case ("skip", register, value, to):
            return thread._replace(at=to) if registers[register] == value % 2**32 else on
        case ("print", register):
            return on._replace(printed=thread.printed + bytes([registers[register] % 256]))
        case ("end", register):
            return thread._replace(ended=(1, registers[register]))
    raise ValueError(operation)


def shared(thread, words, operation):
    """The thread and the words behind an operation on an object that it may hold."""
    thing, on = operation[1], thread._replace(at=thread.at + 1)
    held = dict(thread.held)
    if thing not in held or (operation[0] == "put" and held[thing] == "enter_read"):
        return fault(thread, 11), words
    match operation:
        case ("leave", _):
            return on._replace(held=tuple(row for row in thread.held if row[0] != thing)), words
        case ("get", _, index, register):
            return on._replace(registers=put_word(thread.registers, register, words[thing * WORDS + index])), words
        case ("put", _, index, register):
            return on, put_word(words, thing * WORDS + index, thread.registers[register])
    raise ValueError(operation)


def tried(threads, t, thing, register):
    """The thread behind its try: as it is refused and, if nobody is in the object, as it enters."""
    behind = entered(threads, t, thing, "enter_write")
    if behind and behind.ended:
        return [(behind, False)]
    refused = threads[t]._replace(at=threads[t].at + 1, registers=put_word(threads[t].registers, register, 0))
    return [(refused, True)] + ([(behind._replace(registers=put_word(behind.registers, register, 1)), True)] if behind else [])


def steps(guest, state, t):
    """The threads and words behind each next operation of a thread and whether it was an entry or a try; none where it has none or waits."""
    threads, words = state
    thread = threads[t]
    if thread.ended:
        return [(thread._replace(held=tuple(sorted(thread.held)[:-1])), words, False)] if thread.held else []
    operation = guest[t][thread.at] if thread.at < len(guest[t]) else None
    if operation is None:
        return [(thread._replace(ended=(1, 0)), words, False)]
    if operation[0].startswith("enter"):
        behind = entered(threads, t, operation[1], operation[0])
        return [(behind, words, not behind.ended)] if behind else []
    if operation[0] == "try":
        return [(behind, words, is_entry) for behind, is_entry in tried(threads, t, *operation[1:])]
    if operation[0] in ("leave", "get", "put"):
        return [(*shared(thread, words, operation), False)]
    return [(own(thread, operation), words, False)]


def after(guest, state, t):
    """Each state behind a next operation of a thread, and whether that was an entry or a try."""
    return [((state[0][:t] + (thread,) + state[0][t + 1:], words), is_entry) for thread, words, is_entry in steps(guest, state, t)]


def outcome_of(state):
    """What is left of a state in which all are done."""
    threads, words = state
    return tuple((*thread.ended, thread.printed) for thread in threads), words


def flow(operation, at):
    """The registers that an operation reads and that it writes, and the operations that may come next."""
    match operation:
        case ("set" | "clock" | "random" | "input", register, *_):
            return set(), {register}, [at + 1]
        case ("get", _, _, register) | ("try", _, register):
            return set(), {register}, [at + 1]
        case ("add" | "mask" | "print", register, *_) | ("put", _, _, register):
            return {register}, set(), [at + 1]
        case ("skip", register, _, to):
            return {register}, set(), [at + 1, to]
        case ("end", register):
            return {register}, set(), []
    return set(), set(), [at + 1]


def live_registers(operations):
    """For each operation of a thread, and for its end, the registers that may still be read from there on."""
    live, is_changed = [set() for _ in range(len(operations) + 1)], True
    while is_changed:
        is_changed = False
        for at in reversed(range(len(operations))):
            read, written, following = flow(operations[at], at)
            seen = read | set().union(*(live[to] for to in following)) - written
            is_changed |= seen != live[at]
            live[at] = seen
    return live


def rests(operations, thread):
    """Whether a thread is done, or enters or tries next, in order."""
    if thread.ended or thread.at >= len(operations):
        return bool(thread.ended) and not thread.held
    call = operations[thread.at]
    return (call[0].startswith("enter") or call[0] == "try") and all(held < call[1] for held, _ in thread.held)


def looks_of(guest, live, state):
    """What is counted of a state in which all threads rest: of a thread that is done what it came to, of any other all but registers that aren't live."""
    threads = tuple((thread.ended, thread.printed) if thread.ended
                    else thread._replace(registers=tuple(word if place in live[t][thread.at] else 0 for place, word in enumerate(thread.registers)))
                    for t, thread in enumerate(state[0]))
    return threads, state[1]


def ended_ways(before, done):
    """The states from which some run comes to an end."""
    ways, queue = set(done), deque(done)
    while queue:
        for state in before.get(queue.popleft(), ()):
            if state not in ways:
                ways.add(state)
                queue.append(state)
    return ways


class Judged(NamedTuple):
    """Each outcome with the fewest switches that lead to it, the fewest switches to a hang or none, how many states and hangs are counted, and
    whether some run calls CLOCK."""

    outcomes: dict
    hang: int | None
    states: int
    hangs: int
    is_timed: bool


def counted(guest, least, before, done, found):
    """What a judge found, with its counts."""
    live, ways = [live_registers(operations) for operations in guest], ended_ways(before, done)
    at_rest = {state for state, _ in least if all(rests(operations, thread) for operations, thread in zip(guest, state[0]))}
    hang = min((switches for (state, _), switches in least.items() if state not in ways), default=None)
    return Judged(found, hang, len({looks_of(guest, live, state) for state in at_rest}),
                  len({looks_of(guest, live, state) for state in at_rest - ways}),
                  any(thread.source.ticks for state, _ in least for thread in state[0]))


def judged(guest, objects, world):
    """What the judge says of a guest."""
    start = (tuple(started(t, world) for t in range(len(guest))), (0,) * (WORDS * objects))
    least, found, queue = {(start, None): 0}, {}, deque([(start, None)])
    before, done = {}, set()
    while queue:
        state, last = queue.popleft()
        switches, is_done = least[state, last], True
        for t in range(len(guest)):
            for on, is_entry in after(guest, state, t):
                is_done = False
                before.setdefault(on, set()).add(state)
                node = (on, t if is_entry else last)
                more = is_entry and last not in (None, t)
                if node not in least or switches + more < least[node]:
                    least[node] = switches + more
                    (queue.append if more else queue.appendleft)(node)
        if is_done:
            done.add(state)
            outcome = outcome_of(state)
            found[outcome] = min(found.get(outcome, switches), switches)
    return counted(guest, least, before, done, found)


# What the program says.


class Listed(NamedTuple):
    """An outcome that is listed: its switches, its order, what the threads and the objects come to."""

    switches: int
    order: str
    threads: tuple
    words: tuple


def listed(lines, objects):
    """The outcomes that `ir explore` printed, and its last line."""
    found, threads, words, at = [], [], {}, None
    for line in [*lines, "outcome 0 switches 0 order -"]:
        if head := re.fullmatch(r"outcome (\d+) switches (\d+) order (\S+)", line):
            if at:
                every = tuple(word for thing in range(objects) for word in words.get(thing, (0,) * WORDS))
                found.append(Listed(int(at[2]), at[3], tuple(map(tuple, threads)), every))
            at, threads, words = head, [], {}
        elif thread := re.fullmatch(r"thread (\d+) end (\d+) code (\d+) out (\d+)", line):
            threads.append([int(thread[2]), int(thread[3]), b""])
        elif thing := re.fullmatch(r"object (\d+) words ([0-9a-f ]+)", line):
            words[int(thing[1])] = tuple(int(word, 16) for word in thing[2].split())
        elif re.fullmatch(r"[0-9a-f]+", line):
            threads[-1][2] += bytes.fromhex(line)
    return found, lines[-1]


def explored(folder, name, more=()):
    """What `ir explore` prints of an image, and its status."""
    profile = ["--profile", "2"] if profile_of((folder / f"{name}.s").read_text()) == 2 else []
    ended = run(["explore", f"{name}.img", *profile, *more], folder)
    return ended.stdout.decode().splitlines(), ended


def options_of(folder, world):
    """The options that give a guest this world."""
    (folder / "input.bin").write_bytes(world.input)
    return ["--random", str(world.random), "--input", "input.bin"]


def check_order(folder, name, row, threads, objects, more):
    """The order of an outcome, recorded: a session says what that run comes to."""
    recorded(folder, name, row.order, more=more)
    lines = said(folder, name, ["end", *(f"out {t}" for t in range(threads)), *(f"obj {o}" for o in range(objects))]).decode().splitlines()
    wants(f"{name} in order {row.order}", lines[0], "ready")
    printed = re.findall(r"^out (\d+)((?:\n[0-9a-f]+)*)", "\n".join(lines), re.M)
    wants(f"output in order {row.order}", [bytes.fromhex(text.replace("\n", "")) for _, text in printed], [out for _, _, out in row.threads])
    words = tuple(int(word, 16) for line in lines if line.startswith("words ") for word in line.split()[1:])
    wants(f"words in order {row.order}", words, row.words)


def check_guest(folder, guest, objects, world=SILENT):
    """A guest by the judge, by the program, and each order of the program in a session."""
    assembled(folder, "guest", source_of(guest, objects))
    more = options_of(folder, world) if world != SILENT else []
    lines, ended = explored(folder, "guest", more)
    if ended.returncode not in (0, 7):
        raise Wrong(f"{guest} in {world}: {ended!r}")
    found, last = listed(lines, objects)
    wants(f"status of {guest} in {world}", ended.returncode, 0 if re.search(r" hangs 0( |$)", last) else 7)
    wanted = judged(guest, objects, world)
    told = {(row.threads, row.words): row.switches for row in found}
    if told != wanted.outcomes or len(told) != len(found):
        raise Wrong(f"{guest} in {world}: the program lists {told}, the judge {wanted.outcomes}")
    if [row.switches for row in found] != sorted(row.switches for row in found):
        raise Wrong(f"{guest}: switches don't rise")
    hangs = [int(line.split()[2]) for line in lines if line.startswith("hang ")]
    whole = f"finished outcomes {len(found)} states {wanted.states} hangs {wanted.hangs}" + " clock counted" * wanted.is_timed
    if hangs != ([] if wanted.hang is None else [wanted.hang]) or last != whole:
        raise Wrong(f"{guest} in {world}: hangs after {hangs} switches, wanted {wanted.hang}, and the last line is {last!r}, wanted {whole!r}")
    for row in found:
        check_order(folder, "guest", row, len(guest), objects, more)


def section(chance, objects):
    """An entry with what is done in it: words that are got and put, another entry, a leave that may be missing."""
    thing, access = chance.randrange(objects), chance.choice(("enter_read", "enter_write", "enter_write"))
    operations = [(access, thing)]
    for _ in range(chance.randint(1, 3)):
        register, index = chance.randrange(len(REGISTERS)), chance.randrange(2)
        may_put = access == "enter_write" or chance.random() < 0.03
        operations.append(("put", thing, index, register) if may_put and chance.random() < 0.6 else ("get", thing, index, register))
    if thing + 1 < objects and chance.random() < 0.3:
        operations += [("enter_write", thing + 1), ("put", thing + 1, 0, chance.randrange(len(REGISTERS))), ("leave", thing + 1)]
    if chance.random() < 0.95:
        operations.append(("leave", thing))
    return operations


def attempt(chance, objects, at):
    """A try with what is done if it enters; else that is skipped, but for a thread that doesn't look. The first of it is operation `at`."""
    thing, answer = chance.randrange(objects), chance.randrange(len(REGISTERS))
    inside = [(chance.choice(("get", "put", "put")), thing, chance.randrange(2), chance.randrange(len(REGISTERS))) for _ in range(chance.randint(1, 2))]
    look = [("skip", answer, 0, at + len(inside) + 3)] if chance.random() < 0.9 else [("add", answer, 0)]
    return [("try", thing, answer), *look, *inside, ("leave", thing)]


def asking(chance):
    """A call for the time, a random word of which a few bits are left, or a byte."""
    register = chance.randrange(len(REGISTERS))
    call = chance.choice(("clock", "random", "input", "input"))
    return [(call, register)] + ([("mask", register, chance.choice((1, 3, 255)))] if call == "random" or chance.random() < 0.3 else [])


def random_thread(chance, objects, tries=0.0, calls=0.0):
    """A thread of a few sections, with operations of its own in between; so often a section is a try, and before so many it calls its world."""
    operations = [("set", 0, chance.randint(0, 3))]
    for _ in range(chance.randint(1, 3)):
        operations += asking(chance) if calls and chance.random() < calls else []
        operations += attempt(chance, objects, len(operations)) if tries and chance.random() < tries else section(chance, objects)
        kind, register = chance.random(), chance.randrange(len(REGISTERS))
        if kind < 0.4:
            operations.append(("add", register, chance.randint(-2, 2)))
        elif kind < 0.6:
            operations.append(("print", register))
    if chance.random() < 0.5:
        operations.append(("end", chance.randrange(len(REGISTERS))))
    if not tries and chance.random() < 0.5:
        at = chance.randrange(1, len(operations))
        operations.insert(at, ("skip", chance.randrange(len(REGISTERS)), chance.randint(0, 2), chance.randint(at + 1, len(operations) + 1)))
    return operations


def random_guest(chance, tries=0.0, calls=0.0):
    """Two or three threads over one or two objects."""
    objects = chance.randint(1, 2)
    return [random_thread(chance, objects, tries, calls) for _ in range(chance.randint(2, 3))], objects


def random_world(chance):
    """A number that random words start from, seldom one of the last, and a few bytes."""
    return World(chance.choice((chance.randrange(100), chance.randrange(2**64), 2**64 - 1)), bytes(chance.randrange(4) for _ in range(chance.randint(0, 4))))


# Counts that are known on paper.


def entries(access, thing, count, inside=()):
    """A thread that enters an object so often, and does this inside."""
    return [operation for _ in range(count) for operation in ((access, thing), *inside, ("leave", thing))]


ROUND = [("enter_read", 0), ("get", 0, 0, 0), ("leave", 0), ("add", 0, 1), ("enter_write", 0), ("put", 0, 0, 0), ("leave", 0)]
# Name, threads, objects, outcomes, states.
ON_PAPER = [
    *((f"{n} threads of {k} entries of own objects", [entries("enter_write", t, k) for t in range(n)], n, 1, (k + 1) ** n)
      for n, k in ((1, 3), (2, 2), (3, 2), (3, 3))),
    *((f"{n} threads of {k} entries for writing of one object", [entries("enter_write", 0, k)] * n, 1, 1, (k + 1) ** n)
      for n, k in ((2, 2), (3, 2), (4, 2))),
    *((f"{n} threads of {k} entries for reading of one object", [entries("enter_read", 0, k)] * n, 1, 1, (k + 1) ** n) for n, k in ((2, 3), (3, 2))),
    *((f"a writer and {r} readers that tell what they saw",
       [[("set", 0, 1), *entries("enter_write", 0, 1, [("put", 0, 0, 0)])], *[[*entries("enter_read", 0, 1, [("get", 0, 0, 0)]), ("print", 0)]] * r],
       1, 2**r, None) for r in (1, 2, 3)),
    *((f"a lost update of {n} threads, {k} rounds each", [ROUND * k] * n, 1, n if k == 1 else n * k - 1, None)
      for n, k in ((2, 1), (3, 1), (2, 2), (2, 3))),
]


# A thread sleeps until word 2 is 1, unless word 0 is 1 already. The other sets word 0, and word 2 only if it sees in word 1 that one sleeps. The
# wake-up is lost if it comes between.
LOST_WAKE_UP = [
    [*entries("enter_read", 0, 1, [("get", 0, 0, 0)]), ("skip", 0, 1, 12), ("set", 1, 1), *entries("enter_write", 0, 1, [("put", 0, 1, 1)]),
     *entries("enter_read", 0, 1, [("get", 0, 2, 2)]), ("skip", 2, 0, 8)],
    [("set", 0, 1), ("enter_write", 0), ("put", 0, 0, 0), ("get", 0, 1, 1), ("skip", 1, 0, 6), ("put", 0, 2, 0), ("leave", 0)],
]


# Two threads write the bytes of their input to word 0, each in a section of its own, until there are none: a call in a loop.
COPIES = [[("input", 0), ("skip", 0, -1, 7), ("enter_write", 0), ("put", 0, 0, 0), ("leave", 0), ("add", 2, 1), ("skip", 1, 0, 0), ("print", 2)]] * 2
# A thread reads a byte if the other was first. Later it reads one and prints it: its states differ in what is left of its input alone.
SPENDS = [[*entries("enter_read", 0, 1, [("get", 0, 0, 0)]), ("skip", 0, 0, 5), ("input", 0), ("set", 0, 0), *entries("enter_read", 0, 1),
           ("input", 1), ("print", 1), ("random", 1), ("print", 1), ("clock", 1), ("print", 1)],
          [("set", 0, 1), *entries("enter_write", 0, 1, [("put", 0, 0, 0)])]]
# A thread asks for the time if the other was first, and ends as it does else.
LATE = [[*entries("enter_read", 0, 1, [("get", 0, 0, 0)]), ("skip", 0, 0, 5), ("clock", 1)], [("set", 0, 1), *entries("enter_write", 0, 1, [("put", 0, 0, 0)])]]
# Guests that call their world, each with its own.
ASKING = ((LATE, 1, World(0, b"")), (COPIES, 1, World(0, b"\1\2")), (COPIES, 1, World(3, b"")), (SPENDS, 1, World(9, b"AB")), (SPENDS, 1, World(2**64 - 1, b"A")))
# A thread that asks for the time without end.
ENDLESS = """        .thread main
main:   addi a7, zero, 4
        ecall
        jal zero, main
"""


def check_endless(folder):
    """Calls are steps like others: a thread that makes no entry stops the search."""
    assembled(folder, "endless", ENDLESS)
    lines, ended = explored(folder, "endless", ["--private", "1000"])
    wants("a thread that asks for the time without end", (lines, ended.returncode), (["stopped private 0 covered - outcomes 0 states 0"], 6))


def check_on_paper(folder, row):
    """A guest whose counts are known."""
    name, guest, objects, outcomes, states = row
    assembled(folder, "paper", source_of(guest, objects))
    lines, ended = explored(folder, "paper")
    wanted = rf"finished outcomes {outcomes} states {states or '[0-9]+'} hangs 0"
    if ended.returncode or not re.fullmatch(wanted, lines[-1]):
        raise Wrong(f"{name}: {ended!r}, wanted {wanted}")


def check_examples(folder):
    """The examples of the documentation."""
    for name, outcomes, states in (("lost_update", 2, 12), ("two_locks", 1, 8), ("counter", 1, 16)):
        assembled(folder, name, examples()[name])
        lines, _ = explored(folder, name)
        wants(name, lines[-1], f"finished outcomes {outcomes} states {states} hangs 0")


# A writer puts 1 into a word. A reader takes the word, enters object 1 as its last entry, and goes on as each row says. If a register that holds
# the word is live at that entry, the reader's state there behind the writer's end counts twice: 7 states in place of 6.
READ_ONCE = """        .objects 2
        .thread reader
        .thread writer
writer: addi a0, zero, 0
        addi a7, zero, 8
        ecall
        addi a1, zero, 0
        addi a2, zero, 1
        addi a7, zero, 11
        ecall
        addi a7, zero, 9
        ecall
        addi a0, zero, 0
        addi a7, zero, 1
        ecall
reader: addi s2, zero, 12
        addi a0, zero, 0
        addi a7, zero, 7
        ecall
        addi a1, zero, 0
        addi a7, zero, 10
        ecall
        addi {register}, a0, 0
        addi a0, zero, 0
        addi a7, zero, 9
        ecall
        addi a0, zero, 1
        addi a7, zero, 7
        ecall
        addi a7, zero, 9
        ecall
{rest}
ends:   addi a0, zero, 0
        addi a7, zero, 1
        ecall
other:  addi a0, s1, 0
        addi a7, zero, 1
        ecall
"""
# What is tried, the register, how the reader goes on, and how many states there are.
LIVE = (
    ("a register that nothing reads", "s1", "", 6),
    ("a register that is written before it is read", "s1", "        addi s1, zero, 3\n        add s3, s1, s1", 6),
    ("a register that is read, and the sum lost in x0", "s1", "        add zero, s1, s1", 7),
    ("a register that only code reads which is never reached", "s1", "        jal zero, ends", 6),
    ("the same, behind a jump to an address in a register", "s1", "        auipc t1, 0\n        jalr zero, 8(t1)", 7),
    ("the same, behind a branch that is never taken", "s1", "        bne zero, zero, other", 7),
    ("the same, behind a return to a place in ra", "s1", "        auipc ra, 0\n        addi ra, ra, 12\n        jalr zero, 0(ra)", 7),
    ("a register that is read where no call comes before, behind a return to there", "s1", "        auipc ra, 0\n        addi ra, ra, 24\n        jalr zero, 0(ra)", 8),
    ("an argument that the next call doesn't have", "a1", "        addi a7, zero, 12\n        ecall", 6),
    ("an argument of a call that isn't known", "a1", "        addi a7, s2, 0\n        ecall", 7),
    ("an argument that an illegal call doesn't have", "a1", "        addi a7, zero, 99\n        ecall", 6),
    ("the value of a store", "s1", "        lui t0, 0x100\n        sw s1, 0(t0)", 7),
    ("the address of a store", "s1", "        lui t0, 0x100\n        add t0, t0, s1\n        sb zero, 0(t0)", 7),
)


def check_live(folder, row):
    """A register that is live tells states apart, and another one doesn't."""
    name, register, rest, states = row
    assembled(folder, "live", READ_ONCE.format(register=register, rest=rest))
    lines, ended = explored(folder, "live")
    wants(name, (lines[-1].split()[3:], ended.returncode), (["states", str(states), "hangs", "0"], 0))


# Two threads that try once. Each ends with code 1 if it entered, else with code 2.
TRIES = """        .objects 1
        .thread main
        .thread main
main:   addi a0, zero, 0
        addi a7, zero, 13       # TRY_WRITE
        ecall
        beq a0, zero, no
        addi a0, zero, 0
        addi a7, zero, 9
        ecall
        addi a0, zero, 1
        addi a7, zero, 1
        ecall
no:     addi a0, zero, 2
        addi a7, zero, 1
        ecall
"""

# `ir explore` with conditions, in a folder with three images: what it is called with, its status, and the last lines that it prints. TRACE is
# written only with status 0.
UNTIL = (
    ("lost.img", ["!word 0 0 2"], 0, ["found outcome 2 switches 2 order 0x13,1x25,0x12",
                                      "thread 0 end 1 code 0 steps 25 events 2", "thread 1 end 1 code 0 steps 25 events 2"]),
    ("lost.img", ["word 0 0 2"], 0, ["found outcome 1 switches 1 order 1x25,0x25",
                                     "thread 0 end 1 code 0 steps 25 events 2", "thread 1 end 1 code 0 steps 25 events 2"]),
    ("lost.img", ["word 0 0 1", "code 1 0", "end 0 1", "!out 0 A"], 0, ["thread 1 end 1 code 0 steps 25 events 2"]),
    ("lost.img", ["word 0 0 3"], 5, ["finished outcomes 2 states 12 hangs 0"]),
    ("lost.img", ["fault"], 5, ["finished outcomes 2 states 12 hangs 0"]),
    ("lost.img", ["word 0 0 1", "word 0 0 2"], 5, ["finished outcomes 2 states 12 hangs 0"]),
    ("lost.img --switches 1", ["!word 0 0 2"], 5, ["covered 1 outcomes 1 states 11"]),
    ("lost.img --switches 2", ["!word 0 0 2"], 0, ["thread 1 end 1 code 0 steps 25 events 2"]),
    ("lost.img --states 3", ["!word 0 0 2"], 6, []),
    ("lost.img", ["word 0 0 3 | !word 0 0 2"], 0, ["thread 1 end 1 code 0 steps 25 events 2"]),
    ("lost.img", ["word 0 0 1 | word 0 0 2", "fault | word 0 0 1"], 0, ["thread 1 end 1 code 0 steps 25 events 2"]),
    ("lost.img", ["fault | word 0 0 3"], 5, ["finished outcomes 2 states 12 hangs 0"]),
    ("lost.img", ["out 0 A|B"], 5, ["finished outcomes 2 states 12 hangs 0"]),
    ("counter.img", ["!word 0 0 4"], 5, ["finished outcomes 1 states 16 hangs 0"]),
    ("tries.img --profile 2", ["code 0 2", "code 1 2"], 0, ["found outcome 4 switches 1 order 1x2,1!x5,0x2,0!x5",
                                                            "thread 0 end 1 code 2 steps 7 events 1", "thread 1 end 1 code 2 steps 7 events 1"]),
    ("tries.img --profile 2", ["code 0 3"], 5, ["finished outcomes 4 states 9 hangs 0"]),
    ("spends.img --input ab.bin", ["!out 0 A"], 0, []),
    ("spends.img --input ab.bin --random 18446744073709551615", ["out 0 A"], 0, []),
    ("spends.img --input ab.bin", ["out 0 C"], 5, []),
)
# What is refused, with its status and what standard error says.
NO_UNTIL = (
    ("lost.img x.trc", 2, "--until"),
    ("lost.img --until fault", 2, "TRACE"),
    ("lost.img --output x", 2, "--until"),
    ("lost.img --profile 3", 2, "neither 1 nor 2"),
    ("lost.img x.trc --until budget", 2, "no budget ends a run"),
    ("lost.img x.trc --until '!budget'", 2, "no budget ends a run"),
    ("lost.img x.trc --until stale", 2, "`ir hunt` looks for it"),
    ("lost.img x.trc --until '!!stale' --until fault", 2, "`ir hunt` looks for it"),
    ("lost.img x.trc --until 'end 0 15'", 2, "is no condition, because after 'end' comes a thread and the number of an end, from 1 to 14: there are end, code, word, out, fault and bad, and hang by itself"),
    ("lost.img x.trc --until 'word 0 0 -20'", 2, "is no condition, because '-20' is no number up to 4294967295: "),
    ("lost.img x.trc --until 'fault | '", 2, "is no condition"),
    ("lost.img x.trc --until 'fault | stale'", 2, "is no condition"),
    ("lost.img x.trc --until hang --until fault", 2, "'hang' stands alone"),
    ("lost.img x.trc --until '!hang'", 2, "is no condition"),
    ("lost.img x.trc --until 'hang | fault'", 2, "is no condition"),
    ("lost.img x.trc --until 'fault | budget'", 2, "no budget ends a run"),
    ("lost.img x.trc --until 'fault | end 2 1'", 3, "end 2 1: the image has no such thread, object or word"),
    ("lost.img x.trc --until 'end 2 1'", 3, "end 2 1: the image has no such thread, object or word"),
    ("lost.img x.trc --until 'word 1 0 0'", 3, "the image has no such thread, object or word"),
    ("lost.img x.trc --until 'word 0 8 0'", 3, "the image has no such thread, object or word"),
    ("lost.img lost.img --until fault", 2, "lost.img: TRACE would be written over IMAGE"),
    ("lost.img x.trc --until 'word 0 0 1' --output lost.img", 0, ""),
    ("lost.s x.trc --until fault", 3, "the image is refused"),
    ("no.img x.trc --until fault", 1, "no.img"),
    ("lost.img --random x", 2, "--random: 'x' is no number up to 18446744073709551615"),
    ("lost.img --random 18446744073709551616", 2, "--random: '18446744073709551616' is no number up to 18446744073709551615"),
    ("lost.img --seconds 0", 2, "--seconds: '0' is no number from 1 to 1000000"),
    ("lost.img --seconds 1000001", 2, "--seconds: '1000001' is no number from 1 to 1000000"),
    ("lost.img --max 0", 2, "--max: '0' is no number from 1 to 100000000"),
    ("lost.img --max=-1", 2, "--max: '-1' is no number from 1 to 100000000"),
    ("lost.img --max 100000001", 2, "--max: '100000001' is no number from 1 to 100000000"),
    ("lost.img --input no.bin", 1, "no.bin"),
    ("lost.img --input long.bin", 1, "long.bin"),
    ("lost.img x.trc --until fault --input no.bin", 1, "no.bin"),
    ("lost.img ab.bin --until fault --input ab.bin", 2, "TRACE would be written over FILE"),
    ("lost.img x.trc --until fault --input x.0 --output x", 2, "PREFIX.T would be written over FILE"),
)


def check_until(folder, row):
    """An outcome that fulfils conditions is recorded; if there is none, nothing is written."""
    words, conditions, status, last = row
    (folder / "until.trc").unlink(missing_ok=True)
    image, *more = words.split()
    ended = run(["explore", image, "until.trc", *more, *(word for condition in conditions for word in ("--until", condition))], folder)
    wants(f"status of {row}", ended.returncode, status)
    lines = ended.stdout.decode().splitlines()
    wants(f"lines of {row}", lines[len(lines) - len(last):], last)
    wants(f"trace of {row}", (folder / "until.trc").exists(), status == 0)
    if status == 0:
        order = next(line.split()[-1] for line in lines if line.startswith("found "))
        same = [word for option in ("--profile", "--random", "--input") if option in more for word in more[more.index(option):][:2]]
        again = run(["record", image, "again.trc", "--order", order, "--budget", str(10**12), *same], folder)
        wants(f"recording of {order}", again.stdout.decode().splitlines(), lines[-len(again.stdout.splitlines()):])
        wants(f"trace by {order}", (folder / "until.trc").read_bytes(), (folder / "again.trc").read_bytes())


def check_no_until(folder, row):
    """What is refused before anything is searched."""
    words, status, why = row
    ended = run(f"explore {words}", folder)
    wants(f"status of {words}", ended.returncode, status)
    if why not in ended.stderr.decode():
        raise Wrong(f"{words}: {ended.stderr!r}, wanted {why!r}")
    if status and ((folder / "x.trc").exists() or ended.stdout):
        raise Wrong(f"{words}: something is written")
    (folder / "x.trc").unlink(missing_ok=True)


# Thread 0 puts 1 into word 0, and then waits for word 1. Thread 1 sets word 1 only if word 0 isn't set yet: else thread 0 waits forever.
WAITS = """        .objects 1
        .thread first
        .thread second
first:  addi a0, zero, 0
        addi a7, zero, 8        # ENTER_WRITE
        ecall
        addi a1, zero, 0
        addi a2, zero, 1
        addi a7, zero, 11       # PUT
        ecall
        addi a7, zero, 9        # LEAVE
        ecall
wait:   addi a0, zero, 0
        addi a7, zero, 7        # ENTER_READ
        ecall
        addi a1, zero, 1
        addi a7, zero, 10       # GET
        ecall
        addi s0, a0, 0
        addi a0, zero, 0
        addi a7, zero, 9
        ecall
        beq s0, zero, wait
        addi a7, zero, 1        # END
        ecall
second: addi a0, zero, 0
        addi a7, zero, 8
        ecall
        addi a1, zero, 0
        addi a7, zero, 10
        ecall
        addi s0, a0, 0
        addi a0, zero, 0
        bne s0, zero, leave
        addi a1, zero, 1
        addi a2, zero, 1
        addi a7, zero, 11
        ecall
leave:  addi a7, zero, 9
        ecall
        addi a0, zero, 0
        addi a7, zero, 1
        ecall
"""
# Guests whose hang is looked for: the options, and the status.
HANGS = (("waits", "", 0), ("forever", "", 0), ("lost", "", 5), ("lost", "--switches 1", 6), ("waits", "--switches 0", 6), ("waits", "--states 2", 6))


def check_hang(folder, row):
    """A run that hangs is recorded, and comes to where LIST leads; where none is known, nothing is written."""
    name, more, status = row
    (folder / "hang.trc").unlink(missing_ok=True)
    plain = run(["explore", f"{name}.img", *more.split()], folder).stdout.decode().splitlines()
    ended = run(["explore", f"{name}.img", "hang.trc", "--until", "hang", *more.split()], folder)
    lines = ended.stdout.decode().splitlines()
    wants(f"{row}", (ended.returncode, lines[:len(plain)], (folder / "hang.trc").exists()), (status, plain, status == 0))
    if status:
        wants(f"{row}: no more lines", lines, plain)
        return
    order = next(line.partition(" order ")[2] for line in plain if line.startswith("hang "))
    turns = [(int(thread), int(count or 1)) for thread, count in re.findall(r"(\d+)!?(?:x(\d+))?", order)]
    again = run(["record", f"{name}.img", "again.trc", "--order", order or "0", "--budget", str(1 + sum(count for _, count in turns))], folder)
    wants(f"{row}: the lines of the recording", lines[len(plain):], again.stdout.decode().splitlines())
    wants(f"{row}: the trace", (folder / "hang.trc").read_bytes(), (folder / "again.trc").read_bytes())
    taken = [sum(count for other, count in turns if other == thread) for thread in range(2)]
    steps = [int(line.split()[7]) for line in lines[len(plain):]]
    wants(f"{row}: each thread goes as far as LIST", [mine >= least for mine, least in zip(steps, taken)], [True, True])
    wants(f"{row}: somebody waits", "end 13" in "\n".join(lines[len(plain):]), True)


def check_until_failures(folder):
    """Writers that fail: standard output, TRACE, an output. And what the threads of the outcome print."""
    ended = shell("./ir explore lost.img k.trc --until 'word 0 0 1' >/dev/full", folder)
    wants("a full output", (ended.returncode, (folder / "k.trc").exists()), (1, False))
    ended = shell("./ir explore lost.img k.trc --until 'word 0 0 3' >/dev/full", folder)
    wants("a full output, none found", (ended.returncode, (folder / "k.trc").exists()), (1, False))
    ended = shell("./ir explore lost.img none/k.trc --until 'word 0 0 1'", folder)
    wants("no folder", (ended.returncode, ended.stdout.splitlines()[-1][:15]), (1, b"found outcome 2"))
    ended = shell("./ir explore lost.img k.trc --until 'word 0 0 1' --output none/k", folder)
    wants("no folder of outputs", ended.returncode, 1)
    ended = shell("./ir explore lost.img k.trc --until 'word 0 0 1' --output k && cat k.0 k.1", folder)
    wants("outputs", (ended.returncode, sorted(path.name for path in folder.glob("k.[0-9]"))), (0, ["k.0", "k.1"]))


def check_as_found(folder):
    """The first outcome is printed while a long search goes on."""
    assembled(folder, "long", source_of([ROUND * 6] * 4, 1))
    words = [program(), "explore", "long.img", "--states", "3000000"]
    with subprocess.Popen(words, cwd=folder, stdout=subprocess.PIPE) as search:
        first, running = search.stdout.readline(), search.poll() is None
        search.kill()
    wants("the first line of a long search", (first[:10], running), (b"outcome 1 ", True))


# The options of a search whose outcomes are bounded, how many it prints, how its last line begins, and the status.
BOUNDED = (
    ("lost.img --max 1", 1, "stopped outcomes covered 1 outcomes 1 states ", 6),
    ("lost.img --max 2", 2, "finished outcomes 2 states 12 ", 0),
    ("lost.img --max 100000000 --seconds 1000000", 2, "finished outcomes 2 states 12 ", 0),
    ("lost.img --max 1 --switches 1", 1, "covered 1 outcomes 1 states ", 0),
    ("lost.img --max 1 --within lost.img", 0, "unknown", 6),
    ("lost.img --max 2 --within lost.img", 0, "within", 0),
    ("lost.img --max 1 --only out", 1, "classes 1", 6),
    ("lost.img bound.trc --max 1 --until fault", 1, "stopped outcomes covered 1 outcomes 1 states ", 6),
)


def check_bounded(folder, row):
    """A search that ends by its number of outcomes."""
    words, outcomes, last, status = row
    ended = run(f"explore {words}", folder)
    lines = ended.stdout.decode().splitlines()
    wants(f"status of {words}", ended.returncode, status)
    wants(f"outcomes of {words}", sum(line.startswith("outcome ") for line in lines), outcomes)
    wants(f"last line of {words}", lines[-1][:len(last)], last)


def check_seconds(folder):
    """A search that ends by its time: what it has printed is what a search of so many switches prints."""
    assembled(folder, "long", source_of([ROUND * 6] * 4, 1))
    ended = run("explore long.img --states 100000000 --seconds 1", folder)
    lines = ended.stdout.decode().splitlines()
    found = re.fullmatch(r"stopped seconds covered (\d+) outcomes (\d+) states \d+", lines[-1])
    wants("a search of a second", (bool(found), ended.returncode), (True, 6))
    least = run(f"explore long.img --states 100000000 --switches {found[1]}", folder).stdout.decode().splitlines()
    wants("the outcomes of a search of a second", lines[:len(least) - 1], least[:-1])


def main():
    parser = parser_of(__doc__)
    parser.add_argument("--guests", type=int, default=500, help="how many random guests")
    parser.add_argument("--tries", type=int, default=300, help="how many random guests that try to enter")
    parser.add_argument("--calls", type=int, default=200, help="how many random guests that call CLOCK, RANDOM and INPUT")
    parser.add_argument("--seed", type=int, default=1, help="the seed of the guests")
    asked = parser.parse_args()
    use(asked.program)
    chance, passed, failed = random.Random(asked.seed), 0, 0
    with tempfile.TemporaryDirectory() as place:
        folder = Path(place)
        for name, example in (("lost", "lost_update"), ("counter", "counter")):
            assembled(folder, name, examples()[example])
        assembled(folder, "tries", TRIES)
        assembled(folder, "waits", WAITS)
        assembled(folder, "forever", WAITS.replace("        addi a2, zero, 1\n        addi a7, zero, 11\n        ecall\nleave:", "leave:"))
        assembled(folder, "spends", source_of(SPENDS, 1))
        (folder / "ab.bin").write_bytes(b"AB")
        (folder / "x.0").write_bytes(b"AB")
        (folder / "long.bin").write_bytes(bytes(2**20 + 1))
        (folder / "ir").symlink_to(program())
        checks = [lambda: check_examples(folder), lambda: check_guest(folder, LOST_WAKE_UP, 1),
                  *(lambda row=row: check_until(folder, row) for row in UNTIL),
                  *(lambda row=row: check_hang(folder, row) for row in HANGS),
                  *(lambda row=row: check_no_until(folder, row) for row in NO_UNTIL), lambda: check_until_failures(folder), lambda: check_as_found(folder),
                  *(lambda row=row: check_bounded(folder, row) for row in BOUNDED), lambda: check_seconds(folder),
                  *(lambda row=row: check_on_paper(folder, row) for row in ON_PAPER),
                  *(lambda row=row: check_live(folder, row) for row in LIVE),
                  *(lambda: check_guest(folder, *random_guest(chance)) for _ in range(asked.guests)),
                  *(lambda: check_guest(folder, *random_guest(chance, 0.6)) for _ in range(asked.tries)),
                  lambda: check_endless(folder), *(lambda row=row: check_guest(folder, *row) for row in ASKING),
                  *(lambda: check_guest(folder, *random_guest(chance, calls=0.6), random_world(chance)) for _ in range(asked.calls)),
                  *(lambda: check_guest(folder, *random_guest(chance, 0.6, 0.6), random_world(chance)) for _ in range(asked.calls // 3))]
        for check in checks:
            try:
                check()
                passed += 1
            except (Wrong, subprocess.TimeoutExpired, OSError) as wrong:
                failed += 1
                print(wrong, flush=True)
    sys.exit(finish(passed, failed))


if __name__ == "__main__":
    main()
