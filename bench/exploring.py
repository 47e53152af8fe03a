#!/usr/bin/env python3
"""How long `ir explore` takes over small guests, and how many outcomes and states they have.

python3 bench/exploring.py IR [--large]

A line for each guest: its outcomes, its states, the seconds, the states a second and the most memory in megabytes. With --large also guests that take longer. The status is 1 if a count isn't the one that stands here.
"""
import argparse
import os
import re
import subprocess
import sys
import tempfile
import time
from pathlib import Path

from faults import TOP, call, check_then_act, get, of_threads, put, reads, repeated, sequence_lock, writes

LAST = re.compile(r"finished outcomes (\d+) states (\d+) hangs (\d+)")


def lost_update(threads, rounds):
    """Threads that read a word in one entry, and write one more in the next."""
    turn = reads(get(0, "s1")) + "        addi s1, s1, 1\n" + writes(put(0, "s1"))
    return of_threads(["main"] * threads, f"main:\n{repeated('again', rounds, turn)}{call(1, 'zero, 0')}")


def own_objects(threads, rounds):
    """Threads that enter the object of their own number."""
    own = "        addi a7, zero, 12\n        ecall\n        addi s1, a0, 0\n"
    turn = call(8, "s1, 0") + call(9, "s1, 0")
    code = f"main:\n{own}{repeated('again', rounds, turn)}{call(1, 'zero, 0')}"
    return f"        .objects {threads}\n" + "        .thread main\n" * threads + code


def acting(threads, rounds):
    """Threads that look in one entry and act in the next, as of bench/faults.py."""
    return check_then_act(2, rounds).replace("        .thread main\n" * 2, "        .thread main\n" * threads)


def bank(threads, rounds):
    """Threads that move one from a word to another, both in one entry."""
    turn = writes(get(0, "s1") + "        addi s1, s1, -1\n" + put(0, "s1") + get(1, "s1") + "        addi s1, s1, 1\n" + put(1, "s1"))
    return of_threads(["main"] * threads, f"main:\n{repeated('again', rounds, turn)}{call(1, 'zero, 0')}")


def philosophers(threads, rounds):
    """Each thread enters its own object and the next one's, the lower number first, and leaves both."""
    def life(thread):
        low, high = sorted((thread, (thread + 1) % threads))
        meal = "".join(call(number, f"zero, {fork}") for number, fork in ((8, low), (8, high), (9, high), (9, low)))
        return f"p{thread}:\n{repeated(f'eat{thread}', rounds, meal)}{call(1, 'zero, 0')}"

    heads = f"        .objects {threads}\n" + "".join(f"        .thread p{thread}\n" for thread in range(threads))
    return heads + "".join(life(thread) for thread in range(threads))


def readers_and_writers(readers, writers, rounds):
    """Writers add one to a word, and readers end with the sum of what they read, each in an entry."""
    writing = writes(get(0, "s1") + "        addi s1, s1, 1\n" + put(0, "s1"))
    reading = reads(get(0, "s1")) + "        add s2, s2, s1\n"
    code = f"write:\n{repeated('writes', rounds, writing)}{call(1, 'zero, 0')}read:\n{repeated('reads', rounds, reading)}{call(1, 's2, 0')}"
    return of_threads(["write"] * writers + ["read"] * readers, code)


def counter(threads, rounds):
    """Threads that add one to a word, each time in an entry."""
    turn = writes(get(0, "s1") + "        addi s1, s1, 1\n" + put(0, "s1"))
    return of_threads(["main"] * threads, f"main:\n{repeated('again', rounds, turn)}{call(1, 'zero, 0')}")


def taken(thing, word, register):
    """A register gets a word of an object."""
    return call(10, f"zero, {thing}", f"zero, {word}") + f"        addi {register}, a0, 0\n"


def given(thing, word, register):
    """A word of an object gets a register."""
    return call(11, f"zero, {thing}", f"zero, {word}", f"{register}, 0")


def inside(thing, body, access=8):
    """An entry of an object, for writing unless the number of the call is 7."""
    return call(access, f"zero, {thing}") + body + call(9, f"zero, {thing}")


def headed(objects, threads):
    """The first lines of a guest of so many objects, whose threads begin at these labels."""
    return f"        .objects {objects}\n" + "".join(f"        .thread {thread}\n" for thread in threads)


def work_queue(threads, tasks):
    """Threads that take the next number from object 0, while there is one, and add it to a sum in object 1."""
    take = inside(0, taken(0, 0, "s1") + "        bge s1, s3, none\n        addi s2, s1, 1\n" + given(0, 0, "s2") + "none:\n")
    add = inside(1, taken(1, 0, "s2") + "        add s2, s2, s1\n" + given(1, 0, "s2"))
    code = f"main:   addi s3, zero, {tasks}\nagain:\n{take}        bge s1, s3, out\n{add}        jal zero, again\nout:\n{call(1, 'zero, 0')}"
    return headed(2, ["main"] * threads) + code


def peterson(rounds):
    """Two threads that add one to a word in two entries, behind Peterson's lock: objects 0 and 1 are the flags, 2 is the turn, 3 the word."""
    def life(thread):
        other = 1 - thread
        lock = ("        addi s1, zero, 1\n" + inside(thread, given(thread, 0, "s1")) + f"        addi s1, zero, {other}\n"
                + inside(2, given(2, 0, "s1")) + f"poll{thread}:\n" + inside(other, taken(other, 0, "s1"), 7)
                + f"        beq s1, zero, go{thread}\n" + inside(2, taken(2, 0, "s1"), 7)
                + f"        addi s2, zero, {other}\n        beq s1, s2, poll{thread}\ngo{thread}:\n")
        add = inside(3, taken(3, 0, "s1"), 7) + "        addi s1, s1, 1\n" + inside(3, given(3, 0, "s1"))
        return f"t{thread}:\n{repeated(f'again{thread}', rounds, lock + add + inside(thread, given(thread, 0, 'zero')))}{call(1, 'zero, 0')}"

    return headed(4, ["t0", "t1"]) + life(0) + life(1)


def ticket_lock(threads, rounds):
    """Threads that add one to a word in two entries, behind a lock by tickets: word 0 of object 0 is the next ticket, word 1 whose turn it is."""
    lock = (inside(0, taken(0, 0, "s1") + "        addi s2, s1, 1\n" + given(0, 0, "s2")) + "poll:\n" + inside(0, taken(0, 1, "s2"), 7)
            + "        bne s2, s1, poll\n")
    add = inside(1, taken(1, 0, "s2"), 7) + "        addi s2, s2, 1\n" + inside(1, given(1, 0, "s2"))
    leave = inside(0, taken(0, 1, "s2") + "        addi s2, s2, 1\n" + given(0, 1, "s2"))
    return headed(2, ["main"] * threads) + f"main:\n{repeated('again', rounds, lock + add + leave)}{call(1, 'zero, 0')}"


def polling(rounds):
    """Thread 0 puts numbers into a word when it is 0, and thread 1 takes them and puts 0 there: each looks until it may."""
    giving = writes(get(0, "s1") + "        bne s1, zero, full\n        addi s2, s2, 1\n" + put(0, "s2") + "full:\n")
    taking = writes(get(0, "s1") + "        beq s1, zero, empty\n        addi s2, s2, 1\n" + put(0, "zero") + "empty:\n")
    loops = [f"{name}:\n        addi s3, zero, {rounds}\n{name}s:\n{body}        blt s2, s3, {name}s\n{call(1, 'zero, 0')}"
             for name, body in (("give", giving), ("take", taking))]
    return of_threads(["give", "take"], "".join(loops))


def guests():
    """Each guest with its outcomes and states; none where they aren't known."""
    for name, outcomes, states in (("lost_update", 2, 12), ("two_locks", 1, 8), ("counter", 1, 16)):
        yield name, (TOP / "examples" / f"{name}.s").read_text(encoding="ascii"), outcomes, states
    for threads, rounds, outcomes, states in ((2, 5, 9, 1277), (3, 3, 8, 7646)):
        yield f"lost update, {threads} threads, {rounds} rounds", lost_update(threads, rounds), outcomes, states
    yield "counter, 6 threads, 3 rounds", counter(6, 3), 1, 4**6
    for readers, rounds in ((1, 2), (1, 4), (2, 2)):
        yield f"sequence lock, {1 + readers} threads, {rounds} rounds", sequence_lock(readers, rounds), None, None
    yield "check, then act, 3 rounds", check_then_act(2, 3), None, None
    yield "polling, 4 rounds", polling(4), 1, None
    yield "bank, 5 threads, 4 rounds", bank(5, 4), 1, 5**5
    yield "work queue, 4 threads, 6 tasks", work_queue(4, 6), 1, 2914
    yield "Peterson's lock, 20 rounds", peterson(20), 2, 19362
    yield "philosophers, 4 threads, 2 rounds", philosophers(4, 2), 1, None
    yield "2 readers and 2 writers, 2 rounds", readers_and_writers(2, 2, 2), None, None
    for threads, rounds in ((3, 3), (4, 4), (6, 3)):
        yield f"own objects, {threads} threads, {rounds} rounds", own_objects(threads, rounds), 1, (rounds + 1) ** threads


def large():
    """Guests that take longer."""
    yield "lost update, 4 threads, 2 rounds", lost_update(4, 2), 7, None
    yield "lost update, 4 threads, 3 rounds", lost_update(4, 3), 11, 361775
    yield "philosophers, 6 threads, 2 rounds", philosophers(6, 2), 1, 13125
    yield "sequence lock, 3 threads, 3 rounds", sequence_lock(2, 3), None, None
    yield "check, then act, 3 threads, 3 rounds", acting(3, 3), None, None
    yield "own objects, 8 threads, 3 rounds", own_objects(8, 3), 1, 4**8
    yield "own objects, 6 threads, 9 rounds", own_objects(6, 9), 1, 10**6


def explored(program, folder, source):
    """The last line over a guest, after the exit status if that isn't 0, the seconds, and the most memory in kilobytes."""
    (folder / "guest.s").write_text(source, encoding="ascii")
    subprocess.run([program, "asm", "guest.s", "guest.img"], cwd=folder, check=True)
    start = time.monotonic()
    with (folder / "out").open("wb") as out:
        run = subprocess.Popen([program, "explore", "guest.img"], cwd=folder, stdout=out)
        _, status, used = os.wait4(run.pid, 0)
    seconds = time.monotonic() - start
    last = ["", *(folder / "out").read_text(encoding="ascii").splitlines()][-1]
    return last if status == 0 else f"status {os.waitstatus_to_exitcode(status)}: {last}", seconds, used.ru_maxrss


def main():
    parser = argparse.ArgumentParser(description=__doc__.splitlines()[0])
    parser.add_argument("program", metavar="IR", help="the built program")
    parser.add_argument("--large", action="store_true", help="also guests that take longer")
    asked = parser.parse_args()
    program, is_bad = os.path.abspath(asked.program), False
    print("| Guest | Outcomes | States | Seconds | States a second | MB |\n|---|---|---|---|---|---|")
    with tempfile.TemporaryDirectory() as place:
        for name, source, outcomes, states in [*guests(), *(large() if asked.large else ())]:
            last, seconds, memory = explored(program, Path(place), source)
            found = LAST.fullmatch(last)
            if not found:
                print(f"| {name} | {last} | | {seconds:.2f} | | {memory / 1000:.0f} |", flush=True)
                is_bad = True
                continue
            print(f"| {name} | {found[1]} | {found[2]} | {seconds:.2f} | {int(found[2]) / seconds:,.0f} | {memory / 1000:.0f} |", flush=True)
            is_bad |= outcomes not in (None, int(found[1])) or states not in (None, int(found[2]))
    sys.exit(is_bad)


if __name__ == "__main__":
    main()
