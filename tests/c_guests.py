#!/usr/bin/env python3
"""Tests of guests from C: sources are compiled, converted by `ir elf`, recorded, hunted in and debugged.

python3 tests/c_guests.py IR [--table | TEST ..]

Needs riscv64-unknown-elf-gcc. If it isn't installed nothing is tested, and the status is 0. Runs each test in a folder of its own, or only
those that are named. The last line is `N passed, M failed`. --table prints the table of docs/guide/c-guests.md on the programs with a fault.
"""
import json
import random
import re
import shutil
import struct
import subprocess
import sys
import tempfile
import time
from dataclasses import dataclass
from functools import partial
from pathlib import Path

from gdb_sessions import GDB, Session, check_session
from hunting import found
from lib import TOP, Wrong, finish, program, run, shell, use, wants
from pages import commands_of, matches

sys.path.append(str(TOP / "tests" / "c_guests"))

import faults  # noqa: E402
import make  # noqa: E402

TOOLS = "riscv64-unknown-elf-"
LEVELS = ("-O0", "-Og", "-O2", "-Os")

# The page, and the compiler whose addresses it has.
PAGE = TOP / "docs" / "guide" / "c-guests.md"
PAGE_COMPILER = "12.2.0"

# The examples, by name: the source, and what its recordings need.
EXAMPLES = {"bank": ("bank.c", ()), "buffer": ("buffer.c", ()), "over": ("over.c", ()), "wide": ("wide.c", ("--profile", "2")), "gas": ("gas.S", ()),
            "sync": ("sync.c", ())}

# Each example without its fault: texts and what is in their place. A hunt through these seeds then finds nothing.
MENDED = {
    "bank": ("1+100", [("be another */\n", "be another */\n    if ((int)ir_get(BANK, FROM) < amount) {\n        ir_leave(BANK);\n        return 0;\n    }\n")]),
    "buffer": ("1+100", [("count - 1);\n    }\n    ir_leave", "count - 1);\n    } else {\n        ir_put(BUFFER, WAITS, 1);\n    }\n    ir_leave"),
                         ("    ir_enter_write(BUFFER);\n    ir_put(BUFFER, WAITS, 1);  ", "    ir_enter_write(BUFFER);  ")]),
    "over": ("1+100", [("copy[4]", "copy[7]")]),
    "wide": ("1+2", [("    if (!ir_try_write(pile))\n        return 0; ", "    while (!ir_try_write(pile))\n        ir_pause(20); ")]),
    "gas": ("1+100", [("counter ENTER_READ", "counter ENTER_WRITE"),
                      ("        counter LEAVE                   # from here on the other thread may write\n        counter ENTER_WRITE\n", "")]),
    "sync": ("1+100", [("    if (ir_load(QUEUE, COUNT) == 0)  ", "    while (ir_load(QUEUE, COUNT) == 0)  ")]),
}

# The examples that `ir explore` finishes without their fault: how many outcomes there are, and in how many states at most.
PROVED = {"bank": (3, 100), "sync": (2, 10000)}

# What compilers make of many kinds of code, and how it prints. Threads share nothing, so each recording is the same.
MIXED = r"""
#include "ir.h"
struct row { char name[12]; short number; };
static const struct row rows[3] = {{"one", 1}, {"minus two", -2}, {"three", 3}};
IR_OWN static struct row copies[3];
IR_OWN static int counts[4] = {10, 20, 30, 40};
static const char *const words[] = {"zero", "one", "two"};
IR_OWN static volatile unsigned long long large = 1000000000000000003ull;
IR_OWN static volatile double half = 1.5;
IR_OWN static volatile int minus = -17;
static int chosen(int n)
{
    switch (n) { case 0: return 7; case 1: return 5; case 2: return 11; case 3: return 13; case 4: return 17; case 5: return 19; }
    return 23;
}
static unsigned fibonacci(unsigned n) { return n < 2 ? n : fibonacci(n - 1) + fibonacci(n - 2); }
IR_THREAD(mixed)
{
    char text[] = "abcdef";
    int sum = 0;
    for (int i = 0; i < 3; i++) copies[i] = rows[2 - i];
    for (int i = 0; i < 4; i++) sum += counts[i] *= i;
    ir_puts(copies[1].name);
    ir_putn(copies[0].number + 10 * copies[1].number);
    ir_puts(words[2]);
    ir_putn(sum);
    ir_putn(chosen(4) + chosen(-minus));
    ir_putn(fibonacci(12));
    ir_putn(large / 21 >> 32);
    ir_putn(large / 21);
    ir_putn(minus / 5);
    ir_putn(minus % 5);
    ir_putn(half * 123);
    memmove(text + 1, text, 4);
    ir_puts(text);
    ir_putn(memcmp(text, "aabcdg", 6) < 0);
    memset(text, 'x', 3);
    ir_puts(text);
    return counts[3];
}
IR_THREADS(mixed, mixed);
"""
THIRD = 1000000000000000003 // 21
LOW = (THIRD + 2**31) % 2**32 - 2**31
PRINTED = f"minus two-17\ntwo200\n40\n144\n{THIRD >> 32}\n{LOW}\n-3\n-2\n184\naabcdf1\nxxxcdf".encode()

# A source whose thread does this.
HEAD = '#include "ir_sync.h"\nint down(int n) {{ volatile char room[256]; room[n & 255] = n; return n ? down(n - 1) + room[0] : 0; }}\n'
BODY = HEAD + "IR_THREAD(t) {{ {} return 0; }}\nIR_THREADS(t);\nIR_OBJECTS({{1}}, {{2}});\n"

# Each row: what a thread does, and the number of its end.
ENDS = [
    ("ir_end(0);", 1),
    ("__builtin_trap();", 2),
    ("ir_assert(ir_self() == 0);", 1),
    ("ir_assert(ir_self() == 1); ir_assert(1);", 2),
    ("ir_lock(0, 1); ir_unlock(0, 1);", 1),
    ("ir_lock(0, 1); ir_lock(0, 1);", 2),
    ("ir_unlock(0, 1);", 2),
    ("ir_wait(0, 1, 2);", 2),
    ("__asm__ volatile(\".word 0\");", 3),
    ("((void (*)(void))0x10002)();", 4),
    ("((void (*)(void))0x100000)();", 5),
    ("return *(volatile int *)0x300000;", 6),
    ("*(volatile int *)ir_self() = 1;", 7),
    ("static const int one = 1; *(volatile int *)&one = 2;", 7),
    ("return down(20);", 1),
    ("return down(10000);", 7),
    ("return ir_try_write(0);", 8),
    ("return ir_choose(1);", 1),
    ("return ir_choose(2);", 8),
    ("ir_lock(2, 0);", 9),
    ("return ir_load(0, 8);", 9),
    ("ir_enter_write(0); ir_lock(0, 1);", 10),
    ("ir_enter_read(2);", 9),
    ("ir_enter_read(0); return ir_get(0, 8);", 9),
    ("ir_enter_write(1); ir_enter_read(0);", 10),
    ("ir_enter_read(0); ir_enter_read(0);", 10),
    ("ir_leave(0);", 11),
    ("return ir_get(0, 0);", 11),
    ("ir_enter_read(0); ir_put(0, 0, 1);", 11),
    ("for (int i = 0; i < 65537; i++) ir_putc('x');", 12),
    ("for (;;) ir_pause(1);", 13),
]

# Calls that are logged, by name. A thread that makes one again and again has at last this many events.
LOGGED = {
    "enter_read": "ir_enter_read(0); ir_leave(0);",
    "enter_write": "ir_enter_write(0); ir_leave(0);",
    "try_write": "if (ir_try_write(0)) ir_leave(0);",
    "clock": "ir_clock();",
    "random": "ir_random();",
    "input": "ir_input();",
}
MOST_EVENTS = 2**20

# A guest of two files, neither of which says the form. Each thread gives how many words it takes an object to have.
TWO_FILES = {"one.c": '#include "ir.h"\nir_entry second;\nIR_THREAD(first) { return IR_WORDS; }\nIR_THREADS(first, second);\n',
             "two.c": '#include "ir.h"\nIR_THREAD(second) { return IR_WORDS; }\nIR_OBJECTS({1}, {2});\n'}

# Pairs of files that disagree, and pairs that agree: two files, more options, and the words of an object.
UNLIKE = [("large_one.c", "two.c"), ("one.c", "large_two.c"), ("two.c", "large_one.c")]
ALIKE = [("one.c", "two.c", (), 8), ("large_one.c", "large_two.c", (), 16), ("large_one.c", "two.c", ("-DIR_LARGE=1",), 16)]
DISAGREE = "ir.ld: some files define IR_LARGE 1 and others don't; -DIR_LARGE=1 defines it in all of them"

ATOMIC = "threads share objects only, so an atomic variable would be each thread's own: use ir_load, ir_store, ir_add, ir_swap and ir_cas of ir_sync.h"

# A lock from C11: loads and stores only.
PETERSON = r"""
#include "ir.h"
#include <stdatomic.h>
static _Atomic unsigned flag0, flag1, turn;
IR_OWN static int count;
static void lock(unsigned me)
{
    if (me) atomic_store(&flag1, 1); else atomic_store(&flag0, 1);
    atomic_store(&turn, me ? 0 : 1);
    while ((me ? atomic_load(&flag0) : atomic_load(&flag1)) && atomic_load(&turn) != me);
}
static void unlock(unsigned me) { if (me) atomic_store(&flag1, 0); else atomic_store(&flag0, 0); }
IR_THREAD(w) { unsigned me = ir_self(); lock(me); count++; unlock(me); return count != 2; }
IR_THREADS(w, w);
"""

# A count under a lock, of which each thread would have its own.
COUNTED = r"""
#include "ir.h"
static int counter;
IR_THREAD(t) { for (int i = 0; i < 3; i++) { ir_enter_write(0); counter++; ir_leave(0); } return counter; }
IR_THREADS(t, t);
IR_OBJECTS({0});
"""

# A file without ir.h, with a variable of each kind, and what is constant.
VARIABLES = r"""
int zero, set = 1, *pointer = &zero;
static int hidden, hidden_set = 2;
char large[3000], large_set[3000] = {1};
__attribute__((weak)) int weak_zero;
volatile const int device = 3;
const int constant = 5;
static const char *const names[] = {"one", "two"};
static const double table[4] = {1.5, 2.25};
const char *all(int n)
{
    static int local;
    static int local_set = 1;
    hidden += ++local * ++local_set + ++hidden_set + ((const int *)table)[n & 7];
    switch (n) { case 0: return "a"; case 1: return "b"; case 2: return "c"; case 3: return "d"; case 4: return "e"; case 5: return "f"; }
    return names[n & 1];
}
"""
NAMED = ("zero", "set", "pointer", "hidden", "hidden_set", "large", "large_set", "weak_zero", "device", "local", "local_set")
OWN = ("ir.ld: each thread would have its own copy of the variables that are named above: mark each with IR_OWN if that is meant, "
       "or keep what threads share in an object; -fno-data-sections says of all variables that it is meant")

# Each row: a name, a source that is refused, more options, and what is reported.
THREAD = '#include "ir.h"\nIR_THREAD(t) { return 0; }\n'
REFUSED = [
    ("code", '#include "ir.h"\nconst char large[65536] = {1};\nIR_THREAD(t) { return large[ir_self()]; }\nIR_THREADS(t);\n', [],
     "ir.ld: code and constants are over 65536 bytes"),
    ("code-section", '#include "ir.h"\n__attribute__((section(".rodata.mine"))) const char large[65536] = {1};\n'
     'IR_THREAD(t) { return large[ir_self()]; }\nIR_THREADS(t);\n', [], "ir.ld: code and constants are over 65536 bytes"),
    ("constants-named", '#include "ir.h"\n__attribute__((section("mine"))) const char one = 1;\n'
     'IR_THREAD(t) { return one; }\nIR_THREADS(t);\n', [], "ir.ld: a section of constants that is named above"),
    ("functions-named", '#include "ir.h"\n__attribute__((section("mine"))) int f(void) { return 1; }\n'
     'IR_THREAD(t) { return f(); }\nIR_THREADS(t);\n', [], "ir.ld: a section of code that is named above"),
    ("variables-named", '#include "ir.h"\n__attribute__((section("mine"))) char one = 1;\n'
     'IR_THREAD(t) { return one; }\nIR_THREADS(t);\n', [], OWN),
    ("variables", '#include "ir.h"\nIR_OWN char large[49153];\nIR_THREAD(t) { return large[ir_self()]; }\nIR_THREADS(t);\n', [],
     "ir.ld: stack and variables are over 65536 bytes"),
    ("stack", f"{THREAD}IR_THREADS(t);\n", ["-Wl,--defsym=ir_stack=65537"], "ir.ld: stack and variables are over 65536 bytes"),
    ("no-threads", THREAD, [], "ir.ld: no IR_THREADS"),
    ("main", "int main(void) { return 0; }\n", [], "ir.ld: no IR_THREADS"),
    ("constructor", f"{THREAD}IR_THREADS(t);\n__attribute__((constructor)) void begin(void) {{ ir_putn(1); }}\n", [], "ir.ld: a constructor"),
    ("thread-local", f"{THREAD}IR_THREADS(t);\n_Thread_local int one = 1;\n", [], "ir.ld: a thread-local variable"),
    ("thread-local-zero", f"{THREAD}IR_THREADS(t);\n_Thread_local int zero;\n", [], "ir.ld: a thread-local variable"),
    ("atomic", '#include "ir.h"\nstatic _Atomic int n;\nIR_THREAD(t) { return n; }\nIR_THREADS(t);\n', [], ATOMIC),
    ("atomic-type", '#include "ir.h"\nIR_THREAD(t) { _Atomic(int) n = 1; return n; }\nIR_THREADS(t);\n', [], ATOMIC),
    ("atomic-header", f"#include <stdatomic.h>\n{THREAD}IR_THREADS(t);\n", [], ATOMIC),
    ("atomic-load", '#include "ir.h"\nIR_THREAD(t) { int n = 1; return __atomic_load_n(&n, 5); }\nIR_THREADS(t);\n', [], ATOMIC),
    ("atomic-store", '#include "ir.h"\nIR_THREAD(t) { int n; __atomic_store_n(&n, 1, 5); return 0; }\nIR_THREADS(t);\n', [], ATOMIC),
    ("atomic-add", '#include "ir.h"\nIR_THREAD(t) { int n = 1; return __sync_fetch_and_add(&n, 1); }\nIR_THREADS(t);\n', [], ATOMIC),
    ("peterson", PETERSON, [], ATOMIC),
    ("common", f"{THREAD}IR_THREADS(t);\nint n;\n", ["-fcommon"], "ir.ld: -fcommon hides which variables there are"),
    ("pointer", f"{THREAD}IR_THREADS(t);\nvoid f(int *p) {{ ir_put(0, 0, p); }}\n", ["-Werror"], "pointer/integer type mismatch"),
    ("unused", f"{THREAD}IR_THREADS(t);\nvoid f(void) {{ ir_try_write(0); }}\n", ["-Werror"], "value computed is not used"),
    ("no-room", f"{THREAD}IR_THREADS(t);\nIR_OBJECTS([15] = {{1}});\nint f(void) {{ return ir_choose(2); }}\n", [],
     "ir.ld: there are at most 16 objects, or 64 with IR_LARGE, and ir_choose takes one of them"),
    ("nine", f"{THREAD}IR_THREADS(t, t, t, t, t, t, t, t, t);\n", [], "IR_THREADS takes 1 to 8 threads, or 1 to 16 with IR_LARGE"),
    ("none", f"{THREAD}IR_THREADS();\n", [], "IR_THREADS takes 1 to 8 threads, or 1 to 16 with IR_LARGE"),
    ("twice", f"{THREAD}IR_THREADS(t);\nIR_THREADS(t);\n", [], "in expansion of macro 'IR_THREADS'"),
    ("plain", '#include "ir.h"\nint f(void) { return 0; }\nIR_THREADS(f);\n', [], "initialization of 'struct made_by_IR_THREAD * (*)(void)'"),
    ("objects", f"{THREAD}IR_THREADS(t);\nIR_OBJECTS([16] = {{1}});\n", [], "IR_OBJECTS takes at most 16 objects, or 64 with IR_LARGE"),
    ("large-two", f"#define IR_LARGE 2\n{THREAD}IR_THREADS(t);\n", [], "IR_LARGE is 0 or 1"),
    ("large-nothing", f"#define IR_LARGE\n{THREAD}IR_THREADS(t);\n", [], "IR_LARGE is 0 or 1"),
    ("compressed", f"{THREAD}IR_THREADS(t);\n", ["-march=rv32imac"], "guests are for -march=rv32im -mabi=ilp32"),
]


@dataclass
class Recording:
    """What a recording came to: its lines, what each thread printed, the words of each object at the end, and the trace."""

    lines: list
    printed: list
    objects: list
    trace: bytes

    def ends(self):
        """The end of each thread, and its code."""
        return [tuple(int(line.split()[k]) for k in (3, 5)) for line in self.lines]


# Compiling and recording.


def tool(name, folder, *arguments):
    """What a tool for RISC-V prints."""
    return subprocess.run([TOOLS + name, *arguments], cwd=folder, check=True, capture_output=True, text=True).stdout


def gcc(folder, source, elf, *more):
    """A run of the compiler, as a user runs it, and then more options."""
    command = [TOOLS + "gcc", source, "@guest/ir.opts", *more, "-o", elf]
    return subprocess.run(command, cwd=folder, check=False, capture_output=True, text=True, timeout=120)


def converted(folder, source, name, *more):
    """Compiles a source, and converts it. Each address has the byte that readelf and the file give it."""
    ended = gcc(folder, source, f"{name}.elf", "-Wextra", "-Wpedantic", *more)
    wants(f"{source}: the compiler", (ended.returncode, ended.stderr), (0, ""))
    ended = run(["elf", f"{name}.elf", f"{name}.img"], folder)
    wants(f"{source}: ir elf", (ended.returncode, ended.stdout, ended.stderr), (0, b"", b""))
    image, wanted = (folder / f"{name}.img").read_bytes(), make.image(str(folder / f"{name}.elf"))
    if image != wanted:
        place = next((k for k, (a, b) in enumerate(zip(image, wanted)) if a != b), min(len(image), len(wanted)))
        raise Wrong(f"{source}: the image of {len(image)} bytes isn't the one of {len(wanted)} bytes that readelf names, from byte {place} on")


def example(folder, name, *more):
    """Compiles and converts an example."""
    converted(folder, f"examples/c/{EXAMPLES[name][0]}", name, *more)


def session(folder, name, *lines):
    """The lines that a session answers, without `ready`."""
    ended = run(["debug", f"{name}.img", f"{name}.trc"], folder, input="".join(f"{line}\n" for line in lines).encode(), timeout=300)
    answers = ended.stdout.decode().splitlines()
    wants(f"{name}: a session", (ended.returncode, ended.stderr, answers[:1]), (0, b"", ["ready"]))
    return answers[1:]


def words_of(folder, name):
    """The words of each object at the end."""
    objects = (folder / f"{name}.img").read_bytes()[5]
    answers = session(folder, name, "end", *(f"obj {number}" for number in range(objects)))
    return [[int(word, 16) for word in line.split()[1:]] for line in answers if line.startswith("words ")]


def recorded(folder, name, *more):
    """Records an image."""
    ended = run(["record", f"{name}.img", f"{name}.trc", "--output", name, *more], folder, timeout=300)
    wants(f"recording {name}", (ended.returncode, ended.stderr), (0, b""))
    lines = ended.stdout.decode().splitlines()
    printed = [(folder / f"{name}.{thread}").read_bytes() for thread in range(len(lines))]
    return Recording(lines, printed, words_of(folder, name), (folder / f"{name}.trc").read_bytes())


# What holds of every recording of an example. Each function returns what is the same in all of them.


def of_bank(recording):
    """No money is lost, and what was moved is printed."""
    left, moved = recording.objects[0][:2]
    wants("the money", (left + moved) % 2**32, 100)
    wants("what is printed", sum(map(int, recording.printed)), moved)
    return recording.ends()


def of_buffer(recording):
    """The consumer prints the sum of all numbers, or waits for ever."""
    ends, printed = recording.ends(), recording.printed
    wants("the consumer", (ends[1], printed[1]) in (((1, 0), b"78\n"), ((13, 0), b"")), True)
    wants("the producer", (ends[0] in ((1, 0), (13, 0)), printed[0]), (True, b""))


def of_over(recording):
    """The reader prints the sum of the first numbers, up to four, or comes to a bad store. The writer does the same each time."""
    sums = [((1, 0), f"{sum(range(101, 101 + count))}\n".encode()) for count in range(5)]
    wants("the reader", (recording.ends()[1], recording.printed[1]) in [*sums, ((7, 0), b"")], True)
    wants("the list", recording.objects, [[6, 101, 102, 103, 104, 105, 106, 0]])
    return recording.lines[0]


def of_wide(recording):
    """Each job is taken or left, and each worker prints how many it took."""
    taken = [code for end, code in recording.ends() if end == 1]
    wants("the jobs", sum(taken) + sum(pile[0] for pile in recording.objects), 64 * 16)
    wants("what is printed", recording.printed, [f"{count}\n".encode() for count in taken])
    return [line.split()[-1] for line in recording.lines]


def of_gas(recording):
    """A thread takes the same steps each time, and the counter is at most 11."""
    wants("the counter", 7 <= recording.objects[0][0] <= 11, True)
    return recording.lines


def of_mixed(recording):
    """All is known beforehand."""
    wants("what is printed", recording.printed, [PRINTED, PRINTED])
    wants("the ends", recording.ends(), [(1, 120), (1, 120)])
    return [line.split()[2:] for line in recording.lines]


def of_sync(recording):
    """A consumer prints the number that it took, or finds none. No number is taken twice. On threads a wait may spend a budget."""
    ends, printed = recording.ends(), recording.printed
    if (13, 0) in ends:
        return
    wants("the producer", (ends[0], printed[0]), ((1, 0), b""))
    taken = [text for end, text in zip(ends, printed) if end == (1, 0) and text]
    wants("the consumers", all(end == (1, 0) and text in (b"1\n", b"2\n") or (end, text) == ((2, 0), b"") for end, text in zip(ends[1:], printed[1:])), True)
    wants("the numbers", (len(set(taken)), recording.objects[1][0]), (len(taken), 2 - len(taken)))


JUDGES = {"bank": of_bank, "buffer": of_buffer, "over": of_over, "wide": of_wide, "gas": of_gas, "sync": of_sync, "mixed": of_mixed}


def test_map(folder):
    """The map of a guest has names of its three parts alone, at each level."""
    for level in LEVELS:
        for name in ("bank", "wide"):
            example(folder, name, level)
            names = tool("nm", folder, "-n", f"{name}.elf").splitlines()
            wants(f"{name}{level}: a code's name", any(line[:4] == "0001" for line in names), True)
            wants(f"{name}{level}: names of no part", [line for line in names if line[:4] not in ("0001", "0010", "0020")], [])


def both_ways(folder, name, more):
    """An image recorded in order, twice, and by threads."""
    orders = [recorded(folder, name, "--order", "0", *more) for _ in range(2)]
    wants(f"{name}: the same order", orders[0], orders[1])
    by_threads = recorded(folder, name, *more)
    wants(f"{name}: by threads", JUDGES[name](by_threads), JUDGES[name](orders[0]))


def test_level(folder, name, level):
    """An example at a level: its image, and its recordings."""
    if name == "mixed":
        (folder / "mixed.c").write_text(MIXED)
        converted(folder, "mixed.c", name, level)
    else:
        example(folder, name, level)
    both_ways(folder, name, EXAMPLES.get(name, ("", ()))[1])


# What a wrong source leads to.


def test_refused(folder, source, more, message):
    """A source that the compiler or the linker refuses, with a message that says why."""
    (folder / "bad.c").write_text(source)
    ended = gcc(folder, "bad.c", "bad.elf", *more)
    wants("the status", ended.returncode, 1)
    if message not in ended.stderr:
        raise Wrong(f"{message!r} isn't reported: {ended.stderr}")


def test_unasked(folder):
    """Without the options the header says which to take."""
    (folder / "bad.c").write_text(THREAD)
    ended = subprocess.run([TOOLS + "gcc", "-Iguest", "-c", "bad.c"], cwd=folder, check=False, capture_output=True, text=True)
    wants("the options", (ended.returncode, "compile by riscv64-unknown-elf-gcc FILE.c @guest/ir.opts -o FILE.elf" in ended.stderr), (1, True))


def test_ends(folder):
    """What a thread does wrong leads to the end that the header says."""
    for level in ("-O0", "-O2"):
        for body, end in ENDS:
            (folder / "ends.c").write_text(BODY.format(body))
            ended = gcc(folder, "ends.c", "ends.elf", level, "-w")
            wants(f"{body}: the compiler", (ended.returncode, ended.stderr), (0, ""))
            wants(f"{body}: ir elf", run("elf ends.elf ends.img", folder).returncode, 0)
            ended = run("record ends.img ends.trc --budget 2000000", folder)
            wants(f"{body} at {level}", ended.stdout.split()[3:4], [str(end).encode()])


def test_filled(folder, body):
    """The first call for which the thread's log has no room is its end 14."""
    (folder / "filled.c").write_text(BODY.format(f"for (;;) {{ {body} }}"))
    converted(folder, "filled.c", "filled", "-O2", "-w")
    ended = run("record filled.img filled.trc --profile 2 --budget 20000000", folder, timeout=900)
    wants(body, ended.stdout.split()[2:6] + ended.stdout.split()[8:], [b"end", b"14", b"code", b"0", b"events", str(MOST_EVENTS).encode()])


def test_forms(folder):
    """Files that disagree about the form aren't linked. Those that agree are, and both have objects of as many words."""
    for name, source in TWO_FILES.items():
        (folder / name).write_text(source)
        (folder / f"large_{name}").write_text(f"#define IR_LARGE 1\n{source}")
    for level in (*LEVELS, "-flto"):
        for one, two in UNLIKE:
            ended = gcc(folder, one, "bad.elf", two, level)
            wants(f"{one} and {two} at {level}", (ended.returncode, DISAGREE in ended.stderr), (1, True))
        for one, two, more, words in ALIKE:
            converted(folder, one, "good", two, level, *more)
            wants(f"{one} and {two} at {level}", recorded(folder, "good", "--order", "0", "--profile", "2").ends(), [(1, words), (1, words)])


def test_files(folder):
    """A guest of two files, with a stack of another size, and with constants and code in sections of their own; stripped it is the same."""
    (folder / "one.c").write_text('#include "ir.h"\nir_entry second;\nIR_THREAD(first) { return 1; }\nIR_THREADS(first, second, first);\n')
    (folder / "two.c").write_text('#include "ir.h"\n#define IN(x) __attribute__((section(x)))\nIN(".rodata.mine") const int c = 2; IR_OWN int v = 3;\n'
                                  "IN(\".text.mine\") int f(int n) { return n + 1; }\nIR_THREAD(second) { v += c; return f(v); }\nIR_OBJECTS([2] = {7});\n")
    converted(folder, "one.c", "files", "two.c", "-Wl,--defsym=ir_stack=100")
    recording = recorded(folder, "files", "--order", "0")
    wants("the ends", (recording.ends(), recording.objects[2][0]), ([(1, 1), (1, 6), (1, 1)], 7))
    wants("the stack", re.search(r"(\w+) \w ir_stack_top", tool("nm", folder, "files.elf"))[1], "00100070")
    converted(folder, "one.c", "stripped", "two.c", "-Wl,--defsym=ir_stack=100", "-s", "-Wl,-n")
    wants("stripped", (folder / "stripped.img").read_bytes(), (folder / "files.img").read_bytes())


# What each function of ir_sync.h does in a thread that is alone: the bits of what it does wrong.
WORDS = r"""
#include "ir_sync.h"
IR_THREAD(words)
{
    ir_word (*loaded)(ir_word, ir_word) = ir_load, bad = 0, self = 0;
    ir_store(1, 7, 40);
    bad |= (ir_load(1, 7) != 40) << 0;
    bad |= (ir_add(1, 7, 2) != 40 || ir_load(1, 7) != 42) << 1;
    bad |= (ir_add(1, 7, -3u) != 42 || loaded(1, 7) != 39) << 2;
    bad |= (ir_swap(1, 7, 100000) != 39 || ir_load(1, 7) != 100000) << 3;
    bad |= (ir_cas(1, 7, 5, 6) != 100000 || ir_load(1, 7) != 100000) << 4;
    bad |= (ir_cas(1, 7, 100000, self) != 100000 || ir_load(1, 7) != 0) << 5;
    bad |= (ir_load(1, 7) + ir_add(1, 7, ir_add(0, 0, 4)) - ir_load(1, 7) != -1u) << 6;
    bad |= (!ir_try_lock(0, 1) || ir_try_lock(0, 1)) << 7;
    ir_unlock(0, 1);
    ir_signal(0, 2);
    ir_signal_any(0, 2);
    ir_broadcast(0, 2);
    ir_acquire(0, 3);
    ir_release(0, 3);
    ir_acquire(0, 3);
    bad |= (ir_load(0, 3) != 1 || !ir_barrier(0, 4, 1) || !ir_barrier(0, 4, 1) || ir_load(0, 4) != 2 << 16) << 8;
    return bad;
}
IR_THREADS(words);
IR_OBJECTS({1, 0, 0, 2}, {0});
"""
# Threads that lock, meet at a barrier, and pass a semaphore. Each finds that all have come.
MEETING = r"""
#include "ir_sync.h"
enum { LOCK, BARRIER, SEMAPHORE };
IR_THREAD(coming)
{
    ir_lock(0, LOCK);
    ir_store(1, 0, ir_load(1, 0) + 1);
    ir_unlock(0, LOCK);
    ir_barrier(0, BARRIER, 3);
    ir_acquire(0, SEMAPHORE);
    ir_release(0, SEMAPHORE);
    return ir_load(1, 0);
}
IR_THREADS(coming, coming, coming);
IR_OBJECTS({[SEMAPHORE] = 1}, {0});
"""

# Two threads that wait, and are woken one after the other or both. Each gives how many were awake before it.
WAKING = r"""
#include "ir_sync.h"
enum { LOCK, CONDITION, COME, AWAKE };
IR_THREAD(waker)
{
    for (int come = 0; come < 2;) {
        ir_pause(IR_TURNS);
        ir_lock(0, LOCK);
        come = ir_load(0, COME);
        if (come == 2)
            WAKE(0, CONDITION);
        ir_unlock(0, LOCK);
    }
    return 0;
}
IR_THREAD(waiter)
{
    ir_lock(0, LOCK);
    ir_add(0, COME, 1);
    ir_wait(0, LOCK, CONDITION);
    ir_word awake = ir_add(0, AWAKE, 1);
    ir_signal(0, CONDITION);
    ir_unlock(0, LOCK);
    return awake;
}
IR_THREADS(waker, waiter, waiter);
IR_OBJECTS({0});
"""

# Two threads that choose. Each gives its choices.
CHOOSING = r"""
#include "ir_sync.h"
IR_THREAD(choosing)
{
    ir_enter_write(0);
    ir_word one = ir_choose(3);
    ir_leave(0);
    return 10 * one + ir_choose(2) + 100 * (ir_choose(1) + ir_load(LAST, 0));
}
IR_THREADS(choosing, choosing);
IR_OBJECTS([LAST] = {1});
"""
CHOICES = [100 + 10 * one + two for one in range(3) for two in range(2)]

# Two threads that take numbers while there are some, each number once. Each gives how many it took.
QUEUE = r"""
#include "ir.h"
enum { NEXT, SUM, NUMBERS = 3 };
static int take(void)
{
    ir_enter_write(NEXT);
    int number = ir_get(NEXT, 0);
    if (number < NUMBERS)
        ir_put(NEXT, 0, number + 1);
    ir_leave(NEXT);
    return number;
}
static void add(int number)
{
    ir_enter_write(SUM);
    ir_put(SUM, 0, ir_get(SUM, 0) + number);
    ir_leave(SUM);
}
IR_THREAD(taking)
{
    int taken = 0;
    for (int number = take(); number < NUMBERS; number = take(), taken++)
        add(number);
    return taken;
}
IR_THREADS(taking, taking);
IR_OBJECTS([NEXT] = {0}, [SUM] = {0});
"""

# The option by which each function leaves 0 in registers that it may change.
CLEARED = "-fzero-call-used-regs=all-gpr"

# Assertions in a function that is called, in one that isn't left, and in a loop.
ASSERTED = r"""
#include "ir.h"
static void checked(ir_word word)
{
    ir_assert(word != 3);
    ir_assert(word != 4);
}
IR_THREAD(asserting)
{
    for (ir_word i = ir_random(); i > 2; i /= 2)
        ir_assert(i != 77);
    ir_assert(ir_self() == 0 && ir_random() != 5);
    checked(ir_random());
    return 0;
}
IR_THREADS(asserting);
"""

# Guests that are explored: a source, options, and the codes of each outcome.
EXPLORED = {
    "words": (WORDS, (), [(0,)]),
    "meeting": (MEETING, (), [(3, 3, 3)]),
    "signal": (WAKING, ("-DWAKE=ir_signal",), [(0, 0, 1)]),
    "signal-any": (WAKING, ("-DWAKE=ir_signal_any",), [(0, 0, 1), (0, 1, 0)]),
    "broadcast": (WAKING, ("-DWAKE=ir_broadcast",), [(0, 0, 1), (0, 1, 0)]),
    "choosing": (CHOOSING, ("-DLAST=0",), [(one, two) for one in CHOICES for two in CHOICES]),
    "choosing-all": (CHOOSING, ("-DLAST=14",), [(one, two) for one in CHOICES for two in CHOICES]),
    "choosing-large": (CHOOSING, ("-DLAST=62", "-DIR_LARGE=1"), [(one, two) for one in CHOICES for two in CHOICES]),
}


def explored(folder, name):
    """The last line of an exploration, and the ends and codes of each outcome."""
    ended = run(f"explore {name}.img --profile 2", folder, timeout=600)
    wants(f"exploring {name}", (ended.returncode, ended.stderr), (0, b""))
    lines = ended.stdout.decode().splitlines()
    ends = [tuple(int(word) for word in line.split()[3:6:2]) for line in lines if line.startswith("thread ")]
    threads = (folder / f"{name}.img").read_bytes()[4]
    return lines[-1], [tuple(ends[k:k + threads]) for k in range(0, len(ends), threads)]


def test_explored(folder, source, more, codes):
    """All outcomes of a guest, at each level: none is missing, no run hangs, and a recording has one of them."""
    (folder / "guest.c").write_text(source)
    for level in (*LEVELS, "-O2 -flto"):
        converted(folder, "guest.c", "guest", *level.split(), *more)
        last, found_ends = explored(folder, "guest")
        wants(f"at {level}: how it ended", (last.split()[0], last.split()[-2:]), ("finished", ["hangs", "0"]))
        wants(f"at {level}: the outcomes", sorted(set(found_ends)), sorted(tuple((1, code) for code in each) for each in codes))
        wants(f"at {level}: a recording", tuple(recorded(folder, "guest", "--profile", "2", "--chaos", "1", "--by", "walk").ends()) in found_ends, True)


def test_cleared(folder):
    """Where functions leave 0 in registers there are fewer states, and the same outcomes, at each level."""
    (folder / "queue.c").write_text(QUEUE)
    for level in LEVELS:
        converted(folder, "queue.c", "queue", level)
        converted(folder, "queue.c", "cleared", level, CLEARED)
        (last, found_ends), (cleared_last, cleared_ends) = explored(folder, "queue"), explored(folder, "cleared")
        wants(f"at {level}: the outcomes", (sorted(found_ends), sorted(cleared_ends)), ([((1, one), (1, 3 - one)) for one in range(4)],) * 2)
        wants(f"at {level}: fewer states", int(cleared_last.split()[4]) < int(last.split()[4]), True)


def test_proved(folder, name):
    """Without its fault all outcomes of an example are known, and none has it, at each level."""
    mended(folder, name)
    outcomes, states = PROVED[name]
    until = re.search(r"--until .*", hunt_of(name))[0]
    for level in LEVELS:
        converted(folder, EXAMPLES[name][0], name, level)
        ended = run(f"explore {name}.img {name}.trc {until}", folder, timeout=600)
        last = ended.stdout.decode().splitlines()[-1]
        wants(f"{name}{level}: the proof", (ended.returncode, re.sub(r"states \d+", "states", last)), (5, f"finished outcomes {outcomes} states hangs 0"))
        wants(f"{name}{level}: few states", int(last.split()[4]) <= states, True)


# What is each thread's own.


def test_own(folder):
    """Each variable that isn't marked is named, at each level, in a file of any name, with or without ir.h. The constants aren't."""
    (folder / "one.c").write_text('#include "ir.h"\nconst char *all(int n);\nIR_THREAD(t) { return *all(ir_self()); }\nIR_THREADS(t);\n')
    (folder / "two.c").write_text(VARIABLES)
    for level in LEVELS:
        ended = gcc(folder, "one.c", "bad.elf", "two.c", level)
        names = re.findall(r"unplaced orphan section `\.s?(?:data|bss)\.(\w+)(?:\.\d)?' from", ended.stderr)
        wants(f"at {level}: what is named", (ended.returncode, sorted(names), OWN in ended.stderr), (1, sorted(NAMED), True))
        wants(f"at {level}: all are meant", gcc(folder, "one.c", "good.elf", "two.c", level, "-fno-data-sections").stderr, "")
    (folder / "two.c").write_text(re.sub(r"^( *)(static int|int|char|__attribute__|volatile)", r"\1IR_OWN \2", '#include "ir.h"\n' + VARIABLES, flags=re.M))
    for level in (*LEVELS, "-O2 -flto"):
        wants(f"at {level}: all are marked", gcc(folder, "one.c", "good.elf", "two.c", *level.split(), "-Wextra").stderr, "")


def test_counted(folder):
    """A count under a lock is refused by name. If it is meant, it links, and each thread has its own."""
    (folder / "counted.c").write_text(COUNTED)
    for level in (*LEVELS, "-O2 -flto"):
        ended = gcc(folder, "counted.c", "bad.elf", *level.split())
        is_named = re.search(r"unplaced orphan section `\.sbss\.counter(\.lto_priv\.0)?' from", ended.stderr) is not None
        wants(f"at {level}", (ended.returncode, is_named, OWN in ended.stderr), (1, True, True))
        converted(folder, "counted.c", "counted", *level.split(), "-fno-data-sections")
        wants(f"at {level}: each has its own", recorded(folder, "counted").ends(), [(1, 3), (1, 3)])
    (folder / "counted.c").write_text(COUNTED.replace("static", "IR_OWN static"))
    converted(folder, "counted.c", "counted")
    wants("marked: each has its own", recorded(folder, "counted").ends(), [(1, 3), (1, 3)])
    ended = run("elf counted.elf counted.img --explain", folder)
    wants("what is told", (ended.returncode, ended.stdout, ended.stderr), (0, b"", b"ir: counted.elf: 4 bytes of variables, and each thread has its own\n"))
    wants("told only if asked for", run("elf counted.elf counted.img", folder).stderr, b"")


def test_cplusplus(folder):
    """A source in C++ is refused with a text, if a compiler for it is installed."""
    (folder / "bad.cc").write_text(f"{THREAD}IR_THREADS(t);\n")
    ended = gcc(folder, "bad.cc", "bad.elf")
    wants("the status", ended.returncode, 1)
    wants("what is reported", "a guest is in C: there is no C++ for guests" in ended.stderr or "cc1plus" in ended.stderr, True)


def test_assertions(folder):
    """Each assertion is an EBREAK of its own line, at each level."""
    (folder / "asserted.c").write_text(ASSERTED)
    lines = [f"asserted.c:{number}" for number, line in enumerate(ASSERTED.splitlines(), 1) if "ir_assert" in line]
    for level in LEVELS:
        converted(folder, "asserted.c", "asserted", level)
        code = tool("objdump", folder, "-d", "asserted.elf")
        places = tool("addr2line", folder, "-s", "-e", "asserted.elf", *re.findall(r"(\w+):.*\tebreak", code))
        found_lines = re.findall(r"asserted.c:\d+", places)
        wants(f"at {level}", sorted(found_lines), sorted(lines))


def test_archive(folder):
    """The variables of an archive are each thread's own: it is a library, and not of the guest's threads."""
    (folder / "lib.c").write_text("static int calls; int words[4] = {7, 8, 9}; int called(void) { return words[2] + ++calls; }\n")
    (folder / "one.c").write_text('#include "ir.h"\nint called(void);\nIR_THREAD(t) { called(); return called(); }\nIR_THREADS(t, t);\n')
    subprocess.run([TOOLS + "gcc", "-march=rv32im", "-mabi=ilp32", "-Og", "-fdata-sections", "-c", "lib.c"], cwd=folder, check=True)
    tool("ar", folder, "rc", "lib.a", "lib.o")
    converted(folder, "one.c", "archive", "lib.a")
    wants("the codes", recorded(folder, "archive").ends(), [(1, 11), (1, 11)])


def test_gas_large(folder):
    """A source for GNU as in the large form has up to 64 objects of 16 words."""
    text = (TOP / "examples" / "c" / "gas.S").read_text()
    text = text.replace("        .word   1\n", "        .word   2\n").replace("        .word   5, 0, 0, 0, 0, 0, 0, 0\n", "        .word   5\n        .zero   60 + 63 * 64\n")
    (folder / "large.S").write_text(text)
    converted(folder, "large.S", "large")
    objects = recorded(folder, "large", "--order", "0", "--profile", "2").objects
    wants("the objects", (len(objects), len(objects[63]), objects[0][0] > 5), (64, 16, True))
    (folder / "large.S").write_text(text.replace("63 * 64", "64 * 64"))
    wants("one more", "ir.ld: there are at most 16 objects, or 64 with IR_LARGE" in gcc(folder, "large.S", "large.elf").stderr, True)


def test_clang(folder):
    """Clang has no warning about the header, its functions and the examples either, if it is installed and knows RISC-V."""
    if not shutil.which("clang") or "riscv32" not in subprocess.run(["clang", "-print-targets"], check=False, capture_output=True, text=True).stdout:
        print("  no clang for RISC-V is installed, so it isn't tried")
        return
    options = "--target=riscv32 -march=rv32im -mabi=ilp32 -ffreestanding -std=c11 -Wall -Wextra -Wpedantic -Werror -Iguest -c -o clang.o".split()
    for source in ["guest/ir_mem.c", *(f"examples/c/{source}" for source, _ in EXAMPLES.values() if source.endswith(".c"))]:
        for level in ("-O0", "-O2"):
            ended = subprocess.run(["clang", *options, level, source], cwd=folder, check=False, capture_output=True, text=True)
            wants(f"{source}: clang {level}", (ended.returncode, ended.stderr), (0, ""))


# The stories of the examples.


def hunt_of(name):
    """The arguments of the hunt that an example's comment names."""
    source, more = EXAMPLES[name]
    arguments = re.search(r"^ +ir (hunt .*?)(?: \*/)?$", (TOP / "examples" / "c" / source).read_text(), re.MULTILINE)[1]
    wants(f"{name}: what it needs", " ".join(more) in arguments, True)
    return arguments


def line_of(folder, name, address):
    """The function and the line of an address, in the file of the user."""
    return tool("addr2line", folder, "-fips", "-e", f"{name}.elf", address).splitlines()[-1].removeprefix(" (inlined by) ")


def text_of(folder, name, address):
    """The function of an address, and the text of its line."""
    function, line = re.match(r"(\w+) at .*:(\d+)", line_of(folder, name, address)).groups()
    return function, (TOP / "examples" / "c" / EXAMPLES[name][0]).read_text().splitlines()[int(line) - 1].strip()


def stale_writes(folder, name, thread):
    """How often a thread wrote over another version than it had read in the entry before."""
    log = [line.split() for line in session(folder, name, "end", f"log {thread}") if " version " in line]
    return sum(a[1] == "read" and b[1] == "write" and a[4] != b[4] for a, b in zip(log, log[1:]))


def story_of_bank(folder):
    """A payer decides by a balance that isn't in the account any more."""
    wants("the account", words_of(folder, "bank")[0][:2], [2**32 - 20, 120])
    stale = [thread for thread in (0, 1) if stale_writes(folder, "bank", thread)]
    wants("who decided by an old balance", len(stale), 1)
    answers = session(folder, "bank", "owatch 0", "end", f"rcont {stale[0]}", f"regs {stale[0]}")
    wants("a hit", answers[2][-6:], " hit 1")
    wants("the function", text_of(folder, "bank", answers[3].split()[1])[0], "transfer")


def story_of_buffer(folder):
    """There are numbers in the buffer, and the consumer waits."""
    count, waits = words_of(folder, "buffer")[0][:2]
    wants("the buffer", (count > 0, waits), (True, 1))
    answers = session(folder, "buffer", "owatch 0", "end", "rcont 1", "regs 1")
    wants("the last that the consumer wrote", text_of(folder, "buffer", answers[3].split()[1])[0], "wait_until_woken")


def story_of_over(folder):
    """The pointer to the sum is written over in the loop that copies."""
    wants("the end", b"thread 1 end 7 " in run("trace over.trc", folder).stdout, True)
    mine = int(re.search(r"(\w+) d mine", tool("nm", folder, "over.elf"))[1], 16)
    answers = session(folder, "over", f"watch 1 {mine + 16}", "end", "rcont 1", "back 1 1", "next 1", "end", "back 1 1", "next 1")
    stores = [line.split() for line in answers if line.startswith("next ")]
    wants("the stores", [store[2] for store in stores], ["sw", "sw"])
    wants("who wrote over it", text_of(folder, "over", stores[0][1]), ("copied", "to[i] = ir_get(LIST, FIRST + i);"))
    wants("the bad store", text_of(folder, "over", stores[1][1]), ("reader_body", "*mine.sum = total;"))


def story_of_wide(folder):
    """An attempt was refused, and a job is left."""
    wants("jobs that are left", sum(pile[0] for pile in words_of(folder, "wide")) > 0, True)
    wants("an attempt", b" try " in run("trace wide.trc", folder).stdout, True)


def story_of_gas(folder):
    """An update is lost."""
    wants("the counter", words_of(folder, "gas")[0][0] < 11, True)
    wants("who wrote over what it had not read", sum(stale_writes(folder, "gas", thread) for thread in (0, 1)) > 0, True)


def story_of_sync(folder):
    """The assertion of a consumer that found no number is where it ended."""
    wants("what is left", words_of(folder, "sync")[1][0], 1)
    failed = [thread for thread in (1, 2) if f"thread {thread} end 2 " in run("trace sync.trc", folder).stdout.decode()]
    wants("who failed", len(failed), 1)
    answers = session(folder, "sync", "end", f"back {failed[0]} 1", f"regs {failed[0]}", f"next {failed[0]}")
    wants("the step", answers[-1].split()[2], "ebreak")
    wants("the line", text_of(folder, "sync", answers[2].split()[1]), ("take", "ir_assert(count > 0);"))


STORIES = {"bank": story_of_bank, "buffer": story_of_buffer, "over": story_of_over, "wide": story_of_wide, "gas": story_of_gas, "sync": story_of_sync}


def test_story(folder, name):
    """The hunt of the example's comment finds its fault, at each level. A session shows it at the level of ir.opts, the last here."""
    for level in sorted(LEVELS, key="-Og".__eq__):
        example(folder, name, level)
        _, _, lines = found(hunt_of(name), folder)
        wants(f"{name}{level}: how many threads", len(lines.splitlines()), (folder / f"{name}.img").read_bytes()[4])
    STORIES[name](folder)


def mended(folder, name):
    """Writes the source of an example without its fault, and says which seeds are hunted through then."""
    source, _ = EXAMPLES[name]
    text = (TOP / "examples" / "c" / source).read_text()
    seeds, changes = MENDED[name]
    for old, new in changes:
        wants(f"{name}: {old!r}", text.count(old), 1)
        text = text.replace(old, new)
    (folder / source).write_text(text)
    return seeds


def test_mended(folder, name):
    """Without the fault the same hunt finds nothing."""
    source, _ = EXAMPLES[name]
    seeds = mended(folder, name)
    converted(folder, source, name)
    ended = run(hunt_of(name).replace("--seeds 1+1000", f"--seeds {seeds}"), folder, timeout=300)
    wants(f"{name}: a hunt", (ended.returncode, ended.stdout[:5]), (5, b"none "))


# Programs with a fault, each found, shown by gdb at its line, and repaired.


def compiled(folder, name, elf, *more):
    """Compiles one of the programs, ordinary or on ir.h, by ir-cc, without a warning."""
    command = [sys.executable, "guest/ir-cc", str(faults.FOLDER / f"{name}.c"), "-Wall", "-Wextra", *more, "-o", f"{elf}.elf"]
    ended = subprocess.run(command, cwd=folder, check=False, capture_output=True, text=True, timeout=300)
    wants(f"{name}: ir-cc", (ended.returncode, ended.stderr), (0, ""))


def test_fault(folder, name):
    """The fault of a program is found and recorded, and gdb shows it at its line."""
    fault = faults.FAULTS[name]
    compiled(folder, name, name)
    ended = run([fault.search, f"{name}.elf", f"{name}.trc", "--until", fault.condition], folder, timeout=1200)
    wants(f"{name}: the search", (ended.returncode, ended.stderr), (0, b""))
    ends = [tuple(map(int, it)) for it in re.findall(r"^thread \d+ end (\d+) code (\d+) steps", ended.stdout.decode(), re.MULTILINE)]
    wants(f"{name}: how a thread ended", fault.ends in ends, True)
    if not shutil.which(GDB):
        print(f"  {GDB} isn't installed, so nothing is shown by it")
        return
    wants(f"{name}: ir elf", run(["elf", f"{name}.elf", f"{name}.img"], folder).returncode, 0)
    line = fault.line(name)
    typed, shown = ([text.replace("LINE", line) for text in texts] for texts in (fault.typed, fault.shown))
    check_session(Session(name, typed, shown, locked=False), folder)


def test_repaired(folder, name):
    """Without its fault no run of a program has it, and none waits forever: the search is finished."""
    compiled(folder, name, name, "-DREPAIRED")
    ended = run(["explore", f"{name}.elf", f"{name}.trc", "--until", faults.FAULTS[name].condition], folder, timeout=1200)
    last = ended.stdout.decode().splitlines()[-1:]
    counted = [re.sub(r"states \d+", "states", line) for line in last]
    wants(f"{name}: all outcomes", (ended.returncode, counted), (5, [f"finished outcomes {faults.FAULTS[name].outcomes} states hangs 0"]))


# The table of how far it is from a program to the line of its fault.


def timed(words, folder):
    """The seconds of a command, and what it prints."""
    start = time.monotonic()
    ended = subprocess.run(words, cwd=folder, check=False, capture_output=True, text=True, stdin=subprocess.DEVNULL, timeout=1200)
    wants(" ".join(map(str, words)), ended.returncode, 0)
    return time.monotonic() - start, ended.stdout


def row_of(name):
    """A row of the table: the search, what is typed in gdb until the fault's line is there, and the seconds of each of the three commands of the shell."""
    fault = faults.FAULTS[name]
    line = fault.line(name)
    typed = ["source examples/ir.gdb", f"target remote | ./ir gdb {name}.elf {name}.trc", *(text.replace("LINE", line) for text in fault.typed)]
    with tempfile.TemporaryDirectory() as place:
        folder = Path(place)
        link_all(folder)
        compiling, _ = timed(["guest/ir-cc", f"tests/c_guests/faults/{name}.c", "-o", f"{name}.elf"], folder)
        searching, _ = timed(["./ir", fault.search, f"{name}.elf", f"{name}.trc", "--until", fault.condition], folder)
        words = [GDB, "-nx", "-q", "-batch", "-ex", "set width 0", f"{name}.elf"]
        _, shown = timed([*words, *(word for number, text in enumerate(typed) for word in ("-ex", f"echo ({number})\\n", "-ex", text))], folder)
        there = re.search(rf"{name}\.c:{line}$|^{line}\t", shown, re.M)
        if not there:
            raise Wrong(f"{name}: gdb doesn't show line {line}:\n{shown}")
        after = shown[:there.end()]
        needed = typed[:1 + int(re.findall(r"^\((\d+)\)$", after, re.M)[-1])]
        showing, _ = timed([*words, *(word for text in needed for word in ("-ex", text))], folder)
    condition = f"'{fault.condition}'" if re.search("[ !]", fault.condition) else fault.condition
    in_gdb = ", ".join(f"`{text}`" for text in needed[2:])
    return f"| {name}.c | `{fault.search} --until {condition}` | {in_gdb} | 3 + {len(needed)} | {compiling:.1f} | {searching:.1f} | {showing:.1f} |"


def print_table():
    """Prints the table."""
    print("| Program | Search | In gdb after `source` and `target` | Commands | ir-cc, s | Search, s | gdb, s |\n|---|---|---|---|---|---|---|")
    for name in faults.FAULTS:
        print(row_of(name), flush=True)


# Lines and names.


def ran(folder, *words, typed=""):
    """A run of ir-lines or ir-where."""
    return subprocess.run([sys.executable, *words], cwd=folder, check=False, capture_output=True, text=True, timeout=300, input=typed)


def test_lines(folder):
    """Each address of the code has the frames that addr2line names, by rising address, at each level; with inlined callers."""
    for level in LEVELS:
        compiled(folder, "peterson", "lines", level)
        ended = ran(folder, "guest/ir-lines", "lines.elf")
        wants(f"at {level}: the run", (ended.returncode, ended.stderr), (0, ""))
        found_lines = [re.fullmatch(r"([0-9a-f]{8}) (\S+) (.+:[1-9]\d*)", line).groups() for line in ended.stdout.splitlines()]
        addresses = [int(address, 16) for address, _, _ in found_lines]
        wants(f"at {level}: rising", addresses, sorted(addresses))
        wants(f"at {level}: code", {address % 4 for address in addresses} | {address >> 16 for address in addresses}, {0, 1})
        for address in sorted(set(addresses))[::7]:
            frames = [(function, line) for at, function, line in found_lines if int(at, 16) == address]
            wanted = tool("addr2line", folder, "-f", "-i", "-e", "lines.elf", f"{address:#x}").splitlines()
            wants(f"at {level}: {address:#x}", frames, [(function, line.split(" ")[0]) for function, line in zip(wanted[::2], wanted[1::2])])
    wants("inlined callers", len(set(addresses)) < len(addresses), True)


NAMES_OF_PETERSON = ["thread 0 adder", "thread 1 adder", "object 0 wants-0", "object 1 wants-1", "object 2 turn", "object 3 count", "object 3 word 0 the-count"]


def test_names(folder):
    """Names don't change the image, and tools print them: of a guest on ir.h, and of an ordinary program."""
    compiled(folder, "peterson", "named")
    text = (faults.FOLDER / "peterson.c").read_text()
    (folder / "plain.c").write_text("".join(line for line in text.splitlines(True) if not line.startswith("IR_NAME(")))
    ended = ran(folder, "guest/ir-cc", "plain.c", "-o", "plain.elf")
    wants("ir-cc", (ended.returncode, ended.stderr), (0, ""))
    for name in ("named", "plain"):
        wants(f"{name}: ir elf", run(f"elf {name}.elf {name}.img", folder).returncode, 0)
    wants("the image", (folder / "named.img").read_bytes(), (folder / "plain.img").read_bytes())
    wants("the names", ran(folder, "guest/ir-lines", "named.elf", "--names").stdout.splitlines(), NAMES_OF_PETERSON)
    wants("no names", ran(folder, "guest/ir-lines", "plain.elf", "--names").stdout.splitlines(), NAMES_OF_PETERSON[:2])
    compiled(folder, "cache", "cache")
    lines = ran(folder, "guest/ir-lines", "cache.elf", "--names").stdout.splitlines()
    wants("main", lines[:2], ["thread 0 main", "object 0 thread-1"])
    wants("the variables", sorted(line.split()[4] for line in lines[2:] if "+" not in line), ["cached", "lock", "value"])


def test_bad_names(folder):
    """Names that are none are left out and reported, and the others are taken. What is no ELF file is refused with a text."""
    compiled(folder, "peterson", "named")
    for name, (data, why) in faults.BAD_NAMES.items():
        (folder / "names.bin").write_bytes(data)
        tool("objcopy", folder, "--update-section", ".ir.names=names.bin", "named.elf", "bad.elf")
        ended = ran(folder, "guest/ir-lines", "bad.elf", "--names")
        wants(f"{name}: what is taken", (ended.returncode, [line for line in ended.stdout.splitlines() if line[:6] == "object"]), (0, ["object 3 count"]))
        wants(f"{name}: {ended.stderr}", (why in ended.stderr, "Traceback" in ended.stderr), (True, False))


def lines_of(folder, data, *more):
    """What ir-lines makes of the bytes of an ELF file: its status, what it prints, and what it reports. It never fails, and reports a few lines."""
    (folder / "bad.elf").write_bytes(data)
    ended = ran(folder, "guest/ir-lines", "bad.elf", *more)
    reported = ended.stderr.splitlines()
    wants("what is reported", [line for line in reported if not re.match(r"ir-lines: (\d+ left out|refused \d): ", line)], [])
    wants("how much is reported", len(reported) < 12 and all(len(line) < 600 for line in reported), True)
    wants("refused by a number", ended.returncode == 1, any(line.startswith("ir-lines: refused ") for line in reported))
    return ended.returncode, ended.stdout.splitlines(), ended.stderr


def header_of(data, name):
    """Where the header of a section is."""
    place, = struct.unpack_from("<I", data, 32)
    size, count, names = struct.unpack_from("<HHH", data, 46)
    texts, = struct.unpack_from("<I", data, place + names * size + 16)
    for header in range(place, place + count * size, size):
        start = texts + struct.unpack_from("<I", data, header)[0]
        if data[start:data.index(0, start)].decode() == name:
            return header
    raise Wrong(f"there is no section {name}")


def with_symbols(data, count):
    """An ELF file with the last of its symbols again, so often that there are so many."""
    header, changed = header_of(data, ".symtab"), bytearray(data)
    at, size = struct.unpack_from("<II", data, header + 16)
    struct.pack_into("<II", changed, header + 16, len(data), count * 16)
    return bytes(changed) + data[at:at + size] + data[at + size - 16:at + size] * (count - size // 16)


def test_bad_elf(folder):
    """ir-lines takes what can be read of an ELF file that is cut, changed or large, and says by numbers what it leaves out."""
    compiled(folder, "peterson", "whole")
    data = (folder / "whole.elf").read_bytes()
    status, lines, reported = lines_of(folder, data)
    wants("the whole file", (status, reported), (0, ""))
    for name, number in (("", 3), ("no ELF file", 3), ("\x7fELF\x02", 4)):
        wants(f"{name!r}", lines_of(folder, name.encode())[2].split(":")[1], f" refused {number}")
    for size in range(5, len(data), len(data) // 25):
        wants(f"{size} bytes", lines_of(folder, data[:size])[0], 1)
    chance = random.Random(1)
    for _ in range(25):
        changed = bytearray(data)
        for _ in range(chance.choice((1, 20, 400))):
            changed[chance.randrange(len(data))] = chance.randrange(256)
        for more in ((), ("--names",)):
            lines_of(folder, bytes(changed), *more)
    for name, changed in (("of another encoding", b"\xff\xfeck"), ("with a line feed", b"a\nck")):
        _, shown, reported = lines_of(folder, data.replace(b"\0adder\0", b"\0" + changed.ljust(5, b"k") + b"\0"), "--names")
        wants(name, (shown[0][:8], "1 left out: a symbol " in reported), ("object 0", True))
    shown = lines_of(folder, data.replace(b"\0adder\0", b"\0<b>&'\0"), "--names")[1]
    wants("markup", shown[:2], ["thread 0 <b>&'", "thread 1 <b>&'"])
    version = struct.unpack_from("<I", data, header_of(data, ".debug_info") + 16)[0] + 4
    status, shown, reported = lines_of(folder, data[:version] + b"\x09\x00" + data[version + 2:])
    wants("DWARF 9", (status, len(shown) < len(lines), "left out: what addr2line can't read: " in reported), (0, True, True))
    _, shown, reported = lines_of(folder, with_symbols(data, 12_000_000), "--names")
    wants("12 million symbols", (shown, reported), (NAMES_OF_PETERSON, "ir-lines: 11900000 left out: symbols after the first 100,000\n"))
    with open(folder / "large.elf", "wb") as file:
        file.truncate(200_000_001)
    for path, number in (("large.elf", 2), ("none.elf", 1), (".", 1), ("/dev/zero", 1)):
        ended = ran(folder, "guest/ir-lines", path)
        wants(path, (ended.returncode, ended.stdout, ended.stderr[:19]), (1, "", f"ir-lines: refused {number}"))


def test_dwarf(folder):
    """The versions 4 and 5 of DWARF say the same of the code."""
    said = []
    for version in ("-gdwarf-4", "-gdwarf-5"):
        compiled(folder, "peterson", "versions", version)
        ended = ran(folder, "guest/ir-lines", "versions.elf")
        wants(f"{version}: the run", (ended.returncode, ended.stderr), (0, ""))
        said.append(ended.stdout)
    wants("the lines", said[0], said[1])


def less(event, plain):
    """An event for other viewers without the names and arguments that ir-where adds."""
    if event["name"] == "thread_name":
        return event | {"args": {"name": event["args"]["name"][:len(plain["args"]["name"])]}}
    added = {"object_name", "thread_name", "word_name", "variable", "line", "function", "called_at", "changed"}
    return event | {"args": {name: value for name, value in event["args"].items() if name not in added}} if "args" in event else event


def events_known(folder, *words):
    """What the page says of events, by thread and event; and the boxes of the events for other viewers, by thread and event."""
    page = ran(folder, "guest/ir-where", *words, "--page", "--ir", program())
    chrome = ran(folder, "guest/ir-where", *words, "--chrome", "--ir", program())
    wants("page and events", (page.returncode, page.stderr, chrome.returncode, chrome.stderr), (0, "", 0, ""))
    names = json.loads(re.search(r'id="names">(.*)</script>', page.stdout)[1])
    run_, plain = json.loads(chrome.stdout), json.loads(run(["view", words[-1], "--image", words[-2], "--chrome"], folder).stdout)
    wants("what else the events have", [less(it, was) for it, was in zip(run_["traceEvents"], plain["traceEvents"])], plain["traceEvents"])
    wants("beside the events", (run_ | {"traceEvents": 0}, len(run_["traceEvents"])), (plain | {"traceEvents": 0}, len(plain["traceEvents"])))
    wants("the threads", [it["args"]["name"] for it in run_["traceEvents"] if it["name"] == "thread_name"][0].split(), ["thread", "0", names["threads"]["0"]])
    return names["events"], {f"{it['tid'] // 64}.{it['args']['event']}": it["args"] for it in run_["traceEvents"] if it["ph"] in "Xi" and it["cat"] != "end"}


def test_where(folder):
    """Events have their line, the lines of the calls that led there, and the words that they changed: in lines, in the page and for other viewers."""
    compiled(folder, "peterson", "peterson")
    run(["hunt", "peterson.elf", "peterson.trc", "--until", "!word 3 0 2"], folder)
    text = (faults.FOLDER / "peterson.c").read_text().splitlines()
    line, calls = int(faults.FAULTS["peterson"].line("peterson")) - 1, next(n for n, it in enumerate(text, 1) if it == "    add();")
    events, boxes = events_known(folder, "peterson.elf", "peterson.trc")
    told = f"peterson.c:{line} in add,\ncalled at peterson.c:{calls} in adder_body,\nthe-count 0 to 1"
    wants("the writes of the count", sorted(it for it in events.values() if "the-count" in it), [told])
    (key, box), = ((key, it) for key, it in boxes.items() if any(change.get("name") for change in it.get("changed", ())))
    known = {"object_name": "count", "thread_name": "adder", "variable": "count", "line": f"peterson.c:{line}", "function": "add",
             "called_at": [f"peterson.c:{calls} adder_body"], "changed": [{"word": 0, "name": "the-count", "was": 0, "is": 1}]}
    wants("its box", (events[key], {name: box[name] for name in known}), (told, known))
    stale, = (it for it in boxes.values() if "stale" in it)
    wants("the stale write", (stale["word_name"], stale["line"], "changed" in stale), ("the-count", f"peterson.c:{line}", False))
    said = ran(folder, "guest/ir-where", "peterson.elf", "peterson.trc", "--callers", "--ir", program()).stdout.splitlines()
    wants("the lines", (len(said), all(", called at peterson.c:" in it for it in said)), (len(events), True))
    compiled(folder, "cache", "cache")
    run(["hunt", "cache.elf", "cache.trc", "--until", "fault"], folder)
    events, boxes = events_known(folder, "cache.elf", "cache.trc")
    wants("an ordinary program", [it for it in events.values() if re.fullmatch(r"cached at cache.c:\d+ in look_up,\ncalled at cache.c:\d+ in get,\ncalled at .*,\ncached 2 to 1", it)] != [], True)
    wants("its words", {change["name"] for it in boxes.values() for change in it.get("changed", ()) if "name" in change} >= {"cached", "value", "lock"}, True)


def test_other_image(folder):
    """Names and lines of a program that isn't the recorded one are refused: an old image, or an ELF file that was compiled anew."""
    compiled(folder, "peterson", "old")
    wants("ir elf", run("elf old.elf old.img", folder).returncode, 0)
    run(["hunt", "old.img", "old.trc", "--until", "!word 3 0 2"], folder)
    compiled(folder, "peterson", "new", "-O2")
    for words, why in ((["new.elf", "old.img", "old.trc"], "old.img isn't the image of new.elf"), (["new.elf", "old.trc"], "")):
        ended = ran(folder, "guest/ir-where", *words, "--ir", program())
        wants(" ".join(words), (ended.returncode != 0, ended.stdout, why in ended.stderr and bool(ended.stderr), "Traceback" in ended.stderr), (True, "", True, False))
    for image in ("old.img", "old.elf"):
        wants(image, ran(folder, "guest/ir-where", "old.elf", image, "old.trc", "--ir", program()).returncode, 0)
    (folder / "odd.elf").write_bytes((folder / "old.elf").read_bytes().replace(b"\0add\0", b"\0<>>\0"))
    said = [ran(folder, "guest/ir-where", name, "old.trc", "--ir", program()).stdout for name in ("old.elf", "odd.elf")]
    wants("a name like a mark", (said[0].count("\n"), said[1].count("\n")), (14, 14))
    wants("a name like a mark is in the events", b" <<>>+" in run("events odd.elf old.trc", folder).stdout, True)
    ended = subprocess.run([sys.executable, "guest/ir-where", "old.elf", "--note", "--ir", program()], cwd=folder, check=False, capture_output=True, input=b"\xff\n")
    wants("what is no text", (ended.returncode, ended.stdout, ended.stderr), (0, b"\xff\n", b""))


def noted(folder, typed, *words):
    """The lines that ir-where adds to what is typed."""
    ended = ran(folder, "guest/ir-where", *words, "--note", "--ir", program(), typed=typed)
    wants("the note", (ended.returncode, ended.stderr), (0, ""))
    wants("the lines as they were", [line for line in ended.stdout.splitlines() if line[:2] != "  "], typed.splitlines())
    return [line[2:] for line in ended.stdout.splitlines() if line[:2] == "  "]


def test_noted(folder):
    """ir-where names threads, objects, words and lines in what `ir hunt`, `ir who`, `ir stale` and `ir explore` print."""
    compiled(folder, "peterson", "peterson")
    hunted = run(["hunt", "peterson.elf", "peterson.trc", "--until", "!word 3 0 2"], folder).stdout.decode()
    notes = noted(folder, hunted, "peterson.elf")
    turns = re.findall(r"(\d)x(\d+)", hunted.splitlines()[0].split()[-1])
    wants("an order", notes[0], "order " + ", then ".join(f"thread {thread} adder {count} steps" for thread, count in turns))
    wants("ir hunt", notes[1:], ["thread 0 adder", "thread 1 adder"])
    said = run("who peterson.trc 3 --word 0 --image peterson.elf", folder).stdout.decode()
    notes = noted(folder, said, "peterson.elf", "peterson.trc")
    wants("ir who", notes[:2], ["object 3 count", "object 3 word 0 the-count"])
    entered = int(faults.FAULTS["peterson"].line("peterson")) - 1
    wants("the writer", [line.split(" ", 4)[4] for line in notes[2:3]], [f"count peterson.c:{entered} add in adder"])
    said = run("stale peterson.trc --image peterson.elf", folder).stdout.decode()
    notes = noted(folder, said, "peterson.elf", "peterson.trc")
    wants("ir stale", "object 3 word 0 the-count" in notes, True)
    wants("ir record", run("record peterson.elf other.trc --order 0x111,1x111", folder).returncode, 0)
    said = run("diff other.trc peterson.trc", folder).stdout.decode().splitlines()
    for line in said:
        notes = noted(folder, f"{line}\n", "peterson.elf", "other.trc")
        about = [note for note in notes if re.match(r"thread \d event \d", note)]
        wants(line, bool(about), bool(re.search(r"thread \d (differs )?event \d", line)) and line[:2] != "2 ")
    wants("ir diff", {line[:2] for line in said} >= {"1 ", "2 "}, True)
    said = "hang switches 2 order 0x10,1!,0x1\n"
    wants("a short order", noted(folder, said, "peterson.elf"), ["order thread 0 adder 10 steps, then thread 1 adder 1 step, its tries refused, then thread 0 adder 1 step"])
    said = "outcome 1 switches 1 order " + ",".join(["1x97", "0x97"] * 8) + "\nthread 1 end 1 code 0 out 0\nobject 3 words 00000002 00000000 00000000\n"
    notes = noted(folder, said, "peterson.elf")
    wants("a long order", (notes[0].count("thread"), notes[0].endswith(", and 4 turns more")), (12, True))
    wants("ir explore", notes[1:], ["thread 1 adder", "object 3 count the-count=00000002"])
    bytes_ = b"-40\n\x1b[2J" + b"x" * 300
    parts = [bytes_[at:at + 32].hex() for at in range(0, len(bytes_), 32)]
    said = f"thread 0 end 1 code 0 out {len(bytes_)}\n" + "".join(f"{part}\n" for part in parts) + "thread 1 end 1 code 0 out 2\n410a\nobject 3 words fffffff6 00000000\n4141\n"
    shown = "'-40\\n\\x1b[2J" + "x" * 192 + "' .."
    wants("what is printed", noted(folder, said, "peterson.elf"), ["thread 0 adder", f"prints {shown}", "thread 1 adder", "prints 'A\\n'", "object 3 count the-count=fffffff6 (-10)"])


def test_page(folder):
    """Each command of the page writes what follows it there, if the compiler is the one of the page."""
    if tool("gcc", folder, "-dumpfullversion").strip() != PAGE_COMPILER:
        print(f"  the addresses of the page are those of gcc {PAGE_COMPILER}, so its commands aren't run")
        return
    for command, typed, wanted in commands_of(PAGE.read_text()):
        ended = shell(command, folder, "".join(f"{line}\n" for line in typed).encode())
        if not matches(ended.stdout.decode().splitlines(), wanted):
            raise Wrong(f"{command}: wrote {ended.stdout.decode()!r}")
        wants(f"{command}: standard error", ended.stderr, b"")


def tests():
    """Each test, by its name."""
    all_ = {f"{name}{level}": partial(test_level, name=name, level=level) for name in JUDGES for level in LEVELS}
    all_ |= {f"refused-{name}": partial(test_refused, source=source, more=more, message=why) for name, source, more, why in REFUSED}
    all_ |= {f"filled-{name}": partial(test_filled, body=body) for name, body in LOGGED.items()}
    all_ |= {"refused-unasked": test_unasked, "ends": test_ends, "forms": test_forms, "map": test_map, "files": test_files, "clang": test_clang,
             "gas-large": test_gas_large}
    all_ |= {"own": test_own, "counted": test_counted, "archive": test_archive, "assertions": test_assertions,
             "c++": test_cplusplus, "cleared": test_cleared, "page": test_page}
    all_ |= {f"explored-{name}": partial(test_explored, source=source, more=more, codes=codes) for name, (source, more, codes) in EXPLORED.items()}
    all_ |= {f"proved-{name}": partial(test_proved, name=name) for name in PROVED}
    all_ |= {f"story-{name}": partial(test_story, name=name) for name in STORIES}
    all_ |= {f"fault-{name}": partial(test_fault, name=name) for name in faults.FAULTS}
    all_ |= {f"repaired-{name}": partial(test_repaired, name=name) for name in faults.FAULTS}
    all_ |= {"lines": test_lines, "names": test_names, "bad-names": test_bad_names, "bad-elf": test_bad_elf, "dwarf": test_dwarf,
             "noted": test_noted, "where": test_where, "other-image": test_other_image}
    return all_ | {f"mended-{name}": partial(test_mended, name=name) for name in MENDED}


def link_all(folder):
    """Links what the tests and the pages use into a folder."""
    for linked in ("guest", "examples", "docs", "tests"):
        (folder / linked).symlink_to(TOP / linked)
    (folder / "ir").symlink_to(program())


def passes(name, test):
    """Whether a test in a folder of its own passes; prints a line."""
    with tempfile.TemporaryDirectory() as folder:
        link_all(Path(folder))
        try:
            test(Path(folder))
        except (Wrong, subprocess.SubprocessError, OSError) as why:
            print(f"{name}: failed: {why}", flush=True)
            return False
    print(f"{name}: passed", flush=True)
    return True


def main():
    all_ = tests()
    names = [name for name in sys.argv[2:] if name != "--table"] or list(all_)
    if len(sys.argv) < 2 or any(name not in all_ for name in names):
        sys.exit(__doc__ + "\nThe tests are " + ", ".join(all_) + ".")
    if not shutil.which(TOOLS + "gcc"):
        print(f"{TOOLS}gcc isn't installed, so guests from C aren't tested")
        return finish(0, 0)
    use(sys.argv[1])
    if "--table" in sys.argv[2:]:
        print_table()
        return 0
    passed = sum(passes(name, all_[name]) for name in names)
    return finish(passed, len(names) - passed)


if __name__ == "__main__":
    sys.exit(main())
