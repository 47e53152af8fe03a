#!/usr/bin/env python3
"""Sessions of a real gdb over `ir gdb`: guests from C are compiled, recorded and debugged, forwards and backwards.

python3 tests/gdb_sessions.py IR [SESSION ..]

Needs gdb-multiarch and riscv64-unknown-elf-gcc. If one isn't installed nothing is tested, and the status is 0. Runs each session in turn,
or only those that are named. The last line is `N passed, M failed`.
"""
import os
import pty
import re
import select
import shutil
import signal
import subprocess
import sys
import tempfile
import threading
import time
from dataclasses import dataclass
from pathlib import Path

from lib import TOP, Wrong, finish, parser_of_program, program, run, use

GDB = "gdb-multiarch"
GCC = "riscv64-unknown-elf-gcc"
GUESTS = TOP / "tests" / "gdb_guests"

# Each guest, and how it is recorded.
RECORDED = {
    "over": (),
    "lost": ("--order", "0x41,1x400,2x34"),
    "objs": ("--order", "0x5,1x200"),
    "busy": ("--budget", "10000000"),
    "cond": ("--order", "1x3,0x20000,1x20000"),
}


@dataclass
class Session:
    """Lines for gdb, and what has to be in its output, in this order (regular expressions)."""

    guest: str
    lines: list
    wanted: list
    # Whether a move is of one thread alone.
    locked: bool = True
    target: str = "remote"


SESSIONS = {
    "01-break": Session(
        "over",
        ["break fill", "continue", "bt", "info locals", "print table", "print label", "print/x wide", "x/2i $pc"],
        [r"hit Breakpoint 1, fill \(last=4\) at .*over.c:16", r"#0 .*fill \(last=4\)", r"#1 .*in filler_body \(\) at .*over.c:34", "i = ",
         r"\{scores = \{0, 0, 0, 0\}, limit = 100\}", '"abcdefg"', "0x1$", r"=> 0x\w+ <fill\+\d+>:\s+sw\s+zero,-20\((fp|s0)\)"],
    ),
    "02-step": Session(
        "over",
        ["tbreak filler_body", "continue", "next", "until", "advance square", "finish", "next", "step", "up"],
        [r"filler_body \(\) at .*over.c:31", "^32\t", "^33\t", r"square \(x=0\) at .*over.c:10", r"Run till exit|Value returned is \$1 = 0", "18\t",
         r"fill \(last=4\) at .*over.c:16|^16\t", r"filler_body \(\) at .*over.c:34"],
    ),
    "03-reverse-step": Session(
        "over",
        ["tbreak over.c:37", "continue", "reverse-next", "tbreak over.c:11", "reverse-continue", "reverse-finish", "reverse-next", "reverse-stepi",
         "stepi", "tbreak sum", "reverse-continue", "bt"],
        [r"filler_body \(\) at .*over.c:37", "^36\t", r"square \(x=4\) at .*over.c:11", r"fill \(last=4\) at .*over.c:17|17\t", r"^1\d\t", r"^0x|^1\d\t",
         r"sum \(n=0\)", r"#4 .*filler_body"],
    ),
    "04-who-wrote": Session(
        "over",
        ["continue", "print table.limit", "watch table.limit", "reverse-continue", "bt", "print i", "print last", "continue", "reverse-continue",
         "reverse-continue"],
        [r'Thread 1 "0 \w+" received signal SIGTERM', "= 16", "Hardware watchpoint 1: table.limit", "Old value = 16", "New value = 100",
         r"0x\w+ in fill \(last=4\) at .*over.c:17", r"#1 .*filler_body \(\)", "= 4", "= 4", "Old value = 100", "New value = 16", "over.c:18",
         "Old value = 16", "New value = 100", "No more reverse-execution history"],
    ),
    "05-local": Session(
        "over",
        ["tbreak over.c:37", "continue", "watch local", "reverse-continue", "reverse-continue", "continue", "continue"],
        [r"filler_body \(\) at .*over.c:37", "Old value = 26", "New value = 13", "Old value = 13", "New value = 7", "Old value = 7", "New value = 13",
         "Old value = 13", "New value = 26"],
    ),
    "06-conditions": Session(
        "over",
        ["break sum if n == 1", "continue", "bt", "delete", "break over.c:17", "ignore 2 3", "continue", "print i", "tbreak square if x == 2",
         "reverse-continue", "print x"],
        [r"hit Breakpoint 1, sum \(n=1\)", r"#3 .*filler_body", "hit Breakpoint 2, fill", "= 3", r"square \(x=2\)", "= 2"],
    ),
    "06-conditions-of-objects": Session(
        "cond",
        ["break add if i == 1007", "continue", "break add if *(int *)0x80000000 == 50", "continue", "print i", "continue", "reverse-continue",
         "reverse-continue"],
        [r"Thread 2 .*hit Breakpoint 1, add \(i=(?:i@entry=)?1007\)", r"Thread 1 .*hit Breakpoint 2, add \(i=(?:i@entry=)?51\)", "= 51", r"add \(i=(?:i@entry=)?52\)",
         r"Thread 1 .*add \(i=(?:i@entry=)?51\)", r"Thread 2 .*hit Breakpoint 1, add \(i=(?:i@entry=)?1007\)"],
        locked=False,
    ),
    "06-conditions-backwards": Session(
        "cond",
        ["continue", "break add if i == 120", "reverse-continue", "print i", "condition 1 i == 1000", "reverse-continue", "print i", "condition 1 i == 0",
         "reverse-continue", "print i", "condition 1 *(int *)0x80000000 == 100 && i == 110", "continue", "continue", "condition 1 i == 5000",
         "reverse-continue"],
        ["No more reverse-execution history", r"Thread 1 .*hit Breakpoint 1, add \(i=(?:i@entry=)?120\)", "= 120",
         r"Thread 2 .*hit Breakpoint 1, add \(i=(?:i@entry=)?1000\)", "= 1000", r"Thread 1 .*hit Breakpoint 1, add \(i=(?:i@entry=)?0\)", "= 0",
         r"Thread 1 .*hit Breakpoint 1, add \(i=(?:i@entry=)?110\)", "No more reverse-execution history", "No more reverse-execution history"],
        locked=False,
    ),
    "06-conditions-without-value": Session(
        "cond",
        ["break add if 1 / (i - 20) == 5", "continue", "print i", "delete", "starti", "break add if *(int *)0 == 5", "continue", "print i", "delete",
         "starti", r'dprintf add,"at %d\n", i', "condition 3 i == 30", "break add if i == 31", "continue", "condition 4 i == 35", "continue",
         "condition 4 i == 33", "reverse-continue", "condition 4 i == 5000", "continue", "reverse-continue"],
        ["Division by zero", "= 20", "Cannot access memory at address 0x0", "= 0", "^at 30$", r"add \(i=(?:i@entry=)?31\)", r"add \(i=(?:i@entry=)?35\)",
         r"add \(i=(?:i@entry=)?33\)", "No more reverse-execution history", "^at 30$", "No more reverse-execution history"],
        target="extended-remote",
    ),
    "07-watch-sizes": Session(
        "over",
        ["thread 2", "print &label[2]", "watch label[2]", "watch wide", "watch *(short *)&label[3]", "continue", "continue", "continue",
         "reverse-continue", "reverse-continue", "reverse-continue"],
        ["Switching to thread 2", "wide", "Old value = 1", "New value = 4294967297", r"label\[2\]", "New value = 67 'C'", "Old value = 67 'C'",
         "Old value = 4294967297", "New value = 1$"],
    ),
    "08-alone": Session(
        "lost",
        ["info threads", "break write_count", "thread 2", "continue", "thread 3", "continue", "info threads", "reverse-continue", "info threads",
         "monitor pos"],
        [r'\* 1 +Thread 1 "0 \w+" \(at 0 of \d+\)', r'Thread 2 "1 \w+" hit Breakpoint 1, write_count \(count=1\)',
         r'Thread 3 "2 \w+" hit Breakpoint 1, write_count \(count=3\)', r'1 +Thread 1 "0 \w+" \(at [1-9]\d* of \d+\)',
         r'2 +Thread 2 "1 \w+" \(at [1-9]\d* of \d+\)', r'\* 3 +Thread 3 "2 \w+" \(at [1-9]\d* of \d+\)', "No more reverse-execution history",
         r"\* 3 .*\(at 0 of \d+\)", r"at [1-9]\d* [1-9]\d* 0"],
    ),
    "09-moved-along": Session(
        "lost",
        ["tbreak lost.c:24", "continue", "next", "next", "info threads"],
        [r"adder_body \(\) at .*lost.c:24", r"2 +Thread 2 .*\(at [1-9]\d* of \d+\)", r"3 +Thread 3 .*\(at [1-9]\d* of \d+\)"],
    ),
    "10-together": Session(
        "lost",
        ["break write_count", *["continue"] * 7, *["reverse-continue"] * 7],
        [*[r"write_count \(count=\d\)"] * 6, "No more reverse-execution history", *["hit Breakpoint"] * 6, "No more reverse-execution history"],
        locked=False,
    ),
    "11-own-memory": Session(
        "lost",
        ["break lost.c:25 thread 2", "thread 2", "continue", "continue", "thread apply all print rounds", "thread 1", "print rounds", "thread 2",
         "print rounds"],
        ["Thread 2 .*lost.c:25", "Thread 2 .*lost.c:25", r"Thread 3.*\n\$1 = 0", r"Thread 2.*\n\$2 = 2", r"Thread 1.*\n\$3 = ", r"\$4 = ", r"\$5 = 2"],
    ),
    "12-objects": Session(
        "objs",
        ["thread 1", "print account[0].object", "monitor obj 0", "set can-use-hw-watchpoints 0", "watch account[0].object.balance", "continue",
         "continue", "reverse-continue", "reverse-continue", "monitor owatch 0", "delete", "continue", "monitor log 0",
         "set var account[0].object.balance = 5"],
        [r"\{owner = 0, balance = 0", "version 0 left 0 readers - writer -", "Old value = 0", "New value = 10", "Old value = 10", "New value = 20",
         "Old value = 20", "New value = 10", "No more reverse-execution history|Old value = 10", "point 1", "SIGTRAP", "log 1 of 1",
         "A recording can't be changed: its memory and objects belong to the run"],
    ),
    "12-questions": Session(
        "objs",
        ["ir-who 0", "ir-who account[0].object.balance", "ir-who 0 1", "ir-stale", "ir-why 0 0", "ir-events 0", "ir-why", "break objs.c:11",
         "continue", "ir-why", "ir-events", "ir-who payer_body", "ir-who 99", "ir-events 7", "ir-why 0 99"],
        [r"object 0 versions \d", r"version 1 by thread \d event \d step \d+ readers \d  \(objs.c:\d+\)", r"object 0 versions \d",
         r"version 1 by thread \d event \d step \d+ word 1 \w{8}  \(objs.c:\d+\)", r"version 1 by thread \d event \d .*  \(objs.c:\d+\)",
         r"stale \d of \d", r"thread 0 event 0 step \d+ write 0 version \d readers \d  \(objs.c:\d+\)",
         r"^thread 0 event 0 step \d+ pc 000\w+ .*  \(objs.c:\d+\)", "Thread 0 has made no event yet", "hit Breakpoint 1",
         r"thread 0 event 0 step \d+ .*  \(objs.c:\d+\)", r"thread 0 event 0 .*  \(objs.c:\d+\)", "payer_body is no word of an object",
         "the trace has no object of this number", "Thread 7 has no event",
         "the thread has no event of this number"],
    ),
    "12-watched-words": Session(
        "objs",
        ["watch *(int *)0x80000004", "watch -l account[0].object.owner", *["continue"] * 3, "x/2xw 0x80000000", *["continue"] * 2,
         *["reverse-continue"] * 5, "delete", "tbreak objs.c:9", "continue", "watch *(long long *)0x80000000", "next", "stepi", "reverse-next",
         "reverse-stepi", "bt"],
        [r'Thread 2 "1 \w+" hit Hardware watchpoint 2', "Old value = 0", "New value = 2", r"payer_body \(\) at .*objs.c:10",
         r'Thread 2 "1 \w+" hit Hardware watchpoint 1', "Old value = 0", "New value = 10", r"payer_body \(\) at .*objs.c:11",
         r'Thread 1 "0 \w+" hit Hardware watchpoint 2', "Old value = 2", "New value = 1", r"0x80000000:\s+0x00000001\s+0x0000000a",
         r'Thread 1 "0 \w+" hit Hardware watchpoint 1', "Old value = 10", "New value = 20", "No more reverse-execution history",
         r'Thread 1 "0 \w+" hit Hardware watchpoint 1', "Old value = 20", "New value = 10", r"payer_body \(\) at .*objs.c:10",
         r'Thread 1 "0 \w+" hit Hardware watchpoint 2', "Old value = 1", "New value = 2", r"payer_body \(\) at .*objs.c:9",
         r'Thread 2 "1 \w+" hit Hardware watchpoint 1', "Old value = 10", "New value = 0",
         r'Thread 2 "1 \w+" hit Hardware watchpoint 2', "Old value = 2", "New value = 0", "No more reverse-execution history",
         r"Temporary breakpoint 3, payer_body \(\) at .*objs.c:9", "Old value = 0", r"New value = [12]$", "Old value = [12]$", "New value = 0",
         r"#1 .*payer \(\)"],
        locked=False,
    ),
    "12-unwatchable": Session(
        "objs",
        ["watch *(int *)0x80000040", "continue", "delete", "watch *(long long *)0x8000003c", "continue", "delete", "watch *(char (*)[64])0x80000000",
         "continue", "delete", "rwatch *(int *)0x80000004", "awatch *(int *)0x80000004",
         "watch account[0].object.balance", "continue", "delete", "continue"],
        [*["Could not insert hardware watchpoint"] * 2, "hit Hardware watchpoint 3",
         *["Reads can't be watched: watch stops at changes, and ir-who OBJECT VERSION names who read an object"] * 2,
         "Could not insert hardware watchpoint", "No more reverse-execution history"],
        locked=False,
    ),
    "12-writers": Session(
        "objs",
        ["ir-owatch account[0].object.balance", "continue", "print account[0].object", "continue", "print account[0].object", "continue", "reverse-continue",
         "reverse-continue", "reverse-continue", "monitor clear 1"],
        ["point 1", r'Thread (\d) "\d \w+" received signal SIGTRAP', r"\{owner = \d, balance = 10", r'Thread (\d) "\d \w+" received signal SIGTRAP',
         r"\{owner = \d, balance = 20", "No more reverse-execution history", "received signal SIGTRAP", "received signal SIGTRAP",
         "No more reverse-execution history", "cleared 1"],
        locked=False,
    ),
    "13-read-only": Session(
        "over",
        ["tbreak fill", "continue", "set var table.limit = 3", "print table.limit = 4", "set table.limit = 4", "set var $a0 = 5", "set var $pc = 0x10000",
         "print $sp = 1", "set var *(int *)0x80000000 = 1", "call square(3)", "print square(3)", "jump 37", "return", "print table.limit", "print $pc",
         "set var $mine = 7", "print $mine", "set $mine = 8", "call $mine", "call/x table.limit", "set var nosuch = 1", "set variable", "call nosuch", "continue"],
        [*["A recording can't be changed: its memory and objects belong to the run", *[r"Writing to memory is not allowed \(addr 0x\w+, len 4\)"] * 2],
         *["A recording can't be changed: its registers belong to the run"] * 2, r"Writing to registers is not allowed \(regno 2\)",
         "A recording can't be changed: its memory and objects belong to the run",
         "A recording can't be changed: no function of the program can be called, and nothing can be set", "is not allowed",
         "A recording can't be changed: its threads go where they went", "A recording can't be changed: reverse-finish goes to where this function was called",
         r"print table.limit\n\$\d = 100", r"0x\w+ <fill\+\d+>", "= 7$", "= 8$", "= 0x64$", 'No symbol "nosuch" in current context', "Argument required",
         'No symbol "nosuch" in current context', "received signal SIGTERM"],
    ),
    "13-read-only-without-a-recording": Session("over", ["disconnect", "jump 37", "return", "set var $mine = 7", "call $mine"],
                                                ["The program is not being run", "No selected frame", "= 7$"]),
    "14-nowhere": Session(
        "over",
        ["x/4xw 0x20000", "x/8xb 0x10fffc", "x/xw 0", "break *0x20000", "continue", "delete", "watch *(int *)0x10fffe", "continue", "delete",
         "break *0x10002", "continue", "delete", "rwatch table.limit", "continue"],
        ["Cannot access memory at address 0x20000", r"0x00\s+0x00\s+0x00\s+0x00\s+Cannot access memory at address 0x110000|0x10fffc.*\n?.*Cannot access memory at address 0x110000",
         "Cannot access memory at address 0x0", "Cannot insert breakpoint", "Could not insert hardware watchpoint", "Cannot insert breakpoint",
         "Reads can't be watched", "received signal SIGTERM"],
    ),
    "15-run": Session(
        "lost",
        ["tbreak write_count", "continue", "monitor keep", "continue", "tbreak lost.c:25", "run 1", "info threads", "tbreak adder_body", "set args", "run",
         "info threads"],
        [r"write_count \(count=1\)", "kept 1", "No more reverse-execution history", "lost.c:25", r"\* \d .*\(at [1-9]\d* of \d+\)",
         r"adder_body \(\) at .*lost.c:22", r"\* \d .*\(at \d+ of \d+\)"],
        locked=False,
        target="extended-remote",
    ),
    "16-monitor": Session(
        "lost",
        ["ir-goto 1 30", "info threads", "monitor keep", "ir-goto 0 60", "ir-load 1", "info threads"],
        ["at 0 30 0|at [0-9]+ 30 ", r"2 .*\(at 30 of \d+\)", "kept 1", "at 60 ", r"\(at 30 of \d+\)"],
    ),
    "16-moved-by-monitor": Session(
        "over",
        ["bt", "break fill", "continue", "info threads", "monitor start", "info threads", "print $pc", "bt"],
        [r"\(gdb\) bt\n#0 .*filler \(\) at .*\n\(gdb\) break", "hit Breakpoint 1", r"\* 1 .*fill \(last=4\)", "at 0 0", r"\* 1 .*filler \(\)", r"<filler>$",
         r"\(gdb\) bt\n#0 .*filler \(\) at .*\n"],
    ),
}


# Packets by hand.


def packet(payload):
    """A payload as a packet."""
    return b"$" + payload + b"#%02x" % (sum(payload) % 256)


def line(text):
    """The packet of a session's line."""
    return packet(b"qRcmd," + text.encode().hex().encode())


def written(folder, guest, pieces):
    """What is written where these bytes are read."""
    return run(["gdb", f"{guest}.img", f"{guest}.trc"], folder, input=b"".join(pieces)).stdout


# After the first: no acknowledgements. Each row: what is read, and the payloads that are written.
BY_HAND = [
    (b"junk-\x03", []),
    (packet(b""), [b""]),
    (packet(b"nonsense"), [b""]),
    (b"$g#00", []),
    (packet(b"m"), [b"E01"]),
    (packet(b"mzz,4"), [b"E01"]),
    (packet(b"m100000"), [b"E01"]),
    (packet(b"m20000,4"), [b"E0E"]),
    (packet(b"m10fffc,8"), [b"00000000"]),
    (packet(b"Hg9"), [b"E01"]),
    (packet(b"Hgp1.1"), [b"E01"]),
    (packet(b"T5"), [b"E01"]),
    (packet(b"T2"), [b"OK"]),
    (packet(b"T1"), [b"OK"]),
    (packet(b"Z0,10001,4"), [b"E0E"]),
    (packet(b"Z0,20000,4"), [b"E0E"]),
    (packet(b"Z2,10ffff,4"), [b"E0E"]),
    (packet(b"Z2,100000,101"), [b"E0E"]),
    (packet(b"Z3,100000,4"), [b""]),
    (packet(b"p21"), [b"E01"]),
    (packet(b"G00"), [b"E.a recording can't be changed"]),
    (packet(b"M100000,1:00"), [b"E.a recording can't be changed"]),
    (packet(b"vCont;s:9"), [b"E01"]),
    (packet(b"vCont;t:1"), [b"E01"]),
    (packet(b"c10000"), [b"E01"]),
    (packet(b"qRcmd,zz"), [b"E01"]),
    (line("quit"), [b"E01"]),
    (line("pos"), [b"O" + b"at 0 0\n".hex().encode(), b"OK"]),
    (b"$" + b"m" * 5000 + b"#00", [b""]),
    (packet(b"m100000,4}\x03"), [b"E01"]),
    (b"$m10$" + packet(b"T1")[1:], [b"OK"]),
    (b"$m100000,4", []),
]


def check_by_hand(folder):
    """Bad packets, copies, refused replies and the end of the input."""
    opening = [b"+-", packet(b"qAttached"), packet(b"qAttached"), b"-", b"+", packet(b"QStartNoAckMode"), b"+"]
    found = written(folder, "over", opening + [read for read, _ in BY_HAND])
    wanted = b"+" + packet(b"1") * 2 + b"+" + packet(b"OK") + b"".join(packet(payload) for _, payloads in BY_HAND for payload in payloads)
    if found != wanted:
        raise Wrong(f"packets by hand: found {found!r}, wanted {wanted!r}")
    found = written(folder, "over", [b"$g#00", packet(b"D"), packet(b"g")])
    if found != b"-+" + packet(b"OK"):
        raise Wrong(f"a wrong sum, and packets after the end: found {found!r}")
    found = written(folder, "over", [line("pos"), b"+-"])
    if found != b"+" + packet(b"O" + b"at 0 0\n".hex().encode()) + packet(b"OK") * 2:
        raise Wrong(f"the last packet of an answer, refused: found {found!r}")


def check_full(folder):
    """64 points, and one more; the same again takes no room."""
    points = [packet(b"Z0,%x,4" % (0x10000 + 4 * i)) for i in range(65)]
    found = written(folder, "over", [packet(b"QStartNoAckMode"), *points, packet(b"Z2,100000,4"), points[0], packet(b"z0,10000,4"), points[64]])
    replies = [b"OK"] * 64 + [b"E1C", b"E1C", b"OK", b"OK", b"OK"]
    wanted = b"+" + packet(b"OK") + b"".join(map(packet, replies))
    if found != wanted:
        raise Wrong(f"65 points: found {found!r}, wanted {wanted!r}")


def check_interrupt(folder):
    """The byte 03 ends the next move before it is made."""
    found = written(folder, "over", [packet(b"QStartNoAckMode"), packet(b"vCont;c:1"), b"\x03", packet(b"bs"), packet(b"vCont;s:2"), line("pos")])
    if b"$T02thread:00000001;" not in found or b"$T05thread:00000002;" not in found:
        raise Wrong(f"an interrupt: found {found!r}")


def check_slow_opening(folder):
    """A recording that takes longer to open than gdb waits for an answer."""
    (folder / "spin.s").write_text("        .thread spin\nspin:   jal zero, spin\n")
    for words in ("asm spin.s spin.img", "record spin.img spin.trc --budget 3000000000"):
        ended = run(words, folder)
        if ended.returncode:
            raise Wrong(f"{words}: {ended!r}")
    wanted = [r"\(at 0 of 3000000001\)", r"\(at 1 of 3000000001\)"]
    check_session(Session("spin", ["info threads", "stepi", "info threads"], wanted), folder)
    # without ir.gdb gdb waits some seconds for a byte
    words = [GDB, "-nx", "-batch", "-ex", "set architecture riscv:rv32", "-ex", f"target remote | {program()} gdb spin.img spin.trc", "-ex", "info threads"]
    ended = subprocess.run(words, cwd=folder, stdin=subprocess.DEVNULL, stdout=subprocess.PIPE, stderr=subprocess.STDOUT, text=True, timeout=600, check=False)
    if not re.search(wanted[0], ended.stdout):
        raise Wrong(f"without ir.gdb: {ended.stdout}")


def assembled(folder, guest):
    """Assembles and records a guest of the repository."""
    for words in (["asm", str(TOP / "examples" / f"{guest}.s"), f"{guest}.img"], ["record", f"{guest}.img", f"{guest}.trc"]):
        ended = run(words, folder)
        if ended.returncode:
            raise Wrong(f"{words}: {ended!r}")


OVER = "No more reverse-execution history"


def check_at_a_call(folder):
    """Breakpoints at entries: a step over one passes no hit of another thread, unless that thread is to move alone."""
    assembled(folder, "lost_update")
    breaks = ["break *0x10008", "break *0x10034"]
    hits = [r'Thread 1 "thread 0" hit Breakpoint 1', r'Thread 2 "thread 1" hit Breakpoint 1', r'Thread 2 "thread 1" hit Breakpoint 2',
            r'Thread 1 "thread 0" hit Breakpoint 2', OVER]
    check_session(Session("lost_update", [*breaks, *["continue"] * 5, "monitor pos"], [*hits, "at 25 25"], locked=False), folder)
    check_session(Session("lost_update", [*breaks, "continue", "stepi", "stepi", "monitor pos"], [*hits[:2], "0x0001000c", "at 2 3"], locked=False), folder)
    check_session(Session("lost_update", [*breaks, *["continue"] * 3, "monitor pos"], [hits[0], hits[3], OVER, r"at 25 2\d"]), folder)
    check_session(Session("lost_update", [*breaks, "set scheduler-locking off", "continue", "set scheduler-locking on", "stepi", "monitor pos"],
                          [hits[0], "SIGTRAP", "0x0001000c", r"at 3 \d+"]), folder)


def check_at_an_end(folder):
    """A breakpoint where threads end is shown once for each, and gdb goes on."""
    assembled(folder, "lost_update")
    hits = [r'Thread \d "thread \d" hit Breakpoint 1'] * 2
    lines = ["break *0x10060", *["continue"] * 3, "monitor pos", *["reverse-continue"] * 3, *["continue"] * 3, "monitor pos"]
    wanted = [*hits, OVER, "at 25 25", *hits, OVER, *hits, OVER, "at 25 25"]
    check_session(Session("lost_update", lines, wanted, locked=False), folder)
    lines = ["break *0x10060", *["continue"] * 3, "thread 2", *["continue"] * 2, "reverse-continue", "continue"]
    check_session(Session("lost_update", lines, ["thread 0.* hit", OVER, OVER, "thread 1.* hit", OVER, "thread 1.* hit", OVER]), folder)


def machine_interface(folder, lines):
    """What gdb answers to these lines of its machine interface, each waited for."""
    words = [GDB, "-nx", "-q", "--interpreter=mi3", "over.elf"]
    gdb = subprocess.Popen(words, cwd=folder, stdin=subprocess.PIPE, stdout=subprocess.PIPE, stderr=subprocess.DEVNULL, text=True, errors="replace")
    said = []
    # A gdb that says nothing more is ended, and then its answers are over.
    late = threading.Timer(120, gdb.kill)
    late.start()
    try:
        with gdb:
            for number, text in enumerate(lines):
                gdb.stdin.write(f"{number}{text}\n")
                gdb.stdin.flush()
                # a move is answered at once, and ends later
                waits = [f"{number}^"] + ["*stopped"] * ("-exec-" in text)
                for start in waits:
                    for line in gdb.stdout:
                        said.append(line)
                        if line.startswith(start):
                            break
            gdb.stdin.write("-gdb-exit\n")
            gdb.stdin.flush()
            said += gdb.stdout.readlines()
    finally:
        late.cancel()
    return "".join(said)


def check_machine_interface(folder):
    """What an editor does: a breakpoint, a stack, variables, a step, the same backwards, and threads."""
    said = machine_interface(folder, [
        "-gdb-set confirm off", "-gdb-set mi-async off", f"-target-select remote | {program()} gdb over.img over.trc", "-break-insert fill", "-exec-continue",
        "-stack-list-frames", "-stack-list-variables --simple-values", "-data-evaluate-expression last", "-exec-next", "-exec-next --reverse",
        "-exec-continue --reverse", "-thread-info", "-data-list-register-values x 32"])
    at = 0
    for wanted in (r'2\^connected', r'3\^done,bkpt=\{number="1",type="breakpoint"', r'\*stopped,reason="breakpoint-hit",.*bkptno="1".*func="fill"',
                   r'5\^done,stack=\[frame=\{level="0",.*func="fill".*level="1",.*func="filler_body"', r'6\^done,variables=\[.*name="last",.*value="4"',
                   r'7\^done,value="4"', r'\*stopped,reason="end-stepping-range",.*func="fill"', r'\*stopped,.*func="fill"',
                   r'No more reverse-execution history[\s\S]*\*stopped,', r'11\^done,threads=\[.*target-id="Thread 1".*name="thread 0"',
                   r'12\^done,register-values=\[\{number="32",value="0x[0-9a-f]+"'):
        found = re.compile(wanted, re.M).search(said, at)
        if not found:
            raise Wrong(f"not found: {wanted!r}\n{said}")
        at = found.end()


# The lines of calls.c that make a call.
CALLS = range(7, 14)


def check_calls(folder):
    """A line that makes calls has a single place and no variables but the user's. A step over it is a single one, and quick, both ways."""
    for level in ("-O0", "-Og", "-O2"):
        command = [GCC, str(GUESTS / "calls.c"), "@guest/ir.opts", level, "-o", "calls.elf"]
        subprocess.run(command, cwd=folder, check=True)
        for words in ("elf calls.elf calls.img", "record calls.img calls.trc --order 0 --budget 10000000"):
            ended = run(words, folder)
            if ended.returncode:
                raise Wrong(f"{words} at {level}: {ended!r}")
        lines = [*(f"break calls.c:{line}" for line in CALLS), *(text for _ in CALLS for text in ("continue", "info locals")), "continue"]
        wanted = [*(rf"^Breakpoint \d at 0x\w+: file .*calls.c, line {line}\.$" for line in CALLS),
                  *(rf"hit Breakpoint \d, caller_body \(\) at .*calls.c:{line}\n.*\n\(gdb\) info locals\n(local = .*|No locals\.)\n\(gdb\)"
                    for line in CALLS), "received signal SIGTERM"]
        check_session(Session("calls", lines, wanted), folder)
        if level == "-O2":  # there the instructions of lines are mixed
            continue
        steps = ["tbreak calls.c:7", "continue", *["next"] * 2, *["step"] * 3, *["reverse-step"] * 2, *["reverse-next"] * 3]
        stops = [f"^{line}\t" for line in (8, 9, 10, 11, 12, 11, 10, 9, 8, 7)]
        check_session(Session("calls", steps, [r"caller_body \(\) at .*calls.c:7$", *stops]), folder)


# Ends by their numbers: the signal that gdb shows, and the words in its list of threads.
ENDS = {
    1: ("SIGTERM", "code 41"),
    2: ("SIGABRT", "EBREAK"),
    3: ("SIGILL", "no instruction"),
    4: ("SIGBUS", "misaligned jump"),
    5: ("SIGSEGV", "outside the code"),
    6: ("SIGSEGV", "bad load"),
    7: ("SIGSEGV", "bad store"),
    8: ("SIGSYS", "unknown call"),
    9: ("SIGSYS", "no such object"),
    10: ("SIGSYS", "entry out of order"),
    11: ("SIGSYS", "object not held"),
    12: ("SIGXFSZ", "too much output"),
    13: ("SIGXCPU", "budget spent"),
}


def check_bad_ends(folder):
    """A thread that ends badly is named by its signal: at the end of the recording, and where the thread itself comes to its end."""
    for way, (signal_name, words) in ENDS.items():
        command = [GCC, str(GUESTS / "ends.c"), "@guest/ir.opts", "-O0", f"-DWAY={way}", "-Wno-all", "-o", "ends.elf"]
        subprocess.run(command, cwd=folder, check=True)
        for text in ("elf ends.elf ends.img", "record ends.img ends.trc --budget 400000"):
            ended = run(text, folder)
            if ended.returncode:
                raise Wrong(f"{text} with end {way}: {ended!r}")
        told = rf'Thread 2 "1 \w+" received signal {signal_name}'
        all_words = [rf'\d +Thread 1 .*\(at (\d+) of \1 done\)', rf'\* 2 +Thread 2 .*\(at (\d+) of \1 ended: {words}\)']
        lines = ["continue", "info threads", "continue", "reverse-continue", "thread 1", "continue", "thread 1", "reverse-stepi", "stepi", "info threads"]
        wanted = [told, *all_words, OVER, OVER, told, r"\(gdb\) stepi\n0x", r"\* 1 +Thread 1 "]
        check_session(Session("ends", lines, wanted, locked=False), folder)
        check_session(Session("ends", ["thread 2", "continue", "continue", "thread 1", "continue"], [told, OVER, OVER]), folder)
    # a step over a breakpoint, and a single step, to the thread's end
    told = r'Thread 2 "1 \w+" received signal SIGXCPU'
    lines = ["thread 2", "continue", "reverse-stepi", "break *$pc", "stepi", "reverse-stepi", "delete", "stepi"]
    check_session(Session("ends", lines, [told, told, told], locked=False), folder)


def check_object_words(folder):
    """A watch of an object's word stops at the steps that `ir who --word` names, forwards and backwards."""
    subprocess.run([GCC, str(TOP / "examples" / "c" / "bank.c"), "@guest/ir.opts", "-o", "money.elf"], cwd=folder, check=True)
    for words in (["elf", "money.elf", "money.img"], ["hunt", "money.img", "money.trc", "--seeds", "1+1000", "--until", "!word 0 0 20"]):
        ended = run(words, folder)
        if ended.returncode:
            raise Wrong(f"{words}: {ended!r}")
    said = run("who money.trc 0 --word 0 --image money.img", folder).stdout.decode()
    values = [int(value, 16) for value in re.findall(r" word 0 (\w{8})$", said, re.M)]
    values = [value - 2**32 if value >= 2**31 else value for value in values]
    writers = [(int(thread), int(step)) for thread, step in re.findall(r"^version \d+ by thread (\d+) .*step (\d+) word", said, re.M)]
    changes = [(*writer, old, new) for writer, old, new in zip(writers, values, values[1:]) if old != new]
    if len({thread for thread, *_ in changes}) != 2:
        raise Wrong(f"one writer only: {said}")
    wanted = []
    for thread, step, old, new in changes:
        wanted += [rf'Thread {thread + 1} "{thread} \w+" hit Hardware watchpoint 1', rf"Old value = {old}$", rf"New value = {new}$",
                   r"^at " + r"\d+ " * thread + rf"{step + 1}\b"]
    wanted.append("No more reverse-execution history")
    for thread, step, old, new in reversed(changes):
        wanted += [rf'Thread {thread + 1} "{thread} \w+" hit Hardware watchpoint 1', rf"Old value = {new}$", rf"New value = {old}$", "bank.c:26",
                   r"^at " + r"\d+ " * thread + rf"{step}\b"]
    wanted.append("No more reverse-execution history")
    moves = [line for move in ("continue", "reverse-continue") for line in [move, "monitor pos"] * (len(changes) + 1)]
    check_session(Session("money", ["watch *(int *)0x80000000", *moves], wanted, locked=False), folder)


def check_other_file(folder):
    """A file of another program than the one that was recorded is told on connecting."""
    for name in ("img", "trc"):
        shutil.copy(folder / f"objs.{name}", folder / f"other.{name}")
    shutil.copy(folder / "over.elf", folder / "other.elf")
    check_session(Session("other", [], ["The program of this file isn't the one that was recorded"]), folder)


# Questions that `monitor` takes, and what asks the same on the command line, but for the files.
QUESTIONS = {
    "who 0": ["who", "TRACE", "0", "--image", "IMAGE"],
    "who 0 1": ["who", "TRACE", "0", "1", "--image", "IMAGE"],
    "who 0 word 0": ["who", "TRACE", "0", "--word", "0", "--image", "IMAGE"],
    "stale": ["stale", "TRACE", "--image", "IMAGE"],
    "why 1 0": ["why", "TRACE", "1", "0", "--image", "IMAGE"],
    "events": ["events", "IMAGE", "TRACE"],
    "who 999": ["who", "TRACE", "999", "--image", "IMAGE"],
    "who 0 99": ["who", "TRACE", "0", "99", "--image", "IMAGE"],
    "who 0 word 99": ["who", "TRACE", "0", "--word", "99", "--image", "IMAGE"],
    "why 9 0": ["why", "TRACE", "9", "0", "--image", "IMAGE"],
    "why 0 999": ["why", "TRACE", "0", "999", "--image", "IMAGE"],
}

# How questions are written, said where one is written otherwise.
USAGES = {
    "who": "usage: monitor who OBJECT [VERSION], or monitor who OBJECT word WORD",
    "who 0 words 0": "usage: monitor who OBJECT [VERSION], or monitor who OBJECT word WORD",
    "who -1": "usage: monitor who OBJECT [VERSION], or monitor who OBJECT word WORD",
    "stale 0": "usage: monitor stale",
    "why 1": "usage: monitor why [THREAD EVENT]",
    "events 0 1": "usage: monitor events [THREAD]",
}


def monitored(folder, guest, lines):
    """What a gdb without ir.gdb prints for each of these lines of `monitor`."""
    words = [GDB, "-nx", "-q", "-batch", "-ex", "set width 0", "-ex", f"target remote | {program()} gdb {guest}.img {guest}.trc"]
    for line in lines:
        words += ["-ex", r"echo \n== asked\n", "-ex", f"monitor {line}"]
    words += ["-ex", r"echo \n== asked\n"]
    ended = subprocess.run(words, cwd=folder, stdin=subprocess.DEVNULL, stdout=subprocess.PIPE, stderr=subprocess.STDOUT, text=True, timeout=100, check=False)
    said = ended.stdout.split("\n== asked\n")[1:-1]
    if len(said) != len(lines):
        raise Wrong(f"{guest}: not all lines were answered: {ended.stdout}")
    return said


def said_by_program(folder, guest, words):
    """What the program prints, or the words of its fault."""
    files = {"TRACE": f"{guest}.trc", "IMAGE": f"{guest}.img"}
    ended = run([files.get(word, word) for word in words], folder)
    return ended.stdout.decode() or ended.stderr.decode().removeprefix("ir: ").splitlines()[0] + "\n"


def why_before(folder, guest, position):
    """What `ir why` prints of the last event that thread 0 makes before a position."""
    lines = said_by_program(folder, guest, QUESTIONS["events"]).splitlines()
    made = [line.split()[3] for line in lines if line.startswith("thread 0 ") and int(line.split()[5]) < position]
    return said_by_program(folder, guest, ["why", "TRACE", "0", made[-1], "--image", "IMAGE"]) if made else "the thread has made no event yet\n"


def check_questions(folder):
    """Questions of the run that `monitor` takes are answered as by the commands, and no thread moves."""
    for guest in ("lost", "objs", "cond"):
        wanted = [(line, said_by_program(folder, guest, words)) for line, words in QUESTIONS.items()]
        events = said_by_program(folder, guest, QUESTIONS["events"]).splitlines(keepends=True)
        wanted += [("events 1", "".join(line for line in events if line.startswith("thread 1 ")))]
        wanted += [(line, f"{text}\n") for line, text in USAGES.items()]
        (first, *rest) = monitored(folder, guest, ["step 0 30", "step 0 30", "end"])
        positions = [int(said.split()[1]) for said in rest]
        wanted += [("why", why_before(folder, guest, 0)), ("step 0 30", first), ("why", why_before(folder, guest, int(first.split()[1])))]
        wanted += [("step 0 30", rest[0]), ("why", why_before(folder, guest, positions[0])), ("end", rest[1]), ("why", why_before(folder, guest, positions[1]))]
        for (line, text), said in zip(wanted, monitored(folder, guest, [line for line, _ in wanted])):
            if said != text:
                raise Wrong(f"{guest}: monitor {line}: {said!r} instead of {text!r}")


def check_forged(folder):
    """What can't be opened is named on standard error, and nothing is read."""
    (folder / "none.trc").write_bytes(b"nothing")
    ended = run("gdb over.img none.trc", folder, input=packet(b"g"))
    if ended.returncode != 3 or ended.stdout or not ended.stderr.startswith(b"trace refused "):
        raise Wrong(f"a trace that is refused: {ended!r}")
    ended = run("gdb over.img lost.trc", folder, input=packet(b"g"))
    if ended.returncode != 4 or ended.stdout or not ended.stderr:
        raise Wrong(f"a trace of another image: {ended!r}")


# Sessions of gdb.


def words_of(session, folder):
    """How gdb is started."""
    server = f"{program()} gdb {session.guest}.img {session.guest}.trc"
    words = [GDB, "-nx", "-batch", "-ex", "set architecture riscv:rv32"]
    if (folder / f"{session.guest}.elf").exists():
        words.append(f"{session.guest}.elf")
    lines = ["set pagination off", "set confirm off", "set width 0", f"source {TOP / 'examples' / 'ir.gdb'}", f"target {session.target} | {server}"]
    if session.locked:
        lines.append("set scheduler-locking on")
    for text in lines:
        words += ["-ex", text]
    for text in session.lines:
        words += ["-ex", "echo (gdb) " + text.replace('"', '\\"') + "\\n", "-ex", text]
    return words


def check_session(session, folder):
    """What a session prints, against what is wanted."""
    ended = subprocess.run(words_of(session, folder), cwd=folder, stdin=subprocess.DEVNULL, stdout=subprocess.PIPE, stderr=subprocess.STDOUT, text=True,
                           errors="replace", timeout=300, check=False)
    at = 0
    for wanted in session.wanted:
        found = re.compile(wanted, re.M).search(ended.stdout, at)
        if not found:
            raise Wrong(f"not found: {wanted!r}\n{ended.stdout}")
        at = found.end()
    if os.environ.get("SHOW"):
        print(ended.stdout)


class Terminal:
    """gdb at a terminal."""

    def __init__(self, folder, *words):
        self.said = b""
        self.child, self.device = pty.fork()
        if self.child == 0:
            os.chdir(folder)
            os.environ["TERM"] = "dumb"
            os.execvp(GDB, [GDB, "-nx", "-q", *words])

    def __enter__(self):
        return self

    def __exit__(self, *_):
        os.kill(self.child, signal.SIGKILL)
        os.waitpid(self.child, 0)
        os.close(self.device)

    def type(self, text, until, seconds=60):
        """Types a text, and waits until this is printed."""
        os.write(self.device, text)
        start, end = len(self.said), time.time() + seconds
        while not re.search(until, self.said[start:]):
            if time.time() > end:
                raise Wrong(f"after {text!r} no {until!r} came: {self.said[start:]!r}")
            if select.select([self.device], [], [], 0.2)[0]:
                self.read()
        return self.said[start:]

    def read(self):
        """Takes what was printed."""
        try:
            self.said += os.read(self.device, 65536)
        except OSError as error:
            raise Wrong(f"gdb has ended: {self.said!r}") from error


def check_ctrl_c(folder):
    """Ctrl-C ends a continue that gdb goes on with itself."""
    prompt = rb"\(gdb\) $"
    with Terminal(folder, "-ex", "set pagination off", "-ex", "set confirm off", "-ex", "set remotetimeout unlimited", "busy.elf") as gdb:
        gdb.type(b"", prompt)
        gdb.type(f"target remote | {program()} gdb busy.img busy.trc\n".encode(), prompt)
        for text in (b"set scheduler-locking on\n", b"set can-use-hw-watchpoints 0\n", b"watch made[63] if made[63] == 1\n"):
            gdb.type(text, prompt)
        os.write(gdb.device, b"continue\n")
        time.sleep(1.5)
        gdb.type(b"\x03", rb"SIGINT[\s\S]*\(gdb\) $")
        gdb.type(b"info threads\n", rb"thread 1[\s\S]*\(gdb\) $")


def guide_of(text):
    """The commands of a page for the shell, each with what is typed in gdb, and what they write."""
    commands, is_written = [], False
    for line in text.splitlines():
        if line.startswith("    $ "):
            commands.append((line[6:], [], []))
        elif line.startswith("    (gdb) "):
            commands[-1][1].append(line[10:])
            is_written = True
        elif line.startswith("    ") and is_written:
            commands[-1][2].append(line[4:].rstrip())
        elif line:
            is_written = False
    return commands


def check_guide(folder):
    """The commands of the guide's page, and each line that gdb writes there, in turn."""
    (folder / "ir").symlink_to(program())
    (folder / "examples").symlink_to(TOP / "examples")
    for command, typed, wanted in guide_of((TOP / "docs" / "guide" / "gdb.md").read_text()):
        words = ["bash", "-c", command]
        if typed:
            words = [GDB, "-nx", "-q", "-batch", "-ex", "set width 0", command.split()[-1]]
            for text in typed:
                words += ["-ex", text]
        ended = subprocess.run(words, cwd=folder, stdin=subprocess.DEVNULL, stdout=subprocess.PIPE, stderr=subprocess.STDOUT, text=True, timeout=100,
                               check=False)
        written = iter(ended.stdout.splitlines())
        missing = [line for line in wanted if line and not any(line == found.rstrip() for found in written)]
        if missing or (ended.returncode and not typed):
            raise Wrong(f"{command}: not written: {missing}\n{ended.stdout}")


CHECKS = {
    "17-ctrl-c": check_ctrl_c,
    "18-forged": check_forged,
    "18-slow-opening": check_slow_opening,
    "19-calls": check_calls,
    "19-machine-interface": check_machine_interface,
    "20-by-hand": check_by_hand,
    "21-full": check_full,
    "22-interrupt": check_interrupt,
    "23-guide": check_guide,
    "24-at-a-call": check_at_a_call,
    "25-at-an-end": check_at_an_end,
    "26-bad-ends": check_bad_ends,
    "27-other-file": check_other_file,
    "28-object-words": check_object_words,
    "29-questions": check_questions,
}


def made(folder):
    """Compiles, converts and records the guests."""
    (folder / "guest").symlink_to(TOP / "guest")
    for name, options in RECORDED.items():
        command = [GCC, str(GUESTS / f"{name}.c"), "@guest/ir.opts", "-O0", "-o", f"{name}.elf"]
        subprocess.run(command, cwd=folder, check=True)
        for words in (["elf", f"{name}.elf", f"{name}.img"], ["record", f"{name}.img", f"{name}.trc", *options]):
            ended = run(words, folder)
            if ended.returncode:
                raise Wrong(f"{words}: {ended!r}")


def main():
    parser = parser_of_program(__doc__)
    parser.add_argument("names", metavar="NAME", nargs="*", help="only these sessions")
    asked = parser.parse_args()
    if unknown := [name for name in asked.names if name not in SESSIONS and name not in CHECKS]:
        parser.error(f"no session {unknown[0]}")
    use(asked.program)
    if not (shutil.which(GDB) and shutil.which(GCC)):
        print(f"{GDB} and {GCC} aren't both installed, so nothing is tested")
        sys.exit(0)
    names = asked.names or sorted([*SESSIONS, *CHECKS])
    failed = 0
    with tempfile.TemporaryDirectory() as place:
        folder = Path(place)
        made(folder)
        for name in names:
            try:
                if name in SESSIONS:
                    check_session(SESSIONS[name], folder)
                else:
                    CHECKS[name](folder)
                print(f"{name}: passed", flush=True)
            except (Wrong, subprocess.TimeoutExpired, OSError) as wrong:
                failed += 1
                print(f"{name}: {wrong}", flush=True)
    sys.exit(finish(len(names) - failed, failed))


if __name__ == "__main__":
    main()
