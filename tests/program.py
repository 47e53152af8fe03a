#!/usr/bin/env python3
"""Tests of the program as a person runs it: closed and full devices, pipes, signals, files of a disk, and what the pages say.

python3 tests/program.py IR [TEST ..]

Runs each test in a folder of its own, or only those that are named. Needs Linux, and bash and xxd for the commands of the README and the
guide. The last line is `N passed, M failed`.
"""

import os
import resource
import shlex
import shutil
import signal
import subprocess
import sys
import tempfile
import time
from pathlib import Path

import hunting
import pages
import past
import places
from lib import BAD, DOUBLE, TOP, Wrong, assembled, counters, finish, interrupted, program, run, shell, use, wants

# Two threads; the first prints a byte, the second nothing.
TWO = """
        .thread prints
        .thread silent
prints: addi a0, zero, 65
        addi a7, zero, 2
        ecall
silent: ebreak
"""

# Never ends by itself.
FOREVER = "again: jal zero, again\n"

# What recordings of the first and the second print, and what is reported if it can't be written.
DOUBLE_LINE = b"thread 0 end 1 code 144 steps 6 events 0\n"
TWO_LINES = b"thread 0 end 2 code 0 steps 4 events 0\nthread 1 end 2 code 0 steps 1 events 0\n"
FULL = b"ir: standard output can't be written\n"

# The status where nobody reads what is printed: 128 and the number of SIGPIPE.
UNREAD = 141

# The fault of bad.s, and what explains it.
BAD_LINE = "line 2 error 2\n"
EXPLAINED = BAD_LINE + "bad.s:2: an unknown instruction or directive: x\n"

# Each row: the arguments, the exit status, and what standard error says.
ARGUMENTS = [
    ("asm", 2, "ir: the following required arguments were not provided: <SOURCE> <IMAGE>\n"),
    ("asm d.s", 2, "ir: the following required arguments were not provided: <IMAGE>\n"),
    ("record d.img", 2, "ir: the following required arguments were not provided: <TRACE>\n"),
    ("play", 2, "ir: unrecognized subcommand 'play': see ir --help\n"),
    ("exploer d.img", 2, "ir: unrecognized subcommand 'exploer': did you mean 'explore'?\n"),
    ("asm d.s d2.img --fast", 2, "ir: unexpected argument '--fast' found\n"),
    ("record d.img d.trc --budget x", 2, "ir: --budget: 'x' is no number up to 1000000000000\n"),
    ("record d.img d.trc --budget=-1", 2, "ir: --budget: '-1' is no number up to 1000000000000\n"),
    ("record d.img d.trc --budget -1", 2, "ir: unexpected argument '-1' found\n"),
    ("record d.img d.trc --budget 1000000000001", 2, "ir: --budget: '1000000000001' is no number up to 1000000000000\n"),
    ("record d.img d.trc --random 1x", 2, "ir: --random: '1x' is no number up to 18446744073709551615\n"),
    ("asm none.s d2.img", 1, "ir: none.s can't be read: no such file or folder\n"),
    ("asm folder d2.img", 1, "ir: folder can't be read: it is a folder\n"),
    ("asm d.s folder", 1, "ir: folder can't be written: it is a folder\n"),
    ("asm d.s none/d.img", 1, "ir: none/d.img can't be written: no such file or folder\n"),
    ("asm d.s d.s/d.img", 1, "ir: d.s/d.img can't be written: its path goes through what is no folder\n"),
    ("asm long d2.img", 1, "ir: long is over 200000000 bytes\n"),
    ("asm bad.s d2.img", 3, BAD_LINE),
    ("asm --explain bad.s d2.img", 3, EXPLAINED),
    ("asm bad.s d2.img --explain", 3, EXPLAINED),
    ("asm --explain=1 bad.s d2.img", 2, "ir: unexpected value '1' for '--explain' found; no more were expected\n"),
    ("record d.img d.trc --profile 3", 2, "ir: --profile: '3' is neither 1 nor 2\n"),
    ("record d.img d.trc --profile", 2, "ir: a value is required for '--profile <P>' but none was supplied\n"),
    ("record none.img d.trc", 1, "ir: none.img can't be read: no such file or folder\n"),
    ("record d.img d.trc --input none", 1, "ir: none can't be read: no such file or folder\n"),
    ("record d.img d.trc --input longer", 1, "ir: longer is over 1048576 bytes\n"),
    ("record folder d.trc", 1, "ir: folder can't be read: it is a folder\n"),
    ("record d.img folder", 1, "ir: folder can't be written: it is a folder\n"),
    ("record d.img d.trc --input folder", 1, "ir: folder can't be read: it is a folder\n"),
    ("debug folder whole.trc", 1, "ir: folder can't be read: it is a folder\n"),
    ("debug d.img folder", 1, "ir: folder can't be read: it is a folder\n"),
    ("debug d.img none.trc", 1, "ir: none.trc can't be read: no such file or folder\n"),
    ("record d.s d.trc", 3, "ir: the image is refused, 2: these bytes are no image\n"),
    ("record d.img d.trc --order 1", 3, "ir: LIST: the item '1' names no thread of the image\n"),
    ("record d.img d.trc --order=-1", 3, "ir: LIST: the item '-1' is none of T, TxN, T! and T!xN\n"),
    ("record d.img d.trc --order 0x0", 3, "ir: LIST: the item '0x0' has an N that is not from 1 to 1000000\n"),
    ("record d.img d.trc --order 0!!", 3, "ir: LIST: the item '0!!' is none of T, TxN, T! and T!xN\n"),
    ("record d.img d.trc --order 0,!", 3, "ir: LIST: the item '!' is none of T, TxN, T! and T!xN\n"),
    ("record d.img d.trc --order 0x2!", 3, "ir: LIST: the item '0x2!' is none of T, TxN, T! and T!xN\n"),
    ("record d.img d.trc --order 1!x2", 3, "ir: LIST: the item '1!x2' names no thread of the image\n"),
    ("record d.img d.trc --order 0!x0", 3, "ir: LIST: the item '0!x0' has an N that is not from 1 to 1000000\n"),
    ("record d.img none/d.trc", 1, "ir: none/d.trc can't be written: no such file or folder\n"),
    ("trace", 2, "ir: the following required arguments were not provided: <TRACE>\n"),
    ("trace none.trc", 1, "ir: none.trc can't be read: no such file or folder\n"),
    ("trace folder", 1, "ir: folder can't be read: it is a folder\n"),
    ("trace long", 1, "ir: long is over 200000000 bytes\n"),
]

# The lines of its trace.
DOUBLE_TRACE = b"threads 1 objects 0 budget 1000000 profile 1\n" + DOUBLE_LINE + b"log 0 of 0\n"

# Each row: the arguments of a run that would write over what it reads, and the message.
OWN_FILES = [
    ("asm d.s d.s", "ir: d.s: IMAGE would be written over SOURCE\n"),
    ("asm d.s ./d.s", "ir: ./d.s: IMAGE would be written over SOURCE\n"),
    ("asm d.s link.s", "ir: link.s: IMAGE would be written over SOURCE\n"),
    ("asm d.s hard.s", "ir: hard.s: IMAGE would be written over SOURCE\n"),
    ("record d.img d.img", "ir: d.img: TRACE would be written over IMAGE\n"),
    ("record d.img link.img", "ir: link.img: TRACE would be written over IMAGE\n"),
    ("record d.img d.trc --input d.trc", "ir: d.trc: TRACE would be written over FILE\n"),
]

# Tries to enter object 0, and ends with the answer; what is printed if the first of two holds it.
TRY = """
main:   addi a0, zero, 0
        addi a7, zero, 13
        ecall
        addi a7, zero, 1
        ecall
"""
TRY_LINES = b"thread 0 end 1 code 1 steps 6 events 1\nthread 1 end 1 code 0 steps 5 events 1\n"
# What is printed if its try is refused, and if that of the first of two is.
TRY_REFUSED = b"thread 0 end 1 code 0 steps 5 events 1\n"
OTHER_TRY_LINES = b"thread 0 end 1 code 0 steps 5 events 1\nthread 1 end 1 code 1 steps 6 events 1\n"

# Each row: the arguments of a recording of two threads whose outputs would be written over another of its files, and the
# message.
OWN_OUTPUTS = [
    ("two.img two.trc --output link", "ir: link.0: PREFIX.T would be written over IMAGE\n"),
    ("two.img two.trc --output hard", "ir: hard.1: PREFIX.T would be written over IMAGE\n"),
    ("two.img new.1 --output new", "ir: new.1: PREFIX.T would be written over TRACE\n"),
    ("two.img two.trc --output input --input input.1", "ir: input.1: PREFIX.T would be written over FILE\n"),
]

# Each row: the arguments of such a recording, the message, and what was written before.
FAILED_OUTPUTS = [
    ("two.img two.trc --output full", "ir: full.0 can't be written: no space is left\n", {}),
    ("two.img two.trc --output none/out", "ir: none/out.0 can't be written: no such file or folder\n", {}),
    ("two.img two.trc --output held", "ir: held.1 can't be written: it is a folder\n", {"held.0": b"A"}),
    # Only once the first file is there are the two known to be one.
    ("two.img two.trc --output one", "ir: one.1 can't be written: it is another file of this recording\n", {"one.0": b"A"}),
    ("two.img new.0 --output ./new", "ir: ./new.0 can't be written: it is another file of this recording\n", {}),
    ("two.img two.trc --output far", "ir: far.1 can't be written: it is another file of this recording\n", {"far.0": b"A"}),
]


def prepare(folder):
    """The files that the tests read."""
    (folder / "ir").symlink_to(program())
    (folder / "folder").mkdir()
    (folder / "bad.s").write_text(BAD)
    for name, size in (("long", 200_000_001), ("longer", 1_048_577)):
        with open(folder / name, "wb") as file:
            file.truncate(size)
    for name, source in (("d", DOUBLE), ("two", TWO), ("forever", FOREVER)):
        assembled(folder, name, source)
    wants("recording", run("record d.img whole.trc --order 0", folder).returncode, 0)


def test_arguments(folder):
    """Wrong arguments and files are named, with their statuses; nothing is written."""
    for arguments, status, message in ARGUMENTS:
        ended = run(arguments, folder)
        wants(arguments, (ended.returncode, ended.stdout, ended.stderr.decode()), (status, b"", message))
        for name in ("d2.img", "d2.img.part", "d.trc", "d.trc.part"):
            wants(f"{arguments}: {name}", (folder / name).exists(), False)


def shown_at(control):
    """What was written to a terminal whose other end is closed."""
    shown = b""
    with open(control, "rb", buffering=0) as screen:
        try:
            while part := screen.read(4096):
                shown += part
        except OSError:
            # The other end is closed, and all was read.
            pass
    return shown.decode().replace("\r\n", "\n")


def at_terminal(arguments, folder):
    """A run whose standard error is a terminal: the status, and what is shown there."""
    control, terminal = os.openpty()
    ended = run(arguments, folder, stderr=terminal)
    os.close(terminal)
    return ended.returncode, shown_at(control)


def refuses(words, folder, why):
    """A run that refuses a file, and says so and why, at a terminal and elsewhere."""
    wants(words, at_terminal(words, folder), (3, why))
    ended = run(words, folder)
    wants(f"{words}, not at a terminal", (ended.returncode, ended.stderr.decode()), (3, why))


def test_explaining(folder):
    """At a terminal a fault of a source is explained, asked for or not, and elsewhere only if it is asked for (see above); other refusals always are."""
    for arguments in ("asm bad.s d2.img", "asm --explain bad.s d2.img"):
        wants(arguments, at_terminal(arguments, folder), (3, EXPLAINED))
        wants(f"{arguments}: d2.img", (folder / "d2.img").exists(), False)
    wants("no fault", at_terminal("asm --explain d.s d2.img", folder), (0, ""))
    for words in ("view d.img", "stale d.img", "who d.img 0", "why d.img 0 0", "trace d.img"):
        refuses(words, folder, "ir: the trace is refused: these bytes are no trace\n")
    both = "".join(f"ir: the {which} trace is refused: these bytes are no trace\n" for which in ("first", "second"))
    refuses("diff d.img d.img", folder, both)
    (folder / "d.elf").write_bytes(b"\x7fELF, and more")
    refused = "ir: the image is refused, 2: these bytes are no image\n"
    no_guest = "ir: d.elf: this ELF file is no guest, because the file isn't of 32 bits, little-endian, version 1\n"
    for words in ("record d.elf x.trc", "hunt d.elf x.trc --seeds 0+1 --until fault", "explore d.elf", "explore d.elf x.trc --until fault", "list d.elf",
                  "debug d.elf whole.trc", "gdb d.elf whole.trc", "events d.elf whole.trc", "stale whole.trc --image d.elf",
                  "who whole.trc 0 --image d.elf", "why whole.trc 0 0 --image d.elf", "view whole.trc --image d.elf"):
        refuses(words, folder, no_guest)
    refuses("record whole.trc x.trc", folder, f"{refused}ir: whole.trc: this is a trace, and no image\n")
    wants("x.trc", (folder / "x.trc").exists(), False)


def typed(arguments, lines, folder):
    """A run at a terminal, with these lines typed and then the end of the input: the status, standard output, and what is shown there."""
    control, terminal = os.openpty()
    with subprocess.Popen([program(), *shlex.split(arguments)], cwd=folder, stdin=terminal, stdout=subprocess.PIPE, stderr=terminal) as process:
        os.close(terminal)
        os.write(control, "".join(f"{line}\n" for line in lines).encode() + b"\x04")
        try:
            out, _ = process.communicate(timeout=60)
        finally:
            process.kill()
    return process.returncode, out, shown_at(control)


def test_hints(folder):
    """At a terminal it is said what was wanted in place of a refused line; standard output is as elsewhere."""
    wants("recording", run("record d.img hints.trc", folder).returncode, 0)
    status, out, message = typed("debug d.img hints.trc", ["step 0", "foo", "help", "step 9 1"], folder)
    answers = b"ready\nrefused 2 bad argument\nrefused 1 unknown command\nrefused 1 unknown command\nrefused 3 no such thread\n"
    wants("a session", (status, out), (0, answers))
    for words in ("wanted: step T N ", "the commands are step back goto ", "\n  goto T K ", "\n  quit "):
        wants(f"{words!r} is said once", message.count(words), 1)
    wants("each line and the end are prompted for", message.count("(ir) "), 5)
    status, out, message = typed("", ["00"], folder)
    wants("no argument", (status, out, message.count("ir: waiting for an image and a trace, ")), (3, b"image refused 1\n", 1))
    # The input ends at one Ctrl-D, though neither line came.
    status, out, message = typed("", [], folder)
    wants("no line", (status, out, "see ir --help\n" in message), (3, b"image refused 1\n", True))


def test_own_files(folder):
    """What is read isn't written over."""
    (folder / "link.s").symlink_to("d.s")
    os.link(folder / "d.s", folder / "hard.s")
    (folder / "link.img").symlink_to("d.img")
    (folder / "d.trc").write_bytes(b"input")
    (folder / "d.trc.part").write_bytes((folder / "d.img").read_bytes())
    names = ("d.s", "d.img", "d.trc", "d.trc.part")
    before = {name: (folder / name).read_bytes() for name in names}
    for arguments, message in OWN_FILES:
        ended = run(arguments, folder)
        wants(arguments, (ended.returncode, ended.stdout, ended.stderr.decode()), (2, b"", message))
    for name in names:
        wants(name, (folder / name).read_bytes(), before[name])


def test_parts(folder):
    """A file that is there already stays, whatever its name; recordings to one place at the same time each end whole."""
    (folder / "w.trc.part").write_bytes(b"mine")
    (folder / "elsewhere").write_bytes(b"mine too")
    (folder / "w.trc.part2").symlink_to("elsewhere")
    (folder / "w.trc.part3").symlink_to("nowhere")
    ended = run("record d.img w.trc", folder)
    wants("recording", (ended.returncode, ended.stdout, ended.stderr), (0, DOUBLE_LINE, b""))
    wants("the part of another", (folder / "w.trc.part").read_bytes(), b"mine")
    wants("what a link leads to", (folder / "elsewhere").read_bytes(), b"mine too")
    wants("what a link leads to nowhere", (folder / "nowhere").exists(), False)
    wants("the trace", run("trace w.trc", folder).stdout, DOUBLE_TRACE)
    at_once = [subprocess.Popen([program(), "record", "d.img", "same.trc"], cwd=folder, stdout=subprocess.PIPE, stderr=subprocess.PIPE)
               for _ in range(8)]
    for recording in at_once:
        out, faults = recording.communicate(timeout=60)
        wants("one of eight recordings", (recording.returncode, out, faults), (0, DOUBLE_LINE, b""))
    wants("the trace of one of them", run("trace same.trc", folder).stdout, DOUBLE_TRACE)
    wants("parts", list(folder.glob("same.trc.part*")), [])


def test_names(folder):
    """What a user wrote is reported in one line, without control characters; a name may be as long as the system allows."""
    for words, status, error in (
        (["debug", "a\nb", "d.trc"], 1, "ir: a?b can't be read: no such file or folder\n"),
        (["asm", "d.s", "none/\x1b[2J"], 1, "ir: none/?[2J can't be written: no such file or folder\n"),
        (["record", "d.img", "d.trc", "--order", "0\n1"], 3, "ir: LIST: the item '0?1' is none of T, TxN, T! and T!xN\n"),
        (["record", "d.img", "d.trc", "--random", "5\n"], 2, "ir: --random: '5?' is no number up to 18446744073709551615\n"),
        (["debug", "d\u00e9", "d.trc"], 1, "ir: d\u00e9 can't be read: no such file or folder\n"),
    ):
        ended = run(words, folder)
        wants(repr(words), (ended.returncode, ended.stdout, ended.stderr.decode()), (status, b"", error))
    shutil.copy(folder / "bad.s", folder / "b\nd.s")
    ended = run(["asm", "--explain", "b\nd.s", "x"], folder)
    wants("a source's name", ended.stderr.decode(), EXPLAINED.replace("bad.s", "SOURCE"))
    for name in ("i" * 250, "i" * 251, "i" * 255, "\u00e9" * 127, "i" + "\u00e9" * 127):
        ended = run(["asm", "d.s", name], folder)
        wants(name, (ended.returncode, ended.stderr), (0, b""))
        wants(f"{name}: the image", (folder / name).read_bytes(), (folder / "d.img").read_bytes())
        (folder / name).unlink()


def test_outputs(folder):
    """What each thread prints is written to a file of its own, if that is asked for."""
    wants("no file", list(folder.glob("*.0")), [])
    for prefix, more in (("out", ""), ("out", " --order 1,0"), ("folder/out", ""), ("folder/.", " --order 0")):
        for thread in (0, 1):
            if (folder / f"{prefix}.{thread}").exists():
                (folder / f"{prefix}.{thread}").write_bytes(b"an older output")
        ended = run(f"record two.img two.trc --output {prefix}{more}", folder)
        wants(prefix, (ended.returncode, ended.stdout, ended.stderr), (0, TWO_LINES, b""))
        for thread, printed in enumerate((b"A", b"")):
            wants(f"{prefix}.{thread}", (folder / f"{prefix}.{thread}").read_bytes(), printed)
        wants(f"{prefix}.2", (folder / f"{prefix}.2").exists(), False)
    # An image of one thread has one output.
    (folder / "other.1").write_bytes(b"input")
    wants("one thread", run("record d.img d.trc --output other --input other.1", folder).returncode, 0)
    wants("other.0", (folder / "other.0").read_bytes(), b"H")
    wants("other.1", (folder / "other.1").read_bytes(), b"input")


def test_own_outputs(folder):
    """Outputs aren't written over what is read, or over the trace; nothing is written then."""
    (folder / "link.0").symlink_to("two.img")
    os.link(folder / "two.img", folder / "hard.1")
    (folder / "input.1").write_bytes(b"input")
    image = (folder / "two.img").read_bytes()
    for arguments, message in OWN_OUTPUTS:
        ended = run(f"record {arguments}", folder)
        wants(arguments, (ended.returncode, ended.stdout, ended.stderr.decode()), (2, b"", message))
        for name in ("two.trc", "link.1", "hard.0", "new.0", "new.1", "input.0"):
            wants(f"{arguments}: {name}", (folder / name).exists(), False)
    wants("two.img", (folder / "two.img").read_bytes(), image)
    wants("input.1", (folder / "input.1").read_bytes(), b"input")


def test_failed_outputs(folder):
    """An output that can't be written is reported; the trace and the outputs before it stay."""
    wants("recording", run("record two.img whole2.trc --order 0", folder).returncode, 0)
    whole = (folder / "whole2.trc").read_bytes()
    (folder / "full.0").symlink_to("/dev/full")
    (folder / "held.1").mkdir()
    (folder / "one.1").symlink_to("one.0")
    (folder / "far.1").symlink_to("two.trc")
    for arguments, message, written in FAILED_OUTPUTS:
        ended = run(f"record {arguments}", folder)
        wants(arguments, (ended.returncode, ended.stdout, ended.stderr.decode()), (1, b"", message))
        wants(f"{arguments}: the trace", (folder / arguments.split()[1]).read_bytes(), whole)
        for name, printed in written.items():
            wants(f"{arguments}: {name}", (folder / name).read_bytes(), printed)
        (folder / arguments.split()[1]).unlink()
    wants("full.1", (folder / "full.1").exists(), False)


def test_profiles(folder):
    """A guest that tries: in the second profile it enters, beside a writer and by T! it is refused, and in the first there is no such call."""
    for threads in (1, 2):
        assembled(folder, f"try{threads}", ".objects 1\n" + threads * ".thread main\n" + TRY)
    for arguments, magic, lines in (
        ("try1.img try.trc --profile 2", b"IRT2", b"thread 0 end 1 code 1 steps 6 events 1\n"),
        ("try1.img try.trc --profile 2 --order 0", b"IRT2", b"thread 0 end 1 code 1 steps 6 events 1\n"),
        ("try1.img try.trc --profile 1", b"IRT1", b"thread 0 end 8 code 0 steps 3 events 0\n"),
        ("try1.img try.trc", b"IRT1", b"thread 0 end 8 code 0 steps 3 events 0\n"),
        ("try1.img try.trc --profile 2 --order 0x2,0!", b"IRT2", TRY_REFUSED),
        ("try1.img try.trc --profile 2 --order 0!x1000000", b"IRT2", TRY_REFUSED),
        ("try1.img try.trc --profile 2 --order 0!,0", b"IRT2", b"thread 0 end 1 code 1 steps 6 events 1\n"),
        ("try1.img try.trc --profile 2 --order 0x3,0!", b"IRT2", b"thread 0 end 1 code 1 steps 6 events 1\n"),
        ("try2.img try.trc --profile 2 --order 0x2,0!,1x3", b"IRT2", OTHER_TRY_LINES),
        ("try2.img try.trc --profile 2 --order 0x3,1x5", b"IRT2", TRY_LINES),
    ):
        ended = run(f"record {arguments}", folder)
        wants(arguments, (ended.returncode, ended.stdout, ended.stderr), (0, lines, b""))
        wants(f"{arguments}: the magic", (folder / "try.trc").read_bytes()[:4], magic)
    wants("lines", run("trace try.trc", folder).stdout.splitlines()[-1], b"0 try 0")
    ended = run("debug try2.img try.trc", folder, input=b"end\nlog 1\nquit\n")
    wants("a session", ended.stdout, b"ready\nat 6 5\nlog 1 of 1\n0 try 0\nbye\n")


def test_sixteen_threads(folder):
    """A guest of sixteen threads at an object of sixteen words, recorded by threads with the second profile, and refused with the first."""
    wants("the form", assembled(folder, "sixteen", ".large\n" + counters(16))[:6], b"IRI2\x10\x01")
    lines = "".join(f"thread {thread} end 1 code 0 steps 18 events 1\n" for thread in range(16)).encode()
    for order in ("", " --order 15x18,3x2"):
        ended = run(f"record sixteen.img sixteen.trc --profile 2{order}", folder)
        wants("recording", (ended.returncode, ended.stdout, ended.stderr), (0, lines, b""))
        ended = run("debug sixteen.img sixteen.trc", folder, input=b"end\nobj 0\nquit\n")
        words = b"words 00000010" + 15 * b" 00000000" + b"\n"
        wants("a session", ended.stdout, b"ready\nat" + 16 * b" 18" + b"\nversion 16 left 0 readers - writer -\n" + words + b"bye\n")
    before = (folder / "sixteen.trc").read_bytes()
    for order in ("", " --order 0", " --profile 1"):
        ended = run(f"record sixteen.img sixteen.trc{order}", folder)
        message = b"ir: the first profile takes at most 8 threads and 16 objects, and --profile 2 takes more\n"
        wants("the first profile", (ended.returncode, ended.stdout, ended.stderr), (3, b"", message))
    wants("the trace", (folder / "sixteen.trc").read_bytes(), before)


def test_progress(folder):
    """At a terminal a recording of seconds shows its steps, those of the last of sixteen threads too."""
    labels = [f"thread{number}" for number in range(16)]
    source = [".large", *(f".thread {label}" for label in labels), *(f"{label}:" for label in labels[:15]), "ebreak"]
    assembled(folder, "last", "\n".join([*source, "thread15:", FOREVER]))
    status, message = at_terminal("record last.img last.trc --profile 2 --budget 4000000000", folder)
    wants("the last thread's steps", (status, " million steps\x1b[?7h" in message), (0, True))
    # A hunt of seconds shows its seeds, and takes its line away before it ends.
    status, message = at_terminal("hunt last.img last.trc --profile 2 --budget 400000000 --seeds 0+8 --until 'end 15 2'", folder)
    wants("a hunt", (status, " per second, up to " in message, message.endswith("\r\x1b[K")), (5, True, True))


def test_trace(folder):
    """A trace in lines, and how it is refused."""
    for arguments, status, lines in (
        ("trace whole.trc", 0, DOUBLE_TRACE),
        ("trace d.img", 3, b"trace refused 2\n"),
    ):
        ended = run(arguments, folder)
        why = b"ir: the trace is refused: these bytes are no trace\n" if status else b""
        wants(arguments, (ended.returncode, ended.stdout, ended.stderr), (status, lines, why))
    for command in ("./ir trace whole.trc >/dev/full", "./ir trace whole.trc >&-", "./ir trace d.img >/dev/full"):
        ended = shell(command, folder)
        wants(command, (ended.returncode, ended.stdout, ended.stderr), (1, b"", FULL))


def test_closed_streams(folder):
    """A closed stream stays closed: nothing that is meant for it goes into another file."""
    whole = (folder / "whole.trc").read_bytes()
    for command, status, error in (
        ("./ir record d.img d.trc --order 0 >&-", 1, FULL),
        ("./ir record d.img d.trc --order 0 <&- >&-", 1, FULL),
        ("./ir record d.img d.trc --order 0 >&- 2>&-", 1, b""),
        ("./ir record d.img d.trc --order 0 >/dev/full 2>&-", 1, b""),
    ):
        ended = shell(command, folder)
        wants(command, (ended.returncode, ended.stdout, ended.stderr), (status, b"", error))
        wants(f"{command}: the trace", (folder / "d.trc").read_bytes(), whole)
        (folder / "d.trc").unlink()
    for command, status in (
        ("./ir asm bad.s d2.img 2>&-", 1),
        ("./ir asm 2>&-", 2),
        ("./ir <&-", 1),
        ("./ir --help >&-", 1),
    ):
        wants(command, shell(command, folder).returncode, status)
    wants("an image of a source with a fault", (folder / "d2.img").exists(), False)


def test_full_devices(folder):
    """A full device is reported, and the trace stays."""
    whole = (folder / "whole.trc").read_bytes()
    ended = shell("./ir record d.img d.trc --order 0 >/dev/full", folder)
    wants("lines", (ended.returncode, ended.stderr), (1, FULL))
    wants("the trace", (folder / "d.trc").read_bytes(), whole)
    for arguments, message in (
        ("asm d.s /dev/full", b"ir: /dev/full can't be written: no space is left\n"),
        ("record d.img /dev/full --order 0", b"ir: /dev/full can't be written: no space is left\n"),
    ):
        ended = run(arguments, folder)
        wants(arguments, (ended.returncode, ended.stdout, ended.stderr), (1, b"", message))
    wants("help", shell("./ir --help >/dev/full", folder).returncode, 1)
    wants("a session", shell("./ir < %s/crates/ir_cli/stdin >/dev/full" % shlex.quote(str(TOP)), folder).returncode, 1)


def test_closed_pipe(folder):
    """No process reads the output: nothing is said of that, and the files are written."""
    whole = (folder / "whole.trc").read_bytes()
    for arguments in ("record d.img d.trc --order 0", "--help", "trace whole.trc", "debug d.img whole.trc", "explore d.img"):
        reader, writer = os.pipe()
        os.close(reader)
        ended = run(arguments, folder, stdout=writer)
        os.close(writer)
        wants(arguments, (ended.returncode, ended.stderr), (UNREAD, b""))
    wants("the trace", (folder / "d.trc").read_bytes(), whole)
    # What else fails is said.
    reader, writer = os.pipe()
    os.close(reader)
    ended = run("record d.img none/d.trc --order 0", folder, stdout=writer)
    os.close(writer)
    wants("another fault", (ended.returncode, ended.stderr), (1, b"ir: none/d.trc can't be written: no such file or folder\n"))
    before = sorted(path.name for path in folder.iterdir())
    for arguments in ("asm d.s /dev/stdout", "record d.img /dev/stdout --order 0", "record d.img /dev/stdout"):
        reader, writer = os.pipe()
        os.close(reader)
        ended = run(arguments, folder, stdout=writer)
        os.close(writer)
        wants(arguments, (ended.returncode, ended.stderr), (1, b"ir: /dev/stdout can't be written: nobody reads it\n"))
    wants("what is there", sorted(path.name for path in folder.iterdir()), before)


def test_failed_sessions(folder):
    """A session that can't write or read ends with status 1 and one line."""
    for command in (
        "./ir debug d.img whole.trc >/dev/full",
        "./ir debug d.img whole.trc >&-",
        "./ir debug d.img whole.trc <folder",
        "./ir debug d.img whole.trc <&-",
        "./ir <folder",
    ):
        ended = shell(command, folder)
        wants(command, (ended.returncode, ended.stderr.count(b"\n"), ended.stderr[-1:]), (1, 1, b"\n"))


def small_files():
    """Files have at most 10 bytes, as if the disk were full."""
    signal.signal(signal.SIGXFSZ, signal.SIG_IGN)
    resource.setrlimit(resource.RLIMIT_FSIZE, (10, 10))


def test_half_written(folder):
    """An image or a trace that can't be written whole leaves what was in its place, and nothing beside it."""
    for arguments, name in (("asm d.s d2.img", "d2.img"), ("record d.img d.trc --order 0", "d.trc")):
        for before in (None, b"an older file"):
            if before is not None:
                (folder / name).write_bytes(before)
            ended = run(arguments, folder, preexec_fn=small_files)
            message = f"ir: {name} can't be written: it would be too large\n".encode()
            wants("the end", (ended.returncode, ended.stdout, ended.stderr), (1, b"", message))
            place = folder / name
            wants("what was there", place.read_bytes() if place.exists() else None, before)
            wants("what is left beside it", (folder / f"{name}.part").exists(), False)


def unprivileged():
    """Without the rights of root, who may write anywhere."""
    if os.geteuid() == 0:
        os.setgroups([])
        os.setgid(65534)
        os.setuid(65534)


def test_read_only_folder(folder):
    """A folder in which nothing may be written is reported, and nothing is written."""
    own = folder / "own"
    shutil.copy(program(), own)
    folder.chmod(0o755)
    locked = folder / "locked"
    locked.mkdir()
    for name in ("d.s", "d.img"):
        shutil.copy(folder / name, locked)
        (locked / name).chmod(0o444)
    locked.chmod(0o555)
    for arguments, name in (("asm d.s d2.img", "d2.img"), ("record d.img d.trc --order 0", "d.trc"), ("record d.img d.trc", "d.trc")):
        ended = subprocess.run([own, *arguments.split()], cwd=locked, capture_output=True, timeout=120, preexec_fn=unprivileged)
        message = f"ir: {name} can't be written: permission denied\n".encode()
        wants(arguments, (ended.returncode, ended.stdout, ended.stderr), (1, b"", message))
    wants("what is there", sorted(path.name for path in locked.iterdir()), ["d.img", "d.s"])


def test_interrupt(folder):
    """Ctrl-C stops a recording, and TRACE stays as it was."""
    for order in ("", " --order 0x1000000"):
        (folder / "f.trc").write_bytes(b"an older trace")
        wants("the end", interrupted(f"record forever.img f.trc --budget 1000000000000{order}", folder, 0.3), -signal.SIGINT)
        wants("TRACE", (folder / "f.trc").read_bytes(), b"an older trace")


def test_hunts(folder):
    """Seeds are tried until a run fulfils conditions; it is recorded again (see hunting.py)."""
    hunting.all_of_it(folder)


def test_places(folder):
    """Guests from ELF files, maps, and code and events with the names of a map (see places.py)."""
    places.all_of_it(folder)


def test_past(folder):
    """What a trace says of its past: stale writes, the versions of an object, and what two traces have in common (see past.py)."""
    past.all_of_it(folder)


def test_answers_come(folder):
    """Each answer comes before the next line is sent."""
    lines = (TOP / "crates/ir_cli/stdin").read_bytes().splitlines(keepends=True)
    rows = (
        (b"".join(lines[:2]), b"ready\n"),
        (b"step 0 3\n", b"at 3\n"),
        (b"foo\n", b"refused 1 unknown command\n"),
        (b"quit\n", b"bye\n"),
    )
    with subprocess.Popen([program()], cwd=folder, stdin=subprocess.PIPE, stdout=subprocess.PIPE, bufsize=0) as session:
        for asked, answer in rows:
            session.stdin.write(asked)
            wants(repr(asked[-9:]), session.stdout.readline(), answer)
        # It ends by itself, though its input doesn't.
        wants("the status", session.wait(10), 0)


def test_long_lines_of_digits(folder):
    """The image's line has at most 4,194,304 digits: a line of that length is judged, and a longer one is not."""
    image = (folder / "d.img").read_bytes().hex().encode()
    for digits, status, answers in ((4_194_304, 3, b"image refused 5\n"), (4_194_306, 1, b"")):
        ended = run("", folder, input=image.ljust(digits, b"0") + b"\n\n")
        wants(f"{digits} digits: status", ended.returncode, status)
        wants(f"{digits} digits: answers", ended.stdout, answers)


def test_large_order(folder):
    """Items of many steps that a thread hasn't take neither time nor memory."""
    def little_memory():
        resource.setrlimit(resource.RLIMIT_AS, (400_000_000, 400_000_000))

    start = time.monotonic()
    for item in ("0x1000000", "0!x1000000"):
        ended = run("record d.img d.trc --order " + ",".join([item] * 1500), folder, preexec_fn=little_memory)
        wants(f"the recording by {item}", (ended.returncode, ended.stdout, ended.stderr), (0, DOUBLE_LINE, b""))
    if time.monotonic() - start > 2:
        raise Wrong(f"it took {time.monotonic() - start:.1f} s")


def tests():
    """Each test, by its name."""
    return {name.removeprefix("test_"): test for place in (globals(), vars(pages)) for name, test in place.items() if name.startswith("test_")}


def passes(name, test):
    """Whether a test in a folder of its own passes; prints a line."""
    with tempfile.TemporaryDirectory() as folder:
        try:
            prepare(Path(folder))
            test(Path(folder))
        except (Wrong, subprocess.TimeoutExpired, OSError) as why:
            print(f"{name}: failed: {why}", flush=True)
            return False
    print(f"{name}: passed", flush=True)
    return True


def main():
    all_ = tests()
    names = sys.argv[2:] or list(all_)
    if len(sys.argv) < 2 or any(name not in all_ for name in names):
        sys.exit(__doc__ + "\nThe tests are " + ", ".join(all_) + ".")
    use(sys.argv[1])
    passed = sum(passes(name, all_[name]) for name in names)
    return finish(passed, len(names) - passed)


if __name__ == "__main__":
    sys.exit(main())
