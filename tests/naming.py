#!/usr/bin/env python3
"""Answers with names: `--names FILE` of each command, against a judge of its own, and its refusals.

python3 tests/naming.py IR

Each command is run without names and with them, over guests of examples and, if riscv64-unknown-elf-gcc is there, over guests from C with the names
that guest/ir-lines prints of them. What is printed with names has to be what the judge makes of what is printed without, the status and standard error
have to be the same, and so have files that are written. Random files of names and random answers can't be had of commands, so random names are given
to all numbers. The last line is `N passed, M failed`.
"""
import os
import random
import re
import shutil
import subprocess
import sys
import tempfile
from pathlib import Path

from lib import TOP, Wrong, assembled, examples, finish, parser_of_program, run, use, wants

# Names of a guest with two threads and an object, by hand.
NAMES = """thread 0 first
thread 1 second

object 0 counter\r
object 0 word 0 <sum>
thread 0 never
00010008 reads lost_update.s:9
00010034 writes lost_update.s:20
00010000 <a&b> "c" 'd'
"""
END = re.compile(r"([ \n,])")
HEX, DECIMAL = re.compile(r"[0-9a-fA-F]{8}"), re.compile(r"[0-9]{1,10}")
ENTRIES = ("read", "write", "try")


def names_of(text):
    """The names of a file, by what they are of."""
    found = {}
    for line in text.split("\n"):
        line = line.removesuffix("\r")
        if re.match(r"[0-9a-fA-F]{8} ", line):
            found.setdefault(("pc", int(line[:8], 16)), line[9:])
        elif len(words := line.split()) == 3:
            found.setdefault((words[0], int(words[1])), words[2])
        elif words:
            found.setdefault(("word", int(words[1]), int(words[3])), words[4])
    return found


def things_of(line, is_list, last):
    """The words of a line, each with what it names and the byte after it; and the object that was mentioned last."""
    parts = END.split(line)
    told, words, ends = [], parts[::2], [*parts[1::2], ""]
    values = None
    for at, word in enumerate(words):
        before = words[at - 1] if at else None
        thing, is_hex, is_number = None, bool(HEX.fullmatch(word)), bool(DECIMAL.fullmatch(word))
        if values is not None and is_hex and values < 64:
            thing, values = ("word", last, values), values + 1
        else:
            values = 0 if word == "words" and at > 1 and words[at - 2] == "object" and DECIMAL.fullmatch(before) else None
            if is_hex and (before == "pc" or (is_list and not at)):
                thing = ("pc", int(word, 16))
            elif is_number and before == "thread":
                thing = ("thread", int(word))
            elif is_number and (before == "object" or before in ENTRIES):
                thing, last = ("object", int(word)), int(word)
            elif is_number and before == "word":
                thing = ("word", last, int(word))
        told.append((word, thing, ends[at]))
    return told, last


def judged(plain, names, is_list=False):
    """An answer with names."""
    out, last = [], None
    for line in plain.split("\n"):
        told, last = things_of(line, is_list, last)
        out.append("".join(word + (f" <{names[thing]}>" if thing in names else "") + end for word, thing, end in told))
    return "\n".join(out)


def files_of(folder):
    """The files of a folder."""
    return {path.name: path.read_bytes() for path in folder.iterdir() if path.is_file()}


def check_same(folder, words, names="lost.names"):
    """A command without names and with them."""
    plain = run(words, folder)
    files = files_of(folder)
    text = judged(plain.stdout.decode(), names_of((folder / names).read_text()), words.split()[0] == "list")
    for given in (f"{words} --names {names}", f"{words} --names={names}", f"--names {names} {words}"):
        ended = run(given, folder)
        wants(f"lines of {given}", ended.stdout.decode(), text)
        wants(f"status of {given}", ended.returncode, plain.returncode)
        wants(f"standard error of {given}", ended.stderr, plain.stderr)
        wants(f"files of {given}", files_of(folder), files)
    return text != plain.stdout.decode()


# Commands over a recording; each of them prints something that has a name.
COMMANDS = [
    "record lost.img again.trc --order 0x10,1x25",
    "hunt lost.img found.trc --until '!word 0 0 2'",
    "hunt lost.img found.trc --until '!word 0 0 2' --shrink",
    "shrink lost.img lost.trc least.trc --until '!word 0 0 2'",
    "explore lost.img",
    "explore lost.img --only 0",
    "explore lost.img until.trc --until '!word 0 0 2'",
    "explore lost.img --within kept.img",
    "explore lost.img outside.trc --within kept.img",
    "list lost.img",
    "trace lost.trc",
    "events lost.img lost.trc",
    "stale lost.trc",
    "stale lost.trc --image lost.img",
    "who lost.trc 0",
    "who lost.trc 0 1",
    "who lost.trc 0 --image lost.img",
    "who lost.trc 0 --word 0 --image lost.img",
    "why lost.trc 1 1",
    "why lost.trc 1 1 --image lost.img",
    "diff lost.trc other.trc",
]
# Others, which print no line that has a name, or none at all.
SILENT = [
    "hunt lost.img none.trc --seeds 0+10 --until fault",
    "trace lost.img",
    "who lost.trc 3",
    "list none.img",
    "record lost.img bad.trc --order 5x1",
    "hunt lost.img bad.trc --until 'end 9 1'",
    "--help",
    "hunt --help",
    "--version",
]

# Words, the status, and what standard error says.
REFUSED = [
    ("trace lost.trc --names", 2, "--names"),
    ("--names", 2, "--names"),
    ("trace lost.trc --names a --names b", 2, "given once"),
    ("trace lost.trc --names=a --names=lost.names", 2, "given once"),
    ("trace lost.trc -- --names lost.names", 2, ""),
    ("asm lost.s x.img --names lost.names", 2, "--names is for"),
    ("elf lost.s x.img --names lost.names", 2, "--names is for"),
    ("debug lost.img lost.trc --names lost.names", 2, "--names is for"),
    ("gdb lost.img lost.trc --names lost.names", 2, "--names is for"),
    ("view lost.trc --names lost.names", 2, "--names is for"),
    ("--names lost.names", 2, "--names is for"),
    ("trace lost.trc --names none", 1, "none can't be read"),
    ("trace lost.trc --names .", 1, "can't be read"),
    ("record lost.img x.trc --order 0x10,1x25 --names lost.trc", 3, "line 1 is no line of names"),
    ("trace none.trc --names bad.names", 3, "bad.names: line 3 is no line of names"),
    ("trace lost.trc --names control.names", 3, "control.names: line 1 is no line of names"),
    ("trace lost.trc --names long.names", 3, "long.names: line 1 is no line of names"),
]


def check_refused(folder, row):
    """What is refused: nothing is printed or written."""
    words, status, told = row
    before = files_of(folder)
    ended = run(words, folder)
    wants(f"status of {words}", ended.returncode, status)
    wants(f"output of {words}", ended.stdout, b"")
    wants(f"files of {words}", files_of(folder), before)
    if told not in ended.stderr.decode() or ended.stderr.count(b"\n") < 1:
        raise Wrong(f"{words}: {ended.stderr!r} lacks {told!r}")


def check_streams(folder):
    """A device that is full, and a reader that is gone."""
    words = ["trace", "lost.trc", "--names", "lost.names"]
    with open("/dev/full", "wb") as full:
        ended = run(words, folder, stdout=full)
    wants("status at a full device", (ended.returncode, ended.stderr), (1, b"ir: standard output can't be written\n"))
    read, write = os.pipe()
    os.close(read)
    ended = run(words, folder, stdout=write)
    os.close(write)
    wants("status without a reader", ended.returncode, 141)


def check_many(folder):
    """60,000 addresses, and a number of threads, objects and words that no guest has."""
    chance = random.Random(1)
    rows = [f"{0x10000 + 4 * at:08x} f{at} file.c:{at}" for at in range(60_000)]
    rows += [f"{kind} {number} {kind}-{number}" for kind in ("thread", "object") for number in range(1000)]
    rows += [f"object {number} word {word} w{word}of{number}" for number in range(100) for word in range(100)]
    chance.shuffle(rows)
    (folder / "many.names").write_text("\n".join(rows))
    for words in ("list lost.img", "events lost.img lost.trc", "explore lost.img"):
        check_same(folder, words, "many.names")


def check_c(folder):
    """Guests from C, with the names that guest/ir-lines prints."""
    for name, until in (("bank", "!word 0 0 20"), ("buffer", "budget")):
        elf = folder / f"{name}.elf"
        built = subprocess.run([TOP / "guest" / "ir-cc", TOP / "examples" / "c" / f"{name}.c", "-o", elf], cwd=folder, capture_output=True, check=False)
        wants(f"ir-cc {name}.c", (built.returncode, built.stderr), (0, b""))
        lines = [subprocess.run([TOP / "guest" / "ir-lines", elf, *more], capture_output=True, check=True).stdout for more in (["--names"], [])]
        (folder / f"{name}.names").write_bytes(b"".join(lines))
        for words in (f"hunt {name}.elf {name}.trc --budget 100000 --until '{until}'", f"events {name}.elf {name}.trc", f"who {name}.trc 0 --image {name}.elf",
                      f"list {name}.elf", f"stale {name}.trc --image {name}.elf", f"who {name}.trc 0 --word 0 --image {name}.elf"):
            check_same(folder, words, f"{name}.names")
        told = run(f"events {name}.elf {name}.trc --names {name}.names", folder).stdout.decode()
        if f"{name}.c:" not in told:
            raise Wrong(f"the events of {name} have no lines: {told[:200]}")


def prepare(folder):
    """The files that the commands read."""
    assembled(folder, "lost", examples()["lost_update"])
    assembled(folder, "kept", examples()["counter"])
    (folder / "lost.names").write_text(NAMES, newline="")
    (folder / "bad.names").write_text("thread 0 a\n\nthread zero b\n")
    (folder / "control.names").write_text("thread 0 a\x1b[31m\n")
    (folder / "long.names").write_text("thread 0 " + "n" * 4097)
    for name, order in (("lost", "0x10,1x25"), ("other", "0x25")):
        wants(f"recording {name}", run(f"record lost.img {name}.trc --order {order}", folder).returncode, 0)


def main():
    asked = parser_of_program(__doc__).parse_args()
    use(asked.program)
    passed, failed = 0, 0
    with tempfile.TemporaryDirectory() as place:
        folder = Path(place)
        prepare(folder)
        checks = [*(lambda words=words: wants(f"names in {words}", check_same(folder, words), True) for words in COMMANDS),
                  *(lambda words=words: wants(f"names in {words}", check_same(folder, words), False) for words in SILENT),
                  *(lambda row=row: check_refused(folder, row) for row in REFUSED),
                  lambda: check_streams(folder), lambda: check_many(folder)]
        if shutil.which("riscv64-unknown-elf-gcc"):
            checks.append(lambda: check_c(folder))
        else:
            print("no riscv64-unknown-elf-gcc: guests from C aren't tested")
        for check in checks:
            try:
                check()
                passed += 1
            except (Wrong, subprocess.TimeoutExpired, OSError) as wrong:
                failed += 1
                print(wrong, flush=True)
    sys.exit(finish(passed, failed))


if __name__ == "__main__":
    main()
