#!/usr/bin/env python3
"""Tests of ordinary C programs with threads as guests, by guest/ir-cc: natively and as a guest they print the same, `ir hunt` and `ir explore`
find the fault of each program of tests/threads/programs, and its repaired form is explored to the end without a fault.

python3 tests/threads.py IR [--few] [--table] [--jobs N] [TEST ..]

Needs riscv64-unknown-elf-gcc. If it isn't installed nothing is tested, and the status is 0. --few tests a few of each kind at one level;
--table prints the table of docs/guide/threads.md. The last line is `N passed, M failed`.
"""
import argparse
import os
import re
import shutil
import subprocess
import sys
import tempfile
import time
from concurrent.futures import ThreadPoolExecutor
from dataclasses import dataclass
from functools import partial
from pathlib import Path

from lib import TOP, Wrong, finish, program, run, shell, use, wants
from pages import commands_of, matches

sys.path.append(str(TOP / "tests" / "threads"))

import generated  # noqa: E402
import texts  # noqa: E402

COMPILER = TOP / "guest" / "ir-cc"
WHERE = TOP / "guest" / "ir-where"
README = TOP / "README.md"
SOURCES = TOP / "tests" / "threads"
PROGRAMS = SOURCES / "programs"
LEVELS = ("-O0", "-Og", "-O2")

# Forms of a program by an option of its own.
VARIANTS = {"philosophers_4": ("philosophers", "-DCOUNT=4"), "reorder_4": ("reorder", "-DSETTERS=3"), "reorder_5": ("reorder", "-DSETTERS=4")}

# A few of each kind, for --few.
FEW = ("accesses", "atomics", "mutexes", "account", "deadlock", "treiber", "pool_c11")

# The programs that are made of a seed.
GENERATED = range(12)

# The pages, and the compiler whose steps they have.
PAGES = {"page": TOP / "docs" / "guide" / "threads.md", "refine": TOP / "docs" / "guide" / "refine.md"}
PAGE_COMPILER = "12.2.0"

# The seeds of a hunt, and the budget of a run that may wait forever.
SEEDS = "0+200000"
BUDGET = "20000"


def gcc_is_there():
    """Whether guests can be compiled."""
    return shutil.which("riscv64-unknown-elf-gcc") is not None


# ---- Guests


@dataclass
class Guest:
    """A guest that was compiled: its folder and name, and the options that its recordings need."""

    folder: Path
    name: str
    needs: tuple

    def run(self, command, *more, timeout=600):
        """A run of `ir` over the image; what it prints, by lines."""
        ended = run([command, f"{self.name}.img", *more, *self.needs], self.folder, timeout=timeout)
        wants(f"{command} {self.name}: what it reports", (ended.stderr, ended.returncode in (0, 5, 7)), (b"", True))
        return ended.returncode, ended.stdout.decode().splitlines()


def compiler(folder, *arguments, environment=None):
    """A run of ir-cc in a folder."""
    return subprocess.run([sys.executable, COMPILER, *map(str, arguments)], cwd=folder, check=False, capture_output=True, text=True, timeout=300, env=environment)


def guest(folder, name, *arguments):
    """Compiles a guest, and makes its image."""
    ended = compiler(folder, *arguments, "-o", f"{name}.elf")
    wants(f"{name}: ir-cc", (ended.returncode, ended.stderr), (0, ""))
    wants(f"{name}: ir elf", run(["elf", f"{name}.elf", f"{name}.img"], folder).returncode, 0)
    return Guest(folder, name, ("--profile", "2") if "--profile 2" in ended.stdout else ())


def native(folder, name, *arguments):
    """Compiles a program for this machine."""
    subprocess.run(["cc", "-pthread", "-O1", *map(str, arguments), "-o", name], cwd=folder, check=True, timeout=100)
    return subprocess.run([f"./{name}"], cwd=folder, check=False, capture_output=True, text=True, timeout=20)


# ---- The same output


def by_thread(text):
    """The lines that main prints, and those that other threads print, which begin with `thread`."""
    lines = text.splitlines()
    return [line for line in lines if not line.startswith("thread")], [line for line in lines if line.startswith("thread")]


BY_SEED = ("--chaos", "1", "--by", "walk", "--budget", "10000000")
BY_REAL_THREADS = ("--budget", "1000000000")


def printed(folder, made, way=BY_SEED):
    """What a recording of a guest prints, and the code of main."""
    _, lines = made.run("record", "g.trc", *way, "--output", "out")
    wants(f"{made.name}: the ends", [line for line in lines if " end 1 " not in line], [])
    files = sorted(folder.glob("out.*"), key=lambda path: int(path.suffix[1:]))
    code = re.match(r"thread 0 end 1 code (\d+)", lines[0])
    return by_thread("".join(path.read_text() for path in files)), int(code[1])


def test_construct(folder, name, level):
    """A program prints the same natively and as a guest, by a seed and by real threads, and ends by the same code."""
    source = SOURCES / f"{name}.c"
    ended = native(folder, "native", source)
    wanted = by_thread(ended.stdout), ended.returncode
    made = guest(folder, "g", source, level)
    for way in (BY_SEED, BY_REAL_THREADS):
        wants(f"{name} {level} {way[0]}", printed(folder, made, way), wanted)


def test_generated(folder, seed, level):
    """A program that is made of a seed prints the same natively and as a guest."""
    (folder / "g.c").write_text(generated.source(seed))
    ended = native(folder, "native", "g.c", "-w", "-Wno-packed-bitfield-compat", "-O0", "-funsigned-char")
    wants(f"seed {seed} {level}", printed(folder, guest(folder, "g", "g.c", "-w", "-Wno-packed-bitfield-compat", level))[0][0], ended.stdout.splitlines())


# ---- Programs with a fault


def source_of(name):
    """The source of a program or variant, and its options."""
    base, *options = VARIANTS.get(name, (name,))
    return PROGRAMS / f"{base}.c", options


def hangs(name):
    """Whether the fault of a program is that it waits forever."""
    return "Fault: a hang." in " ".join(source_of(name)[0].read_text().split("*/")[0].split())


@dataclass
class Explored:
    """What `ir explore` found: its last line, how many outcomes have a fault, if there is a hang, and the seconds."""

    last: str
    outcomes: int
    bad: int
    hang: bool
    states: int
    seconds: float


def explored(made):
    """Explores a guest."""
    start = time.monotonic()
    _, lines = made.run("explore")
    passed = time.monotonic() - start
    outcomes, bad = 0, set()
    for line in lines:
        outcomes += line.startswith("outcome ")
        if re.match(r"thread \d+ end (?!1 )", line):
            bad.add(outcomes)
    states = int(re.search(r"states (\d+)", lines[-1])[1])
    return Explored(lines[-1], outcomes, len(bad), any(line.startswith("hang ") for line in lines), states, passed)


def hunted(made, name, by="walk"):
    """The first seed whose run has the fault."""
    until = ("--until", "budget", "--budget", BUDGET) if hangs(name) else ("--until", "fault")
    status, lines = made.run("hunt", "bad.trc", "--seeds", SEEDS, "--by", by, *until)
    found = re.match(r"found seed (\d+) ", lines[0])
    wants(f"{made.name}: a hunt", (status, bool(found)), (0, True))
    return int(found[1])


def test_faulty(folder, name, level):
    """A hunt finds the fault, and so does an exploration, at -Og."""
    source, options = source_of(name)
    made = guest(folder, "bad", source, level, *options)
    hunted(made, name)
    if level == "-Og":
        found = explored(made)
        wants(f"{name}: the fault", (found.last.split()[0], found.hang if hangs(name) else found.bad > 0), ("finished", True))


def test_repaired(folder, name):
    """The repaired form runs natively, and is explored to the end: no outcome has a fault, and none waits forever."""
    source, options = source_of(name)
    ended = native(folder, "native", source, "-DREPAIRED", "-Wall", "-Wextra", "-Wno-unused", *options)
    wants(f"{name}: natively", (ended.returncode, ended.stderr), (0, ""))
    found = explored(guest(folder, "good", source, "-DREPAIRED", *options))
    wants(f"{name}: all outcomes", (found.last.split()[0], found.last.split()[-2:], found.bad), ("finished", ["hangs", "0"], 0))


# ---- What is refused, and what is printed


def test_refused(folder, case):
    """A source that ir-cc refuses, or one of the tools that it runs, with a text."""
    for name, text in case.files.items():
        (folder / name).write_text(text)
    ended = compiler(folder, *case.arguments)
    wants("the status", ended.returncode, 1)
    if case.message not in ended.stderr:
        raise Wrong(f"{case.message!r} isn't reported: {ended.stderr}")


def test_printed(folder, case):
    """A guest that ends by a fault in an order that is found, and prints why."""
    (folder / "g.c").write_text(case.source)
    made = guest(folder, "g", "g.c", "-w", *case.arguments)
    status, lines = made.run("hunt", "g.trc", "--seeds", "0+100", "--until", "fault", "--output", "out")
    wants("a hunt", status, 0)
    text = "".join(path.read_text() for path in folder.glob("out.*"))
    wants("what is printed", text, case.message)
    ends = {line.split()[3] for line in lines[1:]}
    wants("the ends", ends - {"1"}, {case.end})


def test_no_compiler(folder):
    """Without the compiler for RISC-V a text says what to install."""
    (folder / "g.c").write_text("int main(void) { return 0; }\n")
    ended = compiler(folder, "g.c", environment={**os.environ, "PATH": str(folder)})
    wants("no compiler", (ended.returncode, "riscv64-unknown-elf-gcc isn't installed" in ended.stderr), (1, True))


def test_installed(folder):
    """ir-cc works as PREFIX/bin/ir-cc with its files in PREFIX/share/ir, from any folder, and without a cache that it may write."""
    (folder / "bin").mkdir()
    shutil.copy(COMPILER, folder / "bin" / "ir-cc")
    shutil.copytree(COMPILER.parent, folder / "share" / "ir")
    elsewhere = folder / "else where"
    elsewhere.mkdir()
    shutil.copy(PROGRAMS / "account.c", elsewhere)
    environment = {**os.environ, "XDG_CACHE_HOME": "/dev/null"}
    ended = subprocess.run([folder / "bin" / "ir-cc", "account.c", "-o", "a b.elf"], cwd=elsewhere, check=False, capture_output=True, text=True, env=environment, timeout=300)
    wants("ir-cc elsewhere", (ended.returncode, ended.stdout, ended.stderr), (0, "", ""))
    wants("ir elf", run(["elf", "a b.elf", "a.img"], elsewhere).returncode, 0)


def test_on_ir_h(folder):
    """A source on ir.h is compiled by its options, from any folder."""
    for name, needs in (("bank.c", ""), ("wide.c", "wide.elf: it tries to enter objects, so recordings need --profile 2\n")):
        ended = compiler(folder, TOP / "examples" / "c" / name, "-o", name.replace(".c", ".elf"))
        wants(name, (ended.returncode, ended.stdout, ended.stderr), (0, needs, ""))


def test_several(folder):
    """A program of several sources, with options of the compiler."""
    (folder / "one.c").write_text("#include <pthread.h>\n#include <assert.h>\n#include \"two.h\"\nint main(void) { pthread_t t; pthread_create(&t, 0, two, 0);"
                                  " pthread_join(t, 0); assert(shared == NUMBER); return 0; }\n")
    (folder / "two.c").write_text('#include "two.h"\nint shared;\nvoid *two(void *p) { shared = NUMBER; return p; }\n')
    (folder / "headers").mkdir()
    (folder / "headers" / "two.h").write_text("extern int shared;\nvoid *two(void *p);\n")
    found = explored(guest(folder, "g", "one.c", "two.c", "-DNUMBER=5", "-Iheaders", "-std=c11", "-Wall", "-Wextra"))
    wants("all outcomes", (found.last.split()[:3], found.bad), (["finished", "outcomes", "1"], 0))


def test_buffered(folder, case):
    """What a program prints under --tso, and without it."""
    (folder / "g.c").write_text(case.source)
    for options, wanted in ((), case.plain), (("--tso",), case.buffered), (("--tso=1",), case.by_one):
        made = guest(folder, "g", "g.c", *options)
        _, lines = made.run("explore")
        outputs = {bytes.fromhex(lines[i + 1]).decode() for i, line in enumerate(lines) if re.match(r"thread 0 end 1 code 0 out [1-9]", line)}
        wants(f"{options}: what it prints", (lines[-1].split()[0], outputs), ("finished", wanted))


# Each command that takes an image, with the recording of a seed that is in lost.trc.
OVER_IMAGES = ("list {} --map names.map", "events {} lost.trc --map names.map", "stale lost.trc --image {}", "who lost.trc 0 --image {}", "why lost.trc 1 0 --image {}",
               "view lost.trc --json --image {}", "view lost.trc --image {}", "record {} by.trc --order 0x100,1x100", "explore {}",
               "hunt {} by.trc --seeds 0+50 --until fault", "explore {} by.trc --until fault", "debug {} lost.trc", "gdb {} lost.trc")


def test_elf_is_image(folder):
    """Each command takes the ELF file of a guest in place of the image that `ir elf` makes of it: the same status, output and recording."""
    guest(folder, "account", PROGRAMS / "account.c").run("hunt", "lost.trc", "--seeds", "0+1000", "--until", "fault")
    (folder / "names.map").write_text("00010000 T start\n")
    for words in OVER_IMAGES:
        ended = {}
        for name in ("account.img", "account.elf"):
            made = subprocess.run([program(), *words.format(name).split()], cwd=folder, check=False, input=b"forward 0 9\nregs 0\nquit\n", capture_output=True, timeout=100)
            recorded = folder / "by.trc"
            ended[name] = (made.returncode, made.stdout, made.stderr, recorded.read_bytes() if recorded.exists() else b"")
            recorded.unlink(missing_ok=True)
        wants(words, ended["account.elf"], ended["account.img"])


def symbols_of(folder, elf):
    """The names that `nm` has for the places of an ELF file, by address."""
    found = {}
    for line in subprocess.run(["riscv64-unknown-elf-nm", "-n", elf], cwd=folder, check=True, capture_output=True, text=True).stdout.splitlines():
        address, kind, name = line.split(maxsplit=2)
        if kind not in "Aa":
            found.setdefault(address, set()).add(name)
    return found


def test_elf_names(folder):
    """Without a map `ir list` and `ir events` name addresses by the symbols of an ELF file, as `nm` has them; else they print the same."""
    guest(folder, "account", PROGRAMS / "account.c").run("hunt", "lost.trc", "--seeds", "0+1000", "--until", "fault")
    known = symbols_of(folder, "account.elf")
    named = re.compile(r" <([^>+]+)(?:\+\d+)?>")
    for words in ("list {}", "events {} lost.trc"):
        of_elf, of_image = ([line for line in run(words.format(name).split(), folder).stdout.decode().splitlines() if not line.endswith(">:")]
                            for name in ("account.elf", "account.img"))
        wants(f"{words}: without names", [named.sub("", line) for line in of_elf], of_image)
        wants(f"{words}: names that nm doesn't have", {name for line in of_elf for name in named.findall(line)} - set().union(*known.values()), set())
    heads = [line.split() for line in run(["list", "account.elf"], folder).stdout.decode().splitlines() if line.endswith(">:")]
    wants("labels", [(address, name) for address, name in heads if name[1:-2] not in known.get(address, ())], [])
    wants("the functions", {"deposit", "withdraw", "check", "main"} - {name[1:-2] for _, name in heads}, set())


def where(folder, *arguments):
    """What ir-where prints of the recording of account, by lines."""
    return where_of(folder, "account.elf", "account.img", "account.trc", *arguments)


def where_of(folder, *words):
    """What ir-where prints of these."""
    return subprocess.run([sys.executable, WHERE, *words, "--ir", program()], cwd=folder, check=False, capture_output=True, text=True, timeout=600)


def names_in(folder, typed, *trace):
    """What ir-where adds to lines about threads and objects of account."""
    words = [sys.executable, WHERE, "account.elf", *trace, "--note", "--ir", program()]
    ended = subprocess.run(words, cwd=folder, check=False, capture_output=True, text=True, timeout=600, input=typed)
    wants("the note", ended.returncode, 0)
    return [line[2:] for line in ended.stdout.splitlines() if line[:2] == "  "]


def test_where(folder):
    """ir-where names the variable and the line of each entry that the program makes, also in the page of `ir view`, and refuses what isn't a recording."""
    status, _ = guest(folder, "account", PROGRAMS / "account.c").run("hunt", "account.trc", "--seeds", "0+1000", "--until", "fault")
    wants("a hunt", status, 0)
    lines = where(folder, "--variable", "balance").stdout.splitlines()
    places = {tuple(line.split()[-3:]) for line in lines}
    asked = {("balance", f"account.c:{line}", function) for line, function in ((13, "deposit"), (22, "withdraw"), (36, "check"))}
    wants("the reads of balance", asked - places, set())
    wants("all about it", {place[0] for place in places}, {"balance"})
    wants("thread 2", {line.split()[1] for line in where(folder, "--thread", "2").stdout.splitlines()}, {"2"})
    wants("at most", (where(folder, "--most", "3").stdout.count("\n"), "events more: --most N" in where(folder, "--most", "3").stderr), (3, True))
    wants("the page", "balance at account.c:13 in deposit" in where(folder, "--page").stdout, True)
    said = run("who account.trc 3 1 --image account.img", folder).stdout.decode()
    noted = subprocess.run([sys.executable, WHERE, "account.elf", "account.trc", "--note", "--ir", program()], cwd=folder, check=False, capture_output=True, text=True, timeout=600, input=said).stdout
    wants("noted", ([line for line in noted.splitlines() if line[:2] != "  "], "event 1 balance" in noted or "balance account.c" in noted), (said.splitlines(), True))
    wants("without an image", where(folder).stdout, where_of(folder, "account.elf", "account.trc").stdout)
    ends = "thread 0 end 1 code 134 out 0\nthread 1 end 2 code 0 out 0\n"
    wants("threads of the recording", names_in(folder, ends, "account.trc"), ["thread 0 main", "thread 1 check"])
    check = next(address for address, names in symbols_of(folder, "account.elf").items() if "check" in names)
    outcome = f"{ends}object 2 words 00000004 {check} 00000000\n"
    wants("threads of an outcome", names_in(folder, outcome), ["thread 0 main", "thread 1 check", "object 2 thread-1"])
    (folder / "account.trc").write_bytes(b"IRT1")
    wants("no recording", where(folder).returncode != 0, True)


def test_readme(folder):
    """The commands of the README's part on ordinary programs, but gdb's, write what follows them there."""
    for linked in ("guest", "tests", "examples"):
        (folder / linked).symlink_to(TOP / linked)
    (folder / "ir").symlink_to(program())
    part = README.read_text().partition("## Ordinary C programs\n")[2].partition("```\n")[2].partition("```")[0].splitlines()
    commands = [line[2:] for line in part if line.startswith("$ ")]
    wants("how many", len(commands), 5)
    ended = [shell(command, folder) for command in commands if not command.startswith("gdb-")]
    wants("what fails", [it.stderr for it in ended if it.returncode or it.stderr], [])
    wants("the hunt", ended[1].stdout.startswith(b"found seed "), True)
    wants("the last line", ended[-1].stdout.decode().splitlines(), [part[-1]])


def test_page(folder, page):
    """Each command of a page writes what follows it there, if the compiler is the one of the page."""
    version = subprocess.run(["riscv64-unknown-elf-gcc", "-dumpfullversion"], check=True, capture_output=True, text=True).stdout.strip()
    if version != PAGE_COMPILER:
        print(f"  the steps of the page are those of gcc {PAGE_COMPILER}, so its commands aren't run")
        return
    for linked in ("guest", "tests", "examples"):
        (folder / linked).symlink_to(TOP / linked)
    (folder / "ir").symlink_to(program())
    for command, _, wanted in commands_of(page.read_text()):
        ended = shell(command, folder)
        if not matches(ended.stdout.decode().splitlines(), wanted):
            raise Wrong(f"{command}: wrote {ended.stdout.decode()!r}")
        wants(f"{command}: standard error", ended.stderr, b"")


# ---- The table


def row_of(name):
    """A row of the table: seeds, states and seconds of the program and of its repaired form."""
    source, options = source_of(name)
    with tempfile.TemporaryDirectory() as place:
        folder = Path(place)
        bad = guest(folder, "bad", source, *options)
        walk, found = hunted(bad, name), explored(bad)
        good = explored(guest(folder, "good", source, "-DREPAIRED", *options))
        threads = (folder / "bad.img").read_bytes()[4]
    fault = "a hang" if hangs(name) else f"{found.bad} of {found.outcomes}"
    link = f"[{name}](../../tests/threads/programs/{source.name})"
    return f"| {link} | {threads} | {walk} | {found.states} | {fault} | {found.seconds:.1f} | {good.states} | {good.outcomes} | {good.seconds:.1f} |"


def print_table(names):
    """Prints the table of the programs."""
    print("| Program | Threads | Seed | States | Outcomes with the fault | s | Repaired: states | Outcomes | s |")
    print("|---|---|---|---|---|---|---|---|---|")
    for name in names:
        print(row_of(name), flush=True)


# ---- All tests


def constructs():
    """The names of the programs that are compared with native runs."""
    return sorted(path.stem for path in SOURCES.glob("*.c"))


def programs():
    """The names of the programs with a fault, and of their variants."""
    return sorted([*(path.stem for path in PROGRAMS.glob("*.c")), *VARIANTS])


def tests(few):
    """Each test, by its name."""
    levels, chosen = (("-Og",), FEW) if few else (LEVELS, None)
    same = [name for name in constructs() if not chosen or name in chosen]
    wrong = [name for name in programs() if not chosen or name in chosen]
    all_ = {f"same-{name}{level}": partial(test_construct, name=name, level=level) for name in same for level in levels}
    all_ |= {f"generated-{seed}{level}": partial(test_generated, seed=seed, level=level) for seed in GENERATED[:2 if few else None] for level in levels}
    all_ |= {f"fault-{name}{level}": partial(test_faulty, name=name, level=level) for name in wrong for level in levels}
    all_ |= {f"repaired-{name}": partial(test_repaired, name=name) for name in wrong}
    all_ |= {f"refused-{case.name}": partial(test_refused, case=case) for case in texts.REFUSED}
    all_ |= {f"text-{case.name}": partial(test_printed, case=case) for case in texts.PRINTED}
    all_ |= {f"tso-{case.name}": partial(test_buffered, case=case) for case in texts.BUFFERED}
    all_ |= {name: partial(test_page, page=page) for name, page in PAGES.items()}
    return all_ | {"no-compiler": test_no_compiler, "installed": test_installed, "readme": test_readme, "where": test_where, "elf-is-image": test_elf_is_image, "elf-names": test_elf_names, "on-ir-h": test_on_ir_h, "several": test_several}


def passes(name, test):
    """Whether a test in a folder of its own passes; prints a line."""
    with tempfile.TemporaryDirectory() as folder:
        try:
            test(Path(folder))
        except (Wrong, subprocess.SubprocessError, OSError) as why:
            print(f"{name}: failed: {why}", flush=True)
            return False
    print(f"{name}: passed", flush=True)
    return True


def arguments():
    """What is asked for."""
    parser = argparse.ArgumentParser(description=__doc__.splitlines()[0])
    parser.add_argument("program", metavar="IR", help="the built program")
    parser.add_argument("--few", action="store_true", help="a few of each kind")
    parser.add_argument("--table", action="store_true", help="prints the table of docs/guide/threads.md")
    parser.add_argument("--jobs", type=int, default=len(os.sched_getaffinity(0)), help="how many tests at the same time")
    parser.add_argument("names", nargs="*", metavar="TEST", help="tests that are run; all if none is named")
    return parser.parse_intermixed_args()


def main():
    asked = arguments()
    if not gcc_is_there():
        print("riscv64-unknown-elf-gcc isn't installed, so guests from ordinary C programs aren't tested")
        return finish(0, 0)
    use(asked.program)
    if asked.table:
        print_table(asked.names or programs())
        return 0
    all_ = tests(asked.few)
    names = asked.names or list(all_)
    if any(name not in all_ for name in names):
        sys.exit("The tests are " + ", ".join(all_) + ".")
    with ThreadPoolExecutor(asked.jobs) as pool:
        results = list(pool.map(lambda name: passes(name, all_[name]), names))
    return finish(sum(results), len(results) - sum(results))


if __name__ == "__main__":
    sys.exit(main())
