"""What the tests of the built program share: which program it is, guests, runs of it, and how a test ends."""
import argparse
import os
import shlex
import signal
import subprocess
import time
from pathlib import Path

TOP = Path(__file__).resolve().parent.parent

# A shell has what it starts in the background ignore Ctrl-C, and programs that are started from there ignore it too.
signal.signal(signal.SIGINT, signal.default_int_handler)

# Prints a byte, and ends with a code.
DOUBLE = """
        addi a0, zero, 72
        addi a7, zero, 2
        ecall
        add a0, a0, a0
        addi a7, zero, 1
        ecall
"""

# Two stores of the same word, and an end.
STORES = """
        lui a0, 0x100
        sw a0, 0(a0)
        sw a0, 0(a0)
        addi a7, zero, 1
        ecall
"""

# An entry for reading, and then one for writing.
CALLS = "".join(f"        addi a7, zero, {call}\n        ecall\n" for call in (7, 9, 8, 9, 1))
REENTERED = "        .objects 1\n        addi a0, zero, 0\n" + CALLS

# One of the threads of `examples/counter.s`, each of which adds one to the first word of an object, in 18 steps.
COUNTING = "        .thread main\n"

# A source with a fault.
BAD = "nop\nx\n"


class Wrong(Exception):
    """What a test found."""


class Program:
    """The built program that is tested."""

    path = ""


def use(path):
    """From here on this program is tested."""
    Program.path = os.path.abspath(path)


def program():
    """The path of the program that is tested."""
    return Program.path


def parser_of_program(doc):
    """A parser of arguments: the program alone."""
    parser = argparse.ArgumentParser(description=doc.splitlines()[0])
    parser.add_argument("program", metavar="IR", help="the built program")
    return parser


def parser_of(doc):
    """A parser of arguments: the program, and how many runs there are at the same time."""
    parser = parser_of_program(doc)
    parser.add_argument("--jobs", type=int, default=len(os.sched_getaffinity(0)), help="how many runs at the same time")
    return parser


def finish(passed, failed):
    """Prints the last line of all tests, and returns their exit status."""
    print(f"{passed} passed, {failed} failed")
    return 1 if failed else 0


def wants(what, found, wanted):
    """Fails if what was found isn't what was wanted."""
    if found != wanted:
        raise Wrong(f"{what}: found {found!r}, wanted {wanted!r}")


def examples():
    """The sources of the folder `examples`, by name."""
    return {path.stem: path.read_text() for path in sorted((TOP / "examples").glob("*.s"))}


def counters(threads):
    """The source of `examples/counter.s`, with this number of threads."""
    return COUNTING * threads + examples()["counter"].replace(COUNTING, "")


def profile_of(source):
    """The profile of system calls in which a guest is recorded."""
    return 2 if "TRY_WRITE" in source or ".large" in source else 1


def run(arguments, folder, **more):
    """A run of the program in a folder, to its end. The arguments are words, or one text."""
    words = shlex.split(arguments) if isinstance(arguments, str) else arguments
    if "input" not in more:
        more.setdefault("stdin", subprocess.DEVNULL)
    more.setdefault("stdout", subprocess.PIPE)
    more.setdefault("stderr", subprocess.PIPE)
    more.setdefault("timeout", 120)
    return subprocess.run([program(), *words], cwd=folder, check=False, **more)


def interrupted(arguments, folder, seconds):
    """The status of a run that is sent Ctrl-C after these seconds. It is ended if it goes on for ten more."""
    with subprocess.Popen([program(), *shlex.split(arguments)], cwd=folder, stdout=subprocess.DEVNULL, stderr=subprocess.DEVNULL) as started:
        try:
            time.sleep(seconds)
            started.send_signal(signal.SIGINT)
            return started.wait(10)
        finally:
            started.kill()


def shell(command, folder, typed=b""):
    """A run of a command by bash, in which `./ir` is the program, over what is typed."""
    return subprocess.run(["bash", "-c", command], cwd=folder, timeout=120, input=typed, capture_output=True, check=False)


def assembled(folder, name, source):
    """Writes a source into the folder, assembles it, and returns the bytes of the image."""
    (folder / f"{name}.s").write_text(source)
    wants(f"assembling {name}", run(["asm", f"{name}.s", f"{name}.img"], folder).returncode, 0)
    return (folder / f"{name}.img").read_bytes()


def recorded(folder, name, order=None, budget=1_000_000, more=()):
    """Records an image of the folder, in an order or by threads, and returns the bytes of the trace."""
    profile = profile_of((folder / f"{name}.s").read_text())
    words = ["record", f"{name}.img", f"{name}.trc", "--budget", str(budget), "--profile", str(profile), *more]
    words += ["--order", order] if order else []
    wants(f"recording {name}", run(words, folder, stdout=subprocess.DEVNULL, timeout=300).returncode, 0)
    return (folder / f"{name}.trc").read_bytes()


def said(folder, name, lines):
    """What a session over the image and the trace of this name writes, over these lines."""
    typed = "".join(f"{line}\n" for line in lines).encode()
    return run(["debug", f"{name}.img", f"{name}.trc"], folder, input=typed, timeout=300).stdout


def library(folder, name):
    """Compiles a C file of this folder to a library that is loaded before the program, and returns its path."""
    place = f"{folder}/{name}.so"
    source = Path(__file__).resolve().parent / f"{name}.c"
    subprocess.run(["cc", "-O2", "-shared", "-fPIC", source, "-o", place, "-ldl", "-lpthread"], check=True)
    return place
