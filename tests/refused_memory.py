#!/usr/bin/env python3
"""Each request for memory refused in turn: the program goes on, or reports it, and loses nothing.

python3 tests/refused_memory.py IR [--tests crates/ir_session_tests/out/ir_session_tests_tests] [--jobs J]

Each row below is run again and again. First its first request for memory is refused, then its second, and so on until a run makes no more
requests. The start of a thread is a request too.

- A command of a session answers as it does with ample memory or, if it may, `refused 8 no memory`. After that, position and kept cuts are as
  before, and the same command answers as it would have. So are points: a second run of the session finds them by moves to their hits.
- A session that can't be opened writes nothing.
- `ir asm`, `ir record`, `ir trace`, `ir stale`, `ir who`, `ir why`, `ir diff` and `ir view` end as with ample memory, or with status 1 and a line that says why.
  Then only the last lines may be missing, and a file that is there is whole.
- `ir explore` ends as with ample memory, but for orders that may be longer (each is recorded), with status 1 and a line that says why, or with
  status 6 and the line `stopped memory`: then the outcomes before that line are the first of those with ample memory, and all of those that it
  says are covered. With `--until` nothing is recorded then.
- If a thread isn't started, all is as with ample memory.

Then the same with all requests refused from that one on. A session may then run out of memory again and again, and ends by `quit`. With
`--tests`, a built program of tests, each of its `memory_tests` is run too, which has to pass whichever request is refused.

A line for each row says how many refusals were tried, and what became of them. The last line is `N passed, M failed`. Needs Linux and a C
compiler (`cc`), for refusing.c.
"""
import collections
import concurrent.futures
import contextlib
import os
import re
import shlex
import subprocess
import sys
import tempfile
from pathlib import Path

from lib import (BAD, DOUBLE, REENTERED, STORES, Wrong, assembled, counters, examples, finish, library, parser_of, program, recorded, run,
                 said, use)

TOO_LITTLE = b"refused 8 no memory\n"

# Four million steps, which write four pages; the last two begin at 0x10028.
LONG = """
        lui t0, 0x100
        lui t2, 0x4
        lui t1, 150
again:  sub t3, t1, t2
        andi t3, t3, 3
        slli t3, t3, 12
        add t3, t3, t0
        sw t1, 0(t3)
        addi t1, t1, -1
        bne t1, zero, again
        addi a7, zero, 1
        ecall
"""

# Moves of each kind. Some are looked at right after: then what is shown takes no memory.
MOVES = ("step 0 3", "keep", "watch 0 0x100000", "break 0 0x10008", "end", "out 0", "rcont 0", "regs 0", "back 0 1", "regs 0", "kept", "load 1", "mem 0 0x10000 8",
         "cont 0", "log 0", "goto 0 1", "regs 0", "drop 1", "keep", "clear 1", "regs 0", "mem 0 0x10000 8", "out 0", "log 0", "next 0", "start",
         "regs 0", "load 9", "obj 0", "quit")

# What may be answered by `refused 8`: these after any command, the others but for the first and right after a move.
WANTING = {"step", "back", "goto", "start", "end", "cont", "rcont", "load", "keep", "next"}
SHOWING = {"regs", "mem", "obj", "out", "log"}

# Shows which points are set: their hits, each one's number, and the number of the next.
POINTS = ("start", "cont 0", "cont 0", "cont 1", "end", "rcont 0", "rcont 1", "clear 1", "clear 2", "clear 3", "clear 4", "break 0 0x10000")

# The sessions: a name, the guest, the order of its recording (none: by threads), the commands.
SESSIONS = (
    ("one thread", "doubled", "0", ("step 0 3", "regs 0", "step 0 9", "start", *MOVES)),
    ("its image and trace typed", "doubled", "0", ("step 0 3", "regs 0", "step 0 9", "keep", "back 0 1", "quit")),
    ("two writers", "two_counters", "1x18", ("step 0 3", "obj 0", "log 0", "next 0", "back 1 1", "start", "step 0 4294967295", "end", "obj 0",
                                             "next 0", "start", "break 0 0x1001c", "cont 0", "cont 0", "rcont 0", "quit")),
    ("a reader that writes", "reentered", "0", ("goto 0 7", "obj 0", "goto 0 3", "obj 0", "quit")),
    ("two threads and an object", "lost_update", "0x10,1x25", ("owatch 0", "cont 1", "rcont 1", *MOVES)),
    ("two threads that answer", "two_locks", "0,1", ("step 1 9", "keep", "end", "back 1 4", "obj 0", "log 1", "load 1", "quit")),
    ("stores of the same word", "stores", "0", ("watch 0 0x100000", "keep", "cont 0", "keep", "cont 0", "keep", "kept", "load 1", "quit")),
    ("points of each kind", "two_counters", "1x18",
     ("break 0 0x1001c", "watch 1 0x100000", "owatch 0", "cont 0", "mem 0 0x10000 8", "clear 2", "cont 1", "rcont 0", "break 1 0x10000", "keep",
      "clear 1", "cont 0", "quit")),
    ("tries", "spinning", "0x5,1x5", ("goto 1 5", "log 1", "obj 0", "end", "log 1", "back 1 1", "next 1", "start", "owatch 0", "cont 1", "quit")),
    ("eight threads", "eight_counters", None,
     ("end", "obj 0", "back 3 1", "keep", "start", "step 7 5", "load 1", "kept", "owatch 0", "rcont 0", "cont 3", "quit")),
    ("checkpoints on the way", "long", "0", ("end", "back 0 1", "back 0 1", "goto 0 1500000", "back 0 1", "keep", "end", "load 1", "quit")),
    ("searches over checkpoints", "long", "0", ("break 0 0x10028", "cont 0", "end", "rcont 0", "watch 0 0x104000", "rcont 0", "cont 0", "clear 1",
                                                "rcont 0", "cont 0", "quit")),
)

# What is done but for sessions: a name, the words, the files that may be written.
RUNS = (
    ("ir asm", "asm lost_update.s new.img", ("new.img",)),
    ("ir record of two writers", "record two_counters.img new.trc --order 1x18 --budget 1000", ("new.trc",)),
    ("ir asm of a fault", "asm bad.s new.img", ("new.img",)),
    ("ir asm that explains a fault", "asm --explain bad.s new.img", ("new.img",)),
    ("ir record with an order", "record lost_update.img new.trc --order 0x10,1x25 --output new", ("new.trc", "new.0", "new.1")),
    ("ir record by threads", "record hello.img new.trc --output new", ("new.trc", "new.0")),
    ("ir record of tries", "record spinning.img new.trc --order 0x5,1x5 --profile 2", ("new.trc",)),
    ("ir record of eight threads", "record eight_counters.img new.trc", None),
    ("ir trace", "trace lost_update.trc", ()),
    ("ir stale", "stale lost_update.trc", ()),
    ("ir stale with the image", "stale lost_update.trc --image lost_update.img", ()),
    ("ir who", "who lost_update.trc 0", ()),
    ("ir who of a version", "who lost_update.trc 0 0", ()),
    ("ir who of a word", "who lost_update.trc 0 --word 0 --image lost_update.img", ()),
    ("ir why", "why lost_update.trc 0 1", ()),
    ("ir diff", "diff lost_update.trc two_counters.trc", ()),
    ("ir view", "view lost_update.trc", ()),
    ("ir view for other viewers", "view --chrome lost_update.trc", ()),
    ("ir view of a part", "view --json --around 0 1 --span 1 lost_update.trc", ()),
)

# What is explored: a name, the words, the words that print all its outcomes, the files that may be written.
EXPLORED = (
    ("ir explore", "explore lost_update.img", "explore lost_update.img", ()),
    ("ir explore of few switches", "explore lost_update.img --switches 1", "explore lost_update.img --switches 1", ()),
    ("ir explore of two locks", "explore two_locks.img", "explore two_locks.img", ()),
    ("ir explore of a hang", "explore polling.img", "explore polling.img", ()),
    ("ir explore up to a lost update", "explore lost_update.img new.trc --until 'word 0 0 1'", "explore lost_update.img", ("new.trc",)),
    ("ir explore up to what never is", "explore lost_update.img new.trc --until 'word 0 0 3'", "explore lost_update.img", ("new.trc",)),
)

# One thread that reads word 0 of object 0 until it isn't 0, which it stays.
POLLING = """
        .objects 1
        .thread main
main:   addi a0, zero, 0
        addi a7, zero, 7
        ecall
        addi a0, zero, 0
        addi a1, zero, 0
        addi a7, zero, 10
        ecall
        addi s0, a0, 0
        addi a0, zero, 0
        addi a7, zero, 9
        ecall
        beq s0, zero, main
        addi a7, zero, 1
        ecall
"""

STOPPED = re.compile(rb"stopped memory covered (-|\d+) outcomes (\d+) states \d+\n")


class Refused:
    """A run of a program whose request of this number is refused, and if that lasts all after it; with 0 none is."""

    # The library that refuses.
    library = ""

    def __init__(self, words, folder, number, lasts=False, other="", **streams):
        self.reader, report = os.pipe()
        os.set_blocking(self.reader, False)
        more = {"LD_PRELOAD": Refused.library, "REFUSED": str(number), "TOLD": str(report)} | ({"LASTS": "1"} if lasts else {})
        self.run = subprocess.Popen([other or program(), *shlex.split(words)], cwd=folder, env=os.environ | more, pass_fds=(report,),
                                    stdout=subprocess.PIPE, stderr=subprocess.PIPE, **streams)
        os.close(report)

    def ended(self):
        """Its status, what it wrote since, and what was refused: memory (m), a thread (t), or nothing."""
        out, error = self.run.communicate(timeout=300)
        try:
            met = os.read(self.reader, 8).decode()
        except BlockingIOError:
            met = ""
        os.close(self.reader)
        return self.run.returncode, out, error, met


def lines_of(run, count):
    """The next lines that a session writes."""
    return b"".join(run.stdout.readline() for _ in range(count))


def ask(run, command):
    """Sends a command."""
    run.stdin.write(command.encode() + b"\n")
    run.stdin.flush()


Asked = collections.namedtuple("Asked", "command answer here points may_want")


def answers_of(folder, name, commands):
    """Each command with what is answered with ample memory: to it, and to what asks for position, kept cuts and points before it."""
    found, moved = [], True
    for place, command in enumerate(commands):
        before = len(said(folder, name, commands[:place]))
        answer = said(folder, name, commands[:place + 1])[before:]
        here = said(folder, name, (*commands[:place], "pos", "kept"))[before:]
        points = said(folder, name, (*commands[:place], *POINTS))[before:]
        word = command.split()[0]
        may_want = (word in WANTING or word in SHOWING and not moved) and not answer.startswith(b"refused")
        found.append(Asked(command, answer, here, points, may_want))
        moved = answer.startswith(b"at ") and word != "pos"
    if not all(asked.answer for asked in found):
        raise Wrong(f"a command without an answer: {found!r}")
    return found


def is_opened(run):
    """Whether a session is opened; if it isn't, it says so and writes nothing."""
    if run.run.stdout.readline() == b"ready\n":
        return True
    with contextlib.suppress(BrokenPipeError):
        run.run.stdin.close()
    run.run.stdin = None
    status, out, error, met = run.ended()
    if (status, out, error.count(b"\n"), met) != (1, b"", 1, "m"):
        raise Wrong(f"opening: {status} {out!r} {error!r} {met!r}")
    return False


def compare(run, asked, commands, wanted):
    """Asks for what a command that ran out of memory may not have changed."""
    for command in commands:
        ask(run.run, command)
    found = lines_of(run.run, wanted.count(b"\n"))
    if found != wanted:
        raise Wrong(f"after {asked.command}: {found!r}, before {wanted!r}")


def after_want(run, asked, how):
    """What is asked after a command that ran out of memory: once the command again, then the points, and while it lasts the command and the end.
    Whether the session goes on."""
    if how == "once":
        compare(run, asked, ("pos", "kept", asked.command), asked.here + asked.answer)
        return True
    if how == "points":
        compare(run, asked, (*POINTS, "quit"), asked.points + b"bye\n")
        return False
    compare(run, asked, ("pos", "kept"), asked.here)
    ask(run.run, asked.command)
    first = run.run.stdout.readline()
    if first == TOO_LITTLE:
        compare(run, asked, ("pos", "kept"), asked.here)
    elif first + lines_of(run.run, asked.answer.count(b"\n") - 1) != asked.answer:
        raise Wrong(f"{asked.command} again: {first!r} .., with ample memory {asked.answer!r}")
    compare(run, asked, ("quit",), b"bye\n")
    return False


def converse(run, found, how):
    """Asks each command, as long as the session goes on. Whether one ran out of memory."""
    wanted = False
    for asked in found:
        ask(run.run, asked.command)
        first = run.run.stdout.readline()
        if first == TOO_LITTLE:
            if not asked.may_want:
                raise Wrong(f"{asked.command}: {first!r}")
            wanted = True
            if not after_want(run, asked, how):
                break
        elif first + lines_of(run.run, asked.answer.count(b"\n") - 1) != asked.answer:
            raise Wrong(f"{asked.command}: {first!r} .., with ample memory {asked.answer!r}")
    return wanted


def typed_before(folder, row):
    """What is typed before the commands of a session: its image and its trace, or nothing if they are its arguments."""
    if not row[0].endswith("typed"):
        return b""
    return b"".join((folder / f"{row[1]}.{end}").read_bytes().hex().encode() + b"\n" for end in ("img", "trc"))


def session(folder, row, found, number, how="once"):
    """A session with one refusal: what was refused, and what became of it. If one command ran out of memory, another that asks for the points;
    then one in which the refusal lasts."""
    typed = typed_before(folder, row)
    words = "" if typed else f"debug {row[1]}.img {row[1]}.trc"
    run = Refused(words, folder, number, how == "lasting", stdin=subprocess.PIPE)
    with contextlib.suppress(BrokenPipeError):
        run.run.stdin.write(typed)
        run.run.stdin.flush()
    wanted, met, became = False, "m", "not opened"
    if is_opened(run):
        wanted = converse(run, found, how)
        status, out, error, met = run.ended()
        if (status, out, error) != (0, b"", b"") or (wanted and met != "m" and how != "lasting"):
            raise Wrong(f"the end: {status} {out!r} {error!r} {met!r}")
        became = "answered by refused 8" if wanted else "answered as with ample memory"
    if how == "once" and wanted:
        session(folder, row, found, number, "points")
    if how == "once" and met:
        session(folder, row, found, number, "lasting")
    return met, became


def whole(folder, words, files, number, lasts=False):
    """What a run that is no session does: its end, and the files that it wrote."""
    run = Refused(words, folder, number, lasts, stdin=subprocess.DEVNULL)
    status, out, error, met = run.ended()
    written = {}
    for name in files or ("new.trc",):
        place = folder / name
        if place.exists():
            written[name] = place.read_bytes()
            place.unlink()
    if (folder / "new.trc.part").exists():
        raise Wrong("a part of a trace is left")
    return (status, out, error, written), met


def eight_counted(folder, trace):
    """Whether a trace of the eight threads is one of theirs."""
    (folder / "found.trc").write_bytes(trace)
    again = run("debug eight_counters.img found.trc", folder, input=b"end\nobj 0\nquit\n", timeout=300)
    return b"version 8 left 0 readers - writer -\nwords 00000008 " in again.stdout


def is_ample(folder, files, found, ample):
    """Whether a run did what it does with ample memory."""
    if files is not None:
        return found == ample
    status, out, error, written = found
    return (status, out.count(b"\n"), error) == (0, 8, b"") and eight_counted(folder, written.get("new.trc", b""))


def ended_run(folder, words, files, ample, number, lasts):
    """A run with one refusal or with all from there on: what was refused first, and what became of it."""
    found, met = whole(folder, words, files, number, lasts)
    status, out, error, written = found
    if (met != "m" and not lasts) or (status, error.count(b"\n")) != (1, 1):
        if not is_ample(folder, files, found, ample):
            raise Wrong(f"{met!r} {found[:3]!r} and {sorted(written)}")
        return met, "done as with ample memory"
    if not ample[1].startswith(out) if files is not None else out:
        raise Wrong(f"{found[:3]!r}")
    if "new.trc" not in written and written.keys() - {"new.img"}:
        raise Wrong(f"outputs without their trace: {found!r}")
    for name in written.keys() & {"new.img", "new.trc"}:
        if not (written[name] == ample[3][name] if files is not None else eight_counted(folder, written[name])):
            raise Wrong(f"{name} isn't whole: {written[name]!r}")
    return met, "ended with status 1"


def one_run(folder, words, files, ample, number):
    """A run with one refusal: what was refused, and what became of it. If there was one, another run in which it lasts."""
    met, became = ended_run(folder, words, files, ample, number, False)
    if met:
        ended_run(folder, words, files, ample, number, True)
    return met, became


def switches_of(text):
    """The switches of each outcome of a text of `ir explore`."""
    return [int(line.split()[3]) for line in text.splitlines() if line.startswith(b"outcome ")]


def is_cut(out, ample):
    """Whether lines of `ir explore` are the first outcomes of those with ample memory and the line that memory ran out, as far as it says."""
    lines, _, last = out[:-1].rpartition(b"\n")
    said = STOPPED.fullmatch(last + b"\n")
    listed = lines + b"\n" if lines else b""
    left = ample.removeprefix(listed)
    if not said or not ample.startswith(listed) or not left.startswith((b"outcome ", b"hang ", b"finished ", b"covered ")):
        return False
    covered = -1 if said[1] == b"-" else int(said[1])
    least = [many for many in switches_of(ample) if many <= covered]
    return len(switches_of(listed)) == int(said[2]) >= len(least)


ORDER = re.compile(rb" order (\S+)")


def has_longer_orders(folder, words, found, ample):
    """Whether an answer of `ir explore` is that with ample memory but for orders. Where memory runs out while the short order of an outcome is
    tried, it has the order in which each thread first goes to its first entry by itself: that has to lead to the outcome too."""
    if (found[0], *found[2:]) != (ample[0], *ample[2:]) or ORDER.sub(b"", found[1]) != ORDER.sub(b"", ample[1]):
        return False
    lines = found[1].split(b"\n")
    for place, line in enumerate(lines):
        if line.startswith(b"outcome "):
            order = ORDER.search(line)[1].decode()
            recorded = run(["record", words.split()[1], "order.trc", "--order", order], folder).stdout.split(b"\n")
            (folder / "order.trc").unlink()
            ends = [b" ".join(each.split()[:6]) for each in recorded if each.startswith(b"thread ")]
            if ends != [b" ".join(each.split()[:6]) for each in lines[place + 1:place + 1 + len(ends)]]:
                return False
    return True


def explored_run(folder, row, ample, lines, number, lasts):
    """A run of `ir explore` with one refusal or with all from there on: what was refused first, and what became of it."""
    _, words, _, files = row
    found, met = whole(folder, words, files, number, lasts)
    status, out, error, written = found
    if found == ample:
        return met, "done as with ample memory"
    if met != "m" and not lasts:
        raise Wrong(f"{met!r} {found[:3]!r}")
    if has_longer_orders(folder, words, found, ample):
        return met, "done with longer orders"
    if (status, error.count(b"\n")) == (1, 1) and (ample[1].startswith(out) or lines.startswith(out)) and not written:
        return met, "ended with status 1"
    if (status, error, written) == (6, b"", {}) and is_cut(out, lines):
        return met, "stopped as it says"
    raise Wrong(f"{found[:3]!r} and {sorted(written)}")


def one_exploring(folder, row, ample, lines, number):
    """A run of `ir explore` with one refusal, and another in which it lasts."""
    met, became = explored_run(folder, row, ample, lines, number, False)
    if met:
        explored_run(folder, row, ample, lines, number, True)
    return met, became


def one_test(folder, program, name, number):
    """A test with one refusal, which has to pass: what was refused."""
    status, out, error, met = Refused(name, folder, number, False, program, stdin=subprocess.DEVNULL).ended()
    if status != 0:
        raise Wrong(f"{status} {out!r} {error!r}")
    return met, "passed"


def tried(kind, folder, row):
    """What tries a row with the request of a number refused."""
    if kind == "session":
        found = answers_of(folder, row[1], row[3])
        return lambda number: session(folder, row, found, number)
    if kind == "run":
        found, _ = whole(folder, row[1], row[2], 0)
        return lambda number: one_run(folder, row[1], row[2], found, number)
    if kind == "explore":
        found, _ = whole(folder, row[1], row[3], 0)
        lines = whole(folder, row[2], (), 0)[0][1]
        return lambda number: one_exploring(folder, row, found, lines, number)
    return lambda number: one_test(folder, row[1], row[0], number)


def walked(kind, row):
    """A row with each of its requests refused in turn: how many there were, what became of them, and what was wrong."""
    faults, number, seen = [], 0, collections.Counter()
    with tempfile.TemporaryDirectory() as name:
        folder = Path(name)
        prepare(folder)
        attempt = tried(kind, folder, row)
        while len(faults) < 5:
            number += 1
            try:
                met, became = attempt(number)
            except (Wrong, OSError, subprocess.TimeoutExpired) as wrong:
                faults.append(f"{row[0]}, refusal {number}: {wrong}")
                continue
            if not met:
                break
            seen[became] += 1
            seen["of a thread"] += met == "t"
    return row[0], number - 1, seen, faults


def prepare(folder):
    """The guests and their recordings."""
    sources = examples() | {"doubled": DOUBLE, "reentered": REENTERED, "stores": STORES, "long": LONG,
                            "polling": POLLING, "two_counters": counters(2), "eight_counters": counters(8)}
    for name, source in sources.items():
        assembled(folder, name, source)
    for _, name, order, _ in SESSIONS:
        recorded(folder, name, order, budget=100_000_000)
    (folder / "bad.s").write_text(BAD)


def memory_tests(path):
    """A row for each of the tests about memory of a built program of tests."""
    listed = subprocess.run([path, "--list"], check=True, capture_output=True, text=True).stdout.splitlines()
    return [("test", (line.removesuffix(": test"), path)) for line in listed if line.startswith("memory_tests::")]


def main():
    parser = parser_of(__doc__)
    parser.add_argument("--tests", help="a built program of tests, whose memory_tests are tried too")
    words = parser.parse_args()
    use(words.program)
    passed, failed = 0, 0
    rows = [("session", row) for row in SESSIONS] + [("run", row) for row in RUNS]
    rows += [("explore", row) for row in EXPLORED]
    rows += memory_tests(os.path.abspath(words.tests)) if words.tests else []
    with tempfile.TemporaryDirectory() as name:
        Refused.library = library(name, "refusing")
        with concurrent.futures.ThreadPoolExecutor(words.jobs) as pool:
            for row, count, seen, faults in pool.map(lambda both: walked(*both), rows):
                became = ", ".join(f"{many} {what}" for what, many in seen.items() if many)
                print(f"{row}: {count} refusals, {became}; {len(faults)} wrong", flush=True)
                for fault in faults:
                    print(f"  {fault[:600]}")
                passed, failed = passed + count - len(faults), failed + len(faults)
    return finish(passed, failed)


if __name__ == "__main__":
    sys.exit(main())
