#!/usr/bin/env python3
"""How fast guests run, are recorded, fitted and replayed, how fast a session answers, and how fast the assembler is.

python3 bench/speed.py IR BENCH [PART ..]

IR is the program, and BENCH that of crate ir_bench. Each time is the best of five, unless it says otherwise, and the time of an empty guest
is taken off. Without PART all are measured:

speeds      guests of 8 * 10^7 steps and more: by a session, by steps many at a time, and with each step asked and taken by itself
traces      recording in order from file to file, fitting what was recorded, and replaying it from its start to its end
by_threads  recording and replay by real threads beside the same in order, medians of five turns
processes   replay by one process, by four that share nothing, and by four threads, in turn: what the machine gives
apart       what four threads of a program in C reach that share nothing, if there is a C compiler
contended   the same of guests whose threads meet at one object, with thread switches; opening; the slowest of 50 moves to the end
sessions    answers a second
continuing  moves back, searches both ways and checkpoints, in milliseconds, the best of three; memory
coherence   the check of eight long logs
tries       refused tries beside private calls
assembling  lines a second
"""
import argparse
import os
import shutil
import struct
import subprocess
import sys
import tempfile
import time
from itertools import count
from pathlib import Path
from statistics import median

import guests

MANY = ["--budget", "1000000000"]


def trace_of(logs, steps, budget, objects=0, magic=b"IRT1"):
    """A trace of threads that end with code 0 after these steps, each with the number of its events and their bytes."""
    head = magic + bytes([len(logs), objects, 0, 0]) + struct.pack("<Q", budget)
    return head + b"".join(struct.pack("<QBII", steps, 1, 0, size) + events for size, events in logs)


class Programs:
    """The two programs, and a folder for images and traces."""

    def __init__(self, program, bench, folder):
        self.program, self.bench, self.folder = program, bench, Path(folder)
        self.places, self.images = count(), {}

    def place(self, suffix):
        """The path of a new file."""
        return self.folder / f"{next(self.places)}{suffix}"

    def file_of(self, guest):
        """The file of a guest's image."""
        source = guest.source()
        if source not in self.images:
            text, self.images[source] = self.place(".s"), self.place(".img")
            text.write_text(source, encoding="ascii")
            subprocess.run([self.program, "asm", text, self.images[source]], check=True)
        return self.images[source]

    def digits_of(self, guest):
        """A guest's image in hexadecimal."""
        return self.file_of(guest).read_bytes().hex().encode() + b"\n"

    def best(self, words, data, is_good, tries=5):
        """The seconds of a command over this input, the best of these tries."""
        times = []
        for _ in range(tries):
            start = time.perf_counter()
            run = subprocess.run(words, input=data, stdout=subprocess.PIPE, check=False)
            times.append(time.perf_counter() - start)
            if run.returncode != 0 or not is_good(run.stdout):
                sys.exit(f"{words}: status {run.returncode}, {run.stdout!r}")
        return min(times)

    def best_of_bench(self, mode, data, steps, tries=5):
        """The seconds of BENCH in this mode, of a guest that takes these steps."""
        return self.best([self.bench], mode + b"\n" + data, lambda out: out == b"%d steps\n" % steps, tries)

    def best_of_guest(self, mode, guest):
        """The seconds of BENCH in this mode, of a guest of one thread."""
        return self.best_of_bench(mode, self.digits_of(guest), guest.steps)

    def best_replay(self, mode, data, steps, tries=5):
        """The seconds of the replay alone, as BENCH says them."""
        times = []
        for _ in range(tries):
            run = subprocess.run([self.bench], input=mode + b"\n" + data, stdout=subprocess.PIPE, check=False)
            lines = run.stdout.split(b"\n")
            if run.returncode != 0 or lines[1:] != [b"%d steps" % steps, b""] or not lines[0].endswith(b" microseconds"):
                sys.exit(f"{mode}: status {run.returncode}, {run.stdout!r}")
            times.append(int(lines[0].split()[0]) / 1e6)
        return min(times)

    def record(self, guest, more=()):
        """The trace of a guest, and the seconds of its recording from file to file."""
        trace = self.place(".trc")
        words = [self.program, "record", self.file_of(guest), trace, *MANY, "--profile", "2" if guest.is_large() else "1", *more]
        seconds = self.best(words, b"", lambda out: out.count(b" end 1 ") == guest.threads)
        return trace, seconds

    def session(self, files, lines):
        """The seconds of a session over these lines, and the bytes of its answers."""
        sizes = []
        seconds = self.best([self.program, "debug", *files], lines, lambda out: sizes.append(len(out)) or out.startswith(b"ready\n"))
        return seconds, sizes[-1]

    def answering(self, files, before, lines):
        """The seconds in which a session answers these lines after others, each sent once the one before has its one line of answer."""
        with subprocess.Popen([self.program, "debug", *files], stdin=subprocess.PIPE, stdout=subprocess.PIPE) as run:
            def ask(line):
                run.stdin.write(line)
                run.stdin.flush()
                return run.stdout.readline()

            if run.stdout.readline() != b"ready\n" or not all(ask(line) for line in before.splitlines(True)):
                sys.exit(f"{files}: no answer to {before!r}")
            start = time.perf_counter()
            answers = [ask(line) for line in lines.splitlines(True)]
            took = time.perf_counter() - start
            if any(answer.startswith(b"refused") for answer in answers):
                sys.exit(f"{files}: {lines[:40]!r} is refused")
            run.stdin.close()
            run.stdout.read()
        return took

    def peak(self, files, lines):
        """The most memory of a session, in KiB: the least of five."""
        sizes = []
        for _ in range(5):
            run = subprocess.Popen([self.program, "debug", *files], stdin=subprocess.PIPE, stdout=subprocess.DEVNULL)
            run.stdin.write(lines)
            run.stdin.close()
            sizes.append(used_by(run).ru_maxrss)
        return min(sizes)


def used_by(run):
    """What a command used, which has to end with exit status 0."""
    _, status, used = os.wait4(run.pid, 0)
    if status:
        sys.exit(f"{run.args}: status {os.waitstatus_to_exitcode(status)}")
    return used


def speeds(programs):
    """Millions of steps a second of guests of one thread."""
    def in_session(guest):
        trace = trace_of([(0, b"")], guest.steps, guest.steps + 10)
        lines = programs.digits_of(guest) + trace.hex().encode() + b"\n"
        return programs.best([programs.program], lines, lambda out: out.startswith(b"ready\n"))

    ways = (in_session, lambda guest: programs.best_of_guest(b"run", guest), lambda guest: programs.best_of_guest(b"steps", guest))
    bases = [way(guests.EMPTY) for way in ways]
    print("millions of steps a second")
    print(f"{'guest':24}{'steps':>12}{'session':>10}{'run':>10}{'ask, take':>12}{'ratio':>8}")
    for guest in guests.of_one_thread():
        session, run, each = (guest.steps / (way(guest) - base) / 1e6 for way, base in zip(ways, bases))
        print(f"{guest.name:24}{guest.steps:>12}{session:>10.0f}{run:>10.0f}{each:>12.0f}{run / each:>8.1f}", flush=True)


def traces(programs):
    """Recording in order, fitting and replaying."""
    print("traces, millions of steps of all threads a second")
    print(f"{'guest':40}{'steps':>12}{'record':>10}{'fit':>10}{'replay':>10}")
    for guest in guests.of_threads():
        steps, empty = guest.all_steps(), guests.EMPTY.named("empty", guest.threads, guest.objects)
        trace, seconds = programs.record(guest, ("--order", "0"))
        _, base = programs.record(empty, ("--order", "0"))
        data = programs.digits_of(guest) + trace.read_bytes().hex().encode() + b"\n"
        fitted = programs.best_of_bench(b"fit", data, steps) - programs.best_of_bench(b"read", data, steps)
        replayed = programs.best_replay(b"replay", data, steps)
        rates = (steps / taken / 1e6 for taken in (seconds - base, fitted, replayed))
        print(f"{guest.name:40}{steps:>12}" + "".join(f"{rate:>10.0f}" for rate in rates), flush=True)


def switches(words, data):
    """How often the threads of a command over this input were switched."""
    with subprocess.Popen(words, stdin=subprocess.PIPE, stdout=subprocess.DEVNULL) as run:
        run.stdin.write(data)
        run.stdin.close()
        used = used_by(run)
    return used.ru_nvcsw + used.ru_nivcsw


# Recording, the same by threads, replay, the same by threads.
MODES = (b"record", b"record-threads", b"replay", b"replay-threads")


def times_of_modes(programs, image, both, steps, base):
    """The seconds of a guest in each of MODES, the medians of five turns in which each is measured once: the machine's speed moves from second to
    second. `both` has the trace too, and `base` is the time of an empty guest's recording."""
    def one(mode):
        if mode.startswith(b"record"):
            return programs.best_of_bench(mode, image, steps, 1) - base
        return programs.best_replay(mode, both, steps, 1)
    turns = [[one(mode) for mode in MODES] for _ in range(5)]
    return [median(times) for times in zip(*turns)]


def by_threads(programs):
    """Recording and replay by real threads beside the same in order, the medians of five turns, with thread switches. A replay is from the start
    to the end, without the fit before it. A recording is from an image to a trace in memory, without the start of the program."""
    print("by real threads beside in order, millions of steps of all threads a second; switches of threads")
    heads = ("record", "threads", "ratio", "switches", "replay", "threads", "ratio", "switches")
    print(f"{'guest':52}{'steps':>12}" + "".join(f"{head:>10}" for head in heads))
    base = programs.best([programs.bench], b"record\n" + programs.digits_of(guests.EMPTY), lambda out: True)
    for guest in guests.side_by_side():
        steps, image = guest.all_steps(), programs.digits_of(guest)
        trace, _ = programs.record(guest)
        both = image + trace.read_bytes().hex().encode() + b"\n"
        times = times_of_modes(programs, image, both, steps, base)
        counts = [switches([programs.bench], mode + b"\n" + data) for mode, data in ((b"record-threads", image), (b"replay-threads", both))]
        a, b, c, d = (steps / seconds / 1e6 for seconds in times)
        print(f"{guest.name:52}{steps:>12}{a:>10.0f}{b:>10.0f}{b / a:>10.2f}{counts[0]:>10}{c:>10.0f}{d:>10.0f}{d / c:>10.2f}{counts[1]:>10}",
              flush=True)


def replay_of_each(programs, data, many, mode=b"replay"):
    """The seconds that this many processes take, each of which replays the same guest: the slowest of them, by its own clock."""
    runs = [subprocess.Popen([programs.bench], stdin=subprocess.PIPE, stdout=subprocess.PIPE) for _ in range(many)]
    for run in runs:
        run.stdin.write(mode + b"\n" + data)
        run.stdin.close()
    outs = [run.stdout.read() for run in runs]
    if any(run.wait() != 0 for run in runs):
        sys.exit("replay: a process failed")
    return max(int(out.split()[0]) / 1e6 for out in outs)


def processes(programs):
    """What the machine gives: processes of one thread each, which share nothing, replay at once what one of them replays alone. Beside them the
    same by four threads of one process. No replay by threads can do more steps a second than these processes. The machine's speed moves from
    second to second, so each is measured in turn, nine times, and the medians are compared."""
    print("replay in order by one process, by four at once, and by four threads of one process: nine times in turn, the medians in milliseconds;")
    print("millions of steps of all a second, of those of one process; and the threads' of the processes'")
    heads = ("one", "four", "threads", "four/one", "thr./one", "thr./four")
    print(f"{'guest':52}{'steps':>12}" + "".join(f"{head:>10}" for head in heads))
    for alone, together in guests.alone_and_together():
        one, many = (programs.digits_of(guest) + programs.record(guest)[0].read_bytes().hex().encode() + b"\n" for guest in (alone, together))
        turns = [(replay_of_each(programs, one, 1), replay_of_each(programs, one, 4), replay_of_each(programs, many, 1, b"replay-threads"))
                 for _ in range(9)]
        a, b, c = (median(times) for times in zip(*turns))
        print(f"{alone.name:52}{alone.steps:>12}{a * 1e3:>10.0f}{b * 1e3:>10.0f}{c * 1e3:>10.0f}{4 * a / b:>10.2f}{4 * a / c:>10.2f}{b / c:>10.2f}",
              flush=True)


def apart(programs):
    """What four threads of a program in C reach that share nothing, of one of them: the median, the least and the most of 15 tries."""
    compiler, program = shutil.which("cc"), programs.place("")
    if not compiler:
        print("no C compiler, so threads that share nothing aren't measured")
        return
    subprocess.run([compiler, "-O2", "-o", program, Path(__file__).with_name("apart.c"), "-lpthread"], check=True)
    ratios = sorted(float(subprocess.run([program], check=True, stdout=subprocess.PIPE).stdout) for _ in range(15))
    print(f"four threads of a program in C that share nothing, of one: median {median(ratios):.2f} of 15 tries, from {ratios[0]:.2f} to {ratios[-1]:.2f}",
          flush=True)


def ends_of(programs, files):
    """The seconds of a session's first move to the end, by length, of 50 sessions."""
    return sorted(programs.answering(files, b"", b"end\n") for _ in range(50))


def contended(programs):
    """Recording and replay by real threads where these meet at one object; opening, of recording in order; moves to the end."""
    print("threads at one object: recording and replay by threads, of the same in order; switches of threads; opening, of recording")
    print("in order; moves to the end, the median in milliseconds and the slowest of 50, of it")
    heads = ("record", "switches", "replay", "switches", "open", "end", "slowest")
    print(f"{'guest':36}{'steps':>12}" + "".join(f"{head:>10}" for head in heads))
    base = programs.best([programs.bench], b"record\n" + programs.digits_of(guests.EMPTY), lambda out: True)
    for guest in guests.contended():
        steps, image = guest.all_steps(), programs.digits_of(guest)
        trace, _ = programs.record(guest)
        files = (programs.file_of(guest), trace)
        both = image + trace.read_bytes().hex().encode() + b"\n"
        recorded, recorded_by_threads, replayed, replayed_by_threads = times_of_modes(programs, image, both, steps, base)
        opened = programs.best_of_bench(b"fit", both, steps) - programs.best_of_bench(b"read", both, steps)
        ends = ends_of(programs, files)
        counts = [switches([programs.bench], mode + b"\n" + data) for mode, data in ((b"record-threads", image), (b"replay-threads", both))]
        middle = median(ends)
        print(f"{guest.name:36}{steps:>12}{recorded / recorded_by_threads:>10.2f}{counts[0]:>10}{replayed / replayed_by_threads:>10.2f}{counts[1]:>10}"
              f"{recorded / opened:>10.2f}{middle * 1000:>10.0f}{ends[-1] / middle:>10.2f}", flush=True)


def files_of(programs, guest):
    """The image and the trace of a guest."""
    return programs.file_of(guest), programs.record(guest)[0]


# Each row: a line, what comes before it, and how often it is asked.
LINES = ((b"end", b"", 1), (b"step 0 1", b"", 100000), (b"back 0 1", b"end\n", 20), (b"pos", b"", 100000), (b"regs 0", b"", 100000),
         (b"obj 0", b"", 100000), (b"next 0", b"", 100000))


def sessions(programs):
    """Answers a second of sessions on a recording of eight threads at one object, an entry each 999 steps, and of a long log."""
    guest = guests.entering(496, 1).named("seldom", 8, 1)
    files, often = files_of(programs, guest), files_of(programs, guests.entering(1, 4).named("often", 8, 1))
    base, _ = programs.session(files, b"quit\n")
    print(f"a session on {guest.all_steps()} steps of eight threads opens in {base * 1e3:.1f} ms, the start of the program included")
    print(f"{'lines':28}{'count':>10}{'a second':>12}{'MB/s':>8}")

    def row(label, times, seconds, size):
        print(f"{label:28}{times:>10}{times / seconds:>12.0f}{size / seconds / 1e6:>8.1f}", flush=True)

    for line, before, times in LINES:
        took, size = programs.session(files, before + (line + b"\n") * times)
        start = programs.session(files, before)[0] if before else base
        row(line.decode(), times, took - start, size)
    start, _ = programs.session(often, b"end\n")
    took, size = programs.session(often, b"end\n" + b"log 0\n" * 100)
    row("log 0, after end", 100, took - start, size)


def timed(programs, label, files, before, lines, times=1, run=None):
    """Prints the milliseconds of each of these lines after others, the best of three sessions, and how many runs of the guest that is."""
    each = min(programs.answering(files, before, lines) for _ in range(3)) / times
    print(f"{label:72}{times:>6}{each * 1e3:>10.2f}{f'{each / run:>8.2f}' if run else ''}", flush=True)


def of_one_thread(programs):
    """Steps back, and searches both ways, in 10^8 steps of one thread."""
    guest = next(guests.of_one_thread())
    run = programs.best_of_guest(b"run", guest) - programs.best_of_guest(b"run", guests.EMPTY)
    # An instruction after the guest's end, at which a breakpoint never hits.
    never = b"break 0 0x%x\n" % (guests.CODE + 4 * len(guest.statements))
    files = files_of(programs, guests.Guest("longer", [*guest.statements, "nop"], guest.steps))
    half = b"end\ngoto 0 %d\n" % (guest.steps // 2)
    head = f"one thread of {guest.steps} steps, which run in {run * 1e3:.0f} ms"
    print(f"{head:72}{'count':>6}{'ms each':>10}{'runs':>8}")
    timed(programs, "end, with the states that it keeps on its way", files, b"", b"end\n", 1, run)
    timed(programs, "end, with the states that are kept already", files, b"end\nstart\n", b"end\n", 1, run)
    timed(programs, "back 0 1 at the end", files, b"end\n", b"back 0 1\n" * 500, 500)
    timed(programs, "the first back 0 1 at the half, after end and goto", files, half, b"back 0 1\n")
    timed(programs, "back 0 1 from there", files, half, b"back 0 1\n" * 500, 500)
    timed(programs, "cont 0, a breakpoint that never hits", files, never, b"cont 0\n", 1, run)
    timed(programs, "cont 0, a watched word that never changes", files, b"watch 0 0x10fff8\n", b"cont 0\n", 1, run)
    timed(programs, "rcont 0 from the end, a breakpoint that never hits", files, never + b"end\n", b"rcont 0\n", 1, run)
    guest, late = guests.hit_late(122)
    last = b"break 0 0x%x\nend\n" % late
    timed(programs, "rcont 0 from the end, a breakpoint last hit 10^6 steps ago", files_of(programs, guest), last, b"rcont 0\n")


def continuing(programs):
    """Moves back, searches both ways and checkpoints: the milliseconds in which lines are answered."""
    of_one_thread(programs)
    guest = guests.entering(46).named("eight", 8, 1)
    files = files_of(programs, guest)
    print(f"eight threads of {guest.all_steps()} steps and {8 * 4096 * 32} entries")
    timed(programs, "back 3 1 at the end", files, b"end\n", b"back 3 1\n" * 20, 20)
    timed(programs, "the first of them", files, b"end\n", b"back 3 1\n")
    pairs = b"".join(b"keep\ndrop %d\n" % number for number in range(2, 1002))
    timed(programs, "keep where nothing changed, and drop", files, b"end\nkeep\n", pairs, 1000)
    guest = guests.four_pages()
    files = files_of(programs, guest)
    few, many = programs.peak(files, b"pos\n"), programs.peak(files, b"end\n")
    print(f"one thread that writes 4 pages, {guest.steps} steps: at most {few} KiB, after end {many}; 64 times 4 pages are {64 * 16}")


def coherence(programs):
    """Eight logs of 1,048,576 write entries each, their versions by turns."""
    entries = 1 << 20
    logs = [(entries, b"".join(struct.pack("<BBII", 5, 0, 8 * turn + thread, 0) for turn in range(entries))) for thread in range(8)]
    image = programs.digits_of(guests.Guest("nothing", ["ecall"], 0, 8, 1))
    data = image + trace_of(logs, 0, 1000000, 1).hex().encode() + b"\n"
    took = programs.best_of_bench(b"coherent", data, 0) - programs.best_of_bench(b"read", data, 0)
    print(f"coherence of {8 * entries} write entries: {took:.2f} seconds")


def tries(programs):
    """Refused tries beside SELF, a private call: the nanoseconds that each takes beyond an ADDI in its place, in replay in order from the
    start to the end, and recorded in order while another thread holds the object."""
    replays, records = {}, {}
    for name in guests.LAST:
        guest = guests.calling(name)
        events = guests.CALLS if name == "a refused try" else 0
        trace = trace_of([(events, b"\x06\x00" * events)], guest.steps, 1000000000, 1, b"IRT2")
        replays[name] = programs.best_replay(b"replay", programs.digits_of(guest) + trace.hex().encode() + b"\n", guest.steps)
        both, steps = guests.beside_a_writer(guest)
        records[name] = programs.best_of_bench(b"record", programs.digits_of(both), steps)
    print(f"{guests.CALLS} refused tries beside as many calls of SELF: nanoseconds of each beyond an ADDI")
    print(f"{'':24}{'try':>10}{'SELF':>10}{'ratio':>8}")
    for name, times in (("replay in order", replays), ("recording in order", records)):
        a, b = ((times[call] - times["neither"]) / guests.CALLS * 1e9 for call in ("a refused try", "SELF"))
        print(f"{name:24}{a:>10.1f}{b:>10.1f}{a / b:>8.2f}")


def assembling(programs):
    """Lines a second of the assembler."""
    print("the assembler: a label on each fourth statement, which a branch goes back to")
    print(f"{'statements':24}{'labels':>12}{'seconds':>10}{'lines/s':>12}")
    for size in (4000, 8000, 16000):
        source = programs.place(".s")
        source.write_text("".join(f"l{at}: addi a0, a0, 1\n  lw a1, 4(sp)\n  beq a0, a1, l{at}\n  sw a1, 4(sp)\n" for at in range(0, size, 4)))
        took = programs.best([programs.program, "asm", source, programs.place(".img")], b"", lambda out: out == b"")
        print(f"{size:<24}{size // 4:>12}{took:>10.3f}{size / took:>12.0f}", flush=True)


PARTS = {part.__name__: part for part in (speeds, traces, by_threads, processes, apart, contended, sessions, continuing, coherence, tries, assembling)}


def main():
    parser = argparse.ArgumentParser(description=__doc__.splitlines()[0])
    parser.add_argument("program", metavar="IR", type=Path, help="the built program")
    parser.add_argument("bench", metavar="BENCH", type=Path, help="the built program of ir_bench")
    parser.add_argument("parts", metavar="PART", nargs="*", help=", ".join(PARTS))
    words = parser.parse_args()
    unknown = [part for part in words.parts if part not in PARTS]
    if unknown:
        parser.error(f"no part {unknown[0]}")
    with tempfile.TemporaryDirectory() as folder:
        programs = Programs(words.program.resolve(), words.bench.resolve(), folder)
        for part in words.parts or PARTS:
            PARTS[part](programs)


if __name__ == "__main__":
    main()
