"""Tests of `ir hunt` and `ir record --chaos` on the built program, which `tests/program.py` runs."""
import re
import shutil
import signal
import subprocess
import time

from lib import TOP, assembled, examples, interrupted, run, said, shell, wants

# What is said beside a text that is no condition.
KINDS = ": there are end, code, word, out, fault, bad, budget and stale, `!` before one and ` | ` between two"
# Each row: the arguments, the exit status, and what standard error says.
REFUSED = [
    ("hunt lost.img h.trc --seeds 0..9", 2, "the following required arguments were not provided: --until <COND>"),
    ("hunt lost.img h.trc --until fault --jobs 0", 2, "--jobs: '0' is no number from 1 to 64"),
    ("hunt lost.img h.trc --until fault --jobs 65", 2, "--jobs: '65' is no number from 1 to 64"),
    ("hunt lost.img h.trc --until fault --seconds 0", 2, "--seconds: '0' is no number from 1 to 1000000"),
    ("hunt lost.img h.trc --until fault --seconds 1000001", 2, "--seconds: '1000001' is no number from 1 to 1000000"),
    ("hunt lost.img h.trc --until fault --seconds 1.5", 2, "--seconds: '1.5' is no number from 1 to 1000000"),
    ("hunt lost.img h.trc --seeds 9..8 --until fault", 2,
     "--seeds: '9..8' is neither A..B, A not above B, nor A+N, of numbers up to 18446744073709551615"),
    ("hunt lost.img h.trc --seeds 9 --until fault", 2,
     "--seeds: '9' is neither A..B, A not above B, nor A+N, of numbers up to 18446744073709551615"),
    ("hunt lost.img h.trc --seeds 5+0 --until fault", 2,
     "--seeds: '5+0' is neither A..B, A not above B, nor A+N, of numbers up to 18446744073709551615"),
    ("hunt lost.img h.trc --seeds 18446744073709551615+2 --until fault", 2,
     "--seeds: '18446744073709551615+2' is neither A..B, A not above B, nor A+N, of numbers up to 18446744073709551615"),
    ("hunt lost.img h.trc --seeds 0..9 --until never", 2, f"--until: 'never' is no condition, because there is no 'never'{KINDS}"),
    ("hunt lost.img h.trc --seeds 0..9 --until fault --until 'word 0 0'", 2, f"--until: 'word 0 0' is no condition, because after 'word' comes an object, the number of a word and its value{KINDS}"),
    ("hunt lost.img h.trc --seeds 0..9 --until 'end 0 15'", 2, f"--until: 'end 0 15' is no condition, because after 'end' comes a thread and the number of an end, from 1 to 14{KINDS}"),
    ("hunt lost.img h.trc --seeds 0..9 --until 'stale 0'", 2, f"--until: 'stale 0' is no condition, because 'stale' stands alone{KINDS}"),
    ("hunt lost.img h.trc --seeds 0..9 --until stale --until '!stale'", 2, "--until: 'stale' and '!stale' exclude each other"),
    ("hunt lost.img h.trc --seeds 0..9 --until fault --by pct:0", 2, "--by: 'pct:0' is none of mix, walk and pct:D, D from 1 to 1000"),
    ("hunt lost.img h.trc --seeds 0..9 --until fault --by run", 2, "--by: 'run' is none of mix, walk and pct:D, D from 1 to 1000"),
    ("hunt lost.img h.trc --seeds 0..9 --until 'end 2 1'", 3, "end 2 1: the image has no such thread, object or word"),
    ("hunt lost.img h.trc --seeds 0..9 --until '!word 1 0 0'", 3, "!word 1 0 0: the image has no such thread, object or word"),
    ("hunt lost.img h.trc --seeds 0..9 --until 'word 0 8 0'", 3, "word 0 8 0: the image has no such thread, object or word"),
    ("hunt lost.s h.trc --seeds 0..9 --until fault", 3, "the image is refused, 2: these bytes are no image"),
    ("hunt none.img h.trc --seeds 0..9 --until fault", 1, "none.img can't be read: no such file or folder"),
    ("hunt lost.img lost.img --seeds 0..9 --until fault", 2, "lost.img: TRACE would be written over IMAGE"),
    ("record lost.img h.trc --chaos x", 2, "--chaos: 'x' is no number up to 18446744073709551615"),
    ("record lost.img h.trc --chaos 1 --order 0", 2, "the argument '--chaos <SEED>' cannot be used with '--order <LIST>'"),
    ("record lost.img h.trc --by walk", 2, "the following required arguments were not provided: --chaos <SEED>"),
    ("record lost.img h.trc --order 0 --by walk", 2, "the argument '--order <LIST>' cannot be used with '--by <WAY>'"),
]

# How many seeds that show a fault are looked at, each way.
FOUND_EACH = 20

# How many seeds are asked for a stale write.
STALE_SEEDS = 20

FOUND = re.compile(rb"found seed (\d+) order ([0-9x,]+)\n")


def found(arguments, folder):
    """A hunt that finds: the seed, LIST, and the lines of the recording."""
    ended = run(arguments, folder)
    match = FOUND.match(ended.stdout)
    wants(arguments, (ended.returncode, ended.stderr, bool(match)), (0, b"", True))
    return int(match[1]), match[2].decode(), ended.stdout[match.end():]


def refused(folder):
    """What a hunt can't do is named, and nothing is written."""
    for arguments, status, message in REFUSED:
        ended = run(arguments, folder)
        wants(arguments, (ended.returncode, ended.stdout, ended.stderr.decode()), (status, b"", f"ir: {message}\n"))
        wants(f"{arguments}: h.trc", (folder / "h.trc").exists(), False)


def reported_first(folder):
    """What was found is said before it is recorded: a trace that can't be written doesn't lose it."""
    ended = run("hunt lost.img folder --seeds 0..9 --until '!fault'", folder)
    match = FOUND.fullmatch(ended.stdout)
    wants("a folder", (ended.returncode, ended.stderr, bool(match)), (1, b"ir: folder can't be written: it is a folder\n", True))
    again = run(f"record lost.img again.trc --order {match[2].decode()}", folder)
    wants("its LIST", again.returncode, 0)


def recorded_again(folder):
    """Of the first seeds that show a fault, each way: LIST gives the same trace, and so does the seed; it fits, and the session shows the fault;
    no seed before it shows it."""
    for by in ("mix", "walk", "pct:2", "pct:3"):
        first = 0
        for _ in range(FOUND_EACH):
            seed, order, lines = found(f"hunt lost.img lost.trc --seeds {first}+1000 --until '!word 0 0 2' --by {by}", folder)
            trace = (folder / "lost.trc").read_bytes()
            for again in (f"--order {order}", f"--chaos {seed} --by {by}"):
                wants(f"{by}, {again}", run(f"record lost.img again.trc {again}", folder).stdout, lines)
                wants(f"{by}, {again}: the trace", (folder / "again.trc").read_bytes(), trace)
            answers = said(folder, "lost", ["end", "obj 0"]).splitlines()
            wants(f"{by}, seed {seed}: the word", (answers[0], answers[3][:14]), (b"ready", b"words 00000001"))
            for lower in range(first, seed):
                ended = run(f"hunt lost.img no.trc --seeds {lower}+1 --until '!word 0 0 2' --by {by}", folder)
                wants(f"{by}, seed {lower}", ended.returncode, 5)
            first = seed + 1


def conditions(folder):
    """Each condition, met and denied."""
    rows = (("fault", 5), ("!fault", 0), ("budget", 5), ("end 0 1", 0), ("end 0 2", 5), ("code 1 0", 0), ("code 1 0x1", 5),
            ("word 0 0 1", 0), ("word 0 0 3", 5), ("out 0 x", 5), ("!out 0 x", 0), ("out 0 ", 0))
    for condition, status in rows:
        ended = run(["hunt", "lost.img", "c.trc", "--seeds", "0..20", "--until", condition], folder)
        wants(condition, ended.returncode, status)
        if status == 5:
            wants(condition, (ended.stdout, ended.stderr), (b"none 0..20\n", b""))
    both = run("hunt lost.img c.trc --seeds 0..20 --until 'word 0 0 1' --until 'word 0 0 2'", folder)
    wants("both", (both.returncode, both.stdout), (5, b"none 0..20\n"))


def stale_writes(folder):
    """A seed is found exactly where `ir stale` with the image lists a write of its run, or exactly where it lists none; and with another condition."""
    for seed in range(STALE_SEEDS):
        run(f"record lost.img s.trc --chaos {seed}", folder)
        listed = run("stale s.trc --image lost.img", folder).stdout.splitlines()[0] != b"stale 0 of 2"
        for condition, wanted in (("stale", listed), ("!stale", not listed), ("!!stale", listed)):
            ended = run(["hunt", "lost.img", "h.trc", "--seeds", f"{seed}+1", "--until", condition], folder)
            wants(f"{condition}, seed {seed}", (ended.returncode, ended.stderr), (0 if wanted else 5, b""))
            if wanted:
                wants(f"{condition}, seed {seed}: the trace", (folder / "h.trc").read_bytes(), (folder / "s.trc").read_bytes())
    (folder / "h.trc").unlink()
    for others, status in (("--until 'word 0 0 1'", 0), ("--until 'word 0 0 2'", 5), ("--until stale", 0)):
        arguments = f"hunt lost.img s.trc --seeds 0+100 --until stale {others}"
        wants(arguments, run(arguments, folder).returncode, status)


def bad_ends(folder):
    """`bad` holds of a thread that doesn't end by END with code 0, as the status of `ir record --status` does, and `fault` of its end alone."""
    for name, source in (("good", "addi a0, zero, 0\naddi a7, zero, 1\necall\n"), ("coded", "addi a0, zero, 7\naddi a7, zero, 1\necall\n"), ("broken", "ebreak\n")):
        assembled(folder, name, source)
        status = run(f"record {name}.img b.trc --status", folder).returncode
        for condition, holds in (("bad", status == 5), ("!bad", status == 0), ("fault", name == "broken")):
            wants(f"{condition} of {name}", run(["hunt", f"{name}.img", "b.trc", "--seeds", "0+1", "--until", condition], folder).returncode, 0 if holds else 5)
            wants(f"{condition} of {name}, explored", run(["explore", f"{name}.img", "b.trc", "--until", condition], folder).returncode, 0 if holds else 5)


def last_seeds(folder):
    """The greatest seed ends a hunt."""
    last = 2**64 - 1
    ended = run(f"hunt lost.img l.trc --seeds {last - 2}..{last} --until fault", folder)
    wants("the last seeds", (ended.returncode, ended.stdout), (5, f"none {last - 2}..{last}\n".encode()))


def bounded(folder):
    """After its seconds a hunt ends with the seeds that it has tried, and says up to which; a hunt that is done before says nothing of them."""
    (folder / "k.trc").write_bytes(b"an older trace")
    start = time.monotonic()
    ended = run("hunt lost.img k.trc --seeds 7..18446744073709551615 --until fault --seconds 1", folder)
    took = time.monotonic() - start
    said_so = re.fullmatch(rb"none 7\.\.(\d+)\nstopped seconds\n", ended.stdout)
    wants("the seconds are over", (ended.returncode, ended.stderr, bool(said_so)), (6, b"", True))
    wants("some seeds were tried, and not all", 7 < int(said_so[1]) < 2**64 - 1, True)
    wants("it took a second, and few more", 1 <= took < 30, True)
    wants("TRACE", (folder / "k.trc").read_bytes(), b"an older trace")
    done = run("hunt lost.img k.trc --seeds 0..20 --until fault --seconds 1000000", folder)
    wants("all seeds were tried", (done.returncode, done.stdout), (5, b"none 0..20\n"))
    same = [run(f"hunt lost.img k.trc --seeds 0+1000 --until '!word 0 0 2' {words}", folder).stdout for words in ("", "--seconds 1000000")]
    wants("what is found", same[0], same[1])


def kept(folder):
    """None found, Ctrl-C or a full device: TRACE stays as it was."""
    (folder / "k.trc").write_bytes(b"an older trace")
    wants("none", run("hunt lost.img k.trc --seeds 0..99 --until fault", folder).returncode, 5)
    wants("the end", interrupted("hunt lost.img k.trc --seeds 0..18446744073709551615 --until fault", folder, 0.5), -signal.SIGINT)
    wants("TRACE", (folder / "k.trc").read_bytes(), b"an older trace")
    for condition in ("fault", "'!fault'"):
        ended = shell(f"./ir hunt lost.img k.trc --seeds 0..9 --until {condition} >/dev/full", folder)
        wants("full", (ended.returncode, ended.stderr), (1, b"ir: standard output can't be written\n"))
        wants("TRACE", (folder / "k.trc").read_bytes(), b"an older trace")


def on_many_machines(folder):
    """GNU parallel ends the other slices when one has found, if it is installed."""
    if not shutil.which("parallel"):
        return
    slices = "parallel --will-cite --halt now,success=1 ./ir hunt lost.img p-{}.trc --seeds {}+10 --until \"'!word 0 0 2'\" ::: 0 10 20 30"
    ended = shell(slices, folder)
    wants("parallel", bool(FOUND.search(ended.stdout)), True)
    wants("a trace", any(folder.glob("p-*.trc")), True)


def all_of_it(folder):
    """All tests of hunts, in a folder of their own."""
    assembled(folder, "lost", examples()["lost_update"])
    (folder / "folder").mkdir(exist_ok=True)
    for test in (refused, reported_first, recorded_again, conditions, stale_writes, bad_ends, last_seeds, bounded, kept, on_many_machines):
        test(folder)
    assembled(folder, "account", (TOP / "docs/guide/account.s").read_text())
    found("hunt account.img account.trc --seeds 0+1000 --until 'word 0 0 0xffffff9c'", folder)
    wants("overdrawn", said(folder, "account", ["end", "obj 0"]).splitlines()[3][:14], b"words ffffff9c")
