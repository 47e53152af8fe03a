#!/usr/bin/env python3
"""Tries the edits of crates/X/must-fail and crates/X/edits many at once: the prover has to refuse each at the function that it changes.

python3 scripts/edits.py [--jobs N] [--log FILE] [CRATE | CRATE/EDIT ...]

Wants the crates proved (scripts/prove.py). Works in N copies of the crates, in folders .edits-PID-0 and so on: else as many as there are processors with
5 GiB of memory each. Edits of different functions of a crate are tried by one check of these functions alone, and each counts as refused where its own
function is, for another reason than a call of one that is not proved. An edit of a constant is tried by a check of its module, of a definition by the whole.
What isn't refused so is tried by itself, and what isn't refused then by a check of the whole crate, where any function of it may be: its lines then say
`alone` and `whole` first, and what came of it later. A line an edit, as soon as it is tried, with the goal that the prover names and the processor seconds
of its check; the last line counts them. With --log all that the checks say goes behind what FILE has. Fails where one is proved, has no verdict, or doesn't
apply.
"""
import argparse
import os
import re
import shutil
import subprocess
import sys
from concurrent.futures import FIRST_COMPLETED, ThreadPoolExecutor, wait
from functools import lru_cache
from importlib.machinery import SourceFileLoader
from pathlib import Path
from queue import SimpleQueue

from prove import default_jobs, listed, needed

TOP = Path(__file__).resolve().parent.parent
PARTS = ("src", "specs", "proofs")
FUNCTION = re.compile(r"^ *(?:pub(?:\([a-z]+\))? )?(?:const )?fn (\w+)", re.MULTILINE)
# An `impl` that begins: its trait, if it is of one, and its type; or one that ends.
IMPL = re.compile(r"^impl(?:<.*?>)? (?:(?:\w+::)*(\w+)(?:<[^{]*?>)? for )?&?(?:\w+::)*(\w+)[^\n]*$|^(\})$", re.MULTILINE)
# `not proved` says that a goal of the function fails; `no proof` that it lacks something, which may be the proof of what it calls alone.
FAILED = re.compile(r"^fn (\S+): (no proof|not proved)(.*)$", re.MULTILINE)
# A lemma that doesn't have its type, which is all that the prover says where a crate has no functions.
LEMMA = re.compile(r"^\./(?:proofs|specs)/\S+: error: `([^`]+)`: (?:as printed, the two types|computed as far as they go, the two types|expected type)", re.MULTILINE)
# The goals that the prover names in what it says of a function.
GOALS = re.compile(r"did not prove ((?:`[^`]*`(?:, | and )?)+)")
# What is printed of an edit, by whether it is refused; where it isn't yet, how it is tried next.
ALONE, WHOLE, NO_VERDICT = "alone", "whole", "NO VERDICT"
SAID = {True: "refused", False: "NOT REFUSED", ALONE: ALONE, WHOLE: WHOLE, NO_VERDICT: NO_VERDICT}
# How many edits one check tries at most, so that those of a large crate take several processors.
MOST = 12
CALLS = re.compile(r"^:? ?(?:it calls `[^`]*`(?:, `[^`]*`| and `[^`]*`)*, which (?:is|are) not proved)?$")
# What is said of a function whose body the borrow checker doesn't cover, or of a caller of such a function: that is no verdict on what an edit means.
UNCOVERED = "borrow checker"


# Where all goes that the checks say, if it is wanted.
LOG = []


class BadEdit(Exception):
    """An edit that doesn't apply."""


class NoVerdict(Exception):
    """A check that said nothing of a function."""


def pairs_of(edit):
    """The file that an edit changes, and its old and new texts."""
    path, old, pairs = "", "", []
    for line in edit.read_text(encoding="utf-8").split("\n"):
        if line.startswith("file: "):
            path = line[len("file: "):].strip()
        elif line.startswith("old: "):
            old = line[len("old: "):]
        elif line.startswith("new:"):
            pairs.append((old, line[len("new:"):].removeprefix(" ")))
    return path, pairs


def applied(text, pairs):
    """The text with each old one exchanged."""
    for old, new in pairs:
        if text.count(old) != 1:
            raise BadEdit(f"{old!r} stands {text.count(old)} times")
        text = text.replace(old, new)
    return text


def place_of(crate, edit):
    """What the function that an edit changes is in, and its name: the prover names a method by its type and its trait, wherever it stands, and any other
    function by its module. No name where the edit changes a constant: then its module."""
    path, pairs = pairs_of(edit)
    text = (crate / path).read_text(encoding="utf-8")
    applied(text, pairs)
    before = text[:text.index(pairs[0][0])]
    names, impls = FUNCTION.findall(before), IMPL.findall(before)
    module = path.removeprefix("src/").removesuffix(".rt").replace("/", "::")
    trait, kind, _ = impls[-1] if impls else ("", "", "")
    owner = f"{kind}{trait}::" if kind and names else f"{crate.name}::{module}::"
    return owner, names[-1] if names else None


def changed(crate, edits):
    """The crate's files that the edits change, one after the other, with their new texts."""
    texts = {}
    for edit in edits:
        path, pairs = pairs_of(edit)
        text = texts.get(path) or (crate / path).read_text(encoding="utf-8")
        texts[path] = applied(text, pairs)
    return texts


def go_together(crate, edits):
    """Whether the edits apply one after the other: what one writes may be what another looks for."""
    try:
        changed(crate, edits)
    except BadEdit:
        return False
    return True


def batches(crate, edits):
    """The edits in few lists that have no function twice and go together; the name of each function beside it."""
    lists = []
    for edit in edits:
        place = place_of(crate, edit)
        for batch in lists:
            fits = len(batch) < MOST and place[1] and batch[0][1][1] and place not in [other for _, other in batch]
            if fits and go_together(crate, [*(other for other, _ in batch), edit]):
                batch.append((edit, place))
                break
        else:
            lists.append([(edit, place)])
    return lists


def laid(crate, room):
    """Lays the crate's own files into the copy, and answers where."""
    folder = room / "crates" / crate.name
    for part in PARTS:
        shutil.rmtree(folder / part, ignore_errors=True)
        if (crate / part).is_dir():
            shutil.copytree(crate / part, folder / part)
    return folder


@lru_cache(maxsize=None)
def check_of(folder):
    """The prover's words for a check of a crate, as `rt check` makes them; that would sum all sources below the crate each time."""
    kit = Path(shutil.which("rt") or sys.exit("there is no rt: the Rattle kit has it")).resolve().parent
    rtlib = SourceFileLoader("rtlib", str(kit / "rtlib.py")).load_module()
    crate = rtlib.Crate(str(folder), rtlib.root_above(str(folder)), {})
    return (rtlib.RATTLE, "check", *crate.words(["--jobs", "1"]), *rtlib.KEPT)


def ran(words, folder):
    """Runs a command in a folder; its exit status, what it said, and the processor seconds of all that it started."""
    with subprocess.Popen(words, cwd=folder, text=True, errors="replace", stdout=subprocess.PIPE, stderr=subprocess.STDOUT) as run:
        said = run.stdout.read()
        _, status, used = os.wait4(run.pid, 0)
        run.returncode = os.waitstatus_to_exitcode(status)
    return run.returncode, said, round(used.ru_utime + used.ru_stime)


def refused(crate, edits, room, asked=()):
    """Checks the copy of the crate with these edits, of these functions and modules alone if there are any; the functions that are refused for themselves with
    what is said of each, whether any of the crate's own is, and the processor seconds. Then the copy has the crate's own files again, since crates above it are
    checked over it. What was kept of the crate's proof (`out/incremental`) is lent to the check as links, since a check replaces such a file and changes none;
    the check then proves again what the edits change and what rests on it."""
    folder = laid(crate, room)
    kept = folder / "out" / "incremental"
    shutil.rmtree(kept, ignore_errors=True)
    if (crate / "out" / "incremental").is_dir():
        subprocess.run(["cp", "-al", crate / "out" / "incremental", kept], check=True)
    for path, text in changed(crate, edits).items():
        (folder / path).write_text(text, encoding="utf-8")
    only = [word for path in asked for word in ("--only", path)]
    status, said, seconds = ran([*check_of(folder), *only], folder)
    laid(crate, room)
    shutil.rmtree(kept, ignore_errors=True)
    for log in LOG:
        with log.open("a", encoding="utf-8") as file:
            file.write(f"== {crate.name} {' '.join(edit.stem for edit in edits)}\n{said}")
    failed = FAILED.findall(said) or [(f"{crate.name}::{name}", "not proved", ": a lemma") for name in LEMMA.findall(said)]
    if status not in (0, 1) or status == 1 and not failed:
        raise NoVerdict(" ".join(said.split())[-300:])
    names = {name: why for name, what, why in failed if UNCOVERED not in why and (what == "not proved" or not CALLS.match(why))}
    if failed and not names:
        raise NoVerdict(failed[0][2].lstrip(":; ")[:300])
    return names, any(name.startswith(f"{crate.name}::") for name in names), seconds


def checked(crate, place):
    """What a check of an edit's function is asked for: the method, or any other function in its module; the module of a constant."""
    owner, function = place
    module = owner.removeprefix(f"{crate.name}::")
    return f"{module}{function}" if function else module.removesuffix("::")


def reason(place, names):
    """What is said of the function of an edit, if it is among these."""
    owner, function = place
    said = [why for name, why in names.items() if name.startswith(owner) and name.endswith(f"::{function}") or name.endswith(f"::{owner}{function}")]
    return said[0] if said else None


def goal_in(why):
    """The goals that are named in what is said of a function, or else its first words."""
    found = GOALS.search(why)
    return found[1].replace("`", "") if found else why.lstrip(":; ")[:100] or "by its file of answers"


def tried(crate, batch, room):
    """Each edit of the batch with whether it is refused, or how it is tried next; and what is said of it."""
    # A definition, which is tried alone, is no function's.
    if batch[0][1][0].endswith(".antt::"):
        return [(batch[0][0], WHOLE, "a definition")]
    asked = sorted({checked(crate, place) for _, place in batch})
    left = WHOLE if len(batch) == 1 else ALONE
    try:
        names, is_refused, seconds = refused(crate, [edit for edit, _ in batch], room, asked)
    except NoVerdict as why:
        return [(edit, left, str(why)) for edit, _ in batch]
    cost = f"{seconds} s for {len(batch)}"
    # A constant, which is tried alone, may be any function's: those of its module are tried first.
    if not batch[0][1][1] and is_refused:
        return [(batch[0][0], True, f"{goal_in(next(iter(names.values()), ''))}, {cost}")]
    reasons = [(edit, reason(place, names)) for edit, place in batch]
    return [(edit, left if why is None else True, cost if why is None else f"{goal_in(why)}, {cost}") for edit, why in reasons]


def tried_whole(crate, edit, room):
    """An edit with whether any function of its crate is refused, and which."""
    try:
        names, is_refused, seconds = refused(crate, [edit], room)
    except NoVerdict as why:
        return [(edit, NO_VERDICT, str(why))]
    return [(edit, is_refused, f"{' '.join(f'{name} {goal_in(why)}' for name, why in names.items())[:200]}, {seconds} s")]


def copied(room, names):
    """Copies what checks of these crates read: the files of crates, and their libraries as links, since a check replaces such a library and changes no file of
    it."""
    shutil.rmtree(room, ignore_errors=True)
    (room / "crates").mkdir(parents=True)
    shutil.copy(TOP / "HANDLES", room / "HANDLES")
    below = listed()
    read = set().union(*(needed(name, below) for name in names))
    # The list names no crate that has no folder here.
    lines = (TOP / "crates.txt").read_text(encoding="utf-8").splitlines(keepends=True)
    (room / "crates.txt").write_text("".join(line for line in lines if re.split(r"[ :]", line)[0] in read or line.startswith("#")), encoding="utf-8")
    for name in sorted(read):
        crate = TOP / "crates" / name
        folder = laid(crate, room)
        folder.mkdir(exist_ok=True)
        if (crate / "out" / "rlib").is_dir():
            (folder / "out").mkdir()
            subprocess.run(["cp", "-al", crate / "out" / "rlib", folder / "out" / "rlib"], check=True)
    subprocess.run(["git", "init", "-q", room], check=True)


def asked_for(words):
    """The edits that are asked for, by their crates: of each crate that is named all, or those that are named with it."""
    wanted = {}
    for word in words:
        name, _, edit = word.partition("/")
        crate = TOP / "crates" / name
        found = sorted([*crate.glob(f"must-fail/{edit or '*'}.edit"), *crate.glob(f"edits/{edit or '*'}.edit")])
        if not crate.is_dir() or edit and not found:
            sys.exit(f"no {'edit' if edit else 'crate'} {word}")
        wanted.setdefault(crate, []).extend(found)
    return wanted


def all_tried(wanted, rooms):
    """Each of these edits with whether it is refused, or how it is tried next, as soon as it is known."""
    free = SimpleQueue()
    for room in rooms:
        free.put(room)

    def in_room(work, crate, edits):
        room = free.get()
        try:
            return crate, work(crate, edits, room)
        finally:
            free.put(room)

    # The checks of many edits come first: each reads what its crate stands on.
    tasks = sorted(((crate, batch) for crate, edits in wanted.items() for batch in batches(crate, edits)), key=lambda task: -len(task[1]))
    with ThreadPoolExecutor(len(rooms)) as pool:
        running = {pool.submit(in_room, tried, crate, batch) for crate, batch in tasks}
        while running:
            ended, running = wait(running, return_when=FIRST_COMPLETED)
            for task in ended:
                crate, found = task.result()
                running |= {pool.submit(in_room, tried, crate, [(edit, place_of(crate, edit))]) for edit, came, _ in found if came == ALONE}
                running |= {pool.submit(in_room, tried_whole, crate, edit) for edit, came, _ in found if came == WHOLE}
                yield from found


def main():
    parser = argparse.ArgumentParser(description=__doc__, formatter_class=argparse.RawDescriptionHelpFormatter)
    parser.add_argument("--jobs", type=int, default=default_jobs(), help="how many checks at once")
    parser.add_argument("--log", type=Path, metavar="FILE", help="where all goes that the checks say")
    parser.add_argument("asked", nargs="*", metavar="CRATE", help="only the edits of this crate, or of CRATE/EDIT this one")
    asked = parser.parse_args()
    LOG.extend([asked.log.resolve()] if asked.log else [])
    folders = [*TOP.glob("crates/*/must-fail"), *TOP.glob("crates/*/edits")]
    wanted = asked_for(asked.asked or sorted({folder.parent.name for folder in folders}))
    rooms = [TOP / f".edits-{os.getpid()}-{number}" for number in range(max(1, asked.jobs))]
    counts = dict.fromkeys(SAID, 0)
    try:
        for room in rooms:
            copied(room, [crate.name for crate in wanted])
        for edit, came, said in all_tried(wanted, rooms):
            counts[came] += 1
            print(f"{edit.relative_to(TOP)}: {SAID[came]} ({said})", flush=True)
    finally:
        for room in rooms:
            shutil.rmtree(room, ignore_errors=True)
    print(f"{counts[True]} refused, {counts[False]} not refused, {counts[NO_VERDICT]} without a verdict")
    return 1 if counts[False] or counts[NO_VERDICT] else 0


if __name__ == "__main__":
    sys.exit(main())
