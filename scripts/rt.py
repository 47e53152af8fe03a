#!/usr/bin/env python3
"""Runs the kit's `rt` with these words, and is faster in a repository of many crates.

python3 scripts/rt.py WORD..

- `rt` lists the crates below a crate, and sums their sources to see whether a library is still made of them. Its two functions go down each way from
  crate to crate, of which there are 150,000 from ir_cli. Here a call of such a function asks each crate once, and returns the same.
- Before a first proof `rt check` reads the sources of all crates below once more, to report what needs no proof to find. Each proof finds the same, and
  from ir_cli that reading takes minutes and 12 GB of memory. Here it is left out.
- `rt all check` takes crates by how many are below them, and a processor that waits for a library does nothing. Here the crate goes first that the longest
  chain of others waits for, and one that begins while processors are idle gets these too.

All else is the kit's own. If the kit has no such function, nothing differs.
"""
import inspect
import runpy
import shutil
import sys
import threading
from concurrent.futures import Future
from importlib.machinery import SourceFileLoader
from pathlib import Path


# What `rt` asks a crate that asks the same of each crate on which it depends.
ASKED = ("below", "stamp")
# What reports errors before the first proof, and answers an exit status.
EARLY = "front_end"
# The kit's pool of threads, how crates are handed to it, and what says the words of a check, which may begin with ONE_JOB.
POOL, HANDED, WORDS = "ThreadPoolExecutor", "pool.submit(work, crate)", "words"
ONE_JOB = ["--jobs", "1"]


def once_each(answer):
    """The same answer of a crate, for which each crate below is asked once."""
    call = threading.local()

    def answered(crate):
        answers = getattr(call, "answers", None)
        if answers is None:
            call.answers = {}
            try:
                return answer(crate)
            finally:
                call.answers = None
        if crate not in answers:
            answers[crate] = answer(crate)
        return answers[crate]

    return answered


class Checked(Future):
    """What the check of a crate gives. Checks begin when the first result is asked for: then all crates are known."""

    def __init__(self, pool):
        super().__init__()
        self.pool = pool

    def result(self, timeout=None):
        self.pool.begin()
        return super().result(timeout)


class LongestChainFirst:
    """Checks crates side by side, by so many jobs in all."""

    def __init__(self, jobs):
        self.free, self.lock = jobs, threading.RLock()
        self.crates, self.waiting, self.ended = {}, {}, set()

    def __enter__(self):
        return self

    def __exit__(self, *_):
        return None

    def submit(self, work, crate):
        """Takes a crate after those below it, and what checks it."""
        checked = Checked(self)
        self.crates[crate], self.waiting[crate] = crate.count(rb"\n"), (work, checked)
        return checked

    def chains(self):
        """Of each crate the lines of the longest chain of crates that begins with it."""
        longest = {}
        for crate in reversed(self.crates):
            longest[crate] = self.crates[crate] + max((longest[other] for other in longest if crate in other.deps), default=0)
        return longest

    def begin(self):
        """Begins the checks for which there are libraries and jobs."""
        with self.lock:
            while self.free and self.waiting:
                ready = [crate for crate in self.waiting if self.ended.issuperset(crate.below())]
                if not ready:
                    break
                first = max(ready, key=self.chains().get)
                first.jobs = max(1, self.free // len(ready))
                self.free -= first.jobs
                threading.Thread(target=self.check, args=(first, *self.waiting.pop(first))).start()

    def check(self, crate, work, checked):
        """Checks a crate, and begins what waited for it."""
        try:
            checked.set_result(work(crate))
        except BaseException as error:
            checked.set_exception(error)
        with self.lock:
            self.free += crate.jobs
            self.ended.add(crate)
            self.begin()


def by_jobs(words):
    """The words of a check, by the jobs that its crate was given."""
    def given(crate, flags, *rest, **named):
        jobs = getattr(crate, "jobs", 1)
        return words(crate, ["--jobs", str(jobs), *flags[2:]] if flags[:2] == ONE_JOB else flags, *rest, **named)

    return given


def main():
    program = shutil.which("rt")
    if program is None:
        sys.exit("there is no rt: the Rattle kit has it")
    program, run = str(Path(program).resolve()), SourceFileLoader.exec_module

    def exec_module(loader, module):
        run(loader, module)
        crate = getattr(module, "Crate", None) if module.__name__ == "rtlib" else None
        for name in ASKED:
            if hasattr(crate, name):
                setattr(crate, name, once_each(getattr(crate, name)))
        if hasattr(crate, EARLY):
            setattr(crate, EARLY, lambda *_: 0)
        if sys.argv[1:3] == ["all", "check"] and hasattr(crate, WORDS) and HANDED in inspect.getsource(getattr(module, "every", main)):
            setattr(module, POOL, LongestChainFirst)
            setattr(crate, WORDS, by_jobs(getattr(crate, WORDS)))

    SourceFileLoader.exec_module = exec_module
    sys.argv[0] = program
    runpy.run_path(program, run_name="__main__")


if __name__ == "__main__":
    main()
