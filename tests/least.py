#!/usr/bin/env python3
"""The least cut that `ir why --image` prints of an event, against where a session of `ir debug` stands after `goto` behind that event, and the
events that it counts as past, against those whose steps are below that cut.

python3 tests/least.py IR [COUNT]

IR is the built program. Events are drawn from recordings of the repository's guests by random orders, 500 of them if COUNT isn't said. Of each, `why`
tells its step and the least cut; the session goes back to the start, and then behind that step.
"""
import random
import re
import subprocess
import tempfile
from pathlib import Path

from lib import parser_of_program

TOP = Path(__file__).resolve().parent.parent
# The most events of one recording.
EACH = 25
EVENT = re.compile(r"^thread (\d+) event (\d+) step (\d+) ", re.MULTILINE)
LEAST = re.compile(r"^least(?: \d+)*$", re.MULTILINE)
PAST = re.compile(r"^past(?: \d+)*$", re.MULTILINE)


def numbers(text):
    """The numbers of a line."""
    return [int(number) for number in re.findall(r"\d+", text)]


class Program:
    """The built program."""

    def __init__(self, path):
        self.path = Path(path).resolve()

    def run(self, *words, given=""):
        """What it does with these arguments and this input."""
        return subprocess.run([self.path, *map(str, words)], input=given, capture_output=True, text=True, check=False)

    def recorded(self, source, image, trace, seed):
        """Whether a guest's source was recorded, by the order of this seed and the first profile that allows it."""
        if self.run("asm", source, image).returncode:
            return False
        return any(self.run("record", image, trace, "--chaos", seed, "--profile", profile).returncode == 0 for profile in (1, 2))

    def check(self, image, trace, most):
        """Compares the cuts of at most so many events of a recording; how many."""
        events = EVENT.findall(self.run("events", image, trace).stdout)
        drawn = random.sample(events, min(len(events), most))
        wanted, moves = [], []
        for thread, event, step in drawn:
            answer = self.run("why", trace, thread, event, "--image", image)
            assert answer.returncode == 0, (trace, thread, event, answer.stderr)
            assert EVENT.match(answer.stdout).groups() == (thread, event, step), (trace, answer.stdout)
            wanted.append(numbers(LEAST.search(answer.stdout)[0]))
            below = [sum(int(own) == other and int(at) < position for own, _, at in events) for other, position in enumerate(wanted[-1])]
            below[int(thread)] -= 1
            assert numbers(PAST.search(answer.stdout)[0]) == below, (trace, answer.stdout)
            moves += ["start", f"goto {thread} {int(step) + 1}"]
        said = self.run("debug", image, trace, given="\n".join([*moves, "quit", ""])).stdout.splitlines()
        found = [numbers(line) for line in said if line.startswith("at ")]
        assert found[1::2] == wanted, (trace, drawn, wanted, found)
        return len(drawn)


def main():
    parser = parser_of_program(__doc__)
    parser.add_argument("count", metavar="COUNT", nargs="?", type=int, default=500, help="how many events are drawn")
    asked = parser.parse_args()
    program, left = Program(asked.program), asked.count
    random.seed(7)
    total, seed = 0, 0
    with tempfile.TemporaryDirectory() as folder:
        image, trace = Path(folder) / "guest.img", Path(folder) / "guest.trc"
        while total < left:
            seed += 1
            assert seed < 200, f"the guests have {total} events alone"
            for source in sorted((TOP / "examples").glob("*.s")):
                if total < left and program.recorded(source, image, trace, seed):
                    total += program.check(image, trace, min(EACH, left - total))
    print(f"least: {total} cuts are where a session goes")


if __name__ == "__main__":
    main()
