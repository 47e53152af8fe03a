#!/usr/bin/env python3
"""Random guests whose threads hold objects while they enter others: what `ir view --image` draws of a recording, and what `ir why --image` says is past.

python3 tests/nested.py IR [COUNT]

IR is the built program, and COUNT how many guests are drawn, 300 if it isn't said. Of each a recording by a random schedule is looked at. Its picture has
each box from entering to leaving, in its row; with ties both ways the starts and ends of boxes by their x are an order in which the objects could be
entered and left. Of up to five events the least cut is where a session stands after `goto` behind the event, and past are the events below that cut.
"""
import random
import tempfile
from pathlib import Path

import least
import view
from lib import parser_of_program
from view_guests import holding_text, record

# The most events of a recording whose pasts are compared.
EACH = 5


def drawn_thread(chance, objects):
    """What a thread does, in words of view_guests: mostly it enters objects by rising number, and leaves them in any order."""
    words, held = [], []
    for _ in range(chance.randint(2, 14)):
        free = [o for o in range(objects) if o not in held and (not held or o > max(held) or chance.random() < 0.02)]
        if held and (not free or chance.random() < 0.45):
            words.append(f"l{held.pop(chance.randrange(len(held)))}")
        elif free and chance.random() < 0.85:
            held.append(chance.choice(free))
            words.append(chance.choice("rw") + str(held[-1]))
        else:
            words.append("s")
    return " ".join(words + [f"l{o}" for o in held if chance.random() < 0.9])


def drawn_guest(chance):
    """A guest's text: two to four threads over two to five objects."""
    objects = chance.randint(2, 5)
    return holding_text(objects, [drawn_thread(chance, objects) for _ in range(chance.randint(2, 4))])


def main():
    parser = parser_of_program(__doc__)
    parser.add_argument("count", metavar="COUNT", nargs="?", type=int, default=300, help="how many guests are drawn")
    asked = parser.parse_args()
    pictures, pasts, chance, compared = view.Program(asked.program), least.Program(asked.program), random.Random(11), 0
    random.seed(11)
    with tempfile.TemporaryDirectory() as folder:
        for seed in range(asked.count):
            trace = record(asked.program, Path(folder), "guest", drawn_guest(chance), seed)
            try:
                pictures.check_image(trace)
                compared += pasts.check(trace.with_suffix(".img"), trace, EACH)
            except AssertionError:
                print(f"nested: guest {seed} of seed 11:\n{trace.with_suffix('.s').read_text(encoding='ascii')}")
                raise
    print(f"nested: {asked.count} guests are drawn as their objects allow, and the pasts of {compared} events are what is below their cuts")


if __name__ == "__main__":
    main()
