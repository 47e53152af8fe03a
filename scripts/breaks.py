#!/usr/bin/env python3
"""Prints which edits break a call: changes of the source that the prover has to refuse.

python3 scripts/breaks.py CALL ..
python3 scripts/breaks.py --all

CALL is a function, `Type::method` or a crate. Of a function it prints the edits that change it, and then those that change another function of its crate
to which its body leads, by name: on these the proof of its contract rests. --all prints all edits, by crate and function. Each line has the crate, the
function and the edit's name, and says if the gate tries the edit.
"""
import re
import sys
from pathlib import Path

from edits import place_of
from facts import WORD, functions

TOP = Path(__file__).resolve().parent.parent


def edits():
    """Each edit: its crate, what the function that it changes is in, the function, its name, and whether the gate tries it."""
    for path in sorted((TOP / "crates").glob("*/*/*.edit")):
        owner, function = place_of(path.parent.parent, path)
        yield path.parent.parent.name, owner, function or "a constant", path.stem, path.parent.name == "must-fail"


def line_of(edit):
    """An edit as it is printed."""
    crate, owner, function, name, in_gate = edit
    kind = "" if owner.startswith(crate) else owner
    return f"{crate} {kind}{function}: {name}{' (gate)' if in_gate else ''}"


def led_to(crate, name):
    """The functions of a crate to which the bodies of its functions of a name lead."""
    bodies = {}
    for _, _, function, _, body in functions([crate]):
        bodies.setdefault(function, []).append(body)
    found, rest = set(), {name} & bodies.keys()
    while rest:
        found |= rest
        rest = {word for function in rest for body in bodies[function] for word in WORD.findall(body) if word in bodies} - found
    return found - {name}


def breaking(call, all_edits):
    """The edits that break a call, those of the call itself first."""
    kind, name = re.match(r"(?:(\w+)::)?(\w+)$", call).groups()
    direct = [edit for edit in all_edits if edit[0] == call or edit[2] == name and (kind is None or edit[1].startswith(kind))]
    crates = {function[0] for function in functions({edit[0] for edit in all_edits}) if function[2] == name and kind in (None, function[1])}
    led = {(crate, function) for crate in crates for function in led_to(crate, name)}
    return [*direct, *(edit for edit in all_edits if (edit[0], edit[2]) in led and edit not in direct)]


def main():
    words = sys.argv[1:]
    if not words or any(word != "--all" and not re.fullmatch(r"(\w+::)?\w+", word) for word in words):
        print(__doc__)
        return 2
    known = list(edits())
    found = known if words == ["--all"] else [edit for word in words for edit in breaking(word, known)]
    print("\n".join(map(line_of, found)) or "no edit changes it, or a function of its crate that it calls")
    return 0 if found else 1


if __name__ == "__main__":
    sys.exit(main())
