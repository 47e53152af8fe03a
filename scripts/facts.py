#!/usr/bin/env python3
"""Writes the parts of docs/internals that can be counted, and checks what its pages say of constants and crates.

python3 scripts/facts.py [--check]

A part stands between the lines `<!-- facts: NAME -->` and `<!-- end -->`.
- `uncalled` of architecture.md: the exported functions that the program doesn't call. No function that `main` leads to has such a name in its body.
- `chain` and `edits` of gate.md: how many crates the program has, the longest chain of them by lines (to the next 5,000), and how many edits there are.
- `base` and `further` of theorem.md: what the headline and other calls rest on (scripts/definitions.py).

With --check it writes nothing, prints a line for each difference and then fails; scripts/rooms.py prints these lines too. It also refuses a constant
that the limits of architecture.md name of a crate without it, a name that two crates give to constants, a number above 64 that stands in constants of two
crates and isn't among those that the page lists, a subcommand without a row there, and a crate of the program that the picture lacks.
"""
import re
import sys
from pathlib import Path

import definitions
from prove import listed, needed

TOP = Path(__file__).resolve().parent.parent
PAGES = TOP / "docs" / "internals"
PROGRAM = "ir_cli"
PARTS = re.compile(r"(<!-- facts: (\w+) -->\n).*?(<!-- end -->)", re.DOTALL)
# What no code is: comments, texts, imports, and the lines of clauses and of what they cite.
NO_CODE = re.compile(r'//.*|"(?:[^"\\]|\\.)*"|^ *(?:pub )?(?:use|mod) [^;]*;|^ *(?:ghost|requires|ensures)\b.*', re.MULTILINE)
FUNCTION = re.compile(r"^( *)(pub )?(?:pub\([a-z]+\) )?(?:const )?fn (\w+)", re.MULTILINE)
# What a method is in: a type, or a trait.
OWNER = re.compile(r"^(?:impl(?:<.*?>)? (?:[\w:<>', ]+ for )?&?(?:\w+::)*(\w+)|(?:pub )?trait (\w+))", re.MULTILINE)
WORD = re.compile(r"\b[a-z_]\w*\b(?!::\w)")
EMPTY = re.compile(r"\n\{\s*\}\s*(?:///.*\s*)*$")
CONSTANT = re.compile(r"\bconst ([A-Z][A-Z_0-9]*): \w+ = ([^;]+);")
LINES = ("src", "specs", "proofs")
# A number up to this may stand in constants of several crates.
MOST_FREE = 64


def functions(crates):
    """Each function of the crates but laws: its crate, its type if it is a method, its name, whether it is public, and its body."""
    for crate in sorted(crates):
        source = TOP / "crates" / crate / "src"
        for path in sorted(source.rglob("*.rt")):
            if path.stem in ("laws", "tests"):
                continue
            text = NO_CODE.sub("", path.read_text(encoding="utf-8"))
            found = [*FUNCTION.finditer(text)]
            owners = [*OWNER.finditer(text)]
            for one, after in zip(found, [*found[1:], None]):
                owner = [owner for owner in owners if owner.start() < one.start()][-1:] if one[1] else []
                kind = (owner[0][1] or owner[0][2]) if owner else None
                body = text[one.end():after.start() if after else len(text)]
                if not EMPTY.search(body):
                    yield crate, kind, one[3], bool(one[2]), body


def exported(crate):
    """The names that a crate hands on."""
    library = TOP / "crates" / crate / "src" / "lib.rt"
    found = definitions.EXPORT.findall(library.read_text(encoding="utf-8")) if library.exists() else []
    return {name.strip() for several, one in found for name in (several or one).split(",")}


def uncalled():
    """The exported functions to whose names nothing leads from `main`, as lines of a list, and which of them no crate of tests calls either."""
    below = listed()
    crates = needed(PROGRAM, below)
    tested = {word for *_, body in functions(below.keys() - crates) for word in WORD.findall(body)}
    bodies, public = {}, {}
    for crate, kind, name, is_public, body in functions(crates):
        bodies.setdefault(name, []).append(body)
        if is_public:
            public.setdefault(name, []).append((crate, kind))
    reached, rest = set(), {"main"}
    while rest:
        name = rest.pop()
        reached.add(name)
        rest |= {word for body in bodies[name] for word in WORD.findall(body) if word in bodies} - reached
    lines = {}
    for name, places in sorted(public.items()):
        for crate, kind in places:
            if name not in reached and (kind or name) in exported(crate):
                shown = f"`{kind}::{name}`" if kind else f"`{name}`"
                lines.setdefault(crate, []).append(shown if name in tested else f"{shown} (nothing else does either)")
    return "".join(f"- {crate}: {', '.join(names)}\n" for crate, names in sorted(lines.items()))


def lines_of(crate):
    """How many lines of code, definitions and lemmas a crate has."""
    files = [path for part in LINES for suffix in ("rt", "antt") for path in (TOP / "crates" / crate / part).rglob(f"*.{suffix}")]
    return sum(path.read_text(encoding="utf-8").count("\n") for path in files)


def chain():
    """The longest chain of the program's crates by lines, each of which needs the one before it, with its lines and those of all."""
    below = listed()
    crates = needed(PROGRAM, below)
    lines = {crate: lines_of(crate) for crate in crates}
    longest = {}

    def up_to(crate):
        if crate not in longest:
            best = max((up_to(other) for other in below[crate]), default=(0, []))
            longest[crate] = (best[0] + lines[crate], [*best[1], crate])
        return longest[crate]

    count, names = up_to(PROGRAM)
    return (f"The program has {len(crates)} crates, of some {rounded(sum(lines.values())):,} lines in `src/`, `specs/` and `proofs/`.\n"
            f"The longest chain by lines has {len(names)} crates and some {rounded(count):,} lines:\n\n    {' '.join(names)}\n")


def rounded(count):
    """A number of lines to the next 5,000, so that few changes of the code change the page."""
    return 5000 * round(count / 5000)


def edits():
    """How many edits there are, and how many of them the gate tries."""
    tried = [path.parent.parent.name for path in (TOP / "crates").glob("*/must-fail/*.edit")]
    others = [path.parent.parent.name for path in (TOP / "crates").glob("*/edits/*.edit")]
    return (f"There are {len(tried) + len(others)} edits, of {len({*tried, *others})} crates.\n"
            f"{len(tried)} of them are in `must-fail/`, of {len(set(tried))} crates.\n")


def made():
    """Each part of a page, by its page and name."""
    tables = {("theorem.md", "base"): definitions.counts(), ("theorem.md", "further"): definitions.further()}
    lines = {place: "".join(f"{line}\n" for line in found) for place, found in tables.items()}
    return {("architecture.md", "uncalled"): uncalled(), ("gate.md", "chain"): chain(), ("gate.md", "edits"): edits(), **lines}


def pages():
    """Each page that has parts: its path, its text, and its text as it has to be."""
    parts = made()
    for name in sorted({page for page, _ in parts}):
        text = (PAGES / name).read_text(encoding="utf-8")
        lacking = {part for page, part in parts if page == name} - {part for _, part, _ in PARTS.findall(text)}
        if lacking:
            sys.exit(f"docs/internals/{name}: lacks the part {lacking.pop()}")
        yield PAGES / name, text, PARTS.sub(lambda found: f"{found[1]}\n{parts[name, found[2]]}\n{found[3]}", text)


def number_of(text):
    """The number that a text writes, or the text if it writes none."""
    try:
        return int(text.replace("_", ""), 0)
    except ValueError:
        return text


def constants_of(crate):
    """The constants of a crate, with their numbers."""
    code = [path.read_text(encoding="utf-8") for path in (TOP / "crates" / crate / "src").rglob("*.rt")]
    return {name: number_of(text) for part in code for name, text in CONSTANT.findall(part)}


def named_faults():
    """What architecture.md names of crates that don't have it, and what it lacks."""
    constants = {crate: constants_of(crate) for crate in needed(PROGRAM, listed())}
    text = (PAGES / "architecture.md").read_text(encoding="utf-8")
    limits = re.split(r"^## ", text.partition("\n## Limits\n")[2], maxsplit=1, flags=re.MULTILINE)[0]
    for crate, constant in re.findall(r"\b(ir_\w+) (?:`\w+::)?`?(?:\w+::)?([A-Z][A-Z_0-9]+)`", limits):
        if constant not in constants.get(crate, {}):
            yield f"docs/internals/architecture.md: {crate} has no constant {constant}"
    equal = limits.partition("\n| Equal numbers |")[2]
    names, numbers = {}, {}
    for crate, found in sorted(constants.items()):
        for name, number in found.items():
            names.setdefault(name, []).append(crate)
            if isinstance(number, int) and number > MOST_FREE:
                numbers.setdefault(number, []).append((crate, name))
    for name, crates in names.items():
        if len(crates) > 1:
            yield f"docs/internals/architecture.md: {' and '.join(crates)} have a constant {name} each: cite the lowest, or name them for what they are"
    for number, places in numbers.items():
        unlisted = [f"{crate} `{name}`" for crate, name in places if f"{crate} `{name}`" not in equal]
        if len({crate for crate, _ in places}) > 1 and unlisted:
            yield f"docs/internals/architecture.md: {number} stands in {' and '.join(f'{c} {n}' for c, n in places)}: cite the lowest, or list {', '.join(unlisted)}"
    arguments = TOP / "crates" / "ir_arguments" / "src"
    for name in re.findall(r'^ +name: "(\w+)"', "".join(path.read_text(encoding="utf-8") for path in sorted(arguments.glob("*.rt"))), re.MULTILINE):
        if not re.search(rf"^\| (?:.*, )?`ir {name}`", text, re.MULTILINE):
            yield f"docs/internals/architecture.md: has no row for ir {name}"
    picture = set(re.findall(r"\bir_\w+", text.partition("```")[2].partition("```")[0]))
    for crate in sorted(needed(PROGRAM, listed()) - picture):
        yield f"docs/internals/architecture.md: the picture lacks {crate}"


def differences():
    """What differs on the pages, a line each."""
    for path, text, right in pages():
        if text != right:
            yield f"{path.relative_to(TOP)}: isn't as the crates are: run python3 scripts/facts.py"
    yield from named_faults()


def main():
    if sys.argv[1:] not in ([], ["--check"]):
        print(__doc__)
        return 2
    if not sys.argv[1:]:
        for path, _, right in pages():
            path.write_text(right, encoding="utf-8")
    found = list(differences())
    print("\n".join(found) or "facts: the pages are as the crates are")
    return 1 if found else 0


if __name__ == "__main__":
    sys.exit(main())
