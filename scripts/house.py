#!/usr/bin/env python3
"""Prints how large the code and its proofs are: functions, clauses, parameters, lines, definitions, lemmas and names.

python3 scripts/house.py [--list]

--list also prints the functions, clauses and names at the far end of each count. Crates of tests and ir_bench are left out, and of a file what
`#[cfg(test)]` and `#[test]` precede. It changes nothing and refuses nothing: what is refused, scripts/rooms.py refuses.
"""
import re
import sys
from collections import defaultdict
from dataclasses import dataclass
from pathlib import Path
from statistics import median

TOP = Path(__file__).resolve().parent.parent
FUNCTION = re.compile(r"^(?P<blank> *)(?:pub(?:\([^)]*\))? )?(?:const )?fn (?P<name>\w+)", re.MULTILINE)
CLAUSE = re.compile(r"^ *(?:requires|ensures)\b(?P<text>.*(?:\n(?! *(?:requires|ensures|decreases|where|\{ *$|\{\}|//)).*)*)", re.MULTILINE)
# A definition of specs/, or a lemma of proofs/: a name at the left edge with its type.
TOP_LEVEL = re.compile(r"^(?:unfoldable |abbrev )*(?:pub )?(?:(?P<kind>data|record|trait) )?(?P<name>[\w'◌+*/<>=≤≡∷-]+)(?P<rest> .*)?$")
MADE = ("Answers.antt", "Invariants.antt", "Lib.antt", "CallerLemmas.antt")


@dataclass
class Function:
    """A function of a file: its lines, those of its body, its parameters and its clauses."""
    where: str
    lines: int
    body: int
    parameters: int
    clauses: list


def crates():
    """The crates that aren't tests."""
    for crate in sorted((TOP / "crates").iterdir()):
        if not crate.name.endswith("_tests") and crate.name not in ("ir_tests", "ir_bench"):
            yield crate


def files_of(crate, kind, suffix):
    """The files of a part of a crate."""
    for path in sorted((crate / kind).rglob(f"*{suffix}")):
        if path.name != "tests.rt" and not path.stem.endswith("_tests") and "tests" not in path.relative_to(crate).parts:
            yield path


def closed(text, start):
    """Where the bracket at a place is closed, past it: literals and comments are stepped over."""
    pairs, depth = {"(": ")", "{": "}", "[": "]"}, []
    at = start
    while at < len(text):
        c = text[at]
        if text.startswith("//", at):
            at = text.find("\n", at)
            continue
        if c == '"':
            at += 1
            while text[at] != '"':
                at += 2 if text[at] == "\\" else 1
        elif c == "'" and re.match(r"'(?:\\.|[^\\'])'", text[at:]):
            at += re.match(r"'(?:\\.[^']*|[^\\'])'", text[at:]).end() - 1
        elif c in pairs:
            depth.append(pairs[c])
        elif depth and c == depth[-1]:
            depth.pop()
            if not depth:
                return at + 1
        at += 1
    return len(text)


def split_parameters(text):
    """How many parameters a list has."""
    depth, count, some = 0, 0, False
    for c in text:
        depth += (c in "([{<") - (c in ")]}>")
        if c == "," and depth == 0:
            count, some = count + some, False
        elif not c.isspace():
            some = True
    return count + some


def functions_of(path):
    """The functions of a file, but for tests."""
    text = path.read_text(encoding="utf-8")
    for found in FUNCTION.finditer(text):
        before = text[:found.start()].rstrip().rsplit("\n", 1)[-1].strip()
        if before in ("#[test]", "#[cfg(test)]") or before.startswith("#[seed"):
            continue
        opening = text.index("(", found.end())
        parameters = closed(text, opening)
        at, body = parameters, None
        # The body begins at a brace that isn't of a clause.
        blank = found["blank"]
        start = re.compile(rf"(?:^{blank}\{{| \{{$|;$|\{{\}}$)", re.MULTILINE)
        for line in re.finditer(r".*\n?", text[at:]):
            content = line[0].rstrip("\n")
            stripped = content.strip()
            clause = re.match(r"(requires|ensures|decreases|measure|where|//|ghost)\b|//", stripped)
            if clause and not stripped.startswith("where"):
                continue
            if start.search(content) or stripped in ("{", "{}"):
                body = at + line.end() - (1 if line[0].endswith("\n") else 0)
                brace = text.rfind("{", at + line.start(), body)
                break
        if body is None or brace < 0:
            continue
        end = closed(text, brace)
        header, inside = text[parameters:brace], text[brace:end]
        clauses = [m["text"].strip() for m in CLAUSE.finditer(header)]
        yield Function(
            f"{path.relative_to(TOP)}:{text.count(chr(10), 0, found.start()) + 1} {found['name']}",
            text.count("\n", found.start(), end) + 1,
            max(inside.count("\n") - 1, 0),
            split_parameters(text[opening + 1:parameters - 1]),
            clauses,
        )


def names_of(path):
    """The names that a file of specs/ or proofs/ defines, each with whether a comment is above it, and the text of its definition."""
    lines = path.read_text(encoding="utf-8").split("\n")
    seen = {}
    for number, line in enumerate(lines):
        if not line or line[0] in " -" or line.startswith(("use ", "pub use ", "mod ", "pub mod ", "unfolding")):
            continue
        found = TOP_LEVEL.match(line)
        typed = found and (found["kind"] or re.match(r" *(?:\([^)]*\) *|\{[^}]*\} *)*:", found["rest"] or "") or line.startswith(("abbrev", "unfoldable", "pub")))
        if typed and found["name"] not in seen:
            stop = number + 1
            while stop < len(lines) and lines[stop] and not lines[stop].startswith("--"):
                stop += 1
            seen[found["name"]] = (number > 0 and lines[number - 1].startswith("--"), "\n".join(lines[number:stop]))
    return seen


def share(part, whole):
    """A part in a hundred."""
    return f"{100 * part / max(whole, 1):.1f} %"


def rank(values, hundredth):
    """The value below which so many in a hundred are."""
    ordered = sorted(values)
    return ordered[min(len(ordered) - 1, len(ordered) * hundredth // 100)] if ordered else 0


def main():
    """Prints the table."""
    listing = "--list" in sys.argv[1:]
    functions = [f for crate in crates() for path in files_of(crate, "src", ".rt") for f in functions_of(path)]
    clauses = [len(f.clauses) for f in functions]
    texts = [len(c) for f in functions for c in f.clauses]
    long = [f for f in functions if f.lines > 40]
    print(f"crates / functions: {len(list(crates()))} / {len(functions)}")
    print(f"lines with contract, median / 90 % / longest: {median(f.lines for f in functions):.0f} / {rank([f.lines for f in functions], 90)} / {max(f.lines for f in functions)}")
    print(f"functions over 40 lines (by the body alone): {len(long)}, {share(len(long), len(functions))} ({sum(f.body > 40 for f in functions)})")
    print(f"clauses a function, mean / most / functions over 6 / over 12: {sum(clauses) / len(clauses):.2f} / {max(clauses)} / {sum(c > 6 for c in clauses)} / {sum(c > 12 for c in clauses)}")
    print(f"characters of a clause, median / 90 % / longest / over 600: {median(texts):.0f} / {rank(texts, 90)} / {max(texts)} / {sum(t > 600 for t in texts)}")
    parameters = [f.parameters for f in functions]
    print(f"parameters, mean / most / functions over 6: {sum(parameters) / len(parameters):.2f} / {max(parameters)} / {sum(p > 6 for p in parameters)}")
    counts = {}
    for kind, suffixes in (("src", (".rt",)), ("specs", (".antt",)), ("proofs", (".antt",))):
        widths = [len(line) for crate in crates() for suffix in suffixes for path in files_of(crate, kind, suffix)
                  for line in path.read_text(encoding="utf-8").split("\n")]
        counts[kind] = (len(widths), sum(w > 120 for w in widths), sum(w > 200 for w in widths))
    whole = [sum(c[k] for c in counts.values()) for k in range(3)]
    print("lines over 120, src / specs / proofs / all: " + " / ".join(share(c[1], c[0]) for c in counts.values()) + f" / {share(whole[1], whole[0])}; over 200: {whole[2]}")
    definitions, commented = defaultdict(list), 0
    for crate in crates():
        for path in files_of(crate, "specs", ".antt"):
            for name, (has, text) in names_of(path).items():
                definitions[name].append((str(path.relative_to(TOP)), text))
                commented += has
    total = sum(len(v) for v in definitions.values())
    doubled = {name: places for name, places in definitions.items() if len(places) > 1}
    print(f"definitions / with a line above: {total} / {share(commented, total)}")
    print(f"names with more than one definition: {len(doubled)} of {len(definitions)}")
    lemmas, has_line = [], 0
    for crate in crates():
        for path in files_of(crate, "proofs", ".antt"):
            if path.name not in MADE:
                found = names_of(path)
                lemmas += [len(name) for name in found]
                has_line += sum(has for has, _ in found.values())
    print(f"lemmas / with a line above: {len(lemmas)} / {share(has_line, len(lemmas))}; length of a name, median / 90 % / longest: "
          f"{median(lemmas):.0f} / {rank(lemmas, 90)} / {max(lemmas)}")
    if listing:
        print("\nfunctions over 40 lines")
        for f in sorted(long, key=lambda f: -f.lines):
            print(f"  {f.lines} ({f.body}) {f.where}")
        print("\nfunctions over 12 clauses")
        for f in sorted(functions, key=lambda f: -len(f.clauses)):
            if len(f.clauses) > 12:
                print(f"  {len(f.clauses)} {f.where}")
        print("\nclauses over 600 characters")
        for f in functions:
            for c in f.clauses:
                if len(c) > 600:
                    print(f"  {len(c)} {f.where}")
        print("\nfunctions over 6 parameters")
        for f in functions:
            if f.parameters > 6:
                print(f"  {f.parameters} {f.where}")
        print("\nnames with more than one definition")
        for name, places in sorted(doubled.items(), key=lambda item: -len(item[1])):
            print(f"  {len(places)} {name}: {', '.join(place for place, _ in places)}")


if __name__ == "__main__":
    main()
