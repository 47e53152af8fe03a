#!/usr/bin/env python3
"""Tells what breaks a rule of the crates' rooms, a line each, and then fails.

python3 scripts/rooms.py

Of another crate's proofs a file may cite what its `proofs/CallerLemmas.antt` offers, and nothing else; no other module
of `proofs/` is public; a crate stands in crates.txt on each crate that its files name; what a tactic names is there; the texts of ir_tests'
`examples.rt` are those of the files of `examples`, since a test can read no file; the manual page and docs/reference agree with the texts of
`--help`; the literals of the page of `ir view` are those of page/view.html; docs/internals names and counts what is there (scripts/definitions.py,
scripts/facts.py); no lemma statement stands in two crates, and no line of src, specs and proofs has more than 200 characters
(scripts/statements.py); no function has more than 6 parameters or more than 12 clauses; each edit of `must-fail/` and `edits/` applies, has no line
that isn't read, and writes no name that its file doesn't have; and `rt fmt` would change no file, since the gate refuses a crate of which it would.
"""
import re
import subprocess
import sys
from functools import cache
from pathlib import Path

import definitions
import facts
import statements
from edits import BadEdit, applied, pairs_of
from completions import differences as completion_differences
from man_page import differences
from page import differences as page_differences

TOP = Path(__file__).resolve().parent.parent
CITED = re.compile(r"\bRattle\.(ir_\w+)\.proofs\.(\w+)")
NAMED = re.compile(r"\bRattle\.(ir_\w+)\.|\b(ir_\w+)::")
PUBLIC = re.compile(r"^pub mod (\w+)", re.MULTILINE)
OFFERED = "CallerLemmas"
READ = ("file: ", "old: ", "new: ")
# What no code of a file is: comments, texts, and the lines of clauses and of what they cite.
NO_CODE = re.compile(r'//.*|"(?:[^"\\]|\\.)*"|^ *(?:ghost|requires|ensures)\b.*', re.MULTILINE)
# A name that has to be known where it stands: a type, a constant or a path's first part, and a function that is called.
NEEDED = re.compile(r"(?<![\w.:'])(?:([A-Z]\w*)|([a-z_]\w*)(?=::|\())")
WORD = re.compile(r"(?<![\w.:'])[A-Za-z_]\w*")
ALWAYS = set("Self Some None Ok Err Vec String Option Result Drop Copy Clone crate self super std if while match return".split())
FUNCTION = re.compile(r"\bfn (\w+)\s*(?:<[^(]*>)?\(")
CLAUSE = re.compile(r"\b(?:requires|ensures)\b[^{;]*\{")
MOST_PARAMETERS, MOST_CLAUSES = 6, 12
EXAMPLES = TOP / "crates" / "ir_tests" / "src" / "examples.rt"
TEXT = re.compile(r'^pub const (\w+): &str =\s+"([^"]*)";', re.MULTILINE)
# What a tactic of the code unfolds or uses, by its path; and what a file of specs/ or proofs/ offers under a name.
TACTIC = re.compile(r"\b(?:unfolding|using)\(([^)]*)\)")
OFFERS = re.compile(r"^pub use [^{;]*\.\{([^}]*)\}|^(?:unfoldable |abbrev )*pub (?:(?:data|record|trait) )?([^\s:]+)", re.MULTILINE)


def files_of(crate):
    """The files of a crate in which another may be named, but for what is built."""
    for path in sorted(crate.rglob("*")):
        if path.suffix in (".rt", ".antt") and "out" not in path.relative_to(crate).parts:
            yield path


def listed():
    """What each crate stands on, as crates.txt lists it."""
    stands = {}
    for line in (TOP / "crates.txt").read_text(encoding="utf-8").splitlines():
        name, colon, below = line.partition(":")
        if colon and not line.startswith("#"):
            stands[name.split()[0]] = set(below.split())
    return stands


def faults():
    """Each breach, as a line."""
    stands = listed()
    for crate in sorted((TOP / "crates").iterdir()):
        for path in files_of(crate):
            text = path.read_text(encoding="utf-8")
            where = path.relative_to(TOP)
            for other, module in sorted(set(CITED.findall(text))):
                if other != crate.name and module != OFFERED:
                    yield f"{where}: cites proofs of {other}, module {module}"
            named = {a or b for a, b in NAMED.findall(text)} & stands.keys()
            for other in sorted(named - {crate.name} - stands.get(crate.name, set())):
                yield f"{where}: names {other}, on which {crate.name} doesn't stand"
        lib = crate / "proofs" / "Lib.antt"
        public = PUBLIC.findall(lib.read_text(encoding="utf-8")) if lib.exists() else []
        for module in public:
            if module != OFFERED:
                yield f"{lib.relative_to(TOP)}: module {module} is public"


@cache
def offered(path):
    """The names that a file of specs/ or proofs/ offers."""
    found = OFFERS.findall(path.read_text(encoding="utf-8"))
    return {name for _, name in found} | {name.split(" as ")[-1].strip() for names, _ in found for name in names.split(",")}


def unknown_tactics():
    """Each name that a tactic unfolds or uses and that its file doesn't offer, as a line."""
    for path in sorted((TOP / "crates").glob("*/src/**/*.rt")):
        crate = path.relative_to(TOP / "crates").parts[0]
        for names in TACTIC.findall(path.read_text(encoding="utf-8")):
            for name in filter(None, map(str.strip, names.split(","))):
                *modules, last = name.split("::")
                room = TOP / "crates" / (crate if modules[0] == "crate" else modules[0])
                if room.is_dir() and last not in offered(room.joinpath(*modules[1:]).with_suffix(".antt")):
                    yield f"{path.relative_to(TOP)}: a tactic names {name}, which isn't there"


def examples():
    """Each example that stands in only one place, or differs, as a line."""
    texts = {name.lower(): text for name, text in TEXT.findall(EXAMPLES.read_text(encoding="utf-8"))}
    files = {path.stem: path.read_text(encoding="utf-8") for path in (TOP / "examples").glob("*.s")}
    for name in sorted(texts.keys() | files.keys()):
        if texts.get(name) != files.get(name):
            yield f"examples/{name}.s: isn't the text of {name.upper()} in {EXAMPLES.relative_to(TOP)}"


def unknown_names(text, pairs, crates):
    """The names that the new texts need and a file's code doesn't have."""
    for old, _ in pairs:
        text = text.replace(old, "")
    known = {*WORD.findall(NO_CODE.sub("", text)), *crates, *ALWAYS}
    needed = [NEEDED.findall(NO_CODE.sub("", new)) for _, new in pairs]
    return sorted({a or b for found in needed for a, b in found} - known - set(WORD.findall(" ".join(old for old, _ in pairs))))


def edit_faults(edit, crates):
    """What is wrong with an edit, as texts."""
    lines = edit.read_text(encoding="utf-8").splitlines()
    yield from (f"a line that isn't read: {line[:40]}" for line in lines if line.strip() and not line.startswith(READ))
    try:
        path, pairs = pairs_of(edit)
        text = (edit.parent.parent / path).read_text(encoding="utf-8")
        applied(text, pairs)
    except (BadEdit, OSError) as error:
        yield str(error)
        return
    if not pairs:
        yield "changes nothing"
    if path.endswith(".rt"):
        yield from (f"names {name}, which {path} doesn't have" for name in unknown_names(text, pairs, crates))


def bad_edits():
    """Each edit that the prover couldn't judge, as a line."""
    stands = listed()
    for edit in sorted([*(TOP / "crates").glob("*/edits/*"), *(TOP / "crates").glob("*/must-fail/*")]):
        crates = stands.get(edit.parent.parent.name, set())
        for fault in edit_faults(edit, crates):
            yield f"{edit.relative_to(TOP)}: {fault}"


def parameters(text):
    """How many parameters stand between the parenthesis before a text and its other half, and where that half is."""
    depth, count, empty, before = 1, 0, True, ""
    for at, char in enumerate(text):
        if char in "([{<":
            depth += 1
        elif char in ")]}" or char == ">" and before != "-":
            depth -= 1
        if depth == 0:
            break
        if char == "," and depth == 1:
            count, empty = count + 1, True
        elif not char.isspace():
            empty = False
        before = char
    return count + (not empty), at


def clauses(text):
    """How many clauses stand before the body of a function, or before the semicolon of a function of a trait."""
    at = depth = count = 0
    while at < len(text) and (depth or text[at] not in "{;"):
        found = CLAUSE.match(text, at)
        if found:
            count, at, braces = count + 1, found.end(), 1
            while braces:
                braces += (text[at] == "{") - (text[at] == "}")
                at += 1
        else:
            depth += (text[at] in "([") - (text[at] in ")]")
            at += 1
    return count


def large_functions():
    """The functions with more parameters or clauses than a function may have, a line each."""
    for path in sorted((TOP / "crates").glob("*/src/**/*.rt")):
        text = re.sub(r"//.*", "", path.read_text(encoding="utf-8"))
        for found in FUNCTION.finditer(text):
            after = text[found.end():]
            wide, end = parameters(after)
            many = clauses(after[end + 1:])
            if wide > MOST_PARAMETERS:
                yield f"{path.relative_to(TOP)}: {found[1]} has {wide} parameters"
            if many > MOST_CLAUSES:
                yield f"{path.relative_to(TOP)}: {found[1]} has {many} clauses"


def unformatted():
    """The files that `rt fmt` would change, a line each."""
    files = [str(path.relative_to(TOP)) for path in files_of(TOP / "crates") if {"src", "specs", "proofs"} & set(path.relative_to(TOP).parts)]
    ran = subprocess.run(["rattle", "fmt", "--check", *files], cwd=TOP, capture_output=True, text=True, check=False)
    return (ran.stdout + ran.stderr).splitlines() if ran.returncode else []


def main():
    found = [*faults(), *unknown_tactics(), *large_functions(), *examples(), *differences(), *completion_differences(), *page_differences(), *bad_edits(), *definitions.faults(), *facts.differences(), *statements.copies(), *statements.long_lines(), *unformatted()]
    print("\n".join(found) or "rooms: each crate cites what the others offer; examples, help and definitions agree with the pages; the edits apply")
    return 1 if found else 0


if __name__ == "__main__":
    sys.exit(main())
