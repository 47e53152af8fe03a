#!/usr/bin/env python3
"""Tells which lemma statements stand in two crates, which names of lemmas and which lines are too long: what scripts/rooms.py refuses of them.

python3 scripts/statements.py

A statement is a lemma of `proofs/`, `name : statement`, up to the names of its bound variables; names that it imports count as what they mean.
Crates of tests are left out.
"""
import collections
import functools
import re
import sys
from pathlib import Path

TOP = Path(__file__).resolve().parent.parent
MOST_LINE, MOST_NAME = 200, 40
# Files with texts that stand in one line: guests of tests, gdb's description of the target, an example of printed texts, and the page of `ir view`.
TEXTS = {f"crates/{name}" for name in ("ir_elf_tests/src/files.rt", "ir_gdb/src/texts.rt", "ir_gdb/specs/Texts.antt", "ir_debug/proofs/Guests.antt", "ir_picture/src/page.rt")}
HEAD = re.compile(r"^(?:pub )?(?P<name>[a-z][^\s:(){}.,;@\"]*)\s*:\s+(?P<rest>.*)$")
NO_LEMMA = ("record ", "data ", "use ", "abbrev ", "mod ", "module ", "unfoldable ", "pub record", "pub data", "pub use", "pub mod", "pub abbrev")
USE = re.compile(r"^(pub )?use (\S+?)(?:\.\{([^}]*)\}| as (\S+))?$", re.MULTILINE)
DEFINED = re.compile(r"^(?:(?:pub|abbrev|unfoldable|record|data) )*([^\s:(){}.,;]+)\s*(?=[:({]| )", re.MULTILINE)
BINDER = re.compile(r"[({]([^\s(){}:,;.][^(){}:,;.]*?) : |λ ([^.]*)\.")
WORD = re.compile(r"[^\s(){}\[\],;.]+|[(){}\[\],;.]")
MADE = ("Answers.antt", "Invariants.antt", "CallerLemmas.antt", "Lib.antt")


class Crates:
    """The modules of all crates, and what their names mean."""

    def __init__(self):
        self.texts = {}
        for path in sorted((TOP / "crates").rglob("*.antt")):
            parts = path.relative_to(TOP / "crates").parts
            if "out" not in parts:
                self.texts[".".join(("Rattle", *parts))[: -len(".antt")]] = (path, path.read_text(encoding="utf-8"))

    @functools.lru_cache(maxsize=None)
    def imports(self, module):
        """What a module imports: a name's module and name there, and what it hands on."""
        names, handed = {}, {}
        for pub, other, items, _ in USE.findall(self.texts[module][1]):
            for words in (item.split() for item in items.split(",")):
                if words:
                    names[words[-1]] = (other, words[0])
                    if pub:
                        handed[words[-1]] = (other, words[0])
        return names, handed

    @functools.lru_cache(maxsize=None)
    def meaning(self, module, name):
        if not module.startswith("Rattle.ir_"):
            kit = re.match(r"Rattle\.(?!std|core)(\w+)\.", module)
            return f"{kit[1]}.{name}" if kit else name
        handed = self.imports(module)[1] if module in self.texts else {}
        return self.meaning(*handed[name]) if name in handed else f"{module}.{name}"

    def normal(self, module, statement):
        """A statement with its bound variables numbered, and its other names by what they mean."""
        names = self.imports(module)[0]
        own = self.own(module)
        bound = {word for pair in BINDER.findall(statement) for word in re.findall(r"[^\s(){}:,;.]+", " ".join(pair))}
        numbers, out = {}, []
        for found in WORD.finditer(statement):
            word = found[0]
            if found.start() and statement[found.start() - 1] == ".":
                word = "." + word
            elif word in bound:
                word = numbers.setdefault(word, f"v{len(numbers)}")
            elif word in own:
                word = f"{module}.{word}"
            else:
                word = next((self.meaning(*names[w]) for w in (word, f"◌{word}◌") if w in names), word)
            out.append(word)
        text = " ".join(word for word in out if word != ".")
        text = re.sub(r"\( ((?:v\d+ )+): ([^()]*) \)", lambda m: " ".join(f"( {v} : {m[2]} )" for v in m[1].split()), text)
        return re.sub(r" → (?=\()", " ", text)

    @functools.lru_cache(maxsize=None)
    def own(self, module):
        return frozenset(DEFINED.findall(self.texts[module][1]))

    def lemmas(self):
        """Each lemma of each crate: its module, its line, its name and its statement."""
        for module, (path, text) in self.texts.items():
            crate, room = module.split(".")[1:3]
            if room != "proofs" or path.name in MADE or crate.endswith(("_tests", "_bench")) or crate == "ir_tests":
                continue
            lines = text.split("\n")
            for n, line in enumerate(lines):
                head = HEAD.match(line)
                if head and not line.startswith(NO_LEMMA):
                    end = n + 1
                    while end < len(lines) and lines[end][:1] == " ":
                        end += 1
                    yield module, n + 1, head["name"], " ".join([head["rest"], *(row.strip() for row in lines[n + 1: end])])


def copies():
    """Each lemma statement that stands in more than one crate, and each lemma of a long name, as a line."""
    crates, found = Crates(), collections.defaultdict(list)
    for module, line, name, statement in crates.lemmas():
        if len(name) > MOST_NAME:
            yield f"{crates.texts[module][0].relative_to(TOP)}:{line}: {name} has {len(name)} characters, over {MOST_NAME}"
        if "→" in statement or "≡" in statement:
            found[crates.normal(module, statement)].append((module, line, name))
    for places in found.values():
        if len({module.split(".")[1] for module, _, _ in places}) > 1:
            yield "one statement in more than one crate: " + ", ".join(f"{crates.texts[module][0].relative_to(TOP)}:{line} {name}" for module, line, name in places)


def long_lines():
    """Each line of src, specs and proofs that is too long and no text, as a line."""
    for path in sorted((TOP / "crates").rglob("*")):
        parts = path.relative_to(TOP / "crates").parts
        if path.suffix in (".rt", ".antt") and len(parts) > 2 and parts[1] in ("src", "specs", "proofs"):
            for n, line in enumerate(path.read_text(encoding="utf-8").split("\n")):
                if len(line) > MOST_LINE and not (str(path.relative_to(TOP)) in TEXTS and '"' in line):
                    yield f"{path.relative_to(TOP)}:{n + 1}: a line of {len(line)} characters, over {MOST_LINE}"


def main():
    found = [*copies(), *long_lines()]
    print("\n".join(found) or "statements: each stands in one crate, and no line is too long")
    return 1 if found else 0


if __name__ == "__main__":
    sys.exit(main())
