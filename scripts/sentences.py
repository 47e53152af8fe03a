#!/usr/bin/env python3
"""Counts how long the sentences of the pages are, and how often some words stand in them.

python3 scripts/sentences.py [--over N] [--cells N] [--words] [PAGE ..]

Without PAGE it reads README.md, the pages of docs and of its folders, and examples/README.md. It prints a line for each page: its
sentences, the words of one on average, at the ninetieth percentile and of the longest, and the words of the longest cell of a table. With
--over it also prints each sentence of more than N words, with the page and the paragraph's line; with --cells each such cell of a table. With
--words it prints instead, for all pages together, how often each of some words stands in a thousand words of prose and of cells.

Headings, tables, indented lines and fenced blocks hold no sentences. A paragraph or an item of a list is divided after `.`, `!` and `?` if a
blank follows and then a capital letter, a digit, a quotation, a crate, or a mark of emphasis, code or a link. Code between backquotes is
one word, and of a link only its text counts.
"""
import re
import sys
from pathlib import Path

TOP = Path(__file__).resolve().parent.parent
ITEM = re.compile(r"\s{0,3}(?:[-*]|\d+\.)\s+")
END = re.compile(r"(?:(?<=[.!?])|(?<=[.!?][*)\"])|(?<=[.!?]\*\*))\s+(?=[A-Z0-9`\"'(\[*_]|ir_)")
CODE = re.compile(r"`[^`]*`")
LINK = re.compile(r"\[([^\]]*)\]\([^)]*\)")
WORD = re.compile(r"[\w']+(?:[-.,/][\w']+)*")
# Words that make a page read like a translation where they are frequent. "one" is counted as a number too.
COUNTED = {
    "one": r"\bones?\b",
    "which": r"\bwhich\b",
    "alone": r"\balone\b",
    "that of": r"\b(?:that|those) of\b",
    "of which": r"\bof which\b",
    "as many": r"\bas many\b",
    "comes to": r"\bcomes? to\b",
    "because": r"\bbecause\b",
}


def words_of(text):
    """How many words a text has."""
    return len(WORD.findall(LINK.sub(r"\1", CODE.sub("code", text))))


def paragraphs_of(text):
    """Each paragraph and each item of a list, with the number of its first line."""
    fenced, found, begins = False, [], 0
    for number, line in enumerate([*text.splitlines(), ""], 1):
        is_fence = line.startswith("```")
        is_break = fenced or is_fence or not line.strip() or line.startswith(("#", "|", "    "))
        if found and (is_break or ITEM.match(line)):
            yield begins, " ".join(found)
            found = []
        if is_fence:
            fenced = not fenced
        elif not is_break:
            begins = begins if found else number
            item = ITEM.match(line)
            found.append(line[item.end() if item else 0:].strip())


def sentences_of(text):
    """Each sentence, with the line of its paragraph."""
    for number, paragraph in paragraphs_of(text):
        # Code is one word, whatever it holds.
        for sentence in END.split(CODE.sub("`code`", paragraph)):
            if words_of(sentence):
                yield number, sentence


def cells_of(text):
    """Each cell of a table, with its line."""
    for number, line in enumerate(text.splitlines(), 1):
        if line.startswith("|"):
            yield from ((number, cell.strip()) for cell in CODE.sub("`code`", line).strip("|").split("|"))


def word_counts(texts):
    """How many words the texts have, and how often each of the counted words stands in a thousand of them."""
    prose = " ".join(LINK.sub(r"\1", CODE.sub("code", piece)) for text in texts for _, piece in [*sentences_of(text), *cells_of(text)])
    count = len(WORD.findall(prose))
    return count, {word: 1000 * len(re.findall(form, prose, re.IGNORECASE)) / max(1, count) for word, form in COUNTED.items()}


def pages():
    """The pages that people read."""
    return [TOP / "README.md", *sorted((TOP / "docs").rglob("*.md")), TOP / "examples" / "README.md"]


def main():
    words = [word for word in sys.argv[1:] if word != "--words"]
    most = {"--over": None, "--cells": None}
    while len(words) > 1 and words[0] in most and words[1].isdigit():
        most[words[0]], words = int(words[1]), words[2:]
    if any(word.startswith("-") for word in words):
        print(__doc__)
        sys.exit(2)
    chosen = [Path(word) for word in words] or [page for page in pages() if page.exists()]
    if "--words" in sys.argv:
        count, often = word_counts([page.read_text(encoding="utf-8") for page in chosen])
        print(f"{count} words; in a thousand: " + ", ".join(f"{word} {number:.2f}" for word, number in often.items()))
        return
    for page in chosen:
        text = page.read_text(encoding="utf-8")
        found = [(words_of(sentence), number, sentence) for number, sentence in sentences_of(text)]
        cells = [(words_of(cell), number, cell) for number, cell in cells_of(text)]
        counts = sorted(count for count, _, _ in found) or [0]
        name = page.relative_to(TOP) if page.is_relative_to(TOP) else page
        mean = sum(counts) / len(counts)
        ninetieth = counts[(len(counts) * 9 + 9) // 10 - 1]
        print(f"{name}: {len(found)} sentences, {mean:.1f} words on average, {ninetieth} at the ninetieth percentile, "
              f"{counts[-1]} at most; a cell {max(cells, default=(0,))[0]}")
        for option, rows in (("--over", found), ("--cells", cells)):
            for count, number, piece in rows:
                if most[option] is not None and count > most[option]:
                    print(f"  {name}:{number}: {count}: {piece}")


if __name__ == "__main__":
    main()
