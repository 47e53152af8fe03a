#!/usr/bin/env python3
"""Makes the manual page from the texts of `--help`, and refuses pages that differ from these texts.

python3 scripts/man_page.py [--check]

Reads the help texts in crates/ir_arguments/src and the exit statuses in docs/reference/exit-status.md. Writes man/ir.1, the head of each
page docs/reference/ir-NAME.md (what the subcommand does, how it is typed, its arguments and options), and the table of subcommands in the
index. With --check it writes nothing, prints each difference in a line, and then fails. In both cases it looks whether docs/reference has the
commands, openings, events, calls, ends, causes and conditions that the help has.
"""
import re
import sys
from pathlib import Path

TOP = Path(__file__).resolve().parent.parent
ARGUMENTS = TOP / "crates" / "ir_arguments" / "src"
REFERENCE = TOP / "docs" / "reference"
INDEX = REFERENCE / "README.md"
MAN_PAGE = TOP / "man" / "ir.1"

TEXT = r'"((?:[^"\\]|\\.)*)"'
CONSTANT = re.compile(r"const (\w+): &str =\s*" + TEXT)
ROWS = re.compile(r"=> (\w+)::ROW")
ROW = re.compile(rf"name: {TEXT},\s+about: {TEXT},\s+after: (\w+)")
# The form of an argument: its kind, the constant that is its name, and its texts, of which the last is the help. Before it are the name of its
# value and then its default, if it has these.
FORM = rf"Form::(\w+)\(\s*(\w+),((?:\s*{TEXT},?)+)\s*\)"
# A form that has a name.
NAMED = re.compile(rf"const (\w+): Form<'static> =\s*{FORM}")
# The forms of a subcommand, and a form of them, which is written out or named.
FORMS = re.compile(rf"forms: &\[\s*((?:(?:{FORM}|\w+),?\s*)+)\]")
ENTRY = re.compile(rf"{FORM}|(\w+)")
# The version, as a text or by the name of a constant.
VERSION = re.compile(rf"\.version\((?:{TEXT}|(\w+))")
# A cell of a row with several numbers and what each means.
NUMBERED = re.compile(r"(\d+) (\S.*)")
CODE = re.compile(r"`([^`]*)`")
LINK = re.compile(r"\[([^\]]*)\]\([^)]*\)")
# The headings of the tables with the commands of a session.
COMMAND_TABLES = ("Moves", "Points", "What is shown", "Kept cuts")
# A line that is set in further than any key goes on with the line before.
CONTINUED = 8
# The modules whose forms and names several subcommands have.
SHARED = ("conditions", "recording", "seconds", "seeds", "values", "within")


class Subcommand:
    """A subcommand: its name, what it does, its arguments and options as pairs of form and help, the options that have to be given, and what
    follows its help."""

    def __init__(self, name, about, arguments, options, needed, after):
        self.name, self.about, self.arguments, self.options, self.needed, self.after = name, about, arguments, options, needed, after

    def usage(self):
        """How it is typed."""
        return " ".join(["ir", self.name, *(["[OPTIONS]"] if self.options else []), *self.needed, *(form for form, _ in self.arguments)])


def source_of(module):
    """The source of a module of ir_arguments."""
    return (ARGUMENTS / f"{module}.rt").read_text(encoding="utf-8")


def meant(text):
    """What a text of a source means."""
    return re.sub(r"\\(.)", lambda found: "\n" if found[1] == "n" else found[1], text)


def constants_of(source):
    """The constants of a source that are texts."""
    return {name: meant(text) for name, text in CONSTANT.findall(source)}


class Form:
    """The form of an argument: how it is typed, its help, and whether it is an option and has to be given."""

    def __init__(self, kind, name, texts):
        *values, text = re.findall(TEXT, texts)
        default = f" [default: {values.pop()}]" if kind == "ValuedOr" else ""
        typed = {"NeededPlace": name, "Place": f"[{name}]", "Event": f"--{name} T E"}
        self.is_option, self.is_needed = "Place" not in kind, kind == "NeededRepeated"
        self.row = typed.get(kind, " ".join([f"--{name}", *values])), meant(text) + default


def named_forms(sources, constants):
    """The forms that have names in sources, by these."""
    return {form: Form(kind, constants[name], texts) for source in sources for form, kind, name, texts, _ in NAMED.findall(source)}


def forms_in(source, constants, named):
    """The forms of a subcommand, in the order of its help."""
    return [named[other] if other else Form(kind, constants[name], texts) for kind, name, texts, _, other in ENTRY.findall(FORMS.search(source)[1])]


def subcommands():
    """The subcommands, in the order of the help."""
    sources = {path.stem: path.read_text(encoding="utf-8") for path in sorted(ARGUMENTS.glob("*.rt"))}
    shared = {}
    for module in SHARED:
        shared |= constants_of(sources[module])
    named, found = named_forms((sources[module] for module in SHARED), shared), []
    for module in ROWS.findall(sources["subcommands"]):
        constants = shared | constants_of(sources[module])
        name, about, after = ROW.search(sources[module]).groups()
        forms = forms_in(sources[module], constants, named)
        arguments, options = ([form.row for form in forms if form.is_option == is_option] for is_option in (False, True))
        needed = [form.row[0] for form in forms if form.is_needed]
        found.append(Subcommand(name, about, arguments, options, needed, constants[after]))
    return found


# The help's lines as blocks.


def is_set_in(line):
    """Whether a line is a row of a table."""
    return line.startswith("  ")


def rows_of(lines):
    """The rows of a table in lines, each with its key and its text; rows with several numbers and their meanings are parted and sorted."""
    rows, numbered = [], []
    for line in lines:
        cells = re.split(r"\s{2,}", line.strip())
        pairs = [NUMBERED.fullmatch(cell) for cell in cells]
        if len(line) - len(line.lstrip()) >= CONTINUED and rows:
            key, text = rows[-1]
            rows[-1] = (key, f"{text} {line.strip()}".strip())
        elif all(pairs):
            numbered += [(int(pair[1]), pair[2]) for pair in pairs]
        else:
            rows.append((" ".join(cells[:-1]), cells[-1]) if len(cells) > 1 else (cells[0], ""))
    return rows + [(str(number), text) for number, text in sorted(numbered)]


def blocks_of(text):
    """The paragraphs of a help text, and its tables as lists of rows."""
    lines, paragraph, table = text.splitlines(), [], []
    for line in [*lines, ""]:
        if table and not is_set_in(line):
            yield rows_of(table)
            table = []
        if is_set_in(line):
            table.append(line)
        elif line:
            paragraph.append(line)
        if paragraph and (line.endswith((".", ":")) or not line or is_set_in(line)):
            yield " ".join(paragraph)
            paragraph = []


def tables_of(text):
    """The tables of a help text."""
    return [block for block in blocks_of(text) if isinstance(block, list)]


# The pages of the reference.


def section_of(page, heading):
    """The rows of the first table below a heading, as lists of cells, without the table's head."""
    text = (REFERENCE / f"{page}.md").read_text(encoding="utf-8")
    _, _, below = text.partition(f"\n## {heading}\n")
    rows = []
    for line in below.splitlines():
        if line.startswith("|"):
            rows.append([cell.strip() for cell in line.strip("|").split("|")])
        elif rows or line.startswith("## "):
            break
    return rows[2:]


def table_of(head, rows):
    """A table in Markdown."""
    return "\n".join([head, "|---|---|", *(f"| {key} | {text} |" for key, text in rows)]) + "\n"


def head_of_page(subcommand):
    """The start of its page, in Markdown: what it does, how it is typed, its arguments and options."""
    table = table_of("| Argument | Says |", [(f"`{form}`", text) for form, text in subcommand.arguments + subcommand.options])
    return f"# ir {subcommand.name}\n\n{subcommand.about}.\n\n```\n{subcommand.usage()}\n```\n\n{table}"


def with_made(path, place, made):
    """A page with what is made in its place."""
    text = path.read_text(encoding="utf-8") if path.exists() else ""
    text, count = re.subn(place, lambda _: made, text, count=1)
    if count != 1:
        raise SystemExit(f"{path.relative_to(TOP)}: has no place for what scripts/man_page.py makes")
    return text


def pages():
    """Each page of the reference that has made parts, with the text that it has to have."""
    all_ = subcommands()
    rows = [(f"[`ir {subcommand.name}`](ir-{subcommand.name}.md)", subcommand.about) for subcommand in all_]
    yield INDEX, with_made(INDEX, r"\| Command \| Does \|\n(?:\|[^\n]*\n)+", table_of("| Command | Does |", rows))
    for subcommand in all_:
        path = REFERENCE / f"ir-{subcommand.name}.md"
        yield path, with_made(path, r"\A# ir \w+\n(?:[^|]*\n)?(?:\|[^\n]*\n)+", head_of_page(subcommand))


def first_code(rows):
    """What is code in the first cell of each row."""
    return {code for row in rows for code in CODE.findall(row[0])}


def differing(what, in_help, in_reference):
    """The difference of two sets, in lines."""
    for only, place in ((in_help - in_reference, "docs/reference"), (in_reference - in_help, "the help")):
        yield from (f"{place} lacks {what} `{text}`" for text in sorted(only))


def disagreements():
    """What the reference and the help don't both have, in lines."""
    after = {subcommand.name: tables_of(subcommand.after) for subcommand in subcommands()}
    commands, openings = after["debug"]
    listed = {form for heading in COMMAND_TABLES for form in first_code(section_of("commands", heading))}
    yield from differing("the command", {form for form, _ in commands}, listed)
    yield from differing("the opening", {form for form, _ in openings}, first_code(section_of("commands", "Opening")) - {"ready"})
    yield from differing("the event", {form for form, _ in after["trace"][0]}, first_code(section_of("trace", "Events in lines")))
    _, _, calls, causes = after["asm"]
    named = {" ".join(row[:2]).split(",")[0] for row in section_of("calls-and-ends", "Calls")}
    yield from differing("the call", {" ".join(key.split()[:2]) for key, _ in calls}, named)
    ends = {row[0] for row in section_of("calls-and-ends", "Ends")}
    yield from differing("the end", {number for number, _ in after["record"][0]}, ends)
    reasons = dict(row[:2] for row in section_of("assembler", "Faults"))
    yield from differing("the cause", {number for number, _ in causes}, reasons.keys())
    for number, text in causes:
        if not reasons.get(number, text).startswith(text):
            yield f"docs/reference/assembler.md: cause {number} isn't `{text}`, as the help has it"
    _, conditions = after["hunt"]
    yield from differing("the condition", {form for form, _ in conditions}, first_code(section_of("conditions", "The conditions")) - {"!COND"})


# The manual page.


def roff(text):
    """A text in roff, code in bold."""
    text = LINK.sub(r"\1", text).replace("\\", "\\e").replace("-", "\\-").replace("^", "\\(ha").replace("~", "\\(ti")
    text = CODE.sub(r"\\fB\1\\fP", text).replace("'", "\\(aq").replace("`", "\\(ga")
    return "\\&" + text if text.startswith(".") else text


def items(rows):
    """Rows as a list in roff, the keys in bold; rows without texts as an example."""
    if not any(text for _, text in rows):
        yield from (".PP", ".RS 4", ".nf", *(roff(key) for key, _ in rows), ".fi", ".RE")
        return
    width = min(28, max(len(key.replace("`", "")) for key, _ in rows) + 2)
    yield ".PD 0"
    for key, text in rows:
        yield from (f".TP {width}", f"\\fB{roff(key)}\\fP", roff(text))
    yield ".PD"


def section(text):
    """A help text in roff, but for its exit statuses: the page has them in one place."""
    for block in blocks_of(text.partition("\nExit status:")[0]):
        yield from items(block) if isinstance(block, list) else (".PP", roff(block))


def head_of(source, all_):
    """The page from its title to what the program is, in roff."""
    constants = constants_of(source)
    literal, name = VERSION.search(source).groups()
    # What a build says of itself after its version is no part of the page.
    version, about = (literal or constants[name]).split()[0], constants["ABOUT"]
    yield ".\\\" Made by scripts/man_page.py from the texts of --help and docs/reference/exit-status.md: change those."
    yield f'.TH IR 1 "" "ir {version}" "User Commands"'
    yield from (".SH NAME", f"ir \\- {roff(about[0].lower() + about[1:])}", ".ad l", ".nh")
    yield from (".SH SYNOPSIS", ".nf", *(f"\\fB{roff(subcommand.usage())}\\fP" for subcommand in all_), "\\fBir\\fP", ".fi")
    yield from (".SH DESCRIPTION", *section(constants["AFTER"]))


def part_of(subcommand):
    """The page's part on a subcommand, in roff."""
    yield from (f".SH IR {subcommand.name.upper()}", f"{roff(subcommand.about)}.")
    yield from (".SS Arguments and options", *items(subcommand.arguments + subcommand.options))
    yield from (".SS Details", *section(subcommand.after))


def man_page():
    """The manual page."""
    all_ = subcommands()
    lines = [*head_of(source_of("arguments"), all_)]
    for subcommand in all_:
        lines += part_of(subcommand)
    lines += [".SH EXIT STATUS", *items([(row[0], f"({row[1]}) {row[2]}") for row in section_of("exit-status", "The statuses")])]
    lines += [".SH SEE ALSO", "docs/guide/tutorial.md, docs/reference/README.md"]
    return "\n".join(lines) + "\n"


def differences():
    """Each difference between the help and the pages that have its texts, in lines."""
    for path, wanted in ((MAN_PAGE, man_page()), *pages()):
        if not path.exists() or path.read_text(encoding="utf-8") != wanted:
            yield f"{path.relative_to(TOP)}: isn't what scripts/man_page.py makes"
    yield from disagreements()


def main():
    if sys.argv[1:] not in ([], ["--check"]):
        sys.exit(__doc__)
    if not sys.argv[1:]:
        for path, wanted in [*pages()]:
            path.write_text(wanted, encoding="utf-8")
        MAN_PAGE.parent.mkdir(exist_ok=True)
        MAN_PAGE.write_text(man_page(), encoding="utf-8")
    found = list(differences())
    print("\n".join(found) or "man/ir.1 and docs/reference agree with the texts of --help")
    return 1 if found else 0


if __name__ == "__main__":
    sys.exit(main())
