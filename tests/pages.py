"""Tests of what the pages say: the commands of the README, the guide, the reference and the examples, the sessions of examples, and the help."""
import re
import shlex
import sys

from lib import TOP, Wrong, assembled, examples, program, recorded, run, shell, wants

sys.path.append(str(TOP / "scripts"))

import man_page  # noqa: E402

# A row of a table that has a command, and then the last line that it writes.
ROW = re.compile(r"\| `\$ (.+?)` \| `(.+?)` \|$")


def commands_of(text):
    """The commands of a page, each with the lines that are typed at its prompts and those that it writes."""
    commands = []
    for line in text.splitlines():
        row = ROW.search(line)
        if row:
            commands.append((row[1], [], ["..", row[2]]))
        elif line.startswith("    $ "):
            commands.append((line[6:], [], []))
        elif line.startswith("    (ir) ") and commands:
            commands[-1][1].append(line[9:])
        elif line.startswith("    ") and commands:
            commands[-1][2].append(line[4:])
    return commands


def matches(found, wanted):
    """Whether the lines are these, with `..` for any."""
    if not wanted:
        return not found
    if wanted[0] == "..":
        return any(matches(found[k:], wanted[1:]) for k in range(len(found) + 1))
    return bool(found) and found[0] == wanted[0] and matches(found[1:], wanted[1:])


# Pages of the guide whose commands want a compiler or gdb: c_guests.py and gdb_sessions.py run them, and the tests of guest/threads.
ELSEWHERE = ("c-guests.md", "gdb.md", "refine.md", "threads.md")
# Pages of the guide without commands.
SILENT = ("concepts.md", "when.md")


def run_page(page, place, is_bounded):
    """Runs the commands of a page in a folder, and compares what each writes with what follows it there. `make` isn't run."""
    (place / "ir").symlink_to(program())
    for name in ("crates", "docs", "examples"):
        (place / name).symlink_to(TOP / name)
    commands = [row for row in commands_of(page.read_text()) if row[0].split()[0] != "make"]
    for command, typed, wanted in commands:
        if "ulimit -v" in command and not is_bounded:
            continue
        ended = shell(command, place, "".join(f"{line}\n" for line in typed).encode())
        if not matches(ended.stdout.decode().splitlines(), wanted):
            raise Wrong(f"{page.relative_to(TOP)}: {command}: wrote {ended.stdout.decode()!r}")
        wants(f"{page.relative_to(TOP)}: {command}: standard error", ended.stderr, b"")
    return len(commands)


def test_pages(folder):
    """Each command of the README, the guide, the reference and the page of the examples writes what follows it there. A build with
    AddressSanitizer can't start under a bound of its memory, so commands that set a bound are left out for it."""
    guide = [page for page in sorted((TOP / "docs" / "guide").glob("*.md")) if page.name not in ELSEWHERE]
    reference = sorted((TOP / "docs" / "reference").glob("*.md"))
    is_bounded = shell(f"ulimit -v 1000000; exec {shlex.quote(program())} --version", folder).returncode == 0
    for number, page in enumerate([TOP / "README.md", *guide, *reference, TOP / "examples" / "README.md"]):
        place = folder / f"page{number}"
        place.mkdir()
        count = run_page(page, place, is_bounded)
        if not count and page.name not in SILENT and page not in reference:
            raise Wrong(f"{page.relative_to(TOP)} has no commands")


# The sessions of examples/sessions, each with the order in which it was recorded.
SESSIONS = {"lost_update": "0x10,1x25", "overwritten": None}


def test_sessions(folder):
    """The sessions that `make try` runs are of their examples, and each ends with its quit."""
    sessions = sorted((TOP / "examples" / "sessions").iterdir())
    wants("sessions", [session.name for session in sessions], sorted(SESSIONS))
    for session in sessions:
        name = session.name
        image, trace = (bytes.fromhex(line) for line in session.read_text(encoding="ascii").splitlines()[:2])
        wants(f"{name}: the image", image, assembled(folder, name, examples()[name]))
        wants(f"{name}: the trace", trace, recorded(folder, name, SESSIONS[name]))
        ended = run("", folder, input=session.read_bytes())
        wants(name, (ended.returncode, ended.stdout[:6], ended.stdout[-4:], ended.stderr), (0, b"ready\n", b"bye\n", b""))


def bracketed(word):
    """A word of a subcommand's use as its help has it: what stands for something else is between brackets."""
    return f"<{word}>" if word[0].isupper() else word


def lines_of_help(subcommand):
    """The lines of a subcommand's help that the manual page has too, without the blanks between an option and its text."""
    yield subcommand.about
    yield "Usage: " + " ".join(bracketed(word) for word in subcommand.usage().split())
    for form, text in subcommand.arguments + subcommand.options:
        name, blank, value = form.partition(" ")
        form = " ".join([name, *(f"<{word}>" for word in value.split())]) if blank else name if name.startswith(("--", "[")) else f"<{name}>"
        yield f"{form} {text}"
    yield from (" ".join(line.split()) for line in subcommand.after.splitlines())


def test_help(folder):
    """`--help` prints the texts of which the manual page is made."""
    for subcommand in man_page.subcommands():
        ended = run(f"{subcommand.name} --help", folder)
        lines = [" ".join(line.split()) for line in ended.stdout.decode().splitlines()]
        lacking = [line for line in lines_of_help(subcommand) if line not in lines]
        wants(f"{subcommand.name} --help", (ended.returncode, ended.stderr, lacking), (0, b"", []))
