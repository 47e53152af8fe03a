#!/usr/bin/env python3
"""Makes docs/internals/headline.md and claims.md of the definitions in specs/: the relations by which the main theorem is read, as they are, and the files
on which exploring, hunting, shrinking, the commands that ask about a recording and gdb rest.

python3 scripts/definitions.py [--check | --index]

--index prints an index of the definitions that contracts name, and makes nothing. --check writes nothing, prints a line for each fault and then fails;
scripts/rooms.py prints these lines too. The page has to be as it would be made. The tables of docs/internals/theorem.md have to name the files to which
the contracts of PARTS lead. Each call that docs/internals/contracts.md names has to be one of some crate. Each crate has to have its words in
docs/internals/architecture.md.

A contract leads to the definitions that it names, and these to those that they name: names are followed by the `use` lines of their file. A type
of the code leads to what its ghost fields and the view of its `impl Model` name, and so do the types of a contract's parameters and results. Its
invariant isn't followed: each value that there is has it, so a contract promises no less for it (theorem.md). What leads to std or to another
crate of the kit isn't followed either. A name that two files of the headline and the claims define is refused, and so is one in a table's row that its file
doesn't define. The headline may rest on MOST_LINES lines at most, and on MOST_DEFINITION_LINES of definitions beside the manual.
"""
import re
import sys
from dataclasses import dataclass, field
from functools import cache
from pathlib import Path
from textwrap import wrap

TOP = Path(__file__).resolve().parent.parent
PAGES = TOP / "docs" / "internals"
PAGE = PAGES / "headline.md"
MOST_WORDS = 30

# Each part of the headline: its name, its heading in theorem.md, and the functions and traits whose contracts it is.
PARTS = [
    ("the session", "### The session", {
        "ir_debug/src/sessions.rt": ["session", "session_up_to"],
        "ir_stream/src/device.rt": ["Source", "Sink"],
        "ir_object/src/gate.rt": ["Gate"],
    }),
    ("recording, beside these", "### Recording", {
        "ir_record/src/by_threads.rt": ["record"],
        "ir_record/src/in_order.rt": ["record_in_order", "record_in_turns", "record_with_refusals"],
        "ir_record/src/world.rt": ["World"],
    }),
    ("`fit`, beside these", "### Fit", {"ir_fit/src/fitting.rt": ["fit"]}),
    ("`advance`, beside these", "### Advance", {"ir_replay/src/moves.rt": ["advance", "advance_in_order"]}),
]


@dataclass
class Claim:
    """What other calls say: a heading, what it is about, the contracts, the files to read first with the names on which most turns, and the most
    lines of its files and of its definitions, beside the headline and the claims before it."""

    title: str
    says: str
    contracts: dict
    first: list
    most: tuple


CLAIMS = [
    Claim("Exploring", "`ir explore` lists outcomes, and says how its search ended.", {"ir_explore/src/run.rt": ["explore_run"]}, [
        ("ir_world", "Sources", "`given`: what answers CLOCK, RANDOM and INPUT"),
        ("ir_graph", "Setup", "`Setup`, `IsCountedOf`: which complete runs count"),
        ("ir_likeness", "Seen", "`IsCounted`"),
        ("ir_graph", "Outcomes", "`RunOutcome`, `run_outcome`"),
        ("ir_outcomes", "Explored", "`IsOutcomeOf`, `AreExplored`, `AreAll`, `AreHangs`"),
        ("ir_outcomes", "Shown", "`IsShown`: what LIST leads to"),
        ("ir_graph", "Hangs", "`IsCounting`, `CanEnd`, `IsHangOf`"),
        ("ir_graph", "Times", "`HasTimedRun`: where `clock counted` is said"),
        ("ir_explore", "Texts", "`AreKnown`, `IsAnswerAbout`: what is printed of it"),
    ], (2540, 730)),
    Claim("Recordings of an explored guest", "What the lists of `ir explore` say about recordings, by real threads too.", {
        "ir_explore/src/laws.rt": ["recordings_have_outcomes", "recordings_are_listed", "recordings_are_untimed", "untimed_recordings_are_listed",
                                       "recordings_never_fulfil", "hangs_never_complete"],
    }, [
        ("ir_record_command", "Recording", "`IsRecordedOf`: what a recording is"),
        ("ir_order", "Recording", "`IsOfRun`: the run that a trace and outputs are of"),
        ("ir_explore", "Recorded", "the laws"),
    ], (420, 155)),
    Claim("Exploring up to conditions", "`ir explore --until` records an outcome that fulfils them, or a hang.", {
        "ir_explore/src/until.rt": ["explore_until"],
        "ir_explore/src/hang.rt": ["explore_hang"],
    }, [
        ("ir_explore", "Conditions", "`IsFirst`, `NeverFulfils`"),
        ("ir_explore", "Until", "`IsSought`, `IsVain`"),
        ("ir_explore", "Hang", "`FindsHang`, `IsHangTold`"),
    ], (533, 320)),
    Claim("Comparing", "`ir explore --within` says whether each outcome of a guest is also an outcome of another guest; `--only` lists outcomes by classes.", {
        "ir_within/src/run.rt": ["within_run"],
        "ir_within/src/classes.rt": ["classes_run"],
        "ir_within/src/laws.rt": ["within_is_each", "outside_is_some", "each_class_is_listed", "class_has_fewest"],
    }, [
        ("ir_within", "Aspects", "`Aspects`, `seen`: what of an outcome counts"),
        ("ir_within", "Within", "`IsCompared`, `IsWithinAnswer`: what is printed"),
        ("ir_within", "Classes", "`AreClasses`, `IsClassesText`: what is printed by classes"),
        ("ir_within", "Laws", "the laws"),
    ], (420, 200)),
    Claim("Recording what is outside", "`ir explore --within` with a TRACE records the first outcome that the other guest doesn't have.", {
        "ir_within/src/outside.rt": ["outside_run"],
        "ir_within/src/laws.rt": ["recorded_is_outside"],
    }, [
        ("ir_within", "Outside", "`IsFirstMarked`, `IsOutsideTold`, `IsOutsideRecorded`: which run is recorded"),
        ("ir_within", "Laws", "`RecordedIsOutside`: the law"),
    ], (130, 55)),
    Claim("Hunting", "`ir hunt` says which seeds it tried, and which is the lowest that it found.", {"ir_hunt/src/hunting.rt": ["hunt_run"]}, [
        ("ir_schedule", "Schedules", "`IsSchedule`: the run by a chooser"),
        ("ir_hunt", "Hunt", "`Hunt`: what is hunted"),
        ("ir_hunt", "Finding", "`IsOfSeed`, `IsFound`"),
        ("ir_hunt", "Tried", "`Fails`, `AreTried`, `IsLowestSeed`, `IsTriedLast`"),
        ("ir_hunt", "Hunted", "`IsNoneIn`, `IsFoundIn`"),
        ("ir_hunt", "Stopping", "`IsHuntLine`: what is printed of it"),
    ], (1385, 548)),
    Claim("Shrinking", "`ir shrink` records a run with fewer context switches that fulfils the same conditions.", {
        "ir_shrink/src/run.rt": ["shrink_run"],
        "ir_shrink/src/laws.rt": ["each_run_is_no_better"],
    }, [
        ("ir_shrink", "Switches", "`switch_count`: which switches are counted"),
        ("ir_shrink", "Items", "`IsPlannedByItems`: a run by items, and what follows them"),
        ("ir_shrink", "Shrinking", "`IsShrunk`, `IsMinimal`"),
        ("ir_shrink", "Stopping", "`RecordsShrunk`, `StopsShrink`: what is written and reported"),
        ("ir_shrink", "Laws", "the law"),
    ], (360, 180)),
    Claim("Questions about a recording", "The lines of `ir stale`, `who`, `why`, `diff`, `view`, `events` and `list`.", {
        "ir_past/src/asking.rt": ["TraceQuestion", "ask_trace"],
        "ir_past/src/run.rt": ["TraceQuestion for StaleQuestion"],
        "ir_opened/src/asking.rt": ["RunQuestion", "ask_run"],
        "ir_stale_run/src/run.rt": ["RunQuestion for RestsQuestion"],
        "ir_who/src/run.rt": ["TraceQuestion for Question"],
        "ir_who/src/fit_run.rt": ["RunQuestion for Question"],
        "ir_who_word/src/run.rt": ["RunQuestion for Question"],
        "ir_why/src/run.rt": ["TraceQuestion for Question"],
        "ir_why/src/fit_run.rt": ["RunQuestion for FitQuestion"],
        "ir_why/src/laws.rt": ["needs_left_before", "waits_before"],
        "ir_diff/src/run.rt": ["TraceQuestion for Difference"],
        "ir_picture/src/run.rt": ["TraceQuestion for Asked"],
        "ir_picture/src/laws.rt": ["needs_are_left", "runs_have_no_circle"],
        "ir_run_picture/src/run.rt": ["RunQuestion for RunView"],
        "ir_run_picture/src/laws.rt": ["behind_comes_first", "behind_is_in_cut", "behind_is_left", "left_is_consistent", "left_is_cut", "right_is_an_order",
                                       "rows_do_not_overlap"],
        "ir_listing/src/events.rt": ["RunQuestion for EventsQuestion"],
        "ir_listing/src/code.rt": ["list_report"],
    }, [
        ("ir_past", "Past", "`event_at`, `IsMadeBy`: what made a version"),
        ("ir_stale_run", "Rests", "when a write rests on what was read"),
        ("ir_why", "Needed", "`AreNeeds`: what an event needs"),
        ("ir_why", "Waits", "`AreWaits`: the chain of a run"),
        ("ir_why", "FitAnswers", "`IsReasonIn`"),
        ("ir_diff", "Common", "`AreCommon`, `IsThreadReady`"),
        ("ir_picture", "Places", "`AreBoxesPlaced`: where boxes stand"),
        ("ir_holds", "Held", "`IsHeld`: where boxes of holds stand"),
        ("ir_run_picture", "Laws", "`IsMoment`, `GoesRight`: what left to right means"),
        ("ir_events", "Lines", "the lines of events"),
    ], (3411, 1512)),
    Claim("gdb", "`ir gdb` replies to gdb; laws compare its moves with a session's moves and with the points' hits.", {
        "ir_monitor/src/laws.rt": ["no_question_is_a_command"],
        "ir_gdb/src/session.rt": ["connect"],
        "ir_gdb/src/laws.rt": ["alone_is_session", "no_hit_is_passed", "none_is_blocked", "each_hit_is_shown_once", "shown_condition_is_met", "no_bad_end_is_hidden"],
    }, [
        ("ir_gdb", "Stub", "`Stub`: the small machine, and what gdb has set"),
        ("ir_gdb", "Stops", "where a thread stops"),
        ("ir_gdb", "Together", "`ContinuesAmong`, `FirstMet`: how all threads move"),
        ("ir_gdb", "Over", "`LeadsAlone`: how a thread moves by itself"),
        ("ir_gdb", "Endings", "`signal_of`, `ended`: which bad ends a move tells"),
        ("ir_gdb", "Replies", "`RepliesTo`: the reply to each request"),
        ("ir_monitor", "Answers", "`IsAnswerTo`: what questions of the run are answered"),
        ("ir_gdb", "Connection", "`RepliesToItems`: the bytes of packets and acknowledgements"),
        ("ir_gdb", "Laws", "the laws"),
    ], (3265, 1710)),
]

CLAIMS_PAGE = PAGES / "claims.md"

CLAIMS_HEAD = """# What the other claims rest on

[The theorem](theorem.md) names the definitions on which a session, a recording, `fit` and `advance` rest.
This page names the definitions behind exploring, hunting, shrinking, the commands that ask about a recording and gdb.
Each part lists what neither the theorem nor the parts before it have.
[Contracts](contracts.md) say in words what each part promises, and [the theorem](theorem.md#how-to-read-it) says how to read definitions.
`python3 scripts/definitions.py` makes this page, and refuses a part that is longer than its limit, and a name that two files of these parts or of the headline define.

In a table the last two columns count the definitions to which the contracts lead, and their lines without comments, imports and blank lines.
You needn't read the other definitions of a file.
"""

# The page: its parts, each with what comes before the definitions and their places.
FIRST = [
    ("A session", """`session` of [sessions.rt](../../crates/ir_debug/src/sessions.rt) reads `input` and writes.
If no device fails and memory lasts up to the opening lines, its contract says `Session`.
`Session` says that there is a transcript for the lines up to and including the first that quits, and that the writer took its text.
It holds however the replaying threads are scheduled.""",
     [("ir_debug", "Session", "Session"), ("ir_debug", "Session", "Transcript"), ("ir_debug", "Session", "SessionText"),
      ("ir_stream", "Answers", "LinesAnswered")]),
    ("What opens", """A session first judges the bytes of image and trace.
A trace opens a ready machine exactly if some complete run of the guest has it.
`IsWhole` says that a run is complete and has the trace.
Run defines what a run is (`IsRun`).""",
     [("ir_debug", "Machine", "Opens"), ("ir_debug", "Machine", "OpensImage"), ("ir_debug", "Machine", "OpensTrace"),
      ("ir_debug", "Machine", "OpensFit"), ("ir_fit", "Fit", "IsRunOf"), ("ir_runs", "Run", "IsWhole"),
      ("ir_fit", "Fit", "IsRefused"), ("ir_fit", "Fit", "IsVerdictOnTrace")]),
    ("How a line is answered", """`Desk` is the small machine: the guest with its trace, a position for each thread, points and kept cuts.
Its answers are defined for each run with the trace.
It is `fresh` before its first answer and after a move: then fewer commands may lack memory (`may_lack`).
Machine defines the answer to each command (`CarriesOut`), and what a show reads off the run at the cut (`show_text`).""",
     [("ir_debug", "Machine", "Desk"), ("ir_debug", "Machine", "Kept"), ("ir_debug", "Machine", "Replies"),
      ("ir_debug", "Machine", "RepliesBy"), ("ir_debug", "Machine", "AnswersCommand"), ("ir_debug", "Machine", "AnswersBy"),
      ("ir_debug", "Machine", "AnswersWith"), ("ir_debug", "Machine", "Refuses")]),
    ("Where a move leads", """A move forwards takes the least consistent cut with the thread at the position, and a move backwards the greatest.
`cont` stops at the first hit, and `rcont` at the last.""",
     [("ir_debug", "Machine", "StopsAt"), ("ir_debug", "Machine", "Leads"), ("ir_debug", "Machine", "Continues"),
      ("ir_runs", "Run", "IsLeast"), ("ir_runs", "Run", "Consistent"), ("ir_runs", "Run", "IsNeededBy")]),
]

FIRST_HEAD = """# The headline

The relations that state the [main theorem](theorem.md), word for word as they are in `specs/`.
Only the marks that make a definition public, or let proofs see through it, are left out.
`python3 scripts/definitions.py` makes this page.

`A × B` is *and*, `A ⊎ B` is *or*, `A → ⊥` is *not*.
`(x : T) × P` says that there is an x, and `(x : T) → P` says it of each x.
A record states each of its fields.
[The theorem](theorem.md#how-to-read-it) explains the rest of the notation.
"""

FIRST_TAIL = """
## Where the other names are

These definitions also name:

"""

# The files that restate the RISC-V manual, of which theorem.md says which chapters.
MANUAL = {("ir_isa", "Fields"), ("ir_isa", "Code"), ("ir_mach", "Core"), ("ir_mach", "Execution"), ("ir_disasm", "Printed")}

# The most lines of the headline's files, and of its definitions beside those that restate the manual.
MOST_LINES = 3131
MOST_DEFINITION_LINES = 1500

# What a law says all of: who believes the law needn't read the definition. The file of the law and its name.
PINNED = {("ir_isa", "Decoded", "instruction_of"): ("ir_isa/src/laws.rt", "found_by_code")}

HEAD = """# Definitions

The definitions that the public calls and types of the crates name in contracts, laws and invariants, by crate and file. The headline leads to those
in **bold**. A definition without a comment has its type instead. A comment of more than 30 words is cut (`..`). A file without any states what holds
inside its crate. What to read first, and in which order, is in docs/internals/theorem.md.
"""

USE = re.compile(r"^\s*(?:ghost )?(?:pub )?use Rattle\.(ir_\w+)\.specs\.([\w.]+?)(?:\.\{([^}]*)\}| as (\w+))?;?\s*$", re.MULTILINE)
BEGINS = re.compile(r"^(?:abbrev pub|unfoldable pub|pub record|pub data|pub(?! use| mod)) ([^\s:]+)(.*)")
NAME = re.compile(r"[^\s(){}\[\].,;λ]+(?:\.[^\s(){}\[\].,;λ]+)*")
INVARIANT = re.compile(r"ghost invariant = \{.*?\};", re.DOTALL)
EXPORT = re.compile(r"^pub use [\w:]+::(?:\{([^}]*)\}|(\w+));", re.MULTILINE)
ITEM = re.compile(r"^(?:pub (?:const )?(?:fn|trait|struct|enum) (\w+)|impl(?:<[^{]*?>)? (?:[^{]*? for )?(\w+)).*?^\{?\}", re.MULTILINE | re.DOTALL)
CODE_USE = re.compile(r"^use (ir_\w+|crate)::(?:[\w:]*?)(?:\{([^}]*)\}|(\w+));", re.MULTILINE)
CALL = re.compile(r"\b(?:fn|trait|struct|enum) (\w+)")
ROW = re.compile(r"^\| \[(ir_\w+)/specs/([\w/]+)\][^|]*\|(.*)\|$", re.MULTILINE)


@dataclass
class Definition:
    """A definition: its `--` lines, what its first line has after its name, and its lines."""
    says: str
    type: str
    lines: list = field(default_factory=list)


@dataclass
class Module:
    """A file of specs/, or one of the code: its definitions, and what its `use` lines name."""
    lines: list
    definitions: dict
    names: dict
    aliases: dict


def imports_of(text):
    """What each imported name stands for, as crate, module and name, and what each name of a module does."""
    names, aliases = {}, {}
    for crate, module, listed, alias in USE.findall(text):
        if alias:
            aliases[alias] = (crate, module)
        for item in filter(None, map(str.strip, listed.split(","))):
            name, _, local = item.partition(" as ")
            names[(local or name).strip()] = (crate, module, name.strip())
    return names, aliases


def definitions_of(lines):
    """The definitions of a file, by name."""
    found, comment, present = {}, [], None
    for line in lines:
        begins = BEGINS.match(line)
        if begins:
            present = found.setdefault(begins[1], Definition(" ".join(comment), begins[2].strip().removeprefix(":").removesuffix("where").strip()))
        if line.startswith("--"):
            comment.append(line[2:].strip())
        else:
            comment = []
        if line.startswith("use "):
            present = None
        code = line.partition("--")[0].rstrip()
        if present and code:
            present.lines.append(code)
    return found


@cache
def module(crate, name):
    """A module of a crate's specs/, if it is a file there."""
    path = TOP / "crates" / crate / "specs" / (name.replace(".", "/") + ".antt")
    if not path.is_file():
        return None
    text = path.read_text(encoding="utf-8")
    return Module(text.splitlines(), definitions_of(text.splitlines()), *imports_of(text))


@cache
def code(path):
    """The text of a file of the code, with what it imports."""
    text = (TOP / "crates" / path).read_text(encoding="utf-8")
    return text, Module([], {}, *imports_of(text))


def named_in(text, where, here=None):
    """The definitions that a text of a module names, as crate, module and name."""
    found = set()
    for path in NAME.findall(text):
        parts = path.split(".")
        for part, after in zip(parts, [*parts[1:], None]):
            if part in where.names:
                found.add(where.names[part])
            elif part in where.definitions:
                found.add((*here, part))
            if part in where.aliases and after:
                found.add((*where.aliases[part], after))
    return found


def named_by_type(crate, name):
    """What the ghost fields and the view of a type of the code name, `declared.file.Type`."""
    *path, kind = [part for part in name.split(".")[1:] if part != "TheVariants"]
    file = f"{crate}/src/{'/'.join(path)}.rt"
    if not (TOP / "crates" / file).is_file():
        return set()
    text, where = code(file)
    models = re.findall(rf"^impl(?:<[^>]*>)? Model for {kind}\b[^{{]*\{{(.*?)^\}}", text, re.MULTILINE | re.DOTALL)
    models = [INVARIANT.sub("", model) for model in models]
    fields = re.findall(rf"^pub struct {kind}\b[^{{;]*\{{(.*?)^\}}", text, re.MULTILINE | re.DOTALL)
    ghosts = [ghost for body in fields for ghost in re.findall(r"ghost \w+: \{(.*)\}", body)]
    return {found for part in [*models, *ghosts] for found in named_in(part, where)}


def named_by(definition):
    """The definitions that one names."""
    crate, name, item = definition
    if definition in PINNED:
        return named_by_contract(*PINNED[definition])
    if name.startswith("declared."):
        return named_by_type(crate, name)
    where = module(crate, name)
    if where is None:
        return set()
    if item in where.definitions:
        return named_in("\n".join(where.definitions[item].lines), where, (crate, name))
    return {where.names[item]} if item in where.names else set()


@cache
def file_of_type(crate, kind):
    """The type of the code `declared.file.Type` of a crate's struct or enum, if it has one."""
    for path in sorted((TOP / "crates" / crate / "src").rglob("*.rt")):
        if re.search(rf"^pub (?:struct|enum) {kind}\b", path.read_text(encoding="utf-8"), re.MULTILINE):
            return ".".join(["declared", *path.relative_to(TOP / "crates" / crate / "src").with_suffix("").parts, kind])
    return None


def types_in(signature, text, file):
    """The types of the code that a signature names, as crate and `declared.file.Type`."""
    imported = {}
    for crate, several, one in CODE_USE.findall(text):
        for name in filter(None, map(str.strip, (several or one).split(","))):
            imported[name.split("::")[-1]] = file.partition("/")[0] if crate == "crate" else crate
    for kind in sorted(set(re.findall(r"\b[A-Z]\w+", signature)) & set(imported)):
        if imported[kind].startswith("ir_") and file_of_type(imported[kind], kind):
            yield imported[kind], file_of_type(imported[kind], kind)


def named_by_contract(file, item):
    """What the contract of a function names, or the contracts of a trait, or the ghosts of an impl, and what the types of the function's signature name."""
    text, where = code(file)
    begins = re.search(rf"^(?:pub fn|pub trait|impl(?:<[^>]*>)?) {item}\b.*?^[{{}}]", text, re.MULTILINE | re.DOTALL)
    if begins is None:
        sys.exit(f"scripts/definitions.py: crates/{file} has no {item}")
    signature = re.split(r"^ *(?:requires|ensures)\b", begins[0], maxsplit=1, flags=re.MULTILINE)[0] if begins[0].startswith("pub fn") else ""
    by_types = {found for kind in types_in(signature, text, file) for found in named_by_type(*kind)}
    return named_in(begins[0], where) | by_types


def led_to(contracts):
    """The definitions to which contracts lead."""
    rest = {found for file, items in contracts.items() for item in items for found in named_by_contract(file, item)}
    found = set()
    while rest:
        found |= rest
        rest = {other for definition in rest for other in named_by(definition)} - found
    return {(crate, name, item) for crate, name, item in found - set(PINNED) if module(crate, name) and item in module(crate, name).definitions}


def parts():
    """Each part of the headline with its heading, the files that it adds and its definitions there."""
    files, known = set(), set()
    for title, heading, contracts in PARTS:
        more = led_to(contracts) - known
        known |= more
        added = {(crate, name) for crate, name, _ in more} - files
        files |= added
        yield title, heading, added, more


def count(files, definitions):
    """How many files these are, their lines, how many definitions, and the lines of these."""
    needed = sum(len(module(crate, name).definitions[item].lines) for crate, name, item in definitions)
    return [len(files), sum(len(module(*file).lines) for file in files), len(definitions), needed]


def rows():
    """The rows of the table of what the headline rests on: a name, files, lines, definitions and the lines of these."""
    found, all_files, all_definitions = [], set(), set()
    for title, _, files, definitions in parts():
        found.append((title, count(files, definitions)))
        all_files |= files
        all_definitions |= definitions
    of_manual = {definition for definition in all_definitions if definition[:2] in MANUAL}
    total, manual = count(all_files, all_definitions), count(MANUAL, of_manual)
    return [*found, ("in all", total), ("of these the restated RISC-V manual", manual), ("beside the manual", [*map(int.__sub__, total, manual)])]


def table(found):
    """A table of such rows."""
    yield "| Part | Files | Lines | Definitions | Their lines |\n|---|---|---|---|---|"
    for title, row in found:
        yield f"| {title} | " + " | ".join(f"{number:,}" for number in row) + " |"


def counts():
    """The table of what the headline rests on."""
    return table(rows())


def claims():
    """Each claim with the definitions that it adds to the headline and to the claims before it, by file, and the files that are new."""
    known = {definition for _, _, _, definitions in parts() for definition in definitions}
    files = {(crate, name) for crate, name, _ in known}
    for claim in CLAIMS:
        more = led_to(claim.contracts) - known
        by_file = {}
        for crate, name, item in more:
            by_file.setdefault((crate, name), set()).add((crate, name, item))
        yield claim, by_file, by_file.keys() - files
        known |= more
        files |= by_file.keys()


def added_by(by_file, new):
    """How many files a claim adds, their lines, how many definitions, and the lines of these."""
    return count(new, set().union(*by_file.values()))


def further():
    """The table of what the other claims rest on, each beside the headline and the claims before it."""
    found = [(claim.title, added_by(by_file, new)) for claim, by_file, new in claims()]
    return table([*found, ("in all", [sum(row[i] for _, row in found) for i in range(4)])])


def link(crate, name):
    """A file of definitions, as a link on a page."""
    return f"[{name}](../../crates/{crate}/specs/{name.replace('.', '/')}.antt) of {crate}"


def claim_text(claim, by_file, new):
    """The part of the page of a claim."""
    calls = [f"`{item}` in [{Path(file).name}](../../crates/{file})" for file, items in claim.contracts.items() for item in items]
    text = f"\n## {claim.title}\n\n{claim.says}\nThe contracts are of {', '.join(calls)}.\n\nRead first, in this order:\n\n"
    text += "".join(f"{place}. {link(crate, name)}: {says}\n" for place, (crate, name, says) in enumerate(claim.first, 1))
    files, lines, definitions, needed = added_by(by_file, new)
    text += f"\n{files} files of {lines:,} lines (at most {claim.most[0]:,}), {definitions:,} definitions of {needed:,} lines (at most {claim.most[1]:,}):\n\n"
    text += "| File | Says | Lines | Definitions | Their lines |\n|---|---|---|---|---|\n"
    order = list(crates())
    for crate, name in sorted(by_file, key=lambda file: (order.index(file[0]), file[1])):
        row = count({(crate, name)}, by_file[crate, name])
        also = "" if (crate, name) in new else " (a file that is named before)"
        text += f"| {link(crate, name)} | {module(crate, name).lines[0].removeprefix('--').strip()}{also} | {row[1]} | {row[2]} | {row[3]} |\n"
    return text


def claims_page():
    """The page of the claims as it has to be."""
    return CLAIMS_HEAD + "".join(claim_text(*found) for found in claims())


def claim_faults():
    """Whether a claim rests on more lines than it may, and names that it shouldn't."""
    for claim, by_file, new in claims():
        row = added_by(by_file, new)
        if row[1] > claim.most[0] or row[3] > claim.most[1]:
            yield f"{claim.title} rests on {row[1]} lines of files and {row[3]} of definitions: at most {claim.most[0]} and {claim.most[1]}"
        for crate, name, says in claim.first:
            where = module(crate, name)
            if where is None:
                yield f"scripts/definitions.py: no file {crate}/specs/{name}"
                continue
            yield from (f"scripts/definitions.py: {crate}/specs/{name} has no {item}" for item in re.findall(r"`(\w+)`", says)
                        if item not in where.definitions and not item.isupper() and item != "clock")


def aim_faults():
    """Whether the headline rests on more lines than it may."""
    (_, total), _, (_, beside) = rows()[-3:]
    if total[1] > MOST_LINES:
        yield f"the headline rests on files of {total[1]} lines: at most {MOST_LINES}"
    if beside[3] > MOST_DEFINITION_LINES:
        yield f"the headline rests on {beside[3]} lines of definitions beside the manual: at most {MOST_DEFINITION_LINES}"


def named_by_public(crate):
    """The definitions that the public calls and types of a crate name: those that its lib.rt hands on."""
    source = TOP / "crates" / crate / "src"
    exports = EXPORT.findall((source / "lib.rt").read_text(encoding="utf-8")) if (source / "lib.rt").exists() else []
    public = {name.strip() for several, one in exports for name in (several or one).split(",")}
    found = set()
    for path in source.rglob("*.rt"):
        text, where = code(str(path.relative_to(TOP / "crates")))
        for item in ITEM.finditer(text):
            if {item[1], item[2]} & public:
                found |= named_in(item[0], where)
    return found


def cell(definition):
    """What a definition says, in one cell of a table."""
    words = definition.says.split()
    if not words:
        return f"`{definition.type}`" if definition.type else ""
    text = " ".join(words) if len(words) <= MOST_WORDS else " ".join(words[:MOST_WORDS - 1]) + " .."
    return text.replace("|", "\\|")


def crates():
    """The crates in the order of crates.txt."""
    for line in (TOP / "crates.txt").read_text(encoding="utf-8").splitlines():
        if ":" in line and not line.startswith("#"):
            yield line.split(":")[0].split()[0]


def index():
    """The index, as lines."""
    headline = {definition for _, _, _, definitions in parts() for definition in definitions}
    shown = {definition for crate in crates() for definition in named_by_public(crate)}
    for crate in crates():
        specs = TOP / "crates" / crate / "specs"
        names = [path.relative_to(specs).with_suffix("") for path in sorted(specs.rglob("*.antt")) if path.stem != "Lib"]
        if names:
            yield f"\n### {crate}"
        for path in names:
            name = ".".join(path.parts)
            where = module(crate, name)
            rows = [(item, found) for item, found in where.definitions.items() if (crate, name, item) in shown]
            yield f"\n[{path}](../../crates/{crate}/specs/{path}.antt): {where.lines[0].removeprefix('--').strip()}"
            if rows:
                yield "\n| Definition | Says |\n|---|---|"
            for item, found in rows:
                yield f"| {f'**`{item}`**' if (crate, name, item) in headline else f'`{item}`'} | {cell(found)} |"


def quoted(crate, name, item):
    """A definition with its comment, as its file has it, but for what marks it as public."""
    found = module(crate, name).definitions[item]
    says = wrap(found.says, 138, initial_indent="-- ", subsequent_indent="-- ")
    return "\n".join([*says, *(re.sub(r"^(\s*)(?:abbrev |unfoldable )?pub ", r"\1", line) for line in found.lines)])


def others():
    """A line for each file that defines what the definitions of the first page name, and the page doesn't have."""
    shown = {place for _, _, places in FIRST for place in places}
    named = {found for place in shown for found in named_by(place)} - shown
    files = {}
    for crate, name, item in sorted(named):
        if module(crate, name) and item in module(crate, name).definitions:
            files.setdefault((crate, name), []).append(f"`{item}`")
    order = list(crates())
    for crate, name in sorted(files, key=lambda file: (order.index(file[0]), file[1])):
        yield f"- [{name}](../../crates/{crate}/specs/{name.replace('.', '/')}.antt) of {crate}: {', '.join(files[crate, name])}"


def page():
    """The page as it has to be."""
    text = FIRST_HEAD
    for heading, says, places in FIRST:
        files = dict.fromkeys(f"[{name}](../../crates/{crate}/specs/{name}.antt) of {crate}" for crate, name, _ in places)
        blocks = "\n\n".join(quoted(*place) for place in places)
        text += f"\n## {heading}\n\n{says}\n\nFrom {', '.join(files)}:\n\n```\n{blocks}\n```\n"
    return text + FIRST_TAIL + "\n".join(others()) + "\n"


def listed(heading):
    """The files that theorem.md has in the section of a heading."""
    text = (PAGES / "theorem.md").read_text(encoding="utf-8")
    section = re.split(r"^#{2,3} ", text.partition(heading + "\n")[2], maxsplit=1, flags=re.MULTILINE)[0]
    return {(crate, name.replace("/", ".")): says for crate, name, says in ROW.findall(section)}


def row_faults(crate, name, says):
    """The names in a row of theorem.md that its file doesn't define."""
    where = module(crate, name)
    text = "\n".join(where.lines)
    for item in re.findall(r"`([\w.]+)[^`]*`", says):
        if item not in where.definitions and not re.search(rf"^ +(?:pub )?{re.escape(item)} :", text, re.MULTILINE):
            yield f"docs/internals/theorem.md: {crate}/specs/{name.replace('.', '/')} has no {item}"


def table_faults():
    """What differs in the tables of theorem.md."""
    for title, heading, files, _ in parts():
        there = listed(heading) if heading else {}
        for crate, name in sorted(files - there.keys()):
            yield f"docs/internals/theorem.md: {crate}/specs/{name.replace('.', '/')} isn't in the table of {title}"
        for crate, name in sorted(there.keys() - files):
            yield f"docs/internals/theorem.md: no contract of {title} leads to {crate}/specs/{name.replace('.', '/')}"
        for crate, name in sorted(there.keys() & files):
            yield from row_faults(crate, name, there[crate, name])


def double_faults():
    """The names that two files of the headline and the claims define."""
    defined = {}
    for crate, name in sorted({file for _, _, files, _ in parts() for file in files} | {file for _, by_file, _ in claims() for file in by_file}):
        for item in module(crate, name).definitions:
            defined.setdefault(item, []).append(f"{crate}/specs/{name.replace('.', '/')}")
    for item, files in sorted(defined.items()):
        if len(files) > 1:
            yield f"{item} is defined in {' and in '.join(files)}"


def name_faults():
    """The calls that contracts.md names and no crate has, and the crates of which architecture.md says nothing."""
    calls = {name for path in (TOP / "crates").glob("*/src/**/*.rt") for name in CALL.findall(path.read_text(encoding="utf-8"))}
    text = (PAGES / "contracts.md").read_text(encoding="utf-8").partition("\n## Tested")[0]
    cells = [line.strip("|").split("|")[-1] for line in text.splitlines() if line.startswith("|")]
    for words in [*cells, *re.findall(r"^Calls?: (.*)$", text, re.MULTILINE)]:
        named = [name for path in re.findall(r"`([\w:]+)`", words) for name in path.split("::")]
        yield from (f"docs/internals/contracts.md: no crate has the call {name}" for name in named if name not in calls)
    known = set(re.findall(r"\bir_\w+", (PAGES / "architecture.md").read_text(encoding="utf-8")))
    yield from (f"docs/internals/architecture.md: says nothing of {crate}" for crate in crates() if crate not in known)


def faults():
    """What differs on the pages, a line each."""
    if not PAGE.exists() or PAGE.read_text(encoding="utf-8") != page():
        yield f"{PAGE.relative_to(TOP)}: isn't what specs/ says: run python3 scripts/definitions.py"
    if not CLAIMS_PAGE.exists() or CLAIMS_PAGE.read_text(encoding="utf-8") != claims_page():
        yield f"{CLAIMS_PAGE.relative_to(TOP)}: isn't what specs/ says: run python3 scripts/definitions.py"
    yield from claim_faults()
    yield from table_faults()
    yield from double_faults()
    yield from name_faults()
    yield from aim_faults()


def main():
    if sys.argv[1:] == ["--check"]:
        found = list(faults())
        print("\n".join(found) or "definitions: the pages are as specs/ and the contracts say")
        return 1 if found else 0
    if sys.argv[1:] == ["--index"]:
        print(HEAD + "\n".join(index()))
        return 0
    if sys.argv[1:]:
        print(__doc__)
        return 2
    PAGE.write_text(page(), encoding="utf-8")
    CLAIMS_PAGE.write_text(claims_page(), encoding="utf-8")
    return 0


if __name__ == "__main__":
    sys.exit(main())
