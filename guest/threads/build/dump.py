"""What gcc's dump says of accesses to shared memory that -fsanitize=thread doesn't announce: they are refused, by file and line."""
import re

FUNCTION = re.compile(r"^;; Function (\S+) ", re.MULTILINE)
PLACE = re.compile(r"\[([^][]+):(\d+):\d+(?: discrim \d+)?\] ")
LOCAL = re.compile(r"^  (?!\[|static )[\w ]*?[\w*]+ \**([A-Za-z_][\w.]*)(?:\[[^;]*)?;", re.MULTILINE)
PARAMETER = re.compile(r"([A-Za-z_]\w*)(?=[,)])")
CALL = re.compile(r"^(?:(.+?) = )?([A-Za-z_][\w.]*|\*?_?\w+) \((.*)\);(?: \[.*\])?$")
VALUE = re.compile(r'^(&.*|-?[\d.e+-]+.*|".*"|[\w.$]*_\d+(\(D\))?|0x\w+.*|\(.*\).*|D\.\d+)$')
BUILTIN = re.compile(r"__builtin_(mem|str|stp|bcopy|bzero|bcmp)")
ASSEMBLY = re.compile(r'^__asm__ (__volatile__)?(goto)? ?\((?!"")')

class Function:
    """A function of the dump: its name, its lines with their places, its local variables, and those of which it takes the address."""

    def __init__(self, name, text):
        self.name, self.text = name, text
        head, _, body = text.partition("  <bb ")
        self.locals = set(LOCAL.findall(head)) | set(PARAMETER.findall(head.partition("{")[0]))
        plain = re.sub(r"__builtin___tsan_\w+ \([^;]*\);", "", PLACE.sub("", body))
        self.escaped = {name for name in self.locals if re.search(rf"&{re.escape(name)}\b", plain)}
        self.lines = [(PLACE.search(line), PLACE.sub("", line).strip()) for line in body.splitlines()]

    def is_local(self, operand):
        """Whether an operand is a local variable, or in one."""
        base = re.match(r"[\w.$]+", operand)
        name = base[0] if base else ""
        return not operand.startswith("MEM") and (name.startswith("D.") or name in self.locals or name.partition(".")[0] in self.locals)


def functions_of(dump):
    """The functions of a dump."""
    parts = FUNCTION.split(dump)
    return [Function(name, text) for name, text in zip(parts[1::2], parts[2::2])]


def operands_of(text):
    """The operands of a call: commas within brackets and strings don't count."""
    parts, depth, quoted, start = [], 0, False, 0
    for i, letter in enumerate(text):
        if letter == '"' and text[i - 1:i] != "\\":
            quoted = not quoted
        elif not quoted:
            depth += (letter in "([{<") - (letter in ")]}>" and text[i - 1:i] != "-")
            if letter == "," and depth == 0:
                parts.append(text[start:i].strip())
                start = i + 1
    return [part for part in [*parts, text[start:].strip()] if part]


# What to do about a struct that is passed or returned, in a function whose frame threads share and in others.
CURES = {True: "call it in another function than main, whose frame threads share", False: "copy it by a local variable"}


def fault_of(function, line, code, is_shared):
    """What is wrong with a line of the dump, or nothing. `code` has the names of all functions."""
    if ASSEMBLY.match(line):
        return "inline assembly: its accesses to memory can't be seen"
    call = CALL.match(line)
    if not call or call[2].startswith("__builtin___tsan"):
        return ""

    if BUILTIN.match(call[2]) and (is_shared or not all(function.is_local(operand.lstrip("&")) for operand in operands_of(call[3])[:-1])):
        return f"{call[2]}: its accesses to memory may not be seen: call the function of string.h"

    def is_seen(operand):
        return bool(VALUE.match(operand)) or operand in code or (function.is_local(operand) and not is_shared)

    if call[1] and not re.match(r"[\w.$]*_\d+$", call[1]) and not is_seen(call[1]):
        return f"{call[2]} returns a struct, and that isn't seen: {CURES[function.is_local(call[1])]}"
    for operand in operands_of(call[3]):
        if not is_seen(operand):
            return f"{operand} is a struct that is passed by value, and that isn't seen: {CURES[function.is_local(operand)]}"
    return ""


def faults_of(source, functions, code, is_shared):
    """All faults of a source, each in a line. `is_shared` says whether threads share the frame of a function."""
    faults = []
    for function in functions:
        if "no_sanitize" in function.text.partition("{")[0]:
            faults.append(f"{source}: {function.name} has the attribute no_sanitize: its accesses to memory can't be seen")
        for place, line in function.lines:
            fault = fault_of(function, line, code, is_shared(function))
            if fault:
                faults.append(f"{place[1]}:{place[2]}: {fault}" if place else f"{source}: {function.name}: {fault}")
    return list(dict.fromkeys(faults))
