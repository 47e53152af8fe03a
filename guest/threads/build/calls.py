"""Which functions call which, by the object files: what threads other than main may do."""
import re

from tools import tool

CREATORS = {"pthread_create", "pthread_join", "thrd_create", "thrd_join"}

LABEL = re.compile(r"[0-9a-f]+ <([^>.][^>]*)>:$")
RELOCATION = re.compile(r"R_RISCV_(\w+)\s+([A-Za-z_]\w*)")


def functions_of(*files):
    """The names of the functions that object files define."""
    return {line.split()[-1] for line in tool("nm", *files).splitlines() if line.split()[-2:-1] in (["T"], ["t"], ["W"])}


def calls_of(path):
    """The functions that each function of an object file calls, and the names of which it takes the address."""
    calls, taken, function = {}, set(), ""
    data = tool("objdump", "-r", "-j", ".data", "-j", ".rodata", "-j", ".sdata", path) if re.search(r"\.s?data|\.rodata", tool("objdump", "-h", path)) else ""
    for line in (tool("objdump", "-dr", path) + data).splitlines():
        label, relocation = LABEL.match(line), RELOCATION.search(line)
        if label:
            function = label[1]
        elif relocation and relocation[1].startswith(("CALL", "JAL")):
            calls.setdefault(function, set()).add(relocation[2])
        elif relocation:
            taken.add(relocation[2])
    return calls, taken


def is_nested(paths):
    """Whether a function whose address is taken, as that of a thread is, may create or join threads."""
    calls, rest, reached = {}, [], set()
    for path in paths:
        calls_here, taken = calls_of(path)
        rest += taken
        for function, called in calls_here.items():
            calls.setdefault(function, set()).update(called)
    while rest:
        name = rest.pop()
        if name not in reached:
            reached.add(name)
            rest += calls.get(name, ())
    return bool(CREATORS & reached)


def have_bit_fields(paths):
    """Whether the program may have bit-fields: its debugging information says so, or isn't there."""
    texts = [tool("readelf", "-wi", path) for path in paths]
    return any("DW_AT_bit_size" in text or "DW_TAG_compile_unit" not in text for text in texts)


def tries(path):
    """Whether a guest on ir.h may call TRY_WRITE. The function that ir_choose calls is always there, so its callers are looked for."""
    function = ""
    for line in tool("objdump", "-d", path).splitlines():
        label = LABEL.match(line)
        function = label[1] if label else function
        if function != "ir_chosen_" and (line.endswith("<ir_chosen_>") or re.search(r"\tli\s+a7,13$", line)):
            return True
    return False
