"""Compiles the layer, and keeps what it compiled."""
import hashlib
import os
import re
import shutil
from pathlib import Path

from tools import run, tool

OPTIONS = ("-march=rv32im -mabi=ilp32 -Os -g -Wall -fno-builtin -ftls-model=local-exec -fno-pic -ffunction-sections -fno-tree-loop-distribute-patterns "
           "-fno-shrink-wrap-separate").split()

GROWS = re.compile(r"\taddi?\tsp,sp,-(\d+)$")
SAVES = re.compile(r"\tsw\t(?:ra|s\d+),(\d+)\(sp\)$")


def cleared(assembly):
    """The same assembly, in which each function clears the words of its frame in which it saves no register.

    So what an earlier call left there makes no difference between states of a guest.
    """
    lines, made = assembly.splitlines(), []
    for i, line in enumerate(lines):
        made.append(line)
        grows = GROWS.match(line)
        if grows:
            end = next((k for k in range(i, len(lines)) if lines[k].startswith("\t.size")), len(lines))
            saved = {int(match[1]) for match in map(SAVES.match, lines[i:end]) if match}
            made += [f"\tsw\tzero,{at}(sp)" for at in range(0, int(grows[1]), 4) if at not in saved]
    return "\n".join(made) + "\n"


def kept_at(folder, options):
    """Where the archive is kept: its name comes from the sources, the options and the compiler."""
    mark = hashlib.sha256((" ".join(map(str, options)) + tool("gcc", "-dumpfullversion", "-dumpmachine")).encode())
    mark.update(Path(__file__).read_bytes())
    for path in sorted(path for path in folder.rglob("*") if path.suffix in (".c", ".h", ".S")):
        mark.update(path.name.encode() + path.read_bytes())
    home = os.environ.get("XDG_CACHE_HOME") or Path.home() / ".cache"
    return Path(home) / "ir-cc" / f"{mark.hexdigest()[:24]}.a"


def made(folder, work, options):
    """Compiles the sources of the layer to an archive."""
    place = work / "layer"
    place.mkdir()
    run("gcc", *options, "-S", *sorted(folder.glob("*.c")), cwd=place)
    for path in place.glob("*.s"):
        path.write_text(cleared(path.read_text()))
    run("gcc", *options, "-c", *sorted(place.glob("*.s")), *sorted(folder.glob("*.S")), cwd=place)
    run("ar", "rcs", work / "layer.a", *sorted(place.glob("*.o")))
    return work / "layer.a"


def archive(folder, work, buffered):
    """The archive of the layer, which is compiled if it isn't kept yet."""
    options = [*OPTIONS, "-isystem", folder / "include", *([f"-DIR_TSO={buffered}"] if buffered else [])]
    kept = kept_at(folder, options)
    if kept.exists():
        return kept
    new = made(folder, work, options)
    try:
        kept.parent.mkdir(parents=True, exist_ok=True)
        shutil.copy(new, f"{kept}.{os.getpid()}")
        os.replace(f"{kept}.{os.getpid()}", kept)
    except OSError:
        return new
    return kept
