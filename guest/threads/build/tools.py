"""The tools for RISC-V."""
import subprocess
import sys

PREFIX = "riscv64-unknown-elf-"


class Refused(Exception):
    """What the sources or options have that no guest can have."""


def run(name, *arguments, cwd=None, quiet=False):
    """Runs a tool. If it fails, so does this program, with the tool's own words unless it is to be quiet."""
    ended = subprocess.run([PREFIX + name, *map(str, arguments)], check=False, capture_output=True, text=True, cwd=cwd)
    if not quiet:
        sys.stderr.write(ended.stderr)
    if ended.returncode:
        raise SystemExit(1)
    return ended.stdout


def tool(name, *arguments):
    """What a tool prints."""
    return run(name, *arguments)
