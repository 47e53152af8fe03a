#!/usr/bin/env python3
"""Makes bash's completion of `ir`, completions/ir.bash, from the texts of `--help`.

python3 scripts/completions.py [--check]

With --check it writes nothing, and fails with a line if the file differs; scripts/rooms.py prints that line too.
"""
import sys

from man_page import TOP, subcommands

PAGE = TOP / "completions" / "ir.bash"
ALWAYS = ["--help"]
HEAD = """# Made by scripts/completions.py from the texts of --help: change those.
_ir() {
    local word=${COMP_WORDS[COMP_CWORD]} words=
    if ((COMP_CWORD == 1)); then
        words="%s"
    elif [[ $word == -* ]]; then
        case ${COMP_WORDS[1]} in
"""
TAIL = """        esac
    fi
    COMPREPLY=($(compgen -W "$words" -- "$word"))
}
complete -o default -F _ir ir
"""


def completion():
    """The text of the file."""
    all_ = subcommands()
    text = HEAD % " ".join([*(subcommand.name for subcommand in all_), "help", *ALWAYS, "--version"])
    for subcommand in all_:
        options = [form.split()[0] for form, _ in subcommand.options]
        text += f'            {subcommand.name}) words="{" ".join([*options, *ALWAYS])}" ;;\n'
    return text + TAIL


def differences():
    """The difference between the file and what would be made, as a line."""
    if not PAGE.exists() or PAGE.read_text(encoding="utf-8") != completion():
        yield f"{PAGE.relative_to(TOP)}: isn't what scripts/completions.py makes"


def main():
    if sys.argv[1:] not in ([], ["--check"]):
        sys.exit(__doc__)
    if not sys.argv[1:]:
        PAGE.parent.mkdir(exist_ok=True)
        PAGE.write_text(completion(), encoding="utf-8")
    found = list(differences())
    print("\n".join(found) or f"{PAGE.relative_to(TOP)} agrees with the texts of --help")
    return 1 if found else 0


if __name__ == "__main__":
    sys.exit(main())
