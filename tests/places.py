"""Tests of guests from ELF files, of maps, and of the code and the events that are printed with the names of a map."""
import re

from lib import TOP, assembled, examples, recorded, run, said, wants

# ELF files that gcc made, and their images.
FILES = TOP / "crates" / "ir_elf_tests" / "src" / "files.rt"
HEXADECIMAL = re.compile(r'pub const (\w+): &str =\s+"([0-9a-f]*)"')

SOURCE = """        .thread main
main:   addi a0, zero, 1
        jal ra, after
again:  beq a0, zero, main
after:  ebreak
        .data
word:   .word 7
byte:   .byte 1
"""
MAP = "00010000 t main\n00010008 t again\n0001000c t after\n00100000 d word\n00100004 d byte\n"
LISTED = """thread 0 entry 00010000 <main>
00010000 <main>:
00010000 00100513 addi a0, zero, 1
00010004 008000ef jal ra, .+8 # 0001000c <after>
00010008 <again>:
00010008 fe050ce3 beq a0, zero, .-8 # 00010000 <main>
0001000c <after>:
0001000c 00100073 ebreak
"""
# What can't be done, with its status and its message.
REFUSED = (
    ("elf bank.elf bank.elf", 2, "bank.elf: IMAGE would be written over ELF"),
    ("elf none.elf x.img", 1, "none.elf can't be read: no such file or folder"),
    ("elf bank.elf folder", 1, "folder can't be written: it is a folder"),
    ("asm m.s x.img --map m.s", 2, "m.s: MAP would be written over SOURCE"),
    ("asm m.s x.img --map x.img", 2, "x.img: MAP would be written over IMAGE"),
    ("asm m.s m2.img --map folder", 1, "folder can't be written: it is a folder"),
    ("list none.img", 1, "none.img can't be read: no such file or folder"),
    ("list m.s", 3, "the image is refused, 2: these bytes are no image"),
    ("list m.img --map none.map", 1, "none.map can't be read: no such file or folder"),
    ("list m.img --map bad.map", 3, "bad.map: line 2 is no symbol as nm prints it"),
    ("events m.img none.trc", 1, "none.trc can't be read: no such file or folder"),
)
EVENT = re.compile(r"thread (\d+) event (\d+) step (\d+) pc ([0-9a-f]{8})( <\S+>)? (.*)")


def files():
    """The ELF files and images of the tests of ir_elf, by name."""
    return {name: bytes.fromhex(digits) for name, digits in HEXADECIMAL.findall(FILES.read_text())}


def converted(folder):
    """An ELF file gives its image; a file that is none is refused by its number, and explained."""
    for name in ("BANK", "WIDE"):
        (folder / "bank.elf").write_bytes(files()[f"{name}_ELF"])
        wants(name, run("elf bank.elf bank.img", folder).returncode, 0)
        wants(name, (folder / "bank.img").read_bytes(), files()[f"{name}_IMAGE"])
    whole = files()["BANK_ELF"]
    rows = ((b"x" + whole[1:], 2, "the file is no ELF file"), (whole[:10], 1, "a field or a segment passes the end of the file"),
            (whole[:36] + b"\x01" + whole[37:], 5, "the flags name compressed instructions, floating-point registers, RV32E or another memory order"))
    for changed, number, words in rows:
        (folder / "bad.elf").write_bytes(changed)
        for more, explained in (("", ""), (" --explain", f"bad.elf: {words}\n")):
            ended = run(f"elf bad.elf bad.img{more}", folder)
            wants(number, (ended.returncode, ended.stdout, ended.stderr.decode()), (3, b"", f"elf refused {number}\n{explained}"))
        wants("nothing is written", (folder / "bad.img").exists(), False)
    # Cut at each length: refused by a number, or its image if only what no segment needs is missing.
    for length in range(0, len(whole), 37):
        (folder / "cut.elf").write_bytes(whole[:length])
        ended = run("elf cut.elf cut.img", folder)
        is_refused = ended.returncode == 3 and re.fullmatch(rb"elf refused \d+\n", ended.stderr)
        is_read = ended.returncode == 0 and (folder / "cut.img").read_bytes() == files()["BANK_IMAGE"]
        wants(length, bool(is_refused or is_read), True)


def named(folder):
    """Labels are written as nm prints symbols, and name the code."""
    (folder / "m.s").write_text(SOURCE)
    wants("asm", run("asm m.s m.img --map m.map", folder).returncode, 0)
    wants("the map", (folder / "m.map").read_text(), MAP)
    wants("the code", run("list m.img --map m.map", folder).stdout.decode(), LISTED)
    bare = re.sub(r"^[0-9a-f]{8} <\w+>:\n| <\w+>", "", LISTED, flags=re.MULTILINE)
    wants("without names", run("list m.img", folder).stdout.decode(), bare)
    # As nm prints other symbols: undefined, absolute, in any order, with carriage returns.
    (folder / "nm.map").write_text("         U putchar\r\n00004000 A stack\r\n" + "\r\n".join(reversed(MAP.splitlines())) + "\r\n")
    wants("nm", run("list m.img --map nm.map", folder).stdout.decode(), LISTED)


def refused(folder):
    """What can't be done is named, and nothing is written."""
    (folder / "bad.map").write_text("00010000 t main\nno symbol\n")
    for arguments, status, message in REFUSED:
        ended = run(arguments, folder)
        wants(arguments, (ended.returncode, ended.stdout, ended.stderr.decode()), (status, b"", f"ir: {message}\n"))
    wants("x.img", (folder / "x.img").exists(), False)


def one_file_by_two_names(folder):
    """That MAP and IMAGE are one file is known only once IMAGE is in its place, if nothing was there: IMAGE stays."""
    wants("asm", run("asm m.s whole.img", folder).returncode, 0)
    (folder / "to_new.map").symlink_to("new.img")
    for arguments, map_ in (("asm m.s own.img --map ./own.img", "./own.img"), ("asm m.s new.img --map to_new.map", "to_new.map")):
        ended = run(arguments, folder)
        message = f"ir: {map_}: MAP would be written over IMAGE\n"
        wants(arguments, (ended.returncode, ended.stdout, ended.stderr.decode()), (2, b"", message))
        image = arguments.split()[2]
        wants(image, (folder / image).read_bytes(), (folder / "whole.img").read_bytes())


def no_label(folder):
    """The map of a source without labels is an empty file, whatever was in its place."""
    (folder / "none.s").write_text("addi a7, zero, 1\necall\n")
    for name in ("none.map", "none.map", "older.map"):
        (folder / "older.map").write_text("00010000 main\n")
        wants(name, run(f"asm none.s none.img --map {name}", folder).returncode, 0)
        wants(name, (folder / name).read_bytes(), b"")
    wants("a folder", run("asm none.s none.img --map folder", folder).returncode, 1)
    wants("parts", sorted(folder.glob("*.part*")), [])


def placed(folder):
    """Each event is at the position and the address that a session shows."""
    (folder / "lost.s").write_text(examples()["lost_update"])
    wants("asm", run("asm lost.s lost.img --map lost.map", folder).returncode, 0)
    recorded(folder, "lost", "0x2,1x13,0x11,1x12,0x12")
    lines = run("events lost.img lost.trc --map lost.map", folder).stdout.decode().splitlines()
    places = [EVENT.fullmatch(line) for line in lines]
    wants("events", [(place[1], place[2]) for place in places], [("0", "0"), ("0", "1"), ("1", "0"), ("1", "1")])
    shown = said(folder, "lost", ["end", "log 0", "log 1"]).decode()
    for place in places:
        wants(place[0], f"{place[2]} {place[6]}\n" in shown, True)
        pc = said(folder, "lost", [f"goto {place[1]} {place[3]}", f"regs {place[1]}"]).decode().splitlines()[2]
        wants(place[0], pc, f"pc {place[4]}")
    code = run("list lost.img --map lost.map", folder).stdout.decode()
    for place in places:
        wants(place[0], f"{place[4]} 00000073 ecall\n" in code, True)
    # Of another guest, and of what is no image or no trace: as a session says it.
    assembled(folder, "other", "        ebreak\n")
    for image, trace, status in (("other.img", "lost.trc", 4), ("lost.s", "lost.trc", 3), ("lost.img", "lost.img", 3)):
        opened = run(["debug", image, trace], folder).stdout
        ended = run(["events", image, trace], folder)
        wants(f"{image} {trace}", (ended.returncode, ended.stdout), (status, opened))


def all_of_it(folder):
    """All tests of places, in a folder of their own."""
    (folder / "folder").mkdir(exist_ok=True)
    for test in (converted, named, refused, one_file_by_two_names, no_label, placed):
        test(folder)
