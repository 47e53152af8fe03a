#!/usr/bin/env python3
"""Makes the ELF files that crates/ir_elf_tests reads, and the images that they stand for.

python3 tests/c_guests/make.py [GUEST [EXAMPLES]] > crates/ir_elf_tests/src/files.rt

GUEST has ir.h, ir.ld, ir_mem.c and ir.opts, EXAMPLES the sources in C. Wants riscv64-unknown-elf-gcc and riscv64-unknown-elf-readelf.
The variables are taken unmarked, so that some are in the file and others aren't: IR_OWN writes those that are 0 to the file too.
The images don't come from `ir elf`: `readelf -lW` names the segments, and each address has the byte that the file holds there, or 0.
"""
import os, re, struct, subprocess, sys, tempfile

NAMES = ["bank", "over", "wide"]
CODE, MEMORY, TABLE, SIZE = 0x10000, 0x100000, 0x200000, 0x10000

def compiled(guest, source, target):
    with open(os.path.join(guest, "ir.opts")) as options:
        words = options.read().replace("guest/", guest + "/").replace("-Iguest", "-I" + guest).split()
    subprocess.run(["riscv64-unknown-elf-gcc", source, *words, "-fno-data-sections", "-s", "-Wl,-n", "-o", target], check=True)

def segments(path):
    """address, bytes in the file and bytes in memory of each loaded segment, as readelf names them"""
    shown = subprocess.run(["riscv64-unknown-elf-readelf", "-lW", path], capture_output=True, text=True, check=True).stdout
    with open(path, "rb") as file:
        whole = file.read()
    for place, address, length, size in re.findall(r"LOAD\s+0x(\w+) 0x(\w+) 0x\w+ 0x(\w+) 0x(\w+)", shown):
        place, address, length, size = (int(x, 16) for x in (place, address, length, size))
        yield address, whole[place:place + length], size

def image(path):
    memory, code_end, data_end, table = {}, CODE, MEMORY, b""
    for address, held, size in segments(path):
        for i in range(size):
            memory[address + i] = held[i] if i < len(held) else 0
        if CODE <= address < CODE + SIZE:
            code_end = address + size
        elif MEMORY <= address < MEMORY + SIZE and held:
            data_end = address + len(held)
        elif address == TABLE:
            table = held
    code = bytes(memory.get(a, 0) for a in range(CODE, code_end + -code_end % 4))
    data = bytes(memory.get(a, 0) for a in range(MEMORY, data_end))
    form, threads = struct.unpack_from("<II", table)
    entries, words = table[8:8 + 4 * threads], table[8 + 4 * threads:]
    objects = len(words) // (32, 64)[form - 1]
    return b"IRI%d" % form + struct.pack("<BBII", threads, objects, len(code) // 4, len(data)) + entries + code + data + words

def constant(name, what, text):
    return "/// %s\npub const %s: &str =\n    \"%s\";\n" % (what, name, text)

def main():
    guest, examples = (sys.argv[1:] + ["guest", "examples/c"][len(sys.argv) - 1:])[:2]
    print("//! ELF files that gcc made, and their images, in hexadecimal; `tests/c_guests/make.py` writes this file.\n")
    parts = []
    with tempfile.TemporaryDirectory() as folder:
        for name in NAMES:
            source, path = os.path.join(folder, name + ".c"), os.path.join(folder, name + ".elf")
            with open(os.path.join(examples, name + ".c")) as marked, open(source, "w") as unmarked:
                unmarked.write(marked.read().replace("IR_OWN ", ""))
            compiled(guest, source, path)
            with open(path, "rb") as file:
                parts.append(constant(name.upper() + "_ELF", "`%s.c` as gcc and its linker made it." % name, file.read().hex()))
            if name != "over":
                parts.append(constant(name.upper() + "_IMAGE", "The image of `%s.c`." % name, image(path).hex()))
    print("\n".join(parts), end="")

if __name__ == "__main__":
    main()
