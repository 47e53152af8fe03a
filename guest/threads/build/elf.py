"""The ELF file that the linker made: what is where, the objects' first words, and what a guest needs."""
import struct
from pathlib import Path

# Where the linker puts the table.
TABLE = 0x200000

# Where each thread's memory is.
MEMORY, MEMORY_END = 0x100000, 0x110000

# The sections that threads.ld makes.
MADE = {".text", ".rodata", ".tdata", ".data", ".bss", ".own", ".ir.table"}


class Elf:
    """An ELF file of 32 bits: its bytes, segments, sections and symbols."""

    def __init__(self, path):
        self.path, self.bytes = path, bytearray(Path(path).read_bytes())
        places, sections = struct.unpack_from("<II", self.bytes, 28)
        _, size, count, section_size, section_count, names = struct.unpack_from("<HHHHHH", self.bytes, 40)
        self.segments = [struct.unpack_from("<8I", self.bytes, places + i * size) for i in range(count)]
        self.headers = [struct.unpack_from("<10I", self.bytes, sections + i * section_size) for i in range(section_count)]
        self.sections = {self.text(self.headers[names][4] + header[0]): header for header in self.headers}
        self.symbols = dict(self.named())

    def text(self, at):
        """The text at a place of the file."""
        return self.bytes[at:self.bytes.index(0, at)].decode()

    def named(self):
        """Each symbol, and its value."""
        for header in self.headers:
            if header[1] == 2:
                for at in range(header[4], header[4] + header[5], 16):
                    name, value = struct.unpack_from("<II", self.bytes, at)
                    yield self.text(self.headers[header[6]][4] + name), value

    def place(self, address):
        """Where the byte of an address is in the file."""
        for _, at, start, _, size, _, _, _ in self.segments:
            if start <= address < start + size:
                return at + address - start
        return None

    def word(self, address):
        """The word at an address."""
        return struct.unpack_from("<I", self.bytes, self.place(address))[0]

    def put(self, address, value):
        """Puts a word at an address."""
        struct.pack_into("<I", self.bytes, self.place(address), value)

    def part(self, low, high):
        """The bytes of the segment that begins between two addresses."""
        return next((bytes(self.bytes[at:at + size]) for _, at, start, _, size, _, _, _ in self.segments if low <= start < high and size), b"")

    def table(self):
        """The form, the entries of threads, and the first words of objects."""
        words = [word for word, in struct.iter_unpack("<I", self.part(TABLE, TABLE + 1))] or [0, 0]
        if len(words) == 2:  # ir.ld makes a section each, which may be segments each
            words += [word for segment in self.segments if segment[2] > TABLE for word, in struct.iter_unpack("<I", self.bytes[segment[1]:segment[1] + segment[4]])]
        form, threads = words[:2]
        size, first = 16 if form == 2 else 8, 2 + threads
        return form, words[2:first], [words[at:at + size] for at in range(first, len(words), size)]

    def own_sections(self):
        """The names of sections that the source makes itself."""
        return [name for name, header in self.sections.items() if header[2] & 2 and header[5] and name not in MADE]

    def fill(self):
        """Puts the variables' first values into the objects, where shared.c looks for them. Own copies are 0 at the start."""
        symbols = self.symbols
        table = TABLE + 8 + symbols["ir_threads"] * 4
        for address in range(symbols["ir_data"], symbols["ir_data_end"], 4):
            place, spread = address - symbols["ir_shared"], symbols["ir_spread"]
            at = (symbols["ir_objects"] + place // 8 % spread) * 64 + (place // 8 // spread * 2 + place // 4 % 2) * 4
            self.put(table + at, self.word(address))
            self.put(address, 0)
        self.empty_memory()
        Path(self.path).write_bytes(self.bytes)

    def empty_memory(self):
        """Leaves no bytes in the segments of private memory: all are 0 now, as memory is without them. So `ir elf` counts no variable as a thread's own."""
        places, = struct.unpack_from("<I", self.bytes, 28)
        for i, segment in enumerate(self.segments):
            if MEMORY <= segment[2] < MEMORY_END:
                if any(self.bytes[segment[1]:segment[1] + segment[4]]):
                    raise ValueError("private memory isn't empty")
                struct.pack_into("<II", self.bytes, places + i * 32 + 16, 0, 0)

    def needs(self, tries):
        """What recordings of the guest need, in words, or nothing. It may try to enter objects, or it doesn't."""
        form, entries, objects = self.table()
        if tries:
            return "it tries to enter objects, so recordings need --profile 2"
        if form == 2 and (len(entries) > 8 or len(objects) > 16):
            return f"it has {len(entries)} threads and {len(objects)} objects, so recordings need --profile 2"
        return ""
