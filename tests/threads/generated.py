"""Programs that are made of a seed: structs with bit-fields, arrays and numbers of each size, which main and a thread change in turn, as globals, in
functions' frames and by pointers. What they print is the same on each machine."""
import random

KINDS = (("signed char", 8), ("unsigned char", 8), ("short", 16), ("unsigned short", 16), ("int", 32), ("unsigned", 32), ("long long", 64),
         ("unsigned long long", 64))
TYPES = range(4)


class Maker:
    """Makes the program of a seed."""

    def __init__(self, seed):
        self.random = random.Random(seed)
        self.fields = [self.made_fields() for _ in TYPES]

    def made_fields(self):
        """The fields of a struct: name, type, the bits of a bit-field, and the length of an array."""
        fields = []
        for number in range(self.random.randint(1, 6)):
            kind, bits = self.random.choice(KINDS)
            way = self.random.random()
            fields.append((f"m{number}", kind, self.random.randint(1, bits) if way < 0.45 else 0, self.random.randint(1, 5) if 0.45 <= way < 0.6 else 0))
        return fields

    def struct(self, number):
        """The declaration of a struct."""
        parts = (f"{kind} {name} : {bits};" if bits else f"{kind} {name}[{length}];" if length else f"{kind} {name};"
                 for name, kind, bits, length in self.fields[number])
        packed = "__attribute__((packed)) " if self.random.random() < 0.2 else ""
        return f"struct {packed}t{number} {{ {' '.join(parts)} }};"

    def place(self, number):
        """A struct of this type: a global, an element, what a pointer points to, or a local one."""
        return self.random.choice((f"g{number}", f"h{number}", f"a{number}[{self.random.randint(0, 2)}]", f"(*p{number})", f"l{number}"))

    def field(self, number, place):
        """A field of it."""
        name, _, _, length = self.random.choice(self.fields[number])
        return f"{place}.{name}" + (f"[{self.random.randint(0, length - 1)}]" if length else "")

    def some_field(self):
        """A field of any struct."""
        number = self.random.choice(TYPES)
        return self.field(number, self.place(number))

    def value(self):
        """A number, or a field."""
        return str(self.random.randint(-5, 300)) if self.random.random() < 0.4 else self.some_field()

    def statement(self):
        """A statement."""
        number, way = self.random.choice(TYPES), self.random.random()
        one, other = self.place(number), self.place(number)
        if way < 0.25:
            return f"{one} = {other};"
        if way < 0.35:
            return f"{{ struct t{number} copy = {one}; {self.field(number, 'copy')} ^= {self.value()}; {other} = copy; }}"
        if way < 0.4:
            return f"memset(&{one}, {self.random.randint(0, 255)}, sizeof {one});"
        if way < 0.7:
            return f"{self.some_field()} = (unsigned){self.value()} + (unsigned){self.value()};"
        if way < 0.85:
            return f"{self.some_field()} {self.random.choice(('+=', '^=', '|=', '&='))} {self.value()};"
        if way < 0.93:
            return f"{self.some_field()}++;"
        return f"if ({self.some_field()} & 1) {self.some_field()} = {self.value()}; else {one} = {other};"

    def function(self, number):
        """A function that changes all structs."""
        yield f"static void work{number}(struct t0 *q0, struct t1 *q1, struct t2 *q2, struct t3 *q3)\n{{"
        for t in TYPES:
            yield f"    struct t{t} l{t};\n    memset(&l{t}, {number + t}, sizeof l{t});"
            yield f"    p{t} = {self.random.choice((f'q{t}', f'&h{t}', f'&a{t}[1]'))};"
        yield from (f"    {self.statement()}" for _ in range(25))
        yield from (f"    g{t} = l{t};" for t in TYPES)
        yield "}\n"

    def shown(self, number, place):
        """Prints all fields of a struct."""
        for name, _, _, length in self.fields[number]:
            for end in ([f"[{i}]" for i in range(length)] or [""]):
                yield f'    printf("%llx ", (unsigned long long){place}.{name}{end});'

    def main(self):
        """main, which has a struct of each type in its frame."""
        yield "static void *run(void *argument)\n{\n    void **q = argument;\n    work0(q[0], q[1], q[2], q[3]);\n    return 0;\n}\n\nint main(void)\n{"
        yield from (f"    struct t{t} l{t};\n    memset(&l{t}, {t + 3}, sizeof l{t});" for t in TYPES)
        yield "    void *q[4] = {&l0, &l1, &l2, &l3};\n    pthread_t thread;\n    pthread_create(&thread, 0, run, q);\n    pthread_join(thread, 0);"
        yield from (f"    {self.statement()}" for _ in range(15))
        yield "    work1(&l0, &l1, &l2, &l3);"
        for t in TYPES:
            for place in (f"l{t}", f"g{t}", f"h{t}", *(f"a{t}[{i}]" for i in range(3))):
                yield from self.shown(t, place)
            yield '    printf("\\n");'
        yield "    return 0;\n}"

    def program(self):
        """All lines."""
        yield "#include <pthread.h>\n#include <stdio.h>\n#include <string.h>"
        yield from (self.struct(t) for t in TYPES)
        yield from (f"static struct t{t} g{t}, h{t}, a{t}[3], *p{t};" for t in TYPES)
        for number in range(2):
            yield from self.function(number)
        yield from self.main()


def source(seed):
    """The program of a seed."""
    return "\n".join(Maker(seed).program()) + "\n"
