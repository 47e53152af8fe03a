"""Sources that are refused, guests that end by a fault and print why, and what stores in buffers lead to."""
from dataclasses import dataclass, field


@dataclass
class Refused:
    """Files, the arguments of ir-cc, and what is reported."""

    name: str
    files: dict
    message: str
    arguments: list = field(default_factory=lambda: ["g.c"])


@dataclass
class Printed:
    """A guest, what it prints in all, the end of the thread with the fault, and options."""

    name: str
    source: str
    message: str
    end: str = "2"
    arguments: tuple = ()


@dataclass
class Buffered:
    """A program, and what it prints without --tso, with it, and with buffers of one entry."""

    name: str
    source: str
    plain: set
    buffered: set
    by_one: set


HEAD = "#include <assert.h>\n#include <pthread.h>\n#include <stdio.h>\n#include <stdlib.h>\n"
MAIN = "int main(void) { return 0; }\n"
STRUCT = "struct three { int a, b, c; };\nstruct three shared, other;\n"

REFUSED = [
    Refused("by-value", {"g.c": f"{STRUCT}int sum(struct three s) {{ return s.a; }}\n\nint f(void) {{ return sum(shared); }}\n{MAIN}"},
            "ir-cc: g.c:5: shared is a struct that is passed by value, and that isn't seen: copy it by a local variable"),
    Refused("by-value-pointer", {"g.c": f"{STRUCT}int sum(struct three s) {{ return s.a; }}\nint f(struct three *p)\n{{\n    return sum(p[2]);\n}}\n{MAIN}"},
            "ir-cc: g.c:6: "),
    Refused("by-value-main", {"g.c": f"{STRUCT}int sum(struct three s);\nvoid show(struct three *);\nint main(void)\n{{\n    struct three s = {{1, 2, 3}};\n"
                                     f"    show(&s);\n    return sum(s);\n}}\n"}, "ir-cc: g.c:9: s is a struct that is passed by value, and that isn't seen: call it in another function than main, whose frame threads share"),
    Refused("returned-main", {"g.c": f"{STRUCT}struct three make(void);\nvoid show(struct three *);\nint main(void)\n{{\n    struct three s = make();\n"
                                     f"    show(&s);\n    return 0;\n}}\n"}, "ir-cc: g.c:7: make returns a struct, and that isn't seen: call it in another function than main, whose frame threads share"),
    Refused("returned", {"g.c": f"{STRUCT}struct three make(void);\n\nvoid f(void) {{ shared = make(); }}\n{MAIN}"},
            "ir-cc: g.c:5: make returns a struct, and that isn't seen: copy it by a local variable"),
    Refused("assembly", {"g.c": f"void f(void)\n{{\n    __asm__ volatile(\"fence\");\n}}\n{MAIN}"},
            "ir-cc: g.c:3: inline assembly: its accesses to memory can't be seen"),
    Refused("builtin", {"g.c": f"int g[6], h[6];\nvoid f(int n)\n{{\n    __builtin_memcpy(g, h, n);\n}}\n{MAIN}"},
            "ir-cc: g.c:4: __builtin_memcpy: its accesses to memory may not be seen: call the function of string.h"),
    Refused("no-sanitize", {"g.c": f"int x;\n__attribute__((no_sanitize(\"thread\"))) int f(void) {{ return x; }}\n{MAIN}"},
            "ir-cc: g.c: f has the attribute no_sanitize: its accesses to memory can't be seen"),
    Refused("constructor", {"g.c": f"int x;\n__attribute__((constructor)) void begin(void) {{ x = 1; }}\n{MAIN}"},
            "threads.ld: a constructor or destructor: no thread would run it"),
    Refused("section", {"g.c": f"__attribute__((section(\"mine\"))) int x = 1;\nint main(void) {{ return x; }}\n"},
            "ir-cc: the section mine is the program's own: threads wouldn't share its variables"),
    Refused("c++", {"g.cpp": MAIN}, "ir-cc: g.cpp: guests are in C, and this is C++", ["g.cpp"]),
    Refused("mixed", {"g.c": f"#include \"ir.h\"\n{HEAD}{MAIN}"}, "ir-cc: g.c includes ir.h, and g.c includes"),
    Refused("mixed-files", {"g.c": f"{HEAD}{MAIN}", "h.c": "#include \"ir.h\"\n"}, "a guest is either on ir.h, or an ordinary program with threads", ["g.c", "h.c"]),
    Refused("missing-function", {"g.c": f"{HEAD}int main(void) {{ return pthread_cancel(pthread_self()); }}\n"}, "undefined reference to `pthread_cancel'", ["g.c", "-w"]),
    Refused("missing-file", {"g.c": f"{HEAD}int main(void) {{ return fopen(\"x\", \"r\") != 0; }}\n"}, "undefined reference to `fopen'", ["g.c", "-w"]),
    Refused("large-atomic", {"g.c": f"_Atomic struct {{ int a, b, c; }} x, y;\nint main(void) {{ x = y; return 0; }}\n"}, "undefined reference to `__atomic_load'"),
    Refused("shared", {"g.c": f"int table[1000];\nint main(void) {{ return table[5]; }}\n"},
            "threads.ld: shared variables, the heap and the window of main's stack are over what 64 objects hold; ir-cc --heap N and --window N make those smaller"),
    Refused("heap", {"g.c": f"{HEAD}int main(void) {{ return malloc(1) == 0; }}\n"}, "threads.ld: shared variables, the heap", ["g.c", "--heap", "4000"]),
    Refused("code", {"g.c": f"const char large[65536] = {{1}};\nint main(int n, char **v) {{ return large[n]; }}\n"}, "threads.ld: code and constants are over 65536 bytes"),
    Refused("local", {"g.c": f"_Thread_local char large[3000];\nint main(int n, char **v) {{ return large[n]; }}\n"},
            "threads.ld: thread-local variables are over half of a thread's stack"),
    Refused("stack", {"g.c": MAIN}, "threads.ld: stacks and variables are over 65536 bytes; ir-cc --stack N gives each stack N", ["g.c", "--threads", "8", "--stack", "9000"]),
    Refused("threads", {"g.c": MAIN}, "threads.ld: a guest has 1 to 16 threads", ["g.c", "--threads", "17", "--stack", "100"]),
    Refused("no-main", {"g.c": "int x;\n"}, "undefined reference to `main'"),
    Refused("no-source", {}, "ir-cc: no source is given; ir-cc --help says how", []),
    Refused("no-file", {}, "ir-cc: g.c: there is no such file"),
    Refused("no-number", {"g.c": MAIN}, "ir-cc: --threads takes a number, and 'x' is none", ["g.c", "--threads", "x"]),
    Refused("object-file", {"g.o": ""}, "ir-cc: g.o: a source's name ends in .c", ["g.o"]),
    Refused("library", {"g.c": MAIN}, "ir-cc: -lm isn't there: guests are made by one set of options, and without libraries", ["g.c", "-lm"]),
    Refused("lto", {"g.c": MAIN}, "ir-cc: -flto isn't there", ["g.c", "-flto"]),
    Refused("object", {"g.c": MAIN}, "ir-cc: -c isn't there: ir-cc makes a guest of C sources", ["g.c", "-c"]),
    Refused("threads-on-ir-h", {"g.c": "#include \"ir.h\"\nIR_THREAD(t) { return 0; }\nIR_THREADS(t);\n"}, "ir-cc: a guest on ir.h says itself how many threads it has",
            ["g.c", "--threads", "3"]),
]

CREATE = "int main(void) { pthread_t t; pthread_create(&t, 0, f, 0); pthread_join(t, 0); return 0; }\n"

PRINTED = [
    Printed("assert", f"{HEAD}int main(void)\n{{\n    assert(1 + 1 == 3);\n}}\n", "g.c:7: main: Assertion `1 + 1 == 3' failed.\n"),
    Printed("abort", f"{HEAD}int main(void) {{ abort(); }}\n", ""),
    Printed("threads", f"{HEAD}void *f(void *p) {{ return p; }}\n{CREATE}", "ir: there are too few threads: ir-cc --threads N has N with main, at most 16\n",
            arguments=("--threads", "1")),
    Printed("heap", f"{HEAD}int main(void) {{ for (;;) malloc(100); }}\n", "ir: the heap is full: ir-cc --heap N gives it N bytes\n"),
    Printed("free", f"{HEAD}int x;\nint main(void) {{ free(&x); return 0; }}\n", "ir: free or realloc of what malloc didn't give\n"),
    Printed("free-twice", f"{HEAD}int main(void) {{ void *p = malloc(5); free(p); free(p); return 0; }}\n",
            "ir: free or realloc of what malloc didn't give, or of what is free\n"),
    Printed("other-stack", f"{HEAD}int *shared;\nvoid *f(void *p) {{ int mine = 1; shared = &mine; while (shared) {{ }} return p; }}\n"
                           "int main(void) { pthread_t t; pthread_create(&t, 0, f, 0); while (!shared) { } *shared = 0; return 0; }\n",
            "ir: a variable on another thread's stack: make it global, or of main's frame: ir-cc --window N shares N bytes of that\n"),
    Printed("other-local", f"{HEAD}_Thread_local int mine = 1; int *shared;\nvoid *f(void *p) {{ shared = &mine; while (shared) {{ }} return p; }}\n"
                           "int main(void) { pthread_t t; pthread_create(&t, 0, f, 0); while (!shared) { } *shared = 0; return 0; }\n",
            "ir: a variable on another thread's stack: make it global, or of main's frame: ir-cc --window N shares N bytes of that\n"),
    Printed("unlock", f"{HEAD}pthread_mutex_t m = PTHREAD_MUTEX_INITIALIZER;\nvoid *f(void *p) {{ pthread_mutex_unlock(&m); return p; }}\n"
                      "int main(void) { pthread_t t; pthread_mutex_lock(&m); pthread_create(&t, 0, f, 0); pthread_join(t, 0); return 0; }\n",
            "ir: a mutex is unlocked by a thread that doesn't hold it\n"),
    Printed("unlock-rwlock", f"{HEAD}pthread_rwlock_t l = PTHREAD_RWLOCK_INITIALIZER;\nint main(void) {{ pthread_rwlock_unlock(&l); return 0; }}\n",
            "ir: a readers-writer lock is unlocked by a thread that doesn't hold it\n"),
    Printed("join-main", f"{HEAD}pthread_t m;\nvoid *f(void *p) {{ pthread_join(m, 0); return p; }}\nint main(void) {{ pthread_t t; m = pthread_self();"
                         " pthread_create(&t, 0, f, 0); pthread_join(t, 0); return 0; }\n", "ir: a thread joins main's: no thread can\n"),
    Printed("printf", f"{HEAD}int main(void) {{ printf(\"%f\", 1.5); return 0; }}\n", "ir: printf: there are the conversions d i u x X o p s c and % only\n"),
    Printed("null-read", f"{HEAD}int *p;\nint main(void) {{ return *p; }}\n", "", "6"),
    Printed("null-write", f"{HEAD}int *p, x;\nvoid *f(void *a) {{ for (;;) x++; }}\nint main(void) {{ pthread_t t; pthread_create(&t, 0, f, 0); *p = 1; return 0; }}\n", "", "7"),
]

TWO = """#include <pthread.h>
#include <stdatomic.h>
#include <stdio.h>
{variables}
static void *run(void *unused) {{ {other} return unused; }}
int main(void) {{ pthread_t t; pthread_create(&t, 0, run, 0); {one} pthread_join(t, 0); printf("%d%d", r, s); return 0; }}
"""
PLAIN = "volatile int x, y; int r, s;"
RELAXED = "atomic_int x, y; int r, s;\n#define set(v, n) atomic_store_explicit(&v, n, memory_order_release)\n#define get(v) atomic_load_explicit(&v, memory_order_acquire)"
FENCE = "atomic_thread_fence(memory_order_seq_cst);"

BUFFERED = [
    Buffered("store-buffering", TWO.format(variables=PLAIN, one="x = 1; r = y;", other="y = 1; s = x;"), {"01", "10", "11"}, {"00", "01", "10", "11"}, {"00", "01", "10", "11"}),
    Buffered("fence", TWO.format(variables=PLAIN, one=f"x = 1; {FENCE} r = y;", other=f"y = 1; {FENCE} s = x;"), {"01", "10", "11"}, {"01", "10", "11"}, {"01", "10", "11"}),
    Buffered("one-fence", TWO.format(variables=PLAIN, one=f"x = 1; {FENCE} r = y;", other="y = 1; s = x;"), {"01", "10", "11"}, {"00", "01", "10", "11"}, {"00", "01", "10", "11"}),
    Buffered("exchange", TWO.format(variables="atomic_int x, y; int r, s;", one="atomic_exchange(&x, 1); r = y;", other="atomic_exchange(&y, 1); s = x;"),
             {"01", "10", "11"}, {"01", "10", "11"}, {"01", "10", "11"}),
    Buffered("seq-cst", TWO.format(variables="atomic_int x, y; int r, s;", one="x = 1; r = y;", other="y = 1; s = x;"), {"01", "10", "11"}, {"01", "10", "11"}, {"01", "10", "11"}),
    Buffered("release", TWO.format(variables=RELAXED, one="set(x, 1); r = get(y);", other="set(y, 1); s = get(x);"), {"01", "10", "11"}, {"00", "01", "10", "11"},
             {"00", "01", "10", "11"}),
    Buffered("message", TWO.format(variables=PLAIN, one="x = 1; y = 1;", other="r = y; s = x;"), {"00", "01", "11"}, {"00", "01", "11"}, {"00", "01", "11"}),
    Buffered("load-buffering", TWO.format(variables=PLAIN, one="r = x; y = 1;", other="s = y; x = 1;"), {"00", "01", "10"}, {"00", "01", "10"}, {"00", "01", "10"}),
    Buffered("own-store", TWO.format(variables=PLAIN, one="x = 1; r = x;", other="y = 1; s = y;"), {"11"}, {"11"}, {"11"}),
]
