"""The guests of the tests of `ir view`."""
import subprocess
from pathlib import Path

TOP = Path(__file__).resolve().parent.parent
EXAMPLES = ("counter", "helping", "lost_update", "overwritten", "spinning", "two_locks")
POLLING = TOP / "docs" / "guide" / "polling.s"
# Threads that add to objects, each by a read entry and then a write entry, and look at others.
MANY = """
        .objects 6
{threads}
main:   addi    a7, zero, 12            # OWN_NUMBER
        ecall
        addi    s3, a0, 0
        addi    s0, zero, {times}
again:  andi    s2, s0, 3
        add     s2, s2, s3
        addi    t0, zero, 6
        remu    s2, s2, t0
        addi    a0, s2, 0
        addi    a7, zero, 7             # ENTER_READ
        ecall
        addi    a1, zero, 0
        addi    a7, zero, 10            # GET
        ecall
        addi    s1, a0, 1
        addi    a0, s2, 0
        addi    a7, zero, 9             # LEAVE
        ecall
        addi    a7, zero, 8             # ENTER_WRITE
        ecall
        addi    a1, zero, 0
        addi    a2, s1, 0
        addi    a7, zero, 11            # PUT
        ecall
        addi    a7, zero, 9             # LEAVE
        ecall
        addi    s0, s0, -1
        bne     s0, zero, again
        addi    a0, zero, 0
        addi    a7, zero, 1             # END
        ecall
"""
# Threads that hold an object while they enter others. By name the objects, and what each thread does: enters for reading (r) or writing (w), leaves
# (l), or takes 100 steps (s).
HOLDING = {
    "nested": (2, ["w0 w1 l1 l0", "w0 w1 l1 l0"]),
    "nested_three": (3, ["w0 w1 w2 l2 l1 l0", "w0 l0"]),
    "nested_waits": (2, ["w0 w1 l1 l0", "w0 l0", "w1 s l1"]),
    "hand_over_hand": (4, ["w0 w1 l0 w2 l1 l2", "w1 w0 l0 l1"]),
    "read_twice_nested": (3, ["r0 r1 l1 l0 r0 r1 l0 l1 r0 l0 r0 l0 w2 l2", "w0 l0 w1 l1", "r2 s l2"]),
    "read_held": (2, ["r0 l0 r0 l0 r0 w1 l0 l1 r0 l0", "w1 w0 l1 s l0"]),
}
WORDS = {"r": "        addi    a0, zero, {}\n        addi    a7, zero, 7             # ENTER_READ\n        ecall\n",
         "w": "        addi    a0, zero, {}\n        addi    a7, zero, 8             # ENTER_WRITE\n        ecall\n",
         "l": "        addi    a0, zero, {}\n        addi    a7, zero, 9             # LEAVE\n        ecall\n",
         "s": "        addi    t0, zero, 50\nspin{0}:  addi    t0, t0, -1\n        bne     t0, zero, spin{0}\n"}


def holding(name):
    """The text of a guest of HOLDING."""
    return holding_text(*HOLDING[name])


def holding_text(objects, threads):
    """The text of a guest of so many objects whose threads do this."""
    text = f"        .objects {objects}\n" + "".join(f"        .thread start{t}\n" for t in range(len(threads)))
    for t, words in enumerate(threads):
        text += f"start{t}:\n"
        for n, word in enumerate(words.split()):
            text += WORDS[word[0]].format(word[1:] or f"{t}x{n}")
        text += "        addi    a0, zero, 0\n        addi    a7, zero, 1             # END\n        ecall\n"
    return text


def many(threads, times):
    """The text of a guest of threads that each add to objects this often."""
    return MANY.format(threads="        .thread main\n" * threads, times=times)


def ending_badly(threads, times):
    """The text of such a guest whose last thread ends by a load that no memory has, and whose others end with their numbers as codes."""
    ends = f"        addi    t0, zero, {threads - 1}\n        bne     s3, t0, done\n        lw      a0, 0(zero)\ndone:   addi    a0, s3, 0\n"
    large = "        .large\n" if threads > 8 else ""
    return large + many(threads, times).replace("        addi    a0, zero, 0\n        addi    a7, zero, 1 ", ends + "        addi    a7, zero, 1 ")


def guests():
    """The texts of small guests by name: those of examples/, and three that poll or add for longer."""
    texts = {name: (TOP / "examples" / f"{name}.s").read_text(encoding="ascii") for name in EXAMPLES}
    texts["polling"] = POLLING.read_text(encoding="ascii").replace("zero, 100", "zero, 300")
    texts["spinning_more"] = texts["spinning"].replace("zero, 500", "zero, 20")
    return texts


def record(program, folder, name, text, seed):
    """The trace of a recording of a guest's text in the order of a seed."""
    source, image, trace = (folder / f"{name}.{end}" for end in ("s", "img", "trc"))
    source.write_text(text, encoding="ascii")
    profile = ["--profile", "2"] if "TRY_WRITE" in text or ".large" in text else []
    for words in (["asm", source, image], ["record", image, trace, "--chaos", seed, "--budget", 200000, *profile]):
        subprocess.run([program, *map(str, words)], check=True, stdout=subprocess.DEVNULL)
    return trace
