# shared EXPRESSION prints what a shared variable of an ordinary program holds, in a recording of its guest.
# `print` shows this thread's own copy instead, which says nothing.
python
class Shared(gdb.Command):
    """shared EXPRESSION: what a shared variable holds, or an element or field of one."""

    def __init__(self):
        super().__init__("shared", gdb.COMMAND_DATA, gdb.COMPLETE_EXPRESSION)

    def invoke(self, argument, from_tty):
        value = gdb.parse_and_eval(argument)
        start, first, objects, spread = (int(gdb.parse_and_eval(f"(unsigned)&{name}")) for name in (argument, "ir_shared", "ir_objects", "ir_spread"))
        inferior, held = gdb.selected_inferior(), b""
        for place in range(start - first, start - first + value.type.sizeof):
            pair = place // 8
            held += inferior.read_memory(0x80000000 + 64 * (objects + pair % spread) + pair // spread * 8 + place % 8, 1).tobytes()
        gdb.write(f"{argument} = {gdb.Value(held, value.type)}\n")


Shared()
end
