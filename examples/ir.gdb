# For gdb on recordings: source examples/ir.gdb, and then target remote | ir gdb IMAGE TRACE
set remotetimeout unlimited
# Signals say how threads ended, and go to none.
handle SIGILL SIGABRT SIGBUS SIGSEGV SIGSYS SIGTERM SIGXCPU SIGXFSZ nopass
# gdb keeps what it read of threads that it didn't resume, and they may have moved along, or by a session's command.
define hook-stop
maint flush register-cache
end
define hookpost-monitor
maint flush register-cache
end
# ir-goto T K: thread T to position K.
define ir-goto
monitor goto $arg0 $arg1
frame
end
# ir-load N: all threads to the kept cut N.
define ir-load
monitor load $arg0
frame
end
# ir-owatch WORD, such as account[0].to, without blanks: stops each thread where it leaves the object of this word after writing.
define ir-owatch
eval "monitor owatch %u", ((unsigned int) &($arg0) - 0x80000000) / 64
end
# What would change a recording is refused: by gdb itself where it would write, also in an expression of print.
python
for what in "memory", "registers":
    try:
        gdb.execute(f"set may-write-{what} off")
    except gdb.error:
        pass  # a program is open, so it was sourced before
end
# What `ir who`, `ir stale`, `ir why` and `ir events` say of the recording that is open, and the names of its threads.
python
import os
import re
import shlex
import shutil
import subprocess

OBJECTS, OBJECT_SIZE, WORD_SIZE = 0x80000000, 64, 4


def recording():
    """The program, the image and the trace of `target remote | ir gdb IMAGE TRACE`."""
    connection = gdb.selected_inferior().connection
    words = shlex.split(connection.details.lstrip("| ")) if connection and connection.details else []
    if "gdb" not in words[1:-2]:
        raise gdb.GdbError("No recording is open: target remote | ir gdb IMAGE TRACE")
    at = words.index("gdb", 1)
    return words[at - 1], words[at + 1], words[at + 2]


def answered(ask):
    """What the program prints, asked by words that are made of the image and the trace."""
    program, image, trace = recording()
    try:
        ended = subprocess.run([program, *ask(image, trace)], stdin=subprocess.DEVNULL, capture_output=True, text=True, check=False)
    except OSError as error:
        raise gdb.GdbError(f"{program}: {error.strerror}") from error
    if ended.returncode:
        raise gdb.GdbError((ended.stderr or ended.stdout).strip())
    return ended.stdout


def selected():
    """The number of the selected thread in the guest, and its position."""
    thread = gdb.selected_thread()
    if thread is None:
        raise gdb.GdbError("No thread is selected.")
    return thread.ptid[1] - 1, int(thread.details.split()[1])


def events():
    """The lines of all events."""
    return answered(lambda image, trace: ["events", image, trace]).splitlines()


def events_of(thread):
    """The events of a thread: of each its line, and how many steps the thread takes before it."""
    own = [line for line in events() if line.startswith(f"thread {thread} ")]
    if not own:
        raise gdb.GdbError(f"Thread {thread} has no event.")
    return [(line, int(line.split()[5])) for line in own]


def place_of(pc):
    """The file and the line of an address."""
    found = gdb.find_pc_line(pc)
    return f"{os.path.basename(found.symtab.filename)}:{found.line}" if found.symtab else None


def named_in(line):
    """The events that a line names, each by its thread and number. `read event I` is of the thread that the line names first."""
    first = re.search(r"thread (\d+)", line)
    found = re.finditer(r"thread (\d+) event (\d+)|read event (\d+)", line)
    return [(each[1], each[2]) if each[1] else (first[1], each[3]) for each in found]


def with_places(text):
    """The lines, with the places of the events that each names."""
    places = {tuple(line.split()[1:4:2]): place_of(int(line.split()[7], 16)) for line in events()}
    lines = []
    for line in text.splitlines():
        found = [places[event] for event in named_in(line) if places.get(event)]
        lines.append(f"{line}  ({', '.join(found)})" if found else line)
    return "".join(f"{line}\n" for line in lines)


def is_ordinary():
    """Whether the guest is an ordinary program: then its events are made by the layer below it, in the same few lines."""
    try:
        gdb.parse_and_eval("&ir_shared")
    except gdb.error:
        return False
    return True


def with_notes(text):
    """The lines, and below each what `ir-where` says of the events that it names: the variable, and the line that called the layer."""
    finder = shutil.which("ir-where") or shutil.which("guest/ir-where")
    if finder is None:
        return text
    program, image, trace = recording()
    words = [finder, gdb.current_progspace().filename, image, trace, "--note", "--ir", program]
    ended = subprocess.run(words, input=text, capture_output=True, text=True, check=False)
    return ended.stdout if ended.returncode == 0 else text + ended.stderr


def word_at(text):
    """The object and the word at which an expression lies."""
    try:
        place = int(gdb.parse_and_eval(f"&({text})")) % 2**32 - OBJECTS
    except gdb.error as error:
        raise gdb.GdbError(str(error)) from error
    if place < 0:
        raise gdb.GdbError(f"{text} is no word of an object.")
    return place // OBJECT_SIZE, place % OBJECT_SIZE // WORD_SIZE


def refuse(what):
    """Refuses a command if a recording is open, and says what can't be done. Of another program gdb may ask it."""
    try:
        recording()
    except gdb.GdbError:
        return
    raise gdb.GdbError(f"{what}.")


UNCHANGED = "A recording can't be changed: "


def in_words(error):
    """An error of gdb, with the reason if it is that something would be changed."""
    found = re.match(r"Writing to (memory|registers) is not allowed", str(error))
    if found:
        refuse(UNCHANGED + {"memory": "its memory and objects belong to the run", "registers": "its registers belong to the run"}[found[1]])
    raise gdb.GdbError(str(error)) from error


class SetVariable(gdb.Command):
    """set variable EXPRESSION, as gdb has it: for gdb's own variables, such as $n. Of a recording nothing can be set."""

    def __init__(self):
        super().__init__("set variable", gdb.COMMAND_DATA, gdb.COMPLETE_EXPRESSION)

    def invoke(self, text, from_tty):
        if not text:
            raise gdb.GdbError("Argument required (expression to compute).")
        try:
            gdb.parse_and_eval(text)
        except gdb.error as error:
            in_words(error)


class Call(gdb.Command):
    """call EXPRESSION, which is print EXPRESSION in a recording: no function of the program can be called."""

    def __init__(self):
        super().__init__("call", gdb.COMMAND_DATA, gdb.COMPLETE_EXPRESSION)

    def invoke(self, text, from_tty):
        try:
            gdb.execute(f"print {text}", from_tty)
        except gdb.error as error:
            if "is not allowed" in str(error):
                refuse(UNCHANGED + "no function of the program can be called, and nothing can be set")
            in_words(error)


class Refuse(gdb.Command):
    """ir-refuse WORDS: fails with these words if a recording is open."""

    def __init__(self):
        super().__init__("ir-refuse", gdb.COMMAND_SUPPORT)

    def invoke(self, text, from_tty):
        refuse(text)


SetVariable()
Call()
Refuse()


class Question(gdb.Command):
    """A command that prints what the program says, and the places of the events that are named."""

    def __init__(self):
        super().__init__(self.name, gdb.COMMAND_DATA)

    def invoke(self, text, from_tty):
        said = self.said(gdb.string_to_argv(text))
        gdb.write(with_notes(said) if is_ordinary() else with_places(said))


class Who(Question):
    """ir-who OBJECT [VERSION]: who made and who read the versions of an object. ir-who WORD, such as account[0].to: who changed it."""

    name = "ir-who"

    def said(self, words):
        if not words:
            raise gdb.GdbError("ir-who OBJECT [VERSION], or ir-who WORD")
        if not all(word.isdecimal() for word in words):
            number, word = word_at(" ".join(words))
            words = [str(number), "--word", str(word)]
        return answered(lambda image, trace: ["who", trace, *words, "--image", image])


class Stale(Question):
    """ir-stale: the writes that rest on a read that was written over."""

    name = "ir-stale"

    def said(self, words):
        return answered(lambda image, trace: ["stale", trace, *words, "--image", image])


class Why(Question):
    """ir-why T E: why event E of thread T came when it did. ir-why: the same of the selected thread's last event."""

    name = "ir-why"

    def said(self, words):
        asked = words or self.last()
        return answered(lambda image, trace: ["why", trace, *asked, "--image", image])

    def last(self):
        thread, position = selected()
        made = sum(step < position for line, step in events_of(thread))
        if not made:
            raise gdb.GdbError(f"Thread {thread} has made no event yet.")
        return [str(thread), str(made - 1)]


class Events(Question):
    """ir-events: the events of the selected thread, with => before the first that it has yet to make. ir-events T: those of thread T."""

    name = "ir-events"

    def said(self, words):
        if words:
            return "".join(f"{line}\n" for line, step in events_of(words[0]))
        thread, position = selected()
        each = events_of(thread)
        made = sum(step < position for line, step in each)
        return "".join(f"{'=>' if number == made else '  '} {line}\n" for number, (line, step) in enumerate(each))


for kind in Who, Stale, Why, Events:
    kind()


def name_thread(thread, function):
    """Names a thread by its number in the guest and by a function."""
    thread.name = f"{thread.ptid[1] - 1} {function}"


def name_threads():
    """Names each thread by the function that it begins in: on connecting it is before its first step."""
    now = gdb.selected_thread()
    for thread in gdb.selected_inferior().threads():
        thread.switch()
        function = gdb.newest_frame().name()
        if function and not function.startswith("ir_"):
            name_thread(thread, function)
    if now:
        now.switch()


def name_created():
    """Names the first thread of an ordinary program, and those that are created by now, by the functions that they were created with."""
    finder = shutil.which("ir-lines") or shutil.which("guest/ir-lines")
    if finder is None:
        raise gdb.GdbError("ir-lines is neither in PATH nor in guest/.")
    said = subprocess.run([finder, gdb.current_progspace().filename, "--names"], capture_output=True, text=True, check=False).stdout
    gates = dict(re.findall(r"^object (\d+) thread-(\d+)", said, re.M))
    threads = {str(thread.ptid[1] - 1): thread for thread in gdb.selected_inferior().threads()}
    for number, name in re.findall(r"^thread (\d+) (\S+)", said, re.M):
        name_thread(threads[number], name)
    for number, thread in ((each, threads[name]) for each, name in gates.items() if name in threads):
        start = int.from_bytes(gdb.selected_inferior().read_memory(OBJECTS + OBJECT_SIZE * int(number) + WORD_SIZE, WORD_SIZE).tobytes(), "little")
        function = gdb.block_for_pc(start)
        if function and function.function:
            name_thread(thread, function.function)
end
# jump and return would set registers.
define hook-jump
ir-refuse A recording can't be changed: its threads go where they went
end
define hook-return
ir-refuse A recording can't be changed: reverse-finish goes to where this function was called, and finish to where it returns
end
# Without this gdb would refuse each move until the watch of a read is deleted.
define hook-rwatch
ir-refuse Reads can't be watched: watch stops at changes, and ir-who OBJECT VERSION names who read an object
end
define hook-awatch
ir-refuse Reads can't be watched: watch stops at changes, and ir-who OBJECT VERSION names who read an object
end
# ir-names: the threads of an ordinary program that are created by now are named by the functions that they were created with.
define ir-names
python name_created()
end
# Says on connecting if the program of gdb's file isn't the one that was recorded.
define ir-compare
python
if gdb.current_progspace().filename and "MIS-MATCHED" in gdb.execute("compare-sections .text", to_string=True):
    print("The program of this file isn't the one that was recorded.")
else:
    name_threads()
end
end
define target hookpost-remote
ir-compare
end
define target hookpost-extended-remote
ir-compare
end
