#!/usr/bin/env python3
"""Checks `ir view` against a plain reading of recordings in random orders.

python3 tests/view.py PROGRAM [COUNT]

Records guests COUNT times each (5 if it isn't given) by `ir record --chaos`, and makes ten times as many traces at random, some of them with their
events in an order in which they need each other in a circle. Looks of each whether the data of `ir view --json` has each event in one box, whether
each event that another needs ends left of it, and whether boxes, places and stale writes are those that this file finds by slow and plain ways;
whether the page has that data; whether `--around` shows the boxes near; and whether `--chrome` is in the Trace Event format. With the image also
whether boxes go from entering to leaving in rows that don't overlap, and whether the rules of objects allow the order of x. Prints a line for
each guest, and fails at the first difference.
"""
import json
import random
import re
import struct
import subprocess
import tempfile
from pathlib import Path

from lib import parser_of_program
from view_guests import HOLDING, TOP, guests, holding, many, record

CLOCK, RANDOM, INPUT, READ, WRITE, TRY = range(1, 7)
MARK = "/*DATA*/"


def parsed(data):
    """The objects and the profile of a trace, and of each thread its end, code, steps and events (tag, object or value, version, readers)."""
    profile = {b"IRT1": 1, b"IRT2": 2}[data[:4]]
    count, objects, _, _ = struct.unpack_from("<BBHQ", data, 4)
    at, threads = 16, []
    for _ in range(count):
        steps, end, code, events = struct.unpack_from("<QBII", data, at)
        at, log = at + 17, []
        for _ in range(events):
            tag = data[at]
            form = {READ: "<BI", WRITE: "<BII", TRY: "<B"}.get(tag, "<I")
            values = struct.unpack_from(form, data, at + 1)
            log.append((tag, *values, 0, 0)[:4])
            at += 1 + struct.calcsize(form)
        threads.append((end, code, steps, log))
    return objects, profile, threads


def boxes_of(threads):
    """The boxes, as thread, first event and number of events."""
    found = []
    for thread, (*_, log) in enumerate(threads):
        kinds = []
        for i, (tag, what, version, _) in enumerate(log):
            before = [event for event in log[:i] if event[0] in (READ, WRITE) and event[1] == what]
            again = tag == READ and before and before[-1][:3] == (READ, what, version)
            kinds.append(tag if again or (tag == TRY and i > 0 and log[i - 1][:2] == (TRY, what)) else 0)
            if kinds[-1] and i > 0 and kinds[-2] == kinds[-1]:
                found[-1][2] += 1
            else:
                found.append([thread, i, 1])
    return found


def needs_of(threads):
    """Of each event the events that it needs."""
    makers, readers, needs = {}, {}, {}
    for thread, (*_, log) in enumerate(threads):
        for i, (tag, what, version, _) in enumerate(log):
            if tag == WRITE:
                makers[what, version + 1] = (thread, i)
            elif tag == READ:
                readers.setdefault((what, version), []).append((thread, i))
    for thread, (*_, log) in enumerate(threads):
        for i, (tag, what, version, _) in enumerate(log):
            needs[thread, i] = [makers[what, version]] if tag in (READ, WRITE) and version > 0 else []
            if tag == WRITE:
                needs[thread, i] += readers.get((what, version), [])
    return needs


def places_of(threads, boxes, needs):
    """Of each box x0, x1, u0, u1 and where it came, and of each thread where it ends; raised until no box moves any more."""
    inside = {(t, i + k): number for number, (t, i, n) in enumerate(boxes) for k in range(n)}
    long = [int(threads[t][3][i][0] >= READ) for t, i, _ in boxes]
    x, u, came = [0] * len(boxes), [1] * len(boxes), [1] * len(boxes)
    moved = True
    while moved:
        moved = False
        for number, (t, i, n) in enumerate(boxes):
            own = [number - 1] if i > 0 else []
            other = {inside[need] for k in range(n) for need in needs[t, i + k]}
            new = max([0] + [x[b] + long[b] + 1 for b in [*own, *other]]), max([1] + [u[b] + 1 for b in [*own, *other]])
            came[number] = max([1] + [u[b] + 1 for b in own])
            if new != (x[number], u[number]):
                x[number], u[number], moved = *new, True
    ends = [[0, 1] for _ in threads]
    for number, (t, *_) in enumerate(boxes):
        ends[t] = [x[number] + long[number] + 1, u[number] + 1]
    return [[x[b], x[b] + long[b], u[b], u[b], came[b]] for b in range(len(boxes))], ends


def stale_of(threads):
    """The stale writes, as thread, read and write."""
    found = []
    for thread, (*_, log) in enumerate(threads):
        for j, (tag, what, version, _) in enumerate(log):
            before = [i for i in range(j) if log[i][0] in (READ, WRITE) and log[i][1] == what]
            if tag == WRITE and before and log[before[-1]][0] == READ and log[before[-1]][2] < version:
                found.append([thread, before[-1], j])
    return found


def data_of(trace):
    """The data that a trace should have."""
    objects, profile, threads = parsed(trace)
    boxes, needs = boxes_of(threads), needs_of(threads)
    places, ends = places_of(threads, boxes, needs)
    rows = []
    for (thread, first, count), place in zip(boxes, places):
        log = threads[thread][3][first:first + count]
        reads = sorted({(what, version) for tag, what, version, _ in log if tag == READ})
        fold = [-1, -1, [list(read) for read in reads]] if count > 1 else []
        rows.append([thread, first, count, *log[0], *place, 0, *fold])
    return {
        "ir_view": 1, "steps": False, "objects": objects, "profile": profile,
        "threads": [{"end": end, "code": code, "steps": steps, "events": len(log), "x": x, "u": u}
                    for (end, code, steps, log), (x, u) in zip(threads, ends)],
        "boxes": rows, "stale": stale_of(threads),
    }


def check_order(data, trace):
    """Each event is in one box, and what an event needs of another box ends left of it."""
    threads = parsed(trace)[2]
    inside = {}
    for box in data["boxes"]:
        for k in range(box[2]):
            assert (box[0], box[1] + k) not in inside, box
            inside[box[0], box[1] + k] = box
    assert len(inside) == sum(len(log) for *_, log in threads)
    for event, needs in needs_of(threads).items():
        for need in needs:
            assert inside[need][8] < inside[event][7] and inside[need][10] < inside[event][9], (event, need)


def spans_of(boxes, steps):
    """Of each box its thread, first and last step. A fold's thread waits nowhere in it, so its last step is as far from its first by steps as by u."""
    spans = []
    for box in boxes:
        first = steps[box[0], box[1]]
        spans.append((box[0], first, first + box[10] - box[9] if box[2] > 1 else box[14]))
    return spans


def held_places_of(threads, boxes, spans, needs):
    """With the image of each box x0, x1, u0, u1 and where it came, and of each thread where it ends; raised until no box moves any more."""
    inside = {(box[0], box[1] + k): number for number, box in enumerate(boxes) for k in range(box[2])}
    other = [{inside[need] for k in range(box[2]) for need in needs[box[0], box[1] + k]} for box in boxes]
    places = [[0, 0, 0, 0, 0] for _ in boxes]

    def before(thread, step):
        """The x and u of the starts and ends of boxes of a thread before a step of it, and that step."""
        for (own, first, last), (x0, x1, u0, u1, _) in zip(spans, places):
            if own == thread:
                yield from [(x, u, at) for x, u, at in ((x0, u0, first), (x1, u1, last)) if at < step]

    moved = True
    while moved:
        moved = False
        for number, (thread, first, last) in enumerate(spans):
            marks, ends = list(before(thread, first)), list(before(thread, last))
            came = max([first + 1] + [u + first - at for _, u, at in marks])
            x0 = max([0] + [x + 1 for x, *_ in marks] + [places[b][1] + 1 for b in other[number]])
            u0 = max([came] + [places[b][3] + 1 for b in other[number]])
            new = [x0, max([x0 + (boxes[number][3] >= READ)] + [x + 1 for x, *_ in ends]), u0, max([u0] + [u + last - at for _, u, at in ends]), came]
            if new != places[number]:
                places[number], moved = new, True
    ends = []
    for thread, (_, _, steps, _) in enumerate(threads):
        marks = list(before(thread, steps))
        ends.append((max([0] + [x + 1 for x, *_ in marks]), max([steps + 1] + [u + steps - at for _, u, at in marks])))
    return places, ends


def rows_of(spans):
    """The row of each box: the first that no box has that its thread still holds."""
    rows = []
    for number, (thread, first, _) in enumerate(spans):
        taken = {row for (own, begun, last), row in zip(spans[:number], rows) if own == thread and begun < first < last}
        rows.append(min(set(range(number + 1)) - taken))
    return rows


def goes(log, boxes, spans, turn):
    """Whether the rules of objects allow the starts and ends of boxes in the order of x, ties by rising or falling threads."""
    moments = [(box[7], turn * box[0], span[1], False, box) for box, span in zip(boxes, spans)]
    moments += [(box[8], turn * box[0], span[2], True, box) for box, span in zip(boxes, spans)]
    version, left, inside = {}, {}, {}
    for *_, late, (thread, event, count, *_) in sorted(moments, key=lambda moment: moment[:4]):
        entries = [entry for entry in log[thread][event:event + count] if entry[0] in (READ, WRITE)]
        for tag, o, found, readers in entries if not late else []:
            within = inside.setdefault(o, {})
            if version.get(o, 0) != found or WRITE in within.values() or tag == WRITE and (within or left.get(o, 0) != readers):
                return False
        for tag, o, *_ in entries:
            if not late:
                inside[o][thread] = tag
            elif thread in inside[o]:
                del inside[o][thread]
        for tag, o, *_ in entries if late else []:
            left[o] = left.get(o, 0) + 1 if tag == READ else 0
            version[o] = version.get(o, 0) + (tag == WRITE)
    return True


def check_held(data, trace, steps):
    """With the image: each event is in one box, which goes from entering to leaving, is right of what it needs, and has a row of its own."""
    threads, boxes = parsed(trace)[2], data["boxes"]
    assert data["steps"] is True
    assert [(box[0], box[1] + k) for box in boxes for k in range(box[2])] == [(t, i) for t, (*_, log) in enumerate(threads) for i in range(len(log))]
    folds = {(t, i): n for t, i, n in boxes_of(threads)}
    whole = {(t, i + k): (t, i) for (t, i), n in folds.items() for k in range(n)}
    for box in boxes:
        assert box[3:7] == list(threads[box[0]][3][box[1]]), box
        assert len({whole[box[0], box[1] + k] for k in range(box[2])}) == 1, box
        assert box[13] == (steps[box[0], box[1]] if box[2] == 1 else -1), box
        assert box[2] > 1 or (box[14] > box[13] if box[3] in (READ, WRITE) else box[14] == box[13]), box
    spans = spans_of(boxes, steps)
    for box, (thread, _, last) in zip(boxes, spans):       # nothing in a fold is held over another event
        assert box[2] == 1 or (thread, box[1] + box[2]) not in steps or last < steps[thread, box[1] + box[2]], box
    places, ends = held_places_of(threads, boxes, spans, needs_of(threads))
    assert [box[7:12] for box in boxes] == places
    assert [(thread["x"], thread["u"]) for thread in data["threads"]] == ends
    assert [box[12] for box in boxes] == rows_of(spans)
    for turn in (1, -1):
        assert goes([log for *_, log in threads], boxes, spans, turn)


def check_part(data, part):
    """A part has the boxes near its event and the stale writes in these."""
    thread, event, span = part["around"]
    middle = next(box[7] for box in data["boxes"] if box[0] == thread and box[1] <= event < box[1] + box[2])
    boxes = [box for box in data["boxes"] if abs(box[7] - middle) <= span]
    inside = {(box[0], box[1] + k) for box in boxes for k in range(box[2])}
    stale = [row for row in data["stale"] if {(row[0], row[1]), (row[0], row[2])} <= inside]
    assert part == data | {"around": [thread, event, span], "boxes": boxes, "stale": stale}


FIELDS = {
    "M": {"name": str, "ph": str, "pid": int, "tid": int, "args": dict},
    "X": {"name": str, "cat": str, "ph": str, "ts": int, "dur": int, "pid": int, "tid": int, "args": dict},
    "i": {"name": str, "cat": str, "ph": str, "s": str, "ts": int, "pid": int, "tid": int, "args": dict},
    "s": {"name": str, "cat": str, "ph": str, "id": int, "ts": int, "pid": int, "tid": int},
    "f": {"name": str, "cat": str, "ph": str, "bp": str, "id": int, "ts": int, "pid": int, "tid": int},
}


# How threads end, in words, by the numbers from 2 on.
ENDS = ("breakpoint", "no instruction", "misaligned jump", "outside the code", "bad load", "bad store", "unknown call", "no such object or word",
        "entry out of order", "not held", "too much output", "budget spent", "too many events")


def arguments_of(data, box):
    """What the event of a box has as its arguments."""
    thread, first, count, kind, what, version, readers = box[:7]
    found = {"event": first, "events": count, "value" if kind < READ else "object": what}
    if kind in (READ, WRITE):
        found["version"] = version
    if kind == WRITE:
        found |= {"new_version": version + 1, "readers": readers}
    if count > 1:
        found["reads"] = box[15]
    elif data["steps"]:
        found |= {"step": box[13]} | ({"last_step": box[14]} if box[14] >= 0 else {})
    for other, read, write, *rest in data["stale"]:
        if (other, write) == (thread, first):
            found |= {"stale": True, "read_at_event": read}
            if rest:
                found |= {"word": rest[0], "was": rest[1], "is": rest[2], "would": ("put another value", "go another way")[rest[3]]}
    return found


def check_chrome(data, chrome):
    """Each event has the fields of its phase, and each box and each end what is known of it; slices of a row don't overlap; an arrow leaves and
    arrives in a slice, forwards."""
    assert set(chrome) == {"traceEvents", "displayTimeUnit", "otherData"}
    slices, starts, ends = {}, {}, {}
    for event in chrome["traceEvents"]:
        fields = FIELDS[event["ph"]]
        assert {name: type(value) for name, value in event.items()} == fields, event
        if event["ph"] == "X":
            slices.setdefault(event["tid"], []).append((event["ts"], event["ts"] + event["dur"]))
        elif event["ph"] in "sf":
            kept = starts if event["ph"] == "s" else ends
            assert event["id"] not in kept, event
            kept[event["id"]] = event
    for row in slices.values():
        assert all(a[1] <= b[0] for a, b in zip(row, row[1:])), row
    assert starts.keys() == ends.keys()
    for number, start in starts.items():
        end = ends[number]
        assert start["ts"] < end["ts"] and start["tid"] != end["tid"], (start, end)
        for event in (start, end):
            assert any(a <= event["ts"] < b for a, b in slices[event["tid"]]), event
    drawn = [event for event in chrome["traceEvents"] if event["ph"] in "Xi"]
    boxes, ended = ([event for event in drawn if (event["cat"] == "end") == is_end] for is_end in (False, True))
    assert len(boxes) == len(data["boxes"])
    for box, event in zip(data["boxes"], boxes):
        assert event["args"] == arguments_of(data, box) and (event["ts"], event["tid"]) == (10 * box[7], 64 * box[0] + box[12]), (box, event)
    assert len(ended) == (0 if "around" in data else len(data["threads"]))
    for number, (thread, event) in enumerate(zip(data["threads"], ended)):
        name = f"end, code {thread['code']}" if thread["end"] == 1 else ENDS[thread["end"] - 2]
        assert (event["name"], event["ph"], event["ts"], event["tid"], event["args"]) == (name, "i", 10 * thread["x"], 64 * number, thread), event


def circle_of(threads, needs):
    """The thread and event of a circle, if there is one."""
    placed, moved = [0] * len(threads), True
    while moved:
        moved = False
        for thread, (*_, log) in enumerate(threads):
            while placed[thread] < len(log) and all(i < placed[other] for other, i in needs[thread, placed[thread]]):
                placed[thread] += 1
                moved = True
    left = [(thread, placed[thread]) for thread, (*_, log) in enumerate(threads) if placed[thread] < len(log)]
    return left[0] if left else None


def random_trace(chance):
    """The bytes of a coherent trace: events in a random order, of which one thread's may be shuffled after all."""
    threads, objects, length = chance.randint(1, 5), chance.randint(1, 4), chance.randint(0, 60)
    logs, version, readers = [[] for _ in range(threads)], [0] * objects, [0] * objects
    lazy = chance.random()
    for _ in range(length):
        log, o = logs[chance.randrange(threads)], chance.randrange(objects)
        kind = chance.choice((READ, WRITE, TRY, chance.randint(CLOCK, INPUT)))
        if log and chance.random() < lazy:                # often the same again
            kind = log[-1][0]
            o = log[-1][1] if kind == TRY else o
        if kind == READ:
            readers[o] += 1
            log += [(READ, o, struct.pack("<BBI", READ, o, version[o]))]
        elif kind == WRITE:
            log += [(WRITE, o, struct.pack("<BBII", WRITE, o, version[o], readers[o]))]
            version[o], readers[o] = version[o] + 1, 0
        else:
            log += [(kind, o, struct.pack("<BB", TRY, o) if kind == TRY else struct.pack("<BI", kind, chance.randrange(256)))]
    if chance.random() < 0.3:
        chance.shuffle(chance.choice(logs))
    start = b"IRT2" + struct.pack("<BBHQ", threads, objects, 0, 1000)
    return start + b"".join(struct.pack("<QBII", 100, 1, 0, len(log)) + b"".join(event[2] for event in log) for log in logs)


class Program:
    """The program, and the page that its pages are made of."""

    def __init__(self, path):
        self.path = path
        self.head, self.tail = (TOP / "crates" / "ir_picture" / "page" / "view.html").read_text(encoding="utf-8").split(MARK)

    def run(self, *words, status=0):
        """What it prints for these arguments, with this exit status."""
        ran = subprocess.run([self.path, *map(str, words)], stdout=subprocess.PIPE, stderr=subprocess.PIPE, check=False)
        assert ran.returncode == status, (words, ran.returncode, ran.stdout[:200], ran.stderr)
        return ran.stdout.decode("ascii")

    def check(self, trace):
        """Looks at what it shows of a trace in a file; the data, or nothing where that is a circle."""
        threads = parsed(trace.read_bytes())[2]
        circle = circle_of(threads, needs_of(threads))
        if circle:
            assert self.run("view", trace, status=4) == "circle thread {} event {}\n".format(*circle)
            return None
        text = self.run("view", trace, "--json")
        data = json.loads(text)
        assert data == data_of(trace.read_bytes()), trace
        check_order(data, trace.read_bytes())
        assert self.run("view", trace) == self.head + text.removesuffix("\n") + self.tail
        check_chrome(data, json.loads(self.run("view", trace, "--chrome")))
        if data["boxes"]:
            box = data["boxes"][len(data["boxes"]) // 2]
            part = json.loads(self.run("view", trace, "--json", "--around", box[0], box[1], "--span", 9))
            check_part(data, part)
            check_chrome(part, json.loads(self.run("view", trace, "--chrome", "--around", box[0], box[1], "--span", 9)))
        return data

    def check_image(self, trace):
        """With the image of its guest: boxes from entering to leaving, and the stale writes that rest on what was read."""
        image = trace.with_suffix(".img")
        steps = {tuple(map(int, found[:2])): int(found[2]) for found in re.findall(r"thread (\d+) event (\d+) step (\d+) ", self.run("events", image, trace))}
        rests = [(int(t), int(read), int(event), int(word), int(was, 16), int(now, 16), int(reason == "way")) for t, event, read, word, was, now, reason in
                 re.findall(r"thread (\d+) event (\d+) step .* read event (\d+) .* word (\d+) was (\w+) is (\w+) (value|way)\n", self.run("stale", trace, "--image", image))]
        text = self.run("view", trace, "--image", image, "--json")
        shown = json.loads(text)
        check_held(shown, trace.read_bytes(), steps)
        assert [tuple(row) for row in shown["stale"]] == rests, (trace, shown["stale"], rests)
        assert self.run("view", trace, "--image", image) == self.head + text.removesuffix("\n") + self.tail
        check_chrome(shown, json.loads(self.run("view", trace, "--image", image, "--chrome")))
        if shown["boxes"]:
            box = shown["boxes"][len(shown["boxes"]) // 2]
            part = json.loads(self.run("view", trace, "--image", image, "--json", "--around", box[0], box[1], "--span", 9))
            check_part(shown, part)
            check_chrome(part, json.loads(self.run("view", trace, "--image", image, "--chrome", "--around", box[0], box[1], "--span", 9)))
        return len(rests)


def summary(found):
    """What was looked at, in words."""
    boxes = [box for data in found if data for box in data["boxes"]]
    return (f"{len(found)} traces, {sum(box[2] for box in boxes)} events, {sum(box[2] > 1 for box in boxes)} folds, "
            f"{sum(len(data['stale']) for data in found if data)} stale writes, {found.count(None)} circles")


def main():
    parser = parser_of_program(__doc__)
    parser.add_argument("count", metavar="COUNT", nargs="?", type=int, default=5, help="how many recordings of each guest")
    asked = parser.parse_args()
    program, count = Program(asked.program), asked.count
    with tempfile.TemporaryDirectory() as folder:
        folder = Path(folder)
        nested = {name: holding(name) for name in HOLDING}
        for name, text in (guests() | nested | {"many": many(5, 20)}).items():
            found, rests = [], 0
            for seed in range(count):
                trace = record(asked.program, folder, name, text, seed)
                found.append(program.check(trace))
                rests += program.check_image(trace)
            print(f"{name}: {summary(found)}, of which {rests} rest on what was read")
        chance, found = random.Random(1), []
        for number in range(10 * count):
            trace = folder / f"random_{number}.trc"
            trace.write_bytes(random_trace(chance))
            found.append(program.check(trace))
        print(f"at random: {summary(found)}")
    print("view: data, pages, parts and events for other viewers are as they should be")


if __name__ == "__main__":
    main()
