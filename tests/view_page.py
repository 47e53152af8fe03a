#!/usr/bin/env python3
"""Tries the page of `ir view` in Chromium.

python3 tests/view_page.py PROGRAM [FOLDER]

Records guests of examples/ and larger ones that this file has, opens the page of each recording, light and dark, and keeps pictures in FOLDER if
it is given. Looks whether the browser reports an error, whether each key and each click does what the page's help says, whether contrast is at
least 4.5 for text and 3 for lines, and whether the data is digits alone. In windows of three sizes: whether All has all boxes and ends in sight, also
after the size changes, whether nothing crosses the words at the ends, and whether versions of six digits can be read. With names put into the page as
`guest/ir-where --page` puts them, whether each is shown, and as text. If riscv64-unknown-elf-gcc is installed also the page that `guest/ir-where`
makes of a guest from C: whether each event has its line, and whether what is copied is what a session and gdb take. Wants `chromium`, or another
browser that CHROMIUM names.
"""
import base64
import json
import os
import re
import shutil
import subprocess
import tempfile
from pathlib import Path

from lib import TOP, parser_of_program
from view_guests import ending_badly, guests, many, record

DATA = re.compile(r'<script type="application/json" id="run">(.*?)</script>', re.DOTALL)
# What the data may have beside digits: brackets, commas, line feeds, and these names and words.
NAMES = re.compile(r'"(?:ir_view|steps|objects|profile|around|threads|end|code|events|x|u|boxes|stale)"|false|true')

# Contrast is computed in the page, of the colours that it draws with: pairs of a name and a contrast, texts and lines.
CONTRAST = """(() => {
  const channels = c => { const d = document.createElement('canvas').getContext('2d'); d.fillStyle = c; d.fillRect(0, 0, 1, 1);
    return [...d.getImageData(0, 0, 1, 1).data].slice(0, 3); };
  const light = c => { const [r, g, b] = c.map(v => { v /= 255; return v <= 0.04045 ? v / 12.92 : ((v + 0.055) / 1.055) ** 2.4; });
    return 0.2126 * r + 0.7152 * g + 0.0722 * b; };
  const ratio = (a, b) => { const [x, y] = [light(a), light(b)].sort((p, q) => q - p); return (x + 0.05) / (y + 0.05); };
  const mix = (a, b, part) => a.map((v, k) => v * part + b[k] * (1 - part));
  const c = {}; for (const n of ['page', 'card', 'ink', 'soft', 'lane', 'edge', 'mark']) c[n] = channels(css[n]);
  const texts = [], lines = [];
  for (const [a, b] of [['ink', 'page'], ['ink', 'card'], ['ink', 'lane'], ['soft', 'page'], ['soft', 'card'], ['soft', 'lane'], ['mark', 'page'],
    ['mark', 'lane'], ['mark', 'card'], ['card', 'mark'], ['page', 'ink']]) texts.push([a + ' on ' + b, ratio(c[a], c[b])]);
  for (const [a, b] of [['edge', 'lane'], ['edge', 'card'], ['edge', 'page'], ['mark', 'lane'], ['ink', 'lane'], ['soft', 'lane']]) lines.push([a + ' on ' + b, ratio(c[a], c[b])]);
  PAINT.forEach(([fill, on, day, night], k) => {
    const drawn = channels(css.dark ? night : day), full = channels(fill);
    texts.push(['name in write ' + k, ratio(channels(on), full)], ['name in read ' + k, ratio(c.ink, mix(full, c.card, PALE))]);
    lines.push(['line ' + k, ratio(drawn, c.lane)], ['edge of read ' + k, ratio(drawn, mix(full, c.card, PALE))]);
  });
  return { texts, lines };
})()"""

# The sizes of windows in which All has to show all.
SIZES = ((420, 800), (1000, 600), (1920, 1080))
# After the page has been laid out.
SETTLED = "new Promise(done => requestAnimationFrame(() => requestAnimationFrame(() => requestAnimationFrame(() => done(true)))))"
# What isn't in sight: boxes and ends of threads outside of the lanes, lanes outside of the window. A bar in red says that a thread ended badly.
OUTSIDE = """(() => {
  const found = [], canvas = main.getBoundingClientRect(), frame = scroll.getBoundingClientRect(), info = el('info').getBoundingClientRect();
  const within = (name, x, y, x2, y2) => { if (x < GUT || y < 0 || x2 > scroll.clientWidth || y2 > scroll.clientHeight) found.push([name, x, y, x2, y2]); };
  for (const b of boxes) within(`box ${b.t} ${b.i}`, sx(X0(b)), yOf(b), sx(X0(b)) + wide(b), yOf(b) + BH);
  run.threads.forEach((th, t) => {
    const x = sx(endOf(th)), y = laneTop[t] + PAD, d = devicePixelRatio, c = g.getImageData(Math.floor(x * d), Math.floor((y + 1) * d), 1, 1).data;
    within(`end ${t}`, x - 1.5, y, x + 5 + widthOf(endWords(th), endSize()), y + RH - 2);
    if (isBad(th) && Math.abs(c[0] - c[1]) < 60) found.push([`the bar of thread ${t} isn't red`, ...c]);
  });
  if (canvas.top < frame.top || canvas.bottom > frame.bottom + 1 || frame.bottom > innerHeight || info.bottom > innerHeight) found.push(['window', canvas.bottom, frame.bottom, info.bottom]);
  if (document.documentElement.scrollWidth > innerWidth || document.documentElement.scrollHeight > innerHeight) found.push(['the page scrolls']);
  if (el('legend').offsetHeight > 36) found.push(['the legend has more than a row']);
  return found;
})()"""
# Of each end in sight whether another thing is drawn over its words or below them: the picture is the same with lanes and ends alone.
CROSSED = """(() => {
  const d = devicePixelRatio, ends = run.threads.map((th, t) => [sx(endOf(th)), laneTop[t] + PAD + RH / 2, widthOf(endWords(th), endSize())])
    .filter(([x, y, w]) => x >= GUT && x + 5 + w <= W);
  const look = () => ends.map(([x, y, w]) => [...g.getImageData(Math.ceil((x + 3) * d), Math.round((y - endSize() / 2 + 1) * d), Math.floor((w + 3) * d), Math.floor((endSize() - 2) * d)).data]);
  draw(); const all = look();
  g.clearRect(0, 0, W, tall); drawLanes(); drawEnds(); const alone = look(); draw();
  return [ends.length, all.filter((a, k) => a.some((v, i) => v !== alone[k][i])).length];
})()"""
# The texts that are drawn, each with its place.
TEXTS = """(() => {
  const said = [], put = g.fillText;
  g.fillText = function (s, x, y) { const w = g.measureText(s).width; said.push([s, g.textAlign === 'center' ? x : x + w / 2, y, w]); put.call(g, s, x, y); };
  draw(); delete g.fillText;
  return said;
})()"""


class Browser:
    """A browser that is led by messages over a pipe."""

    def __init__(self, folder):
        to_browser, from_us = os.pipe()
        to_us, from_browser = os.pipe()
        words = [os.environ.get("CHROMIUM", "chromium"), "--headless=new", "--no-sandbox", "--disable-gpu", "--remote-debugging-pipe",
                 "--no-first-run", "--disable-background-networking", "--allow-file-access-from-files", f"--user-data-dir={folder}", "about:blank"]

        def handles():
            os.dup2(to_browser, 103), os.dup2(from_browser, 104)
            os.dup2(103, 3), os.dup2(104, 4)

        self.process = subprocess.Popen(words, preexec_fn=handles, close_fds=False, stdout=subprocess.DEVNULL, stderr=subprocess.DEVNULL)
        os.close(to_browser), os.close(from_browser)
        self.out, self.into, self.rest, self.number, self.errors = from_us, to_us, b"", 0, []
        target = self.call("Target.createTarget", url="about:blank")["targetId"]
        self.session = self.call("Target.attachToTarget", targetId=target, flatten=True)["sessionId"]
        for domain in ("Page", "Runtime", "Log"):
            self.call(f"{domain}.enable")

    session = None

    def receive(self):
        """The next message; errors of the page are kept."""
        while b"\0" not in self.rest:
            more = os.read(self.into, 1 << 16)
            if not more:
                raise SystemExit("the browser ended")
            self.rest += more
        text, _, self.rest = self.rest.partition(b"\0")
        message = json.loads(text)
        what, about = message.get("method"), message.get("params", {})
        if what == "Runtime.exceptionThrown" or (what == "Log.entryAdded" and about["entry"]["level"] == "error") \
                or (what == "Runtime.consoleAPICalled" and about["type"] in ("error", "assert")):
            self.errors.append(json.dumps(about)[:600])
        return message

    def call(self, method, **params):
        """The answer to a call."""
        self.number += 1
        message = {"id": self.number, "method": method, "params": params} | ({"sessionId": self.session} if self.session else {})
        os.write(self.out, json.dumps(message).encode() + b"\0")
        while True:
            answer = self.receive()
            if answer.get("id") == self.number:
                if "error" in answer:
                    raise SystemExit(f"{method}: {answer['error']}")
                return answer["result"]

    def open(self, address, dark=False, width=1280, height=800):
        """Opens a page, and waits until it has loaded."""
        self.call("Emulation.setEmulatedMedia", features=[{"name": "prefers-color-scheme", "value": "dark" if dark else "light"}])
        self.call("Emulation.setDeviceMetricsOverride", width=width, height=height, deviceScaleFactor=1, mobile=False)
        self.call("Page.navigate", url="about:blank")
        self.call("Page.navigate", url=address)
        while self.value("document.readyState") != "complete" or self.value("location.href").startswith("about"):
            pass

    def value(self, code):
        """What code comes to in the page."""
        found = self.call("Runtime.evaluate", expression=code, returnByValue=True, awaitPromise=True)
        if "exceptionDetails" in found:
            raise SystemExit(f"{code}: {found['exceptionDetails']}")
        return found["result"].get("value")

    def key(self, name, ctrl=False):
        """Presses a key."""
        codes = {"ArrowLeft": 37, "ArrowUp": 38, "ArrowRight": 39, "ArrowDown": 40, "Home": 36, "End": 35, "Escape": 27, "Enter": 13}
        more = {"text": name} if len(name) == 1 else {"text": "\r"} if name == "Enter" else {}
        code = codes.get(name, ord(name.upper()) if len(name) == 1 and name.isalnum() else 0)
        for kind in ("keyDown", "keyUp"):
            self.call("Input.dispatchKeyEvent", type=kind, key=name, windowsVirtualKeyCode=code, modifiers=2 if ctrl else 0,
                      **(more if kind == "keyDown" else {}))

    def mouse(self, kind, x, y, **more):
        """Moves the mouse, or presses or releases its button."""
        self.call("Input.dispatchMouseEvent", type=kind, x=x, y=y, **more)

    def click(self, x, y):
        """Clicks at a place."""
        self.mouse("mouseMoved", x, y)
        self.mouse("mousePressed", x, y, button="left", buttons=1, clickCount=1)
        self.mouse("mouseReleased", x, y, button="left", clickCount=1)

    def click_on(self, selector):
        """Clicks in the middle of an element."""
        self.click(*self.value(f"(() => {{ const r = document.querySelector({selector!r}).getBoundingClientRect(); return [r.x + r.width / 2, r.y + r.height / 2]; }})()"))

    def picture(self, path):
        """Keeps a picture of the page."""
        path.write_bytes(base64.b64decode(self.call("Page.captureScreenshot", format="png")["data"]))

    def close(self):
        """Ends the browser."""
        self.session = None
        self.number += 1
        os.write(self.out, json.dumps({"id": self.number, "method": "Browser.close", "params": {}}).encode() + b"\0")
        self.process.wait(timeout=20)


CHOSEN = "chosen && [chosen.t, chosen.i]"
MIDDLE = "(b => { const r = main.getBoundingClientRect(); return [r.x + sx(X0(b)) + wide(b) / 2, r.y + midOf(b)]; })"


def check_keys(browser, data):
    """Each key of the help does what the help says."""
    first = browser.value("boxes[0] && [boxes[0].t, boxes[0].i]")
    browser.key("Escape")
    assert browser.value(CHOSEN) is None and browser.value("location.hash") == ""
    browser.key("ArrowRight")
    assert browser.value(CHOSEN) == first
    lane = [box for box in data["boxes"] if box[0] == first[0]]
    browser.key("End")
    assert browser.value(CHOSEN) == [first[0], lane[-1][1]]
    browser.key("Home")
    assert browser.value(CHOSEN) == first
    if len(lane) > 1:
        browser.key("ArrowRight")
        assert browser.value(CHOSEN) == [first[0], lane[1][1]] and browser.value("location.hash") == f"#{first[0]}.{lane[1][1]}"
        browser.key("ArrowLeft")
        assert browser.value(CHOSEN) == first
    others = sorted({box[0] for box in data["boxes"]} - {first[0]})
    if others:
        browser.key("ArrowDown")
        assert browser.value("chosen.t") == others[0]
        browser.key("ArrowUp")
        assert browser.value("chosen.t") == first[0]
    assert browser.value("[...document.querySelectorAll('tr[data-if=stale]')].every(r => r.hidden)") == (not data["stale"])
    if data["stale"]:
        browser.key("Escape")
        seen = []
        for _ in data["stale"]:
            browser.key("n")
            seen.append(tuple(browser.value(CHOSEN)))
        assert sorted(seen) == sorted((row[0], row[2]) for row in data["stale"]), seen
        browser.key("p")
        assert tuple(browser.value(CHOSEN)) == seen[len(seen) - 2]
    made = {(box[4], box[5] + 1): (box[0], box[1]) for box in data["boxes"] if box[3] == 5}
    seer = next((box for box in data["boxes"] if box[3] in (4, 5) and box[2] == 1 and box[5] > 0), None)
    if seer:
        browser.value(f"find({seer[0]}, {seer[1]})")
        browser.key("m")
        assert tuple(browser.value(CHOSEN)) == made[seer[4], seer[5]]
    browser.key("g")
    for letter in f"{lane[-1][0]} {lane[-1][1]}":
        browser.key(letter)
    browser.key("Enter")
    assert browser.value(CHOSEN) == [lane[-1][0], lane[-1][1]]
    browser.key("g")
    assert browser.value("document.activeElement.id") == "find"
    browser.value("el('find').value = ''")
    for letter in "99 99":
        browser.key(letter)
    browser.key("Enter")
    assert browser.value("el('find').getAttribute('aria-invalid')") == "true"
    browser.key("Escape")
    browser.key("0")
    assert browser.value("sx(Math.max(...run.threads.map(th => th.x))) <= W && left === 0")
    before = browser.value("scale")
    browser.key("+")
    nearer = browser.value("scale")
    browser.key("-")
    assert nearer >= before and browser.value("scale") <= nearer
    browser.key("?")
    assert browser.value("el('keys').open")
    browser.key("Escape")
    assert not browser.value("el('keys').open")


def check_mouse(browser, data):
    """Each click of the help does what the help says."""
    for button, test in (("whole", "left === 0"), ("in", "true"), ("out", "true")):
        browser.click_on(f"#{button}")
        assert browser.value(test)
    browser.click_on("#whole")
    for number in (0, len(data["boxes"]) // 2, len(data["boxes"]) - 1):
        box = data["boxes"][number]
        browser.value(f"(b => {{ choose(b, true); scale = 40; clamp(); choose(null); choose(b, true); choose(null); }})(boxes[{number}])")
        browser.value(f"scroll.scrollTop = laneTop[{box[0]}]")
        browser.value(f"left = X0(boxes[{number}]) - 5, clamp(), draw()")
        browser.click(*browser.value(f"{MIDDLE}(boxes[{number}])"))
        assert browser.value(CHOSEN) == [box[0], box[1]], (browser.value(CHOSEN), box)
    links = browser.value("[...document.querySelectorAll('#what button.ev')].map(b => +b.dataset.box)")
    if links:
        browser.click_on("#what button.ev")
        assert browser.value("chosen.id") == links[0]
    if browser.value("used.length"):
        browser.click_on("#legend button.chip")
        assert browser.value("only === used[0]")
        browser.click_on("#legend button.chip")
        assert browser.value("only") == -1
    if data["stale"]:
        browser.value("choose(null)")
        browser.click_on("#stale")
        assert browser.value("chosen.stale.length > 0")
    browser.click_on("#help")
    assert browser.value("el('keys').open")
    browser.click_on("#keys button")
    assert not browser.value("el('keys').open")
    if browser.value("span() * 60 > room() * 1.5"):
        browser.value("scale = 60, left = start(), clamp(), draw()")
        x, y = browser.value("(r => [r.x + W / 2, r.y + 12])(main.getBoundingClientRect())")
        browser.mouse("mousePressed", x, y, button="left", buttons=1, clickCount=1)
        browser.mouse("mouseMoved", x - 200, y, button="left", buttons=1)
        browser.mouse("mouseReleased", x - 200, y, button="left", clickCount=1)
        assert browser.value("left > start()")
        x, y = browser.value("(r => [r.right - 8, r.y + r.height / 2])(over.getBoundingClientRect())")
        browser.click(x, y)
        assert browser.value("left + room() / scale > start() + span() * 0.98")


def check_steps(browser, data):
    """With an image each box of one event has commands that go there, a fold has none, and spacing by steps is offered where a box has a length by it."""
    spaced = any(box[10] > box[9] for box in data["boxes"])
    assert data["steps"] and browser.value("el('spacing').hidden") != spaced
    if spaced:
        for words in ("Spacing: steps", "Spacing: even"):
            browser.key("l")
            assert browser.value("el('spacing').textContent") == words
    for number, box in enumerate(data["boxes"]):
        browser.value(f"choose(boxes[{number}])")
        commands = browser.value("[...el('cmds').querySelectorAll('code')].map(c => c.textContent)")
        first, last = box[13:15]
        entry = box[2] == 1 and box[3] in (4, 5)
        steps = [] if first < 0 else [first] + [first + 1] * entry + [last + 1] * (last >= 0)
        assert commands == [f"goto {box[0]} {step}" for step in steps], box
    for row in data["stale"]:
        assert len(row) == 7 and row[6] in (0, 1) and row[4] != row[5], row


def resize(browser, width, height):
    """Changes the size of the window."""
    browser.call("Emulation.setDeviceMetricsOverride", width=width, height=height, deviceScaleFactor=1, mobile=False)
    browser.value(SETTLED)


def check_all(browser, address, name, kept):
    """All has all boxes and ends in sight in each size, by the address, by the button, and after the size changes. Pictures go to a folder, if one is given."""
    for width, height in SIZES:
        browser.open(address + "#all", width=width, height=height)
        browser.value(SETTLED)
        assert not browser.value(OUTSIDE), (name, width, browser.value(OUTSIDE))
        words, crossed = browser.value(CROSSED)
        assert words == browser.value("lanes.length") and crossed == 0, (name, width, words, crossed)
        if kept:
            browser.picture(kept / f"{name}_all_{width}.png")
        browser.open(address, width=width, height=height)
        browser.value(SETTLED)
        if browser.value("lanes.length") <= 16 and browser.value("rowsOf.every(r => r === 1)"):
            assert browser.value("tall <= scroll.clientHeight"), (name, width)
        browser.value("zoom(3, GUT + 50)")
        browser.click_on("#whole")
        for again in ((width, height), SIZES[SIZES.index((width, height)) - 1]):
            resize(browser, *again)
            assert not browser.value(OUTSIDE), (name, width, again, browser.value(OUTSIDE))


def check_legend(browser, address):
    """The legend has a row, and More shows all of it if that isn't all."""
    for width, height in SIZES:
        browser.open(address, width=width, height=height)
        browser.value(SETTLED)
        hidden = "[...el('signs').children].filter(c => c.getBoundingClientRect().top > el('signs').getBoundingClientRect().bottom - 10).length"
        folded = browser.value(hidden)
        assert (folded > 0) != browser.value("el('more').hidden"), (width, folded)
        if folded:
            browser.click_on("#more")
            assert browser.value(hidden) == 0 and browser.value("el('more').textContent") == "Less"
            browser.click_on("#more")
            assert browser.value(hidden) == folded and browser.value("el('more').textContent") == "More"


def check_versions(browser, address):
    """Of each entry in sight the version, which has six digits, is drawn in its box or below it where the page opens, and is in the tip."""
    for width, height in SIZES:
        browser.open(address, width=width, height=height)
        browser.value(SETTLED)
        texts = browser.value(TEXTS)
        near = browser.value("boxes.filter(b => isEntry(b) && sx(X0(b)) > GUT + 20 && sx(X1(b)) < W - 20)"
                             ".map(b => [String(b.v), sx(X0(b)) + wide(b) / 2, midOf(b), b.t, b.i, wide(b)])")
        assert near
        for version, x, y, thread, event, wide in near:
            found = [text for text in texts if version in text[0] and abs(text[1] - x) < 2 and abs(text[2] - y) < 22]
            assert found, (width, thread, event, version)
            assert all(text[3] < wide for text in found) or all(text[2] > y + 5 for text in found), (width, thread, event, found)
        version, x, y, *_ = near[0]
        left, top = browser.value("(r => [r.x, r.y])(main.getBoundingClientRect())")
        browser.mouse("mouseMoved", left + x, top + y)
        assert version in browser.value("el('tip').textContent") and browser.value("el('tip').style.display") == "block"


def check_names(browser, path, page, data):
    """Names that a script puts before the data are shown as they are, also where they look like markup."""
    ugly = "<img src=x onerror=bad()>&amp;</script><!--\"'"
    threads, events = {str(t): f"t{t}{ugly}" for t in range(len(data["threads"]))}, {f"{box[0]}.{box[1]}": f"e{box[0]}.{box[1]}{ugly}" for box in data["boxes"]}
    names = {"threads": threads, "events": events, "objects": {str(o): f"o{o}{ugly}" for o in range(data["objects"])},
             "words": {f"{o}.{k}": f"w{o}.{k}{ugly}" for o in range(data["objects"]) for k in range(16)}}
    script = f'<script type="application/json" id="names">{json.dumps(names)}</script>\n'.replace(json.dumps(names), json.dumps(names).replace("<", "\\u003c"))
    path.write_text(page.replace('<script type="application/json" id="run">', script + '<script type="application/json" id="run">'), encoding="ascii")
    browser.open(path.as_uri())
    browser.value(SETTLED)
    markup = browser.value("document.querySelectorAll('img').length")
    for thread, event, count, kind, shared, *_ in data["boxes"]:
        browser.value(f"find({thread}, {event})")
        told = browser.value("el('what').textContent")
        assert threads[str(thread)] in told and events[f"{thread}.{event}"] in told, told
        assert count > 1 or kind < 4 or names["objects"][str(shared)] in told, told
    for row in data["stale"]:
        browser.value(f"find({row[0]}, {row[2]})")
        shared = next(box[4] for box in data["boxes"] if box[0] == row[0] and box[1] == row[2])
        assert len(row) == 3 or names["words"][f"{shared}.{row[3]}"] in browser.value("el('what').textContent")
    chips = browser.value("[...document.querySelectorAll('#signs .chip')].map(c => c.textContent)")
    assert all(any(name in chip for name in names["objects"].values()) for chip in chips), chips
    drawn = [text[0] for text in browser.value(TEXTS)]
    assert all(any(text.startswith(f"t{t}") for text in drawn) for t in range(len(data["threads"]))) or browser.value("RH + 2 * PAD < 32"), drawn
    assert browser.value("document.querySelectorAll('img').length") == markup == 0


def ran(*words):
    """What a command prints."""
    return subprocess.run([str(word) for word in words], check=True, stdout=subprocess.PIPE).stdout.decode()


def check_where(browser, program, folder):
    """The page of a guest from C: each event has its line, the call that led there and the words that it changed, and commands to copy. A name with markup is text."""
    if not shutil.which("riscv64-unknown-elf-gcc"):
        print("peterson: riscv64-unknown-elf-gcc isn't installed, so no page of a guest from C is opened")
        return
    elf, trace, path = folder / "peterson.elf", folder / "peterson.trc", folder / "peterson.html"
    ran(TOP / "guest" / "ir-cc", TOP / "tests" / "c_guests" / "faults" / "peterson.c", "-o", elf)
    elf.write_bytes(elf.read_bytes().replace(b"\0adder\0", b"\0<b>&'\0"))
    ran(program, "hunt", elf, trace, "--until", "!word 3 0 2")
    path.write_text(ran(TOP / "guest" / "ir-where", elf, trace, "--page", "--ir", program), encoding="ascii")
    browser.open(path.as_uri())
    browser.value(SETTLED)
    for thread, event, count, *_ in json.loads(DATA.search(path.read_text(encoding="ascii"))[1])["boxes"]:
        assert count == 1 and browser.value(f"find({thread}, {event})")
        told = browser.value("el('what').textContent")
        assert f"thread {thread} <b>&' " in told and re.search(r"peterson\.c:\d+ in (lock|add|unlock),\scalled at peterson\.c:\d+ in adder_body", told), told
        steps = browser.value("[...el('cmds').querySelectorAll('code')].map(c => c.textContent)")
        copied = browser.value("[...el('cmds').querySelectorAll('button')].map(b => b.dataset.copy)")
        assert steps and copied == [word for step in steps for word in (step, f"ir-{step}")], copied
        x, y = browser.value(f"{MIDDLE}(chosen)")
        browser.mouse("mouseMoved", x, y)
        assert max(map(len, browser.value("el('tip').textContent").splitlines())) < 90, browser.value("el('tip').textContent")
    assert browser.value("document.querySelectorAll('b').length") == 0
    browser.value("find(1, 5)")
    assert "the-count 0 to 1" in browser.value("el('what').textContent")
    print("peterson: events have lines, calls and changed words, and what is copied is for a session and for gdb")


def with_long_versions(page, data):
    """The page with versions that have six digits."""
    changed = json.loads(json.dumps(data))
    for box in changed["boxes"]:
        box[5] += 99_995 * (box[3] in (4, 5))
        for read in box[15] if len(box) > 15 else []:
            read[1] += 99_995
    return DATA.sub(lambda found: found[0].replace(found[1], json.dumps(changed)), page)


def check_contrast(browser, name):
    """Texts have a contrast of 4.5 or more, lines of 3 or more."""
    found = browser.value(CONTRAST)
    for kind, least in (("texts", 4.5), ("lines", 3)):
        for what, ratio in found[kind]:
            assert ratio >= least, f"{name}: {what} has contrast {ratio:.2f}"
    return min(ratio for _, ratio in found["texts"]), min(ratio for _, ratio in found["lines"])


def main():
    parser = parser_of_program(__doc__)
    parser.add_argument("kept", metavar="FOLDER", nargs="?", type=Path, help="where the pictures are kept")
    asked = parser.parse_args()
    program = asked.program
    with tempfile.TemporaryDirectory() as folder:
        folder = Path(folder)
        kept = asked.kept or folder
        kept.mkdir(exist_ok=True)
        texts = guests() | {"many": many(4, 12), "sixteen": ending_badly(16, 3), "large": many(8, 1500)}
        browser = Browser(folder / "profile")
        try:
            for name, text in texts.items():
                trace = record(program, folder, name, text, 3)
                forms = [("", [])] + [("_steps", ["--image", trace.with_suffix(".img")])] * (name != "large")
                for form, words in forms + [("_part", ["--around", 0, 0, "--span", 12])] * (name == "many"):
                    page = subprocess.run([program, "view", str(trace), *map(str, words)], check=True, stdout=subprocess.PIPE).stdout.decode("ascii")
                    path = folder / f"{name}{form}.html"
                    path.write_text(page, encoding="ascii")
                    data = DATA.search(page)[1]
                    assert re.fullmatch(r"[0-9,:\[\]{}\n-]*", NAMES.sub("", data)), name
                    data = json.loads(data)
                    for dark in (False, True):
                        browser.open(path.as_uri(), dark)
                        least = check_contrast(browser, name)
                        browser.picture(kept / f"{name}{form}_{'dark' if dark else 'light'}.png")
                    if data["boxes"] and not form:
                        check_keys(browser, data)
                        check_mouse(browser, data)
                    if form == "_steps":
                        check_steps(browser, data)
                    if form != "_part":
                        check_all(browser, path.as_uri(), name + form, asked.kept)
                    if name in ("counter", "helping", "sixteen"):
                        check_names(browser, path, page, data)
                    if name in ("many", "sixteen"):
                        check_legend(browser, path.as_uri())
                        path.write_text(with_long_versions(page, data), encoding="ascii")
                        check_versions(browser, path.as_uri())
                    assert not browser.errors, browser.errors
                    print(f"{name}{form}: {len(data['boxes'])} boxes, least contrast {least[0]:.1f} for text and {least[1]:.1f} for lines")
            check_where(browser, Path(program).resolve(), folder)
            assert not browser.errors, browser.errors
            browser.close()
        finally:
            browser.process.kill()
            browser.process.wait()
    print("view page: no error, keys and clicks do what the help says, All shows all, contrast suffices, the data is digits")


if __name__ == "__main__":
    main()
